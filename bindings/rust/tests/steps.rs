//! Opening, steps and result.
#![forbid(unsafe_code)]

mod listing;

use ace::{State, P};
use listing::{refused, Cells, FINISHED, HEADER, MEMORY};

fn opened(cells: &mut Cells) -> State {
    State::open(0, 7, 1, 4, &cells.lend()).expect("it opens")
}

/// After the READ step.
fn read(cells: &mut Cells) -> State {
    let mut state = opened(cells);
    let step = state.read(0, [[3, 0], [4, 0]], &mut cells.lend());
    assert_eq!(step, Ok(()));
    state
}

#[test]
fn opening_writes_no_cell() {
    let mut cells = Cells::canaries();
    let state = opened(&mut cells);
    assert_eq!(
        [state.ctx, state.clk, state.num_read, state.num_eval],
        [0, 7, 1, 4]
    );
    assert_eq!(
        (state.reads_done, state.evals_done, state.id_next),
        (0, 0, 5)
    );
    assert_eq!(cells, Cells::canaries());
}

#[test]
fn opening_refuses() {
    let mut cells = Cells::canaries();
    for (number, num_read, num_eval) in [
        (1, 16_384, 1),
        (1, u32::MAX, u32::MAX),
        (2, 0, 4),
        (3, 1, 0),
        (6, 1, 5),
    ] {
        let answer = State::open(0, 7, num_read, num_eval, &cells.lend());
        assert_eq!(answer, refused(number, 0), "{num_read} {num_eval}");
    }
}

#[test]
fn the_listing_by_steps() {
    let mut cells = Cells::canaries();
    let mut state = read(&mut cells);
    assert_eq!(state.result(&cells.lend()), refused(11, 0));
    for (ptr, &word) in (4..).zip(&MEMORY[4..]) {
        assert_eq!(state.eval(ptr, word, &mut cells.lend()), Ok(()));
    }
    assert_eq!(state, FINISHED);
    assert_eq!(cells, Cells::evaluated());
    assert_eq!(state.result(&cells.lend()), Ok(HEADER));
    assert_eq!(state.eval(8, MEMORY[4], &mut cells.lend()), refused(13, 0));
}

#[test]
fn a_result_that_is_not_zero_is_12() {
    let mut cells = Cells::evaluated();
    cells.values[11] = 1;
    assert_eq!(FINISHED.result(&cells.lend()), refused(12, 0));
}

#[test]
fn a_refused_read_changes_nothing() {
    let mut cells = Cells::canaries();
    let before = opened(&mut cells);
    for (ptr, word, place) in [
        (P, [[P, 0], [4, 0]], 0),
        (P, [[3, 0], [4, P]], 3),
        (P, [[3, 0], [4, 0]], 4),
    ] {
        let mut state = before;
        let answer = state.read(ptr, word, &mut cells.lend());
        assert_eq!((answer, state), (refused(7, place), before));
    }
    assert_eq!(cells, Cells::canaries());
}

#[test]
fn a_refused_gate_keeps_the_state() {
    let mut cells = Cells::canaries();
    let before = read(&mut cells);
    for (word, answer) in [
        (P, refused(7, 0)),
        (3_458_764_513_820_540_928, refused(8, 0)),
        (3, refused(9, 0)),
    ] {
        let mut state = before;
        assert_eq!(state.eval(4, word, &mut cells.lend()), answer);
        assert_eq!(state, before);
        assert_eq!(cells.counts[..3], [0, 0, 99]);
    }
}

#[test]
fn the_left_count_stays_raised_where_the_right_is_refused() {
    let mut cells = Cells::canaries();
    let mut state = read(&mut cells);
    let left_5_right_3 = 5 + (3 << 30);
    let answer = state.eval(4, left_5_right_3, &mut cells.lend());
    assert_eq!(answer, refused(10, 0));
    assert_eq!(cells.counts[..3], [1, 0, 99]);
}

#[test]
fn a_state_that_no_calls_give_is_13() {
    let mut cells = Cells::evaluated();
    let state = State {
        id_next: 0,
        ..FINISHED
    };
    assert_eq!(state.result(&cells.lend()), refused(13, 0));
}
