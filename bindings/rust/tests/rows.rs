//! Row fill, of a header and of a state.
#![forbid(unsafe_code)]

mod listing;

use ace::{fill, fill_state, Header, State, P};
use listing::{refused, Cells, FINISHED, HEADER, ROWS};

const OTHER: [u64; 16] = [88; 16];

/// The listing's rows from row 1 on, with a row before them and one after.
fn between_others() -> Vec<u64> {
    [&[OTHER], &ROWS[..], &[OTHER]].concat().concat()
}

#[test]
fn the_rows_of_the_listing() {
    let mut cells = Cells::evaluated();
    let mut rows = [88; 7 * 16];
    assert_eq!(fill(&HEADER, &cells.lend(), 1, &mut rows), Ok(()));
    assert_eq!(rows.to_vec(), between_others());

    let mut rows = [88; 7 * 16];
    assert_eq!(fill_state(&FINISHED, &cells.lend(), 1, &mut rows), Ok(()));
    assert_eq!(rows.to_vec(), between_others());
}

#[test]
fn refusals_change_nothing() {
    let mut cells = Cells::evaluated();
    let no_eval = Header {
        num_eval: 0,
        ..HEADER
    };
    let too_many = Header {
        num_read: 536_870_911,
        num_eval: 2,
        ..HEADER
    };
    let no_room = Header {
        num_eval: 5,
        ..HEADER
    };
    let no_element = Header {
        id_next: P,
        ..HEADER
    };
    for (number, header, offset) in [
        (21, no_eval, 0),
        (19, too_many, 0),
        (6, no_room, 0),
        (17, no_element, 0),
        (14, HEADER, 1),
        (14, HEADER, usize::MAX),
    ] {
        let mut rows = [88; 5 * 16];
        let answer = fill(&header, &cells.lend(), offset, &mut rows);
        assert_eq!((answer, rows), (refused(number, 0), [88; 5 * 16]));
    }
}

#[test]
fn a_state_is_refused_before_its_record() {
    let mut cells = Cells::evaluated();
    let unfinished = State {
        evals_done: 3,
        id_next: 0,
        ..FINISHED
    };
    let unsound = State {
        reads_done: 2,
        ..FINISHED
    };
    for (number, state) in [(11, unfinished), (13, unsound)] {
        let mut rows = [];
        let answer = fill_state(&state, &cells.lend(), 0, &mut rows);
        assert_eq!(answer, refused(number, 0));
    }
}
