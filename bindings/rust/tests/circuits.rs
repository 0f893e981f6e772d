//! Whole evaluation.
#![forbid(unsafe_code)]

mod listing;

use ace::{eval_circuit, Header, Refused, P};
use listing::{refused, Cells, HEADER, MEMORY};

/// The answer of the listing's call with other memory, and the cells after it.
fn evaluated(memory: &[u64]) -> (Result<Header, Refused>, Cells) {
    let mut cells = Cells::canaries();
    let answer = eval_circuit(0, 7, 0, 2, 4, memory, &mut cells.lend());
    (answer, cells)
}

fn with(at: usize, cell: u64) -> [u64; 8] {
    let mut memory = MEMORY;
    memory[at] = cell;
    memory
}

#[test]
fn the_listing_is_accepted() {
    assert_eq!(evaluated(&MEMORY), (Ok(HEADER), Cells::evaluated()));
}

#[test]
fn refusals_of_the_call_change_nothing() {
    for (number, [ptr, num_vars, num_eval]) in [
        (1, [0, 6, 32_764]),
        (1, [0, 32_769, 0]),
        (1, [0, u64::MAX, 4]),
        (2, [0, 3, 5]),
        (2, [0, 0, 4]),
        (3, [0, 2, 0]),
        (3, [0, 2, 6]),
        (4, [2, 2, 4]),
        (5, [4, 2, 4]),
        (5, [u64::MAX - 3, 2, 4]),
        (5, [0, 4, 32_764]),
    ] {
        let mut cells = Cells::canaries();
        let lent = &mut cells.lend();
        let answer = eval_circuit(0, 7, ptr, num_vars, num_eval, &MEMORY, lent);
        assert_eq!(answer, refused(number, 0), "{ptr} {num_vars} {num_eval}");
        assert_eq!(cells, Cells::canaries());
    }
}

#[test]
fn memory_of_seven_cells_is_5() {
    assert_eq!(evaluated(&MEMORY[..7]), (refused(5, 0), Cells::canaries()));
}

#[test]
fn a_short_buffer_is_6() {
    for short in 0..3 {
        let mut cells = Cells::canaries();
        let mut lent = cells.lend();
        match short {
            0 => lent.values = &mut lent.values[..11],
            1 => lent.counts = &mut lent.counts[..5],
            _ => lent.nodes = &mut lent.nodes[..50],
        }
        let answer = eval_circuit(0, 7, 0, 2, 4, &MEMORY, &mut lent);
        assert_eq!(answer, refused(6, 0));
        assert_eq!(cells, Cells::canaries());
    }
}

#[test]
fn a_cell_that_is_no_element_is_7_at_its_address() {
    for address in [0, 3, 7] {
        assert_eq!(
            evaluated(&with(address, P)),
            (refused(7, address as u64), Cells::canaries())
        );
    }
}

#[test]
fn refusals_of_a_gate_clear_the_used_cells() {
    // Words of ids l and r: l + r·2^30 + opcode·2^60; Add is opcode 2.
    let add = |left: u64, right: u64| (2 << 60) | (right << 30) | left;
    for (memory, answer) in [
        (with(5, 3_458_764_513_820_540_928), refused(8, 1)),
        (with(4, add(3, 4)), refused(9, 0)),
        (with(4, add(6, 4)), refused(9, 0)),
        (with(4, add(5, 3)), refused(10, 0)),
        (with(6, add(3, 0)), refused(10, 2)),
        // "P12 its last word as 2305843011361177601: 12."
        (with(7, 2_305_843_011_361_177_601), refused(12, 0)),
    ] {
        assert_eq!(evaluated(&memory), (answer, Cells::cleared()));
    }
}
