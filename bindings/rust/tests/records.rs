//! The bytes of a record.
#![forbid(unsafe_code)]

mod listing;

use ace::{read, write, write_state, Header, State};
use listing::{bytes, refused, Cells, FINISHED, HEADER};

/// The bytes with another one at a place.
fn with(at: usize, byte: u8) -> Vec<u8> {
    let mut bytes = bytes();
    bytes[at] = byte;
    bytes
}

#[test]
fn the_listing_is_written() {
    let mut cells = Cells::evaluated();
    let expected = [&bytes()[..], &[77]].concat();

    let mut out = [77; 95];
    assert_eq!(write(&HEADER, &cells.lend(), &mut out), Ok(94));
    assert_eq!(out.to_vec(), expected);

    let mut out = [77; 95];
    assert_eq!(write_state(&FINISHED, &cells.lend(), &mut out), Ok(94));
    assert_eq!(out.to_vec(), expected);
}

#[test]
fn a_context_of_128_takes_two_bytes() {
    let mut cells = Cells::evaluated();
    let header = Header { ctx: 128, ..HEADER };
    let state = State {
        ctx: 128,
        ..FINISHED
    };
    // "P9 128: 80 01."
    let expected = [&[0x80, 0x01], &bytes()[1..]].concat();

    let mut out = [77; 95];
    assert_eq!(write(&header, &cells.lend(), &mut out), Ok(95));
    assert_eq!(out.to_vec(), expected);

    let mut out = [77; 95];
    assert_eq!(write_state(&state, &cells.lend(), &mut out), Ok(95));
    assert_eq!(out.to_vec(), expected);
}

#[test]
fn the_writer_refuses_and_writes_nothing() {
    let mut cells = Cells::evaluated();
    let mut out = [77; 93];
    let no_eval = Header {
        num_eval: 0,
        ..HEADER
    };
    let answer = write(&no_eval, &cells.lend(), &mut out);
    assert_eq!(answer, refused(21, 0));
    assert_eq!(write(&HEADER, &cells.lend(), &mut out), refused(24, 0));

    let unfinished = State {
        evals_done: 3,
        id_next: 0,
        ..FINISHED
    };
    let answer = write_state(&unfinished, &cells.lend(), &mut out);
    assert_eq!(answer, refused(11, 0));
    assert_eq!(out, [77; 93]);
}

#[test]
fn the_listing_is_read() {
    let mut cells = Cells::canaries();
    assert_eq!(read(&bytes(), &mut cells.lend()), Ok(HEADER));
    assert_eq!(cells, Cells::evaluated());
}

#[test]
fn the_reader_refuses_and_changes_nothing() {
    let left_over = [&bytes()[..], &[0]].concat();
    for (bytes, answer) in [
        (vec![], refused(15, 0)),
        (bytes()[..93].to_vec(), refused(15, 93)),
        (vec![0x80, 0], refused(16, 0)),
        // clk 2^32.
        (vec![0, 0x80, 0x80, 0x80, 0x80, 0x10], refused(17, 1)),
        (with(31, 0), refused(18, 0)),
        (with(31, 5), refused(20, 0)),
        // A wire list of 7 has no room.
        (with(12, 7), refused(24, 0)),
        (left_over, refused(23, 0)),
    ] {
        let mut cells = Cells::canaries();
        assert_eq!(read(&bytes, &mut cells.lend()), answer, "{bytes:?}");
        assert_eq!(cells, Cells::canaries());
    }
}
