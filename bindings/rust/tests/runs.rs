//! The run list.
#![forbid(unsafe_code)]

mod listing;

use ace::{Entry, RunList, MOST_RUNS};
use listing::refused;

fn entry(clk: u32, num_read: u32, num_eval: u32) -> Entry {
    Entry {
        clk,
        num_read,
        num_eval,
    }
}

fn list(entries: &[Entry]) -> RunList {
    let mut list = RunList::new();
    for &entry in entries {
        assert_eq!(list.add(entry), Ok(()));
    }
    list
}

#[test]
fn an_empty_list_has_no_rows() {
    assert_eq!(RunList::new().total(), Ok(0));
    assert_eq!(RunList::new().first_row(7), refused(26, 0));
}

#[test]
fn runs_are_kept_by_clock() {
    let list = list(&[entry(7, 1, 4), entry(3, 2, 8), entry(5, 1, 1)]);
    assert_eq!(list.len, 3);
    assert_eq!(
        list.entries[..3],
        [entry(3, 2, 8), entry(5, 1, 1), entry(7, 1, 4)]
    );
    assert_eq!(list.total(), Ok(17));
    assert_eq!(list.first_row(3), Ok(0));
    assert_eq!(list.first_row(5), Ok(10));
    assert_eq!(list.first_row(7), Ok(12));
    assert_eq!(list.first_row(4), refused(26, 0));
}

#[test]
fn an_equal_clock_replaces_full_or_not() {
    let clocks: Vec<Entry> = (0..MOST_RUNS as u32).map(|clk| entry(clk, 1, 1)).collect();
    let mut list = list(&clocks);
    assert_eq!(list.total(), Ok(64));
    assert_eq!(list.add(entry(32, 1, 1)), refused(25, 0));
    assert_eq!(list.add(entry(31, 1, 4)), Ok(()));
    assert_eq!((list.len, list.total()), (32, Ok(67)));
}

#[test]
fn refused_counts_leave_the_list() {
    let before = list(&[entry(7, 1, 4)]);
    for (number, added) in [
        (1, entry(8, 16_384, 1)),
        (2, entry(8, 0, 1)),
        (3, entry(8, 1, 0)),
    ] {
        let mut list = before;
        assert_eq!(list.add(added), refused(number, 0));
        assert_eq!(list, before);
    }
}

#[test]
fn a_list_that_no_calls_give_is_13() {
    let mut falling = RunList::new();
    falling.entries[..2].copy_from_slice(&[entry(7, 1, 4), entry(7, 1, 4)]);
    falling.len = 2;
    let too_long = RunList {
        len: 33,
        ..list(&[entry(7, 1, 4)])
    };
    for mut list in [falling, too_long] {
        assert_eq!(list.add(entry(9, 1, 4)), refused(13, 0));
        assert_eq!(list.total(), refused(13, 0));
        assert_eq!(list.first_row(7), refused(13, 0));
    }
}
