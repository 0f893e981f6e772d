use crate::ffi;
use crate::refused::{told, Refused};

/// The most entries of a run list.
pub const MOST_RUNS: usize = 32;

/// A run. Three numbers in this order, as the library lays out a list's entries.
#[derive(Clone, Copy, Debug, Default, PartialEq, Eq)]
#[repr(C)]
pub struct Entry {
    pub clk: u32,
    pub num_read: u32,
    pub num_eval: u32,
}

/// "Evaluations by clock, ascending." Every call refuses 13 first: "length over 32, clocks not rising,
/// counts that opening refuses; entries past the length aren't looked at".
#[derive(Clone, Copy, Debug, Default, PartialEq, Eq)]
pub struct RunList {
    pub entries: [Entry; MOST_RUNS],
    pub len: u32,
}

impl RunList {
    pub fn new() -> RunList {
        RunList::default()
    }

    /// "Adding an equal clock replaces that entry, full or not." Refuses 13, then "1, 2, 3 as for opening,
    /// 25 (32 other clocks)". "A refusal leaves the list."
    pub fn add(&mut self, entry: Entry) -> Result<(), Refused> {
        let mut place = 0;
        let number = unsafe {
            ffi::ace_add_circuit_evaluation(
                &mut self.entries,
                &mut self.len,
                entry.clk,
                entry.num_read,
                entry.num_eval,
                &mut place,
            )
        };
        told(number, place, ())
    }

    /// "The total of rows (num_read + num_eval a run)."
    pub fn total(&self) -> Result<u64, Refused> {
        let (mut rows, mut place) = (0, 0);
        let number = unsafe { ffi::ace_trace_len(&self.entries, self.len, &mut rows, &mut place) };
        told(number, place, rows)
    }

    /// "The first row of a clock, the sum of rows of smaller clocks; or 26."
    pub fn first_row(&self, clk: u32) -> Result<u64, Refused> {
        let (mut row, mut place) = (0, 0);
        let number =
            unsafe { ffi::ace_first_row(&self.entries, self.len, clk, &mut row, &mut place) };
        told(number, place, row)
    }
}
