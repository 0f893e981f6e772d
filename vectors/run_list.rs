//! The run list, from document 01 alone.

use crate::refusal::{refuse, Refusal};
use crate::steps::check_counts;

/// "One struct with at most 32 entries (clk, num_read, num_eval)."
pub const MOST_ENTRIES: usize = 32;

#[derive(Clone, Copy, Default, PartialEq)]
pub struct Entry {
    pub clk: u32,
    pub num_read: u32,
    pub num_eval: u32,
}

#[derive(Clone, Copy, Default, PartialEq)]
pub struct RunList {
    pub entries: [Entry; MOST_ENTRIES],
    pub len: u32,
}

impl Entry {
    /// "num_read + num_eval a run."
    fn rows(&self) -> u64 {
        u64::from(self.num_read) + u64::from(self.num_eval)
    }
}

impl RunList {
    /// "Every call refuses 13 first (length over 32, clocks not rising, counts that opening refuses; entries
    /// past the length aren't looked at)."
    pub fn checked(&self) -> Result<&[Entry], Refusal> {
        let Some(entries) = self.entries.get(..self.len as usize) else {
            return refuse(13, 0);
        };
        let is_rising = entries.windows(2).all(|two| two[0].clk < two[1].clk);
        let mut counts = entries.iter().map(|e| check_counts(e.num_read, e.num_eval));
        if !is_rising || counts.any(|checked| checked.is_err()) {
            return refuse(13, 0);
        }
        Ok(entries)
    }

    /// "Adding: then 1, 2, 3 as for opening, 25 (32 other clocks)." "Adding an equal clock replaces that
    /// entry, full or not." "A refusal leaves the list."
    pub fn add(&mut self, entry: Entry) -> Result<(), Refusal> {
        let entries = self.checked()?;
        check_counts(entry.num_read, entry.num_eval)?;
        let (place, len) = (
            entries.iter().filter(|e| e.clk < entry.clk).count(),
            entries.len(),
        );
        if entries.get(place).is_none_or(|e| e.clk != entry.clk) {
            if len == MOST_ENTRIES {
                return refuse(25, 0);
            }
            self.entries.copy_within(place..len, place + 1);
            self.len += 1;
        }
        self.entries[place] = entry;
        Ok(())
    }

    /// "The total of rows."
    pub fn trace_len(&self) -> Result<u64, Refusal> {
        Ok(self.checked()?.iter().map(Entry::rows).sum())
    }

    /// "The first row of a clock, the sum of rows of smaller clocks; or 26": "clock not in it".
    pub fn first_row(&self, clk: u32) -> Result<u64, Refusal> {
        let entries = self.checked()?;
        if entries.iter().all(|e| e.clk != clk) {
            return refuse(26, 0);
        }
        let smaller = entries.iter().filter(|e| e.clk < clk);
        Ok(smaller.map(Entry::rows).sum())
    }
}
