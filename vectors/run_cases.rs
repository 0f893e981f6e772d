//! The run list by hand: both sides of every edge.

use crate::run_list::MOST_ENTRIES;
use crate::run_script::{good, good_runs, Run, Runs, APART};
use crate::script::Script;
use crate::step_script::OPENINGS;

const MOST: u64 = MOST_ENTRIES as u64;
const LAST_CLOCK: u64 = u32::MAX as u64;

/// Lengths of good lists.
const LENGTHS: [usize; 7] = [0, 1, 2, 5, 16, 31, 32];

/// "Length over 32"; of a good list all is asked, though entries past the length are there.
fn of_lengths(runs: &mut Runs<'_>) {
    let all = good_runs();
    for len in [
        0,
        1,
        2,
        31,
        MOST,
        MOST + 1,
        MOST + 2,
        64,
        LAST_CLOCK,
        1 << 32,
    ] {
        runs.calls(&all, len);
        // "Every call refuses 13 first", then 1, 2, 3, and then 25.
        for counts in [[32_768, 1], [0, 0], [1, 0]] {
            runs.list(&all, len);
            runs.add([APART + 1, counts[0], counts[1]]);
        }
        for i in [len.wrapping_sub(1), len, len + 1] {
            runs.first_row(APART * i.wrapping_add(1));
        }
    }
}

/// "Clocks not rising": two neighbours alike, falling, and rising as little as they can.
fn of_clocks(runs: &mut Runs<'_>) {
    for len in [2, 3, MOST_ENTRIES] {
        for i in 1..len {
            for by in [-1, 0, 1] {
                let mut all = good_runs();
                all[i][0] = all[i - 1][0].wrapping_add_signed(by);
                runs.list(&all, len as u64);
                runs.total();
                runs.first_row(APART);
                runs.add([5, 2, 2]);
                // The second of the two is past the length.
                runs.list(&all, i as u64);
                runs.total();
            }
        }
    }
    // Clocks at the ends, added in an order that is not theirs.
    runs.list(&good_runs(), 0);
    for clk in [LAST_CLOCK, 0, LAST_CLOCK - 1, 1, 1 << 32, 0] {
        runs.add([clk, 3, 1]);
        for asked in [0, 1, 2, LAST_CLOCK - 1, LAST_CLOCK, 1 << 32] {
            runs.first_row(asked);
        }
        runs.total();
    }
}

/// "Counts that opening refuses": in an entry at the start, within, at the end, and past the length; and in
/// the last entry of a full list.
fn of_counts_in_the_list(runs: &mut Runs<'_>) {
    let last = MOST_ENTRIES - 1;
    for [num_read, num_eval] in OPENINGS {
        for (i, len) in [
            (0, 3),
            (1, 3),
            (2, 3),
            (3, 3),
            (last, MOST - 1),
            (last, MOST),
        ] {
            let mut all = good_runs();
            all[i] = [all[i][0], num_read.into(), num_eval.into()];
            runs.list(&all, len);
            runs.total();
            runs.first_row(3 * APART);
            runs.add([3 * APART, 2, 2]);
        }
    }
}

/// "Adding: then 1, 2, 3 as for opening, 25": into lists with room and full ones, a clock that is there and
/// one that is not.
fn of_counts_added(runs: &mut Runs<'_>) {
    for [num_read, num_eval] in OPENINGS {
        for len in [0, 3, MOST] {
            for clk in [2 * APART, 2 * APART + 1] {
                runs.list(&good_runs(), len);
                runs.add([clk, num_read.into(), num_eval.into()]);
            }
        }
    }
}

/// At every place of lists of several lengths: a new clock, and an equal one.
fn of_places(runs: &mut Runs<'_>) {
    for len in LENGTHS {
        for place in 0..=len {
            let [clk, ..] = good(place);
            for clk in [clk - 1, clk] {
                runs.list(&good_runs(), len as u64);
                runs.add([clk, 9, 9]);
                runs.first_row(clk);
            }
        }
        runs.list(&good_runs(), len as u64);
        for i in 0..=len {
            let [clk, ..] = good(i);
            for clk in [clk - 1, clk, clk + 1] {
                runs.first_row(clk);
            }
        }
    }
}

/// The most rows that a run has, 32 times, and as few as it has.
fn of_totals(runs: &mut Runs<'_>) {
    for counts in [[1, 32_766], [16_383, 2], [1, 1]] {
        let all: [Run; MOST_ENTRIES] = std::array::from_fn(|i| [i as u64, counts[0], counts[1]]);
        for len in [1, 2, 31, MOST] {
            runs.list(&all, len);
            runs.total();
            runs.first_row(len - 1);
            runs.first_row(len);
        }
    }
}

pub fn cases(script: &mut Script) {
    let runs = &mut Runs(script);
    of_lengths(runs);
    of_clocks(runs);
    of_counts_in_the_list(runs);
    of_counts_added(runs);
    of_places(runs);
    of_totals(runs);
}
