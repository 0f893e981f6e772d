//! Random sequences of calls of the run list. In some the list gets full.

use crate::random::Random;
use crate::run_list::MOST_ENTRIES;
use crate::run_script::{good_runs, Run, Runs};
use crate::script::Script;
use crate::step_script::OPENINGS;
use crate::told::entry_numbers;

const SEQUENCES: usize = 12;
const CALLS: usize = 60;
const SEED: u64 = 5;

/// Mostly such as opening takes.
fn any_run(random: &mut Random, clocks: u64) -> Run {
    let clk = random.below(clocks);
    if random.below(8) == 0 {
        let [num_read, num_eval] = random.one_of(&OPENINGS);
        return [clk, num_read.into(), num_eval.into()];
    }
    [clk, 1 + random.below(20), 1 + random.below(20)]
}

/// Calls on a list with one number that is another; after them it is as it was.
fn spoilt(runs: &mut Runs<'_>, random: &mut Random, clocks: u64) {
    let list = runs.0.machine.list;
    let entries = list.entries.map(|entry| entry_numbers(&entry));
    let mut others = entries;
    let at = random.below(MOST_ENTRIES as u64) as usize;
    others[at][random.below(3) as usize] = random.one_of(&[0, 1, clocks, 40_000]);
    runs.list(&others, list.len.into());
    runs.total();
    runs.first_row(random.below(clocks));
    runs.add(any_run(random, clocks));
    runs.list(&entries, list.len.into());
}

fn next(runs: &mut Runs<'_>, random: &mut Random, clocks: u64) {
    match random.below(10) {
        0 => runs.total(),
        1 | 2 => runs.first_row(random.below(clocks)),
        3 => spoilt(runs, random, clocks),
        _ => runs.add(any_run(random, clocks)),
    }
}

pub fn cases(script: &mut Script) {
    let mut random = Random(SEED);
    let runs = &mut Runs(script);
    for _ in 0..SEQUENCES {
        // Some of them are in the good list already.
        let clocks = random.one_of(&[20, 50, 100]);
        runs.list(&good_runs(), random.one_of(&[0, 0, 28]));
        for _ in 0..CALLS {
            next(runs, &mut random, clocks);
        }
    }
}
