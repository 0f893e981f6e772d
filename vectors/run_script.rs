//! What the cases of the run list are made of.

use crate::instruction::Instruction;
use crate::run_list::MOST_ENTRIES;
use crate::script::Script;

/// clk, num_read and num_eval, as an instruction has them.
pub type Run = [u64; 3];

/// How far the clocks of good runs lie apart.
pub const APART: u64 = 10;

/// The run of entry i in a good list; no two have as many rows.
pub fn good(i: usize) -> Run {
    let i = i as u64;
    [APART * (i + 1), 1 + i, 4 + 2 * i]
}

pub fn good_runs() -> [Run; MOST_ENTRIES] {
    std::array::from_fn(good)
}

pub struct Runs<'a>(pub &'a mut Script);

impl Runs<'_> {
    /// A list whose entries past its length are there all the same.
    pub fn list(&mut self, runs: &[Run], len: u64) {
        for (at, &run) in (0..).zip(runs) {
            self.0.set(Instruction::Entry(at, run));
        }
        self.0.set(Instruction::Length(len));
    }

    pub fn add(&mut self, run: Run) {
        self.0.ask(Instruction::Add(run));
    }

    pub fn total(&mut self) {
        self.0.ask(Instruction::TraceLen);
    }

    pub fn first_row(&mut self, clk: u64) {
        self.0.ask(Instruction::FirstRow(clk));
    }

    /// Every call on the list: of the clocks one that is in a good list, one that is not.
    pub fn calls(&mut self, runs: &[Run], len: u64) {
        self.list(runs, len);
        self.total();
        self.first_row(APART);
        self.first_row(APART + 1);
        self.add([APART, 7, 7]);
        self.list(runs, len);
        self.add([APART + 1, 7, 7]);
    }
}
