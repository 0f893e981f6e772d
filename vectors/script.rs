//! Cases as instructions, which are run on the machine as they are written down: one pass makes the
//! questions and the answers.

use crate::field::P;
use crate::instruction::{Buffer, Instruction, SET_AT_ONCE, WRITTEN};
use crate::judge::Judge;
use crate::machine::Machine;
use crate::steps::needs;
use crate::told::{entry_numbers, state_numbers};

pub const NEAR_P: [u64; 3] = [P - 1, P, u64::MAX];

/// How many value cells, counts and node cells are lent.
pub type Lengths = [usize; 3];

/// What a circuit of these counts needs.
pub fn room(num_read: u32, num_eval: u32) -> Lengths {
    needs(num_read, num_eval).map(|need| need as usize)
}

/// The same, of what it was opened with.
pub fn room_of([_, _, num_read, num_eval]: [u32; 4]) -> Lengths {
    room(num_read, num_eval)
}

/// How many cells past those that are lent are looked at too.
pub const PAST: u64 = 3;

/// How a case looks at the buffers after its call.
#[derive(Clone, Copy)]
pub enum Said {
    Cells,
    Sums,
}

/// An instruction, and the numbers that it writes.
pub struct Answered {
    pub instruction: Instruction,
    pub written: Vec<u64>,
}

pub struct Script {
    pub machine: Machine,
    pub answered: Vec<Answered>,
    judge: Judge,
}

impl Script {
    pub fn new() -> Script {
        Script {
            machine: Machine::new(),
            answered: Vec::new(),
            judge: Judge::default(),
        }
    }

    /// Stops where the Rust disagrees.
    fn run(&mut self, instruction: &Instruction) -> Vec<u64> {
        let run = self.judge.run(&mut self.machine, instruction);
        run.unwrap_or_else(|what| panic!("the Rust disagrees: {what}: {instruction:?}"))
    }

    pub fn report(&self) {
        self.judge.report();
    }

    pub fn ask(&mut self, instruction: Instruction) -> &[u64] {
        let written = self.run(&instruction);
        self.answered.push(Answered {
            instruction,
            written,
        });
        &self.answered[self.answered.len() - 1].written
    }

    /// The numbers that a setting sets, as they are now.
    fn now(&self, setting: &Instruction) -> Vec<u64> {
        let Machine { state, list, .. } = &self.machine;
        match *setting {
            Instruction::Set(buffer, at, ref cells) => {
                self.machine.cells(buffer).shown(at, cells.len() as u64)
            }
            Instruction::Rise {
                buffer, at, cells, ..
            } => self.machine.cells(buffer).shown(at, cells),
            Instruction::Lend(buffer, _) => vec![self.machine.cells(buffer).lent_cells()],
            Instruction::State(_) => state_numbers(state).to_vec(),
            Instruction::Entry(at, _) => {
                let entry = list.entries.get(at as usize);
                entry.map_or(Vec::new(), |entry| entry_numbers(entry).to_vec())
            }
            Instruction::Length(_) => vec![list.len.into()],
            _ => unreachable!("the others set nothing"),
        }
    }

    /// A setting; it is not written down where all is so already.
    pub fn set(&mut self, setting: Instruction) {
        let before = self.now(&setting);
        self.machine.run(&setting);
        if self.now(&setting) != before {
            self.answered.push(Answered {
                instruction: setting,
                written: Vec::new(),
            });
        }
    }

    /// Of the cells, those from the first to the last that are others now.
    pub fn set_cells(&mut self, buffer: Buffer, at: u64, cells: &[u64]) {
        let now = self.machine.cells(buffer).shown(at, cells.len() as u64);
        let is_other = |i: &usize| now.get(*i) != Some(&cells[*i]);
        let Some(first) = (0..cells.len()).find(is_other) else {
            return;
        };
        let last = (first..cells.len()).rfind(is_other).unwrap_or(first);
        let places = (at + first as u64..).step_by(SET_AT_ONCE);
        for (at, cells) in places.zip(cells[first..=last].chunks(SET_AT_ONCE)) {
            self.set(Instruction::Set(buffer, at, cells.to_vec()));
        }
    }

    pub fn fill(&mut self, buffer: Buffer, cells: u64, with: u64) {
        self.set(Instruction::Rise {
            buffer,
            at: 0,
            cells,
            back: 0,
            step: with,
        });
    }

    /// Cells from the first on, every one so much more than the one before it.
    pub fn rise(&mut self, buffer: Buffer, cells: u64, first: u64, step: u64) {
        self.set(Instruction::Set(buffer, 0, vec![first]));
        self.set(Instruction::Rise {
            buffer,
            at: 1,
            cells: cells - 1,
            back: 1,
            step,
        });
    }

    /// Cells that tell which they are. None is an element, and no count is so large by calls.
    pub fn canaries(&mut self, buffer: Buffer, cells: u64) {
        self.set(Instruction::Rise {
            buffer,
            at: 0,
            cells,
            back: 1,
            step: match buffer {
                Buffer::Counts => u32::MAX.into(),
                _ => u64::MAX,
            },
        });
    }

    pub fn lend(&mut self, buffer: Buffer, cells: usize) {
        self.set(Instruction::Lend(buffer, cells as u64));
    }

    pub fn lend_written(&mut self, lent: Lengths) {
        for (buffer, cells) in WRITTEN.into_iter().zip(lent) {
            self.lend(buffer, cells);
        }
    }

    /// Every cell that is lent, and some past it.
    pub fn look(&mut self, buffer: Buffer, said: Said) {
        let cells = self.machine.cells(buffer).lent_cells() + PAST;
        self.ask(match said {
            Said::Cells => Instruction::Show(buffer, 0, cells),
            Said::Sums => Instruction::Sum(buffer, 0, cells),
        });
    }

    pub fn look_written(&mut self, said: Said) {
        for buffer in WRITTEN {
            self.look(buffer, said);
        }
    }
}
