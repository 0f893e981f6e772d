//! What all draws of `./compare` have in common. A case is a list of instructions; it grows while a machine
//! answers it, so that what is asked next can depend on how far the calls have come.

use crate::field::P;
use crate::instruction::{Buffer, Instruction, BUFFERS, SET_AT_ONCE, SIZES, WRITTEN};
use crate::machine::Machine;
use crate::random::Random;
use crate::steps::{needs, State};

/// Cells past those lent, which no call may change.
const MARGIN: u64 = 3;

/// Numbers near an end of something, of elements and of u64.
const EDGES: [u64; 16] = [
    0,
    1,
    2,
    7,
    (1 << 30) - 1,
    (1 << 32) - 1,
    1 << 32,
    (1 << 32) + 1,
    (P - 1) / 2,
    (P + 1) / 2,
    P - (1 << 32),
    P - 2,
    P - 1,
    P,
    P + 1,
    u64::MAX,
];

pub struct Draw {
    pub random: Random,
    /// How large a circuit may become.
    pub most_wires: u64,
    pub case: Vec<Instruction>,
    machine: Machine,
    looked_at: [u64; 6],
}

impl Draw {
    pub fn new(seed: u64, most_wires: u64) -> Draw {
        Draw {
            random: Random(seed),
            most_wires,
            case: Vec::new(),
            machine: Machine::new(),
            looked_at: [0; 6],
        }
    }

    /// What the instruction writes.
    pub fn ask(&mut self, instruction: Instruction) -> Vec<u64> {
        let written = self.machine.run(&instruction);
        self.case.push(instruction);
        written
    }

    pub fn is_accepted(&mut self, call: Instruction) -> bool {
        self.ask(call).first() == Some(&0)
    }

    pub fn state(&self) -> State {
        self.machine.state
    }

    pub fn lent_cells(&self, buffer: Buffer) -> u64 {
        self.machine.cells(buffer).lent_cells()
    }

    /// So many cells of a buffer, each with a number of its own, are lent and will be looked at.
    pub fn lend(&mut self, buffer: Buffer, cells: u64) {
        let looked_at = cells
            .saturating_add(MARGIN)
            .min(SIZES[buffer as usize] as u64);
        let step = self.random.one_of(&[1, 3, 11, 70_001]);
        self.ask(Instruction::Rise {
            buffer,
            at: 0,
            cells: looked_at,
            back: 1,
            step,
        });
        self.ask(Instruction::Lend(buffer, cells));
        self.looked_at[buffer as usize] = looked_at;
    }

    /// Value cells, counts and node cells, as many as the circuit needs, or a few more; sometimes one
    /// buffer is a cell short.
    pub fn lend_for(&mut self, num_read: u64, num_eval: u64) {
        let needs = needs(num_read as u32, num_eval as u32).map(|need| need as u64);
        let short = match self.chance(24) {
            true => self.random.below(3),
            false => 3,
        };
        for (i, (buffer, need)) in (0..).zip(WRITTEN.into_iter().zip(needs)) {
            let cells = match i == short {
                true => need - 1,
                false => need + self.random.below(3),
            };
            self.lend(buffer, cells);
        }
    }

    pub fn set(&mut self, buffer: Buffer, at: u64, cells: &[u64]) {
        for (i, part) in (0..).zip(cells.chunks(SET_AT_ONCE)) {
            let at = at.saturating_add(i * SET_AT_ONCE as u64);
            self.ask(Instruction::Set(buffer, at, part.to_vec()));
        }
    }

    /// The bytes, and no more, are lent.
    pub fn lend_bytes(&mut self, bytes: &[u8]) {
        let cells: Vec<u64> = bytes.iter().map(|&byte| byte.into()).collect();
        self.set(Buffer::Bytes, 0, &cells);
        self.ask(Instruction::Lend(Buffer::Bytes, cells.len() as u64));
    }

    /// Every cell of the buffers lent so far, and those past them; now and then their sum too.
    pub fn look(&mut self) {
        for (buffer, cells) in BUFFERS.into_iter().zip(self.looked_at) {
            if cells > 0 {
                self.ask(Instruction::Show(buffer, 0, cells));
            }
            if self.chance(12) {
                self.ask(Instruction::Sum(buffer, 0, cells));
            }
        }
    }

    /// One time in so many.
    pub fn chance(&mut self, times: u64) -> bool {
        self.random.below(times) == 0
    }

    pub fn edge(&mut self) -> u64 {
        self.random.one_of(&EDGES)
    }

    /// An element, mostly of few digits.
    pub fn element(&mut self) -> u64 {
        match self.random.below(8) {
            0 => self.edge() % P,
            1 => self.random.next() % P,
            _ => self.random.below(12),
        }
    }

    /// Any number, of any length in bits.
    pub fn number(&mut self) -> u64 {
        match self.random.below(3) {
            0 => self.edge(),
            _ => self.random.next() >> self.random.below(64),
        }
    }

    /// A u32.
    pub fn word(&mut self) -> u64 {
        self.random.next() >> 32 >> self.random.below(32)
    }
}
