//! Draws about steps: sequences in which good ones and bad ones follow on each other, states and cells that
//! were damaged in between, and states of circuits of any size.

use crate::circuits::gate;
use crate::draw::Draw;
use crate::field::P;
use crate::instruction::{Buffer, Instruction, WRITTEN};
use crate::steps::State;
use crate::told::state_numbers;

/// Ends of a count, of which the last cannot be raised.
const NEAR_FULL: [u64; 3] = [4_294_967_293, 4_294_967_294, 4_294_967_295];

/// Counts at which opening changes its answer: num_read and num_eval.
pub const OPENED: [[u64; 2]; 12] = [
    [0, 4],
    [4, 0],
    [0, 0],
    [0, 32_769],
    [1, 32_766],
    [1, 32_767],
    [16_383, 2],
    [16_383, 3],
    [16_384, 0],
    [16_384, 1],
    [2_147_483_648, 0],
    [4_294_967_295, 4_294_967_295],
];

impl Draw {
    /// The id of a wire that is made, where one is.
    fn made_id(&mut self) -> u64 {
        let state = self.state();
        match state.made() as u64 {
            0 => 0,
            made => state.num_wires() as u64 - 1 - self.random.below(made),
        }
    }

    fn good_read(&mut self) -> Instruction {
        let cells = [0; 4].map(|_| self.element());
        Instruction::Read(self.random.below(1_000), cells)
    }

    /// Sometimes both operands are one wire.
    fn good_eval(&mut self) -> Instruction {
        let [left, right] = [self.made_id(), self.made_id()];
        let right = match self.chance(4) {
            true => left,
            false => right,
        };
        let word = gate(self.random.below(3), left, right);
        Instruction::Eval(self.random.below(1_000), word)
    }

    fn good_step(&mut self) -> Instruction {
        match self.state().lacks_reads() {
            true => self.good_read(),
            false => self.good_eval(),
        }
    }

    /// A number near p among what a step is handed.
    fn foreign_step(&mut self) -> Instruction {
        let number = P - 1 + self.random.below(3);
        let place = self.random.below(5) as usize;
        match self.good_step() {
            Instruction::Read(ptr, mut cells) => match cells.get_mut(place) {
                Some(cell) => {
                    *cell = number;
                    Instruction::Read(ptr, cells)
                }
                None => Instruction::Read(number, cells),
            },
            Instruction::Eval(_, word) if place < 2 => Instruction::Eval(number, word),
            _ => Instruction::Eval(self.random.below(1_000), number),
        }
    }

    /// A gate that names any wires, or whose word does not decode.
    fn wild_eval(&mut self) -> Instruction {
        let ids = self.state().num_wires() as u64 + 2;
        let [left, right] = [self.random.below(ids), self.random.below(ids)];
        let opcode = match self.chance(3) {
            true => self.random.below(16),
            false => self.random.below(3),
        };
        Instruction::Eval(self.random.below(1_000), gate(opcode, left, right))
    }

    /// A step after a made wire's cell or count was set near its end. Left so, the cell would stop most
    /// steps to come.
    fn step_on_spoilt_wire(&mut self) {
        let position = (self.state().num_wires() as u64).saturating_sub(1 + self.made_id());
        if self.chance(2) {
            let cell = 2 * position + self.random.below(2);
            let number = P - 1 + self.random.below(3);
            self.set(Buffer::Values, cell, &[number]);
            self.step();
            let element = self.element();
            self.set(Buffer::Values, cell, &[element]);
        } else {
            let count = self.random.one_of(&NEAR_FULL);
            self.set(Buffer::Counts, position, &[count]);
            self.step();
        }
    }

    /// A call on a state with one number off; where it is refused, the sound state goes on.
    fn call_on_spoilt_state(&mut self) {
        let sound = state_numbers(&self.state());
        let mut spoilt = sound;
        let number = &mut spoilt[self.random.below(7) as usize];
        *number = match self.random.below(8) {
            0 => self.random.next() >> self.random.below(64),
            k => number.wrapping_add([1, 2, u64::MAX, u64::MAX - 1][k as usize % 4]),
        };
        self.ask(Instruction::State(spoilt));
        let spoilt = self.state();
        let call = match self.random.below(6) {
            0 => Instruction::Output,
            1 => Instruction::FillState(0),
            2 => Instruction::WriteState,
            _ => self.good_step(),
        };
        self.ask(call);
        if self.state() == spoilt {
            self.ask(Instruction::State(sound));
        }
    }

    fn step(&mut self) {
        let step = self.good_step();
        self.ask(step);
    }

    fn step_or_worse(&mut self) {
        let call = match self.random.below(24) {
            0 => self.good_read(),
            1 => self.good_eval(),
            2 => Instruction::Output,
            3 => self.foreign_step(),
            4 => self.wild_eval(),
            5 => return self.step_on_spoilt_wire(),
            6 => return self.call_on_spoilt_state(),
            7 => Instruction::FillState(self.random.below(3)),
            8 => Instruction::WriteState,
            _ => self.good_step(),
        };
        self.ask(call);
    }

    /// A gate that comes to zero, so that the result is accepted.
    fn zero_gate(&mut self) {
        let id = self.made_id();
        let word = gate(0, id, id);
        self.ask(Instruction::Eval(3, word));
    }

    /// A circuit opened and gone through, with a look at all cells, and at last its rows and its bytes.
    pub fn steps(&mut self) {
        let most = self.most_wires.min(24);
        let num_read = 1 + self.random.below(most / 4);
        let num_eval = 1 + self.random.below(most / 2);
        let opened = [self.random.below(100), self.word(), num_read, num_eval];
        self.lend_for(num_read, num_eval);
        let offset = self.lend_rows_and_bytes(num_read + num_eval);
        if !self.is_accepted(Instruction::Open(opened)) {
            let begun = State::after(opened.map(|number| number as u32), 0, 0);
            self.ask(Instruction::State(state_numbers(&begun)));
            self.step_or_worse();
            return self.look();
        }
        for _ in 0..3 * (num_read + num_eval) {
            let state = self.state();
            match (state.num_eval - state.evals_done, state.lacks_reads()) {
                (0, false) => break,
                (1, false) if self.chance(2) => self.zero_gate(),
                _ => self.step_or_worse(),
            }
        }
        self.look();
        if self.chance(4) {
            self.spoil_end();
        }
        self.ask(Instruction::Output);
        self.ask(Instruction::FillState(offset));
        self.ask(Instruction::WriteState);
        self.step_or_worse();
        self.look();
    }

    /// A value or node cell near p, or a buffer that is a cell short, where result, rows and bytes are asked.
    fn spoil_end(&mut self) {
        let buffer = self.random.one_of(&WRITTEN);
        let cells = self.lent_cells(buffer);
        match buffer {
            Buffer::Values | Buffer::Nodes if self.chance(2) => {
                let cell = self.random.below(cells);
                let number = P - 1 + self.random.below(3);
                self.set(buffer, cell, &[number]);
            }
            _ => {
                let short = 1 + self.random.below(3);
                self.ask(Instruction::Lend(buffer, cells.saturating_sub(short)));
            }
        }
    }

    /// Room for the rows at an offset, sometimes a cell short, and for the bytes of a small record.
    fn lend_rows_and_bytes(&mut self, rows: u64) -> u64 {
        let offset = self.random.below(4);
        let short = u64::from(self.chance(6));
        self.lend(Buffer::Rows, 16 * (offset + rows) - short);
        let room = self.random.below(900);
        self.lend(Buffer::Bytes, room);
        offset
    }

    /// All cells of the three buffers, as they are, are lent.
    fn lend_all(&mut self) {
        for buffer in WRITTEN {
            self.lend(buffer, u64::MAX >> 1);
        }
    }

    /// Opening near its limits, and steps from the midst of circuits that need not be gone through for it.
    pub fn far_steps(&mut self) {
        self.lend_all();
        for [num_read, num_eval] in [0; 4].map(|_| self.random.one_of(&OPENED)) {
            let opened = [self.word(), self.word(), num_read, num_eval];
            self.ask(Instruction::Open(opened));
        }
        let num_read = 1 + self.random.below(self.most_wires / 2 - 1);
        let num_eval = 1 + self.random.below(self.most_wires - 2 * num_read);
        let (reads, evals) = match self.chance(3) {
            true => (self.random.below(num_read), 0),
            false => (num_read, self.random.below(num_eval)),
        };
        let opened = [3, 4, num_read as u32, num_eval as u32];
        let state = State::after(opened, reads as u32, evals as u32);
        self.ask(Instruction::State(state_numbers(&state)));
        for _ in 0..8 {
            self.step_or_worse();
        }
        self.look();
    }
}
