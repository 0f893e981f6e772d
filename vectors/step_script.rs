//! What the cases of steps are made of.

use crate::circuits::gate as word;
use crate::instruction::{Buffer, Instruction, WRITTEN};
use crate::script::{Lengths, Said, Script, PAST};
use crate::steps::State;
use crate::told::state_numbers;

/// The most that is lent of each buffer.
pub const ALL: Lengths = [34, 18, 96];
/// Elements, of which no two are alike.
const CANARIES: [u64; 3] = [1_000, 2_000, 3_000];

/// ctx, clk, num_read and num_eval: ids 6 to 3 are read, ids 2 to 0 are gates.
pub const SEVEN_WIRES: [u32; 4] = [5, 9, 2, 3];

pub const NEAR_FULL: [u32; 3] = [u32::MAX - 2, u32::MAX - 1, u32::MAX];

pub const GOOD_WORD: [u64; 4] = [11, 12, 13, 14];

/// READ and EVAL counts on both sides of each edge; of some a sum of 32 bits would wrap.
pub const OPENINGS: [[u32; 2]; 27] = [
    [0, 0],
    [0, 1],
    [1, 0],
    [1, 1],
    [1, 2],
    [1, 3],
    [1, 5],
    [2, 1],
    [2, 3],
    [0, 32_768],
    [0, 32_769],
    [1, 32_766],
    [1, 32_767],
    [2, 32_764],
    [3, 32_764],
    [16_383, 2],
    [16_383, 3],
    [16_384, 0],
    [16_384, 1],
    [16_385, 0],
    [1 << 31, 0],
    [1 << 31, 1],
    [(1 << 31) + 1, 4],
    [1, u32::MAX - 1],
    [0, u32::MAX],
    [u32::MAX, 0],
    [u32::MAX, u32::MAX],
];

/// Of the wire with an id, among the seven.
pub fn position(id: u64) -> usize {
    6 - id as usize
}

pub struct Steps<'a>(pub &'a mut Script);

impl Steps<'_> {
    /// Canaries, and a state of zeros.
    pub fn begin(&mut self, lent: Lengths) {
        self.0.lend_written(lent);
        for ((buffer, cells), first) in WRITTEN.into_iter().zip(ALL).zip(CANARIES) {
            self.0.rise(buffer, cells as u64 + PAST, first, 1);
        }
        self.0.set(Instruction::State([0; 7]));
    }

    pub fn set(&mut self, state: State) {
        self.0.set(Instruction::State(state_numbers(&state)));
    }

    pub fn call(&mut self, call: Instruction) {
        self.call_and(Said::Sums, call);
    }

    pub fn call_and(&mut self, said: Said, call: Instruction) {
        self.0.ask(call);
        self.0.look_written(said);
    }

    /// A call on canaries.
    pub fn ask(&mut self, lent: Lengths, state: State, call: Instruction) {
        self.ask_with(lent, state, &[], call);
    }

    /// A call on cells that are set before.
    pub fn ask_with(
        &mut self,
        lent: Lengths,
        state: State,
        cells: &[Instruction],
        call: Instruction,
    ) {
        self.begin(lent);
        self.set(state);
        cells.iter().for_each(|cell| self.0.set(cell.clone()));
        self.call(call);
    }

    pub fn eval_with(&mut self, state: State, cells: &[Instruction], word: u64) {
        self.ask_with(ALL, state, cells, Instruction::Eval(20, word));
    }

    /// Every call, with the last wire zero: each passes where it is its turn.
    pub fn calls(&mut self, lent: Lengths, state: State) {
        for call in calls() {
            self.ask_with(lent, state, &last_wire([0, 0]), call);
        }
    }
}

pub fn calls() -> [Instruction; 3] {
    [
        Instruction::Read(20, GOOD_WORD),
        Instruction::Eval(21, word(2, 6, 5)),
        Instruction::Output,
    ]
}

pub fn cell(buffer: Buffer, i: usize, cell: u64) -> Instruction {
    Instruction::Set(buffer, i as u64, vec![cell])
}

pub fn value(id: u64, [a, b]: [u64; 2]) -> [Instruction; 2] {
    let first = 2 * position(id);
    [
        cell(Buffer::Values, first, a),
        cell(Buffer::Values, first + 1, b),
    ]
}

pub fn count(id: u64, count: u32) -> Instruction {
    cell(Buffer::Counts, position(id), count.into())
}

pub fn last_wire(pair: [u64; 2]) -> [Instruction; 2] {
    value(0, pair)
}

pub fn seven(reads: u32, evals: u32) -> State {
    State::after(SEVEN_WIRES, reads, evals)
}

pub fn sound_states() -> [State; 6] {
    [(0, 0), (1, 0), (2, 0), (2, 1), (2, 2), (2, 3)].map(|(reads, evals)| seven(reads, evals))
}
