//! Draws about elements, pairs and gate words.

use crate::circuits::gate;
use crate::draw::Draw;
use crate::field::P;
use crate::instruction::{Arithmetic, Instruction};

const CALLS: usize = 24;
const OPERATIONS: [Arithmetic; 3] = [Arithmetic::Add, Arithmetic::Sub, Arithmetic::Mul];
const IDS: [u64; 5] = [0, 1, 5, (1 << 30) - 2, (1 << 30) - 1];

impl Draw {
    /// Mostly an element.
    fn handed(&mut self) -> u64 {
        match self.random.below(6) {
            0 => self.edge(),
            1 => P.wrapping_add(self.random.below(3)).wrapping_sub(2),
            2 => self.element(),
            _ => self.random.next() % P,
        }
    }

    fn gate_word(&mut self) -> u64 {
        let ids = match self.chance(2) {
            true => [self.random.one_of(&IDS), self.random.one_of(&IDS)],
            false => [self.random.next(), self.random.next()].map(|id| id % (1 << 30)),
        };
        let opcode = match self.chance(4) {
            true => self.random.below(16),
            false => self.random.below(3),
        };
        gate(opcode, ids[0], ids[1])
    }

    pub fn elements(&mut self) {
        for _ in 0..CALLS {
            let op = self.random.one_of(&OPERATIONS);
            let [a, b, c, d] = [0; 4].map(|_| self.handed());
            let call = match self.random.below(10) {
                0..=2 => Instruction::Felt(op, [a, b]),
                3..=5 => Instruction::Quad(op, [a, b, c, d]),
                6 => Instruction::Decode(a),
                _ => Instruction::Decode(self.gate_word()),
            };
            self.ask(call);
        }
    }
}
