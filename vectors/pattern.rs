//! Circuits that few instructions make, for sizes whose cells are too many to be written down.

use crate::circuits::{gate, SUB};
use crate::instruction::{Buffer, Instruction};
use crate::random::Random;
use crate::script::Script;

#[derive(Clone, Copy)]
pub struct Pattern {
    pub seed: u64,
    pub at: u64,
    pub vars: u64,
    pub gates: u64,
    /// How many wires back an operand may lie.
    pub window: u64,
    /// After so many gates the same come again, each with both ids that much lower.
    pub period: u64,
    /// How many gates are others.
    pub others: u64,
}

impl Pattern {
    /// The id of one of the wires made so far, the newest of which has the id num_wires - made.
    fn operand(&self, random: &mut Random, made: u64) -> u64 {
        self.vars + self.gates - made + random.next() % made.min(self.window)
    }

    /// Any gate, as the one that is made after k others.
    fn any_gate(&self, random: &mut Random, k: u64) -> u64 {
        let made = self.vars + k;
        let [left, right] = [0, 1].map(|_| self.operand(random, made));
        gate(random.next() % 3, left, right)
    }

    /// Rising variables, which are elements all, such gates, and at last the newest wire less itself.
    pub fn place(&self, script: &mut Script) {
        let random = &mut Random(self.seed);
        let memory = Buffer::Memory;
        let rise = |at, cells, back, step| Instruction::Rise {
            buffer: memory,
            at,
            cells,
            back,
            step,
        };
        script.set_cells(memory, self.at, &[random.next() >> 2]);
        script.set(rise(self.at + 1, 2 * self.vars - 1, 1, random.next() >> 24));
        let first = self.at + 2 * self.vars;
        let period = self.period.min(self.gates);
        let words: Vec<u64> = (0..period).map(|k| self.any_gate(random, k)).collect();
        script.set_cells(memory, first, &words);
        let lower = gate(0, period, period).wrapping_neg();
        script.set(rise(first + period, self.gates - period, period, lower));
        for _ in 0..self.others {
            let k = random.next() % self.gates;
            script.set_cells(memory, first + k, &[self.any_gate(random, k)]);
        }
        script.set_cells(memory, first + self.gates - 1, &[gate(SUB, 1, 1)]);
    }
}
