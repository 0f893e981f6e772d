//! Draws about the run list: whole ones set at once, right or wrong, and lists that grow by calls.

use crate::draw::Draw;
use crate::draw_steps::OPENED;
use crate::instruction::Instruction;
use crate::run_list::MOST_ENTRIES;

const CALLS: usize = 12;
const FULL: u64 = MOST_ENTRIES as u64;

impl Draw {
    fn run_counts(&mut self) -> [u64; 2] {
        match self.random.below(10) {
            0 => self.random.one_of(&OPENED),
            1 => [1 + self.random.below(300), 1 + self.random.below(300)],
            _ => [1 + self.random.below(6), 1 + self.random.below(6)],
        }
    }

    /// Few clocks, so that they meet again, and the ends of a u32.
    fn clock(&mut self) -> u64 {
        match self.random.below(8) {
            0 => self
                .random
                .one_of(&[0, 1, u32::MAX.into(), u64::from(u32::MAX) - 1]),
            1 => self.word(),
            _ => self.random.below(70),
        }
    }

    /// So many entries with rising clocks, and some past them; seldom one that does not fit.
    fn set_list(&mut self, length: u64) {
        let wrong = match self.chance(5) {
            true => self.random.below(length + 1),
            false => u64::MAX,
        };
        let mut clk = self.random.below(3);
        for i in 0..(length + 2).min(FULL + 1) {
            let mut entry = [clk, 1 + self.random.below(5), 1 + self.random.below(5)];
            if i == wrong {
                entry = match self.chance(2) {
                    true => [clk.saturating_sub(3), entry[1], entry[2]],
                    false => {
                        let [num_read, num_eval] = self.random.one_of(&OPENED);
                        [clk, num_read, num_eval]
                    }
                };
            }
            self.ask(Instruction::Entry(i, entry));
            clk += 1 + self.random.below(3);
        }
        self.ask(Instruction::Length(length));
    }

    fn list_call(&mut self) {
        let clk = self.clock();
        let call = match self.random.below(4) {
            0 => Instruction::TraceLen,
            1 => Instruction::FirstRow(clk),
            _ => {
                let [num_read, num_eval] = self.run_counts();
                Instruction::Add([clk, num_read, num_eval])
            }
        };
        self.ask(call);
    }

    pub fn lists(&mut self) {
        let length = match self.random.below(6) {
            0 => 0,
            1 => FULL - self.random.below(3),
            2 if self.chance(3) => self.random.one_of(&[33, 34, u32::MAX.into(), 1 << 32]),
            _ => self.random.below(FULL),
        };
        self.set_list(length);
        for _ in 0..CALLS {
            self.list_call();
        }
    }
}
