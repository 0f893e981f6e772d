//! Draws about numbers in groups of seven bits.

use crate::coding::{width, HIGH_BIT};
use crate::draw::Draw;
use crate::instruction::{Buffer, Instruction};
use crate::stream::bytes_of;

const CALLS: usize = 16;
const NUMBERS: usize = 4;

impl Draw {
    /// A number of any width, or next to where widths change.
    fn wide(&mut self) -> u64 {
        match self.random.below(3) {
            0 => (1_u64 << (7 * self.random.below(10))).wrapping_sub(self.random.below(2)),
            _ => self.number(),
        }
    }

    /// Numbers one after the other, mostly with a byte changed or bytes cut off.
    fn lend_numbers(&mut self) -> u64 {
        let numbers: Vec<u64> = (0..NUMBERS).map(|_| self.wide()).collect();
        let mut bytes = bytes_of(&numbers);
        let at = self.random.below(bytes.len() as u64) as usize;
        match self.random.below(6) {
            0 => bytes[at] = self.random.next() as u8,
            1 => bytes[at] ^= HIGH_BIT,
            2 => bytes[at] = HIGH_BIT,
            3 => bytes[at..].fill(u8::MAX),
            4 => bytes.truncate(at + 1),
            _ => {}
        }
        self.lend_bytes(&bytes);
        bytes.len() as u64
    }

    fn write_number(&mut self, length: u64) {
        let value = self.wide();
        let need = width(value) as u64;
        let at = match self.random.below(4) {
            0 => self.number(),
            1 => self.random.below(length + 2),
            2 => length.saturating_sub(need),
            _ => (length + 1).saturating_sub(need),
        };
        self.ask(Instruction::WriteNumber(value, at));
        self.ask(Instruction::Show(Buffer::Bytes, 0, length + 12));
    }

    pub fn numbers(&mut self) {
        let mut length = self.lend_numbers();
        for _ in 0..CALLS {
            let at = match self.chance(8) {
                true => self.number(),
                false => self.random.below(length + 2),
            };
            let call = match self.random.below(5) {
                0 => Instruction::Width(self.wide()),
                1 => {
                    length = self.lend_numbers();
                    Instruction::ReadNumber(0)
                }
                2 => {
                    self.write_number(length);
                    continue;
                }
                3 => Instruction::ReadNumber(at),
                _ => Instruction::ReadBelow(at, self.wide()),
            };
            self.ask(call);
        }
    }
}
