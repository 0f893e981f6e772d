//! The stream of docs/REPLAY.md: numbers in document 01's own form, nothing between them.

use crate::coding::{encode, read};
use crate::instruction::Instruction;

pub fn bytes_of(numbers: &[u64]) -> Vec<u8> {
    numbers.iter().flat_map(|&number| encode(number)).collect()
}

pub fn questions<'a>(instructions: impl IntoIterator<Item = &'a Instruction>) -> Vec<u8> {
    let numbers = instructions.into_iter().map(Instruction::stream);
    numbers.flat_map(|numbers| bytes_of(&numbers)).collect()
}

/// The numbers that bytes are, up to the place where no further one can be read.
pub fn numbers_of(bytes: &[u8]) -> Vec<u64> {
    let mut at = 0;
    let next = || {
        let (number, next) = read(bytes, at).ok()?;
        at = next;
        Some(number)
    };
    std::iter::from_fn(next).collect()
}
