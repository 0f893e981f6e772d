//! "Memory is a slice of u64; cell k has address k."

use miden_air::trace::RowIndex;
use miden_core::{Felt, P, Word};

use crate::{ContextId, errors::MemoryError, processor::MemoryInterface};

pub struct FlatMemory<'a>(pub &'a [u64]);

impl MemoryInterface for FlatMemory<'_> {
    fn read_element(&mut self, _: ContextId, addr: Felt) -> Result<Felt, MemoryError> {
        let cell = self
            .0
            .get(addr.as_canonical_u64() as usize)
            .filter(|&&cell| cell < P);
        cell.map(|&cell| Felt::new_unchecked(cell))
            .ok_or(MemoryError)
    }

    fn read_word(&mut self, ctx: ContextId, addr: Felt, _: RowIndex) -> Result<Word, MemoryError> {
        if addr.as_canonical_u64() % 4 != 0 {
            return Err(MemoryError);
        }
        let mut word = [addr; 4];
        for (cell, offset) in word.iter_mut().zip(0..) {
            *cell = self.read_element(ctx, addr + Felt::from_u32(offset))?;
        }
        Ok(word)
    }
}
