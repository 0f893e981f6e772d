//! The Rust's decode and steps, each called alone and with plain numbers.

use miden_core::Felt;

use crate::{
    CircuitEvaluation, ContextId, errors::AceError,
    trace::chiplets::instruction::decode_instruction,
};

/// The left id, the right id and the operation's number in the Rust.
pub fn decode(word: u64) -> Option<[u64; 3]> {
    let (left, right, op) = decode_instruction(Felt::new_unchecked(word))?;
    Some([left.into(), right.into(), op as u64])
}

/// Numbers handed in are elements.
impl CircuitEvaluation {
    pub fn open([ctx, clk, num_read, num_eval]: [u32; 4]) -> CircuitEvaluation {
        CircuitEvaluation::new(ContextId(ctx), clk.into(), num_read, num_eval)
    }

    pub fn read(&mut self, ptr: u64, word: [u64; 4]) {
        self.do_read(Felt::new_unchecked(ptr), word.map(Felt::new_unchecked));
    }

    /// The text of the Rust's error where it refuses.
    pub fn eval(&mut self, ptr: u64, word: u64) -> Result<(), String> {
        let [ptr, word] = [ptr, word].map(Felt::new_unchecked);
        self.do_eval(ptr, word).map_err(|AceError(text)| text)
    }

    pub fn output(&self) -> Option<[u64; 2]> {
        let value = self.output_value()?;
        Some(value.cells().map(Felt::as_canonical_u64))
    }
}
