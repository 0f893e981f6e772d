//! The root of the Rust's crate, as far as its ACE chiplet needs one, the call of its whole evaluation over
//! a flat memory, its steps (steps.rs), its rows (columns.rs), its records (records.rs) and its run list
//! (runs.rs).

extern crate alloc;

pub use miden_core::Felt;

use execution::operations::eval_circuit::eval_circuit_impl;
use memory::FlatMemory;
pub use trace::chiplets::{CircuitEvaluation, Opened};

mod columns;
mod errors;
mod memory;
mod records;
mod runs;
mod steps;

pub use columns::Row;
pub use records::{Failed, Tried, try_read};
pub use runs::{Run, Runs};
pub use steps::decode;

mod execution {
    pub mod operations {
        pub mod eval_circuit;
    }
}

mod processor {
    use miden_air::trace::RowIndex;
    use miden_core::{Felt, Word};

    use crate::{ContextId, errors::MemoryError};

    pub trait MemoryInterface {
        fn read_element(&mut self, ctx: ContextId, addr: Felt) -> Result<Felt, MemoryError>;

        fn read_word(
            &mut self,
            ctx: ContextId,
            addr: Felt,
            clk: RowIndex,
        ) -> Result<Word, MemoryError>;
    }
}

mod trace {
    use std::borrow::Borrow;

    use miden_air::{AceCols, trace::chiplets::ace::ACE_CHIPLET_NUM_COLS};
    use miden_core::{Felt, field::PrimeCharacteristicRing};

    pub mod chiplets {
        mod ace;

        pub use ace::{
            Ace, CircuitEvaluation, MAX_EVAL_CIRCUIT_WIRES, MAX_NUM_ACE_WIRES, Opened,
            PTR_OFFSET_ELEM, PTR_OFFSET_WORD, instruction,
        };
    }

    /// Rows of the main trace.
    pub struct ChipletTraceFragment(Vec<Felt>);

    impl ChipletTraceFragment {
        pub fn of_rows(rows: usize) -> ChipletTraceFragment {
            ChipletTraceFragment(Felt::zero_vec(rows * ACE_CHIPLET_NUM_COLS))
        }

        pub fn rows(&self) -> impl Iterator<Item = &AceCols<Felt>> {
            self.0
                .chunks_exact(ACE_CHIPLET_NUM_COLS)
                .map(Borrow::borrow)
        }

        pub fn len(&self) -> usize {
            self.0.len() / ACE_CHIPLET_NUM_COLS
        }

        pub fn width(&self) -> usize {
            ACE_CHIPLET_NUM_COLS
        }

        pub fn copy_rows_from(&mut self, rows: &[Felt]) {
            self.0.copy_from_slice(rows);
        }
    }
}

#[derive(Debug, Clone, Copy, PartialEq, Eq)]
pub struct ContextId(u32);

impl From<ContextId> for u32 {
    fn from(ContextId(ctx): ContextId) -> u32 {
        ctx
    }
}

impl From<ContextId> for Felt {
    fn from(ContextId(ctx): ContextId) -> Felt {
        Felt::from_u32(ctx)
    }
}

/// The Rust's evaluation, or its error's text; nothing where it met an address or a cell that memory
/// does not have as an element. `numbers` are ptr, num_vars and num_eval, elements all.
pub fn evaluate(
    ctx: u32,
    clk: u32,
    numbers: [u64; 3],
    memory: &[u64],
) -> Option<Result<CircuitEvaluation, String>> {
    let [ptr, num_vars, num_eval] = numbers.map(Felt::new_unchecked);
    let mut memory = FlatMemory(memory);
    match eval_circuit_impl(
        ContextId(ctx),
        ptr,
        clk.into(),
        num_vars,
        num_eval,
        &mut memory,
    ) {
        Ok(evaluation) => Some(Ok(evaluation)),
        Err(errors::AceEvalError::Ace(errors::AceError(text))) => Some(Err(text)),
        Err(errors::AceEvalError::Memory(_)) => None,
    }
}
