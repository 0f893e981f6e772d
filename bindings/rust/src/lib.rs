//! Safe calls of libace_c.a, the proved ACE chiplet (`tools/staticlib ace_c`). "Document 01" is the paper
//! "Exact rules for the build"; every call answers every input as it says, and a refusal is an
//! [`Err`] with its number and place. `bindings/ace.h` says of each call what it refuses, in which
//! order, and what it leaves alone.
//!
//! Nothing here panics, and no call takes memory of its own: buffers are lent, as [`Buffers`] and slices.
//! The build looks for libace_c.a in the repository's target/staticlib, or in the folder that the variable
//! ACE_C_DIR names.

mod buffers;
mod circuit;
mod ffi;
mod record;
mod refused;
mod rows;
mod runs;
mod state;

pub use buffers::{Buffers, EVAL_CELLS, READ_CELLS, VALUE_CELLS};
pub use circuit::{eval_circuit, Header, MOST_WIRES};
pub use record::{read, write, write_state};
pub use refused::Refused;
pub use rows::{fill, fill_state, ROW_CELLS};
pub use runs::{Entry, RunList, MOST_RUNS};
pub use state::State;

/// "p = 2^64 - 2^32 + 1 = 18446744069414584321." An element is a number below p.
pub const P: u64 = 18_446_744_069_414_584_321;

/// Two elements.
pub type Pair = [u64; 2];
