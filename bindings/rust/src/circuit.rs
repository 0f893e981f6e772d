use crate::buffers::Buffers;
use crate::ffi::{self, HeaderNumbers};
use crate::refused::{told, Refused};

/// The most wires of a circuit that is evaluated.
pub const MOST_WIRES: usize = 32_768;

/// "A record header holds ctx, clk, num_read, num_eval (each u32) and id_next; after evaluation id_next is
/// p - 1."
#[derive(Clone, Copy, Debug, PartialEq, Eq)]
pub struct Header {
    pub ctx: u32,
    pub clk: u32,
    pub num_read: u32,
    pub num_eval: u32,
    pub id_next: u64,
}

impl Header {
    /// The first four numbers are those of a header, and so below 2^32.
    pub(crate) fn of([ctx, clk, num_read, num_eval, id_next]: HeaderNumbers) -> Header {
        Header {
            ctx: ctx as u32,
            clk: clk as u32,
            num_read: num_read as u32,
            num_eval: num_eval as u32,
            id_next,
        }
    }
}

/// Whole evaluation of the circuit at address `ptr` of `memory`: `num_vars` pairs, then `num_eval` gate
/// words. Refuses in the "order 1 to 7, then gate by gate 8, 9, 10, then 12. 1 to 7 change nothing. 8, 9,
/// 10 and 12 leave the used value cells, counts and node cells zero."
pub fn eval_circuit(
    ctx: u32,
    clk: u32,
    ptr: u64,
    num_vars: u64,
    num_eval: u64,
    memory: &[u64],
    buffers: &mut Buffers<'_>,
) -> Result<Header, Refused> {
    let (mut header, mut place) = ([0; 5], 0);
    let number = unsafe {
        ffi::ace_eval_circuit(
            ctx,
            clk,
            ptr,
            num_vars,
            num_eval,
            memory.as_ptr(),
            memory.len(),
            buffers.values.as_mut_ptr(),
            buffers.values.len(),
            buffers.counts.as_mut_ptr(),
            buffers.counts.len(),
            buffers.nodes.as_mut_ptr(),
            buffers.nodes.len(),
            &mut header,
            &mut place,
        )
    };
    told(number, place, Header::of(header))
}
