use crate::buffers::Buffers;
use crate::circuit::Header;
use crate::ffi;
use crate::refused::{told, Refused};
use crate::state::State;

/// The cells of a row.
pub const ROW_CELLS: usize = 16;

/// The rows of a record, from row `offset` of `rows` on: "READ rows come first." "Every cell of the named
/// rows is written; other rows stay." Refuses 21, 19, 6, 17, 14; "a refusal changes nothing".
pub fn fill(
    header: &Header,
    buffers: &Buffers<'_>,
    offset: usize,
    rows: &mut [u64],
) -> Result<(), Refused> {
    let mut place = 0;
    let number = unsafe {
        ffi::ace_fill(
            header.ctx,
            header.clk,
            header.num_read,
            header.num_eval,
            header.id_next,
            buffers.values.as_ptr(),
            buffers.values.len(),
            buffers.counts.as_ptr(),
            buffers.counts.len(),
            buffers.nodes.as_ptr(),
            buffers.nodes.len(),
            offset,
            rows.as_mut_ptr(),
            rows.len(),
            &mut place,
        )
    };
    told(number, place, ())
}

/// The rows of an evaluation whose steps are all done: "13 and 11 come before" what [`fill`] refuses.
pub fn fill_state(
    state: &State,
    buffers: &Buffers<'_>,
    offset: usize,
    rows: &mut [u64],
) -> Result<(), Refused> {
    let mut place = 0;
    let number = unsafe {
        ffi::ace_fill_state(
            &state.numbers(),
            state.id_next,
            buffers.values.as_ptr(),
            buffers.values.len(),
            buffers.counts.as_ptr(),
            buffers.counts.len(),
            buffers.nodes.as_ptr(),
            buffers.nodes.len(),
            offset,
            rows.as_mut_ptr(),
            rows.len(),
            &mut place,
        )
    };
    told(number, place, ())
}
