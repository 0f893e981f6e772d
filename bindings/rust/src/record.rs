use crate::buffers::Buffers;
use crate::circuit::Header;
use crate::ffi;
use crate::refused::{told, Refused};
use crate::state::State;

/// Writes the bytes of a record to the start of `out`, and gives their number. Refuses 21, 19, 6, 17,
/// 24; "a refusal changes nothing".
pub fn write(header: &Header, buffers: &Buffers<'_>, out: &mut [u8]) -> Result<usize, Refused> {
    let (mut length, mut place) = (0, 0);
    let number = unsafe {
        ffi::ace_write_into(
            header.ctx,
            header.clk,
            header.num_read,
            header.num_eval,
            header.id_next,
            buffers.values.as_ptr(),
            buffers.values.len(),
            buffers.counts.as_ptr(),
            buffers.counts.len(),
            buffers.nodes.as_ptr(),
            buffers.nodes.len(),
            out.as_mut_ptr(),
            out.len(),
            &mut length,
            &mut place,
        )
    };
    told(number, place, length as usize)
}

/// The same of an evaluation whose steps are all done: "13 and 11 come before" what [`write`] refuses.
pub fn write_state(state: &State, buffers: &Buffers<'_>, out: &mut [u8]) -> Result<usize, Refused> {
    let (mut length, mut place) = (0, 0);
    let number = unsafe {
        ffi::ace_write_state_into(
            &state.numbers(),
            state.id_next,
            buffers.values.as_ptr(),
            buffers.values.len(),
            buffers.counts.as_ptr(),
            buffers.counts.len(),
            buffers.nodes.as_ptr(),
            buffers.nodes.len(),
            out.as_mut_ptr(),
            out.len(),
            &mut length,
            &mut place,
        )
    };
    told(number, place, length as usize)
}

/// Reads a record, which takes all of the bytes. Refuses "in field order 15, 16, 17 at each number and 24
/// at each list length that passes the room; after the declared count 18, 19, 20; at the end 21, 19, 22,
/// 23. A refusal changes nothing."
pub fn read(bytes: &[u8], buffers: &mut Buffers<'_>) -> Result<Header, Refused> {
    let (mut header, mut place) = ([0; 5], 0);
    let number = unsafe {
        ffi::ace_read_from(
            bytes.as_ptr(),
            bytes.len(),
            buffers.values.as_mut_ptr(),
            buffers.values.len(),
            buffers.counts.as_mut_ptr(),
            buffers.counts.len(),
            buffers.nodes.as_mut_ptr(),
            buffers.nodes.len(),
            &mut header,
            &mut place,
        )
    };
    told(number, place, Header::of(header))
}
