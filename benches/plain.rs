//! Numbers in groups of seven bits in plain Rust, with the checks of the crate `numbers`: room for
//! all of the number before a byte is written, shortest form, at most ten bytes. A crate of its own,
//! so that `plain_write` and `plain_read` are called as the functions of a library are.

/// A number of document 01's table and a place.
pub type Refusal = (u32, u64);

const CUT_OFF: u32 = 15;
const NOT_SHORTEST: u32 = 16;
const NO_ROOM: u32 = 24;

const MOST_BYTES: usize = 10;

#[inline(always)]
pub fn width(value: u64) -> usize {
    (u64::BITS - (value | 1).leading_zeros()).div_ceil(7) as usize
}

/// The place after the number, or the refusal.
#[inline(always)]
pub fn write(value: u64, out: &mut [u8], at: usize) -> Result<usize, Refusal> {
    let rest = out.get_mut(at..).ok_or((NO_ROOM, 0))?;
    let room = rest.get_mut(..width(value)).ok_or((NO_ROOM, 0))?;
    let mut left = value;
    let mut i = 0;
    while left >= 0x80 {
        room[i] = left as u8 | 0x80;
        left >>= 7;
        i += 1;
    }
    room[i] = left as u8;
    Ok(at + i + 1)
}

/// The number and the place after it, or the refusal.
#[inline(always)]
pub fn read(bytes: &[u8], at: usize) -> Result<(u64, usize), Refusal> {
    let rest = bytes.get(at..).unwrap_or_default();
    let mut value = 0;
    for (i, &byte) in rest.iter().take(MOST_BYTES).enumerate() {
        value |= u64::from(byte & 0x7f) << (7 * i);
        if byte < 0x80 {
            if (byte == 0 && i > 0) || (byte > 1 && i + 1 == MOST_BYTES) {
                return Err((NOT_SHORTEST, at as u64));
            }
            return Ok((value, at + i + 1));
        }
    }
    if rest.len() < MOST_BYTES {
        return Err((CUT_OFF, at as u64));
    }
    // The tenth byte has the high bit, so it is over 1.
    Err((NOT_SHORTEST, at as u64))
}

/// `write` as `numbers_write` is called.
///
/// # Safety
/// `out` must point to `out_len` bytes and `place` to a number, lent to nobody else.
#[inline(never)]
pub unsafe extern "C" fn plain_write(
    value: u64,
    out: *mut u8,
    out_len: usize,
    at: usize,
    place: *mut u64,
) -> u32 {
    let out = unsafe { std::slice::from_raw_parts_mut(out, out_len) };
    let (number, told) = match write(value, out, at) {
        Ok(next) => (0, next as u64),
        Err(refusal) => refusal,
    };
    unsafe { *place = told };
    number
}

/// `read` as `numbers_read` is called.
///
/// # Safety
/// `bytes` must point to `bytes_len` bytes, and `value` and `place` to numbers, lent to nobody else.
#[inline(never)]
pub unsafe extern "C" fn plain_read(
    bytes: *const u8,
    bytes_len: usize,
    at: usize,
    value: *mut u64,
    place: *mut u64,
) -> u32 {
    let bytes = unsafe { std::slice::from_raw_parts(bytes, bytes_len) };
    let (number, told) = match read(bytes, at) {
        Ok((found, next)) => {
            unsafe { *value = found };
            (0, next as u64)
        }
        Err(refusal) => refusal,
    };
    unsafe { *place = told };
    number
}
