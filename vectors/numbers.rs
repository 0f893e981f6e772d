//! Numbers in bytes, each call alone, from document 01: refusals 15, 16, 17 and 24.

use crate::coding::{self, encode};
use crate::refusal::{refuse, Refusal};

/// 15, 16 and 17 return the "byte offset of the number".
fn placed<T>(number: Result<T, u32>, at: usize) -> Result<T, Refusal> {
    number.or_else(|number| refuse(number, at as u64))
}

pub fn read(bytes: &[u8], at: usize) -> Result<(u64, usize), Refusal> {
    placed(coding::read(bytes, at), at)
}

pub fn read_below(bytes: &[u8], at: usize, bound: u64) -> Result<(u64, usize), Refusal> {
    placed(coding::read_below(bytes, at, bound), at)
}

/// The place after the number, or 24: "room lent for output too small".
pub fn write(value: u64, out: &mut [u8], at: usize) -> Result<usize, Refusal> {
    let bytes = encode(value);
    let rest = out.get_mut(at..).unwrap_or_default();
    match rest.get_mut(..bytes.len()) {
        Some(room) => {
            room.copy_from_slice(&bytes);
            Ok(at + bytes.len())
        }
        None => refuse(24, 0),
    }
}
