//! Numbers in groups of seven bits, written from document 01: section Bytes, and refusals 15, 16 and 17.

/// "at most ten bytes"
pub const MOST_BYTES: usize = 10;

pub const GROUP_BITS: usize = 7;
/// "high bit set on all but the last"
pub const HIGH_BIT: u8 = 1 << GROUP_BITS;

/// As many groups as hold the number, one at least.
pub fn width(value: u64) -> usize {
    (1..=MOST_BYTES)
        .find(|groups| u128::from(value) < 1 << (GROUP_BITS * groups))
        .expect("ten groups have 70 bits")
}

/// "Numbers in groups of seven bits, lowest first, high bit set on all but the last, shortest form".
pub fn encode(value: u64) -> Vec<u8> {
    let group = |i| (value >> (GROUP_BITS * i)) as u8 % HIGH_BIT;
    let mut bytes: Vec<u8> = (0..width(value)).map(group).collect();
    let last = bytes.len() - 1;
    bytes[..last].iter_mut().for_each(|byte| *byte |= HIGH_BIT);
    bytes
}

/// The number and the place after it, or 15: "bytes end before a number's last byte, with fewer
/// than ten of it read", or 16: "number not in shortest form, or its tenth byte over 1".
pub fn read(bytes: &[u8], at: usize) -> Result<(u64, usize), u32> {
    let rest = bytes.get(at..).unwrap_or_default();
    let ten = &rest[..rest.len().min(MOST_BYTES)];
    let Some(last) = ten.iter().position(|&byte| byte < HIGH_BIT) else {
        // A tenth byte with the high bit is over 1.
        return Err(if ten.len() < MOST_BYTES { 15 } else { 16 });
    };
    let number = &ten[..=last];
    let value = number.iter().rev().fold(0_u128, |high, &byte| {
        (high << GROUP_BITS) | u128::from(byte % HIGH_BIT)
    });
    // A tenth byte over 1 makes a value of 2^64 or more.
    match u64::try_from(value) {
        Ok(value) if encode(value) == number => Ok((value, at + number.len())),
        _ => Err(16),
    }
}

/// As `read`, and 17: "number outside its field's range", after 15 and 16.
pub fn read_below(bytes: &[u8], at: usize, bound: u64) -> Result<(u64, usize), u32> {
    let (value, next) = read(bytes, at)?;
    if value < bound {
        Ok((value, next))
    } else {
        Err(17)
    }
}
