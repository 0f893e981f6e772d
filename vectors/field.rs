//! Elements, pairs and gate words, from document 01 alone.

use crate::instruction::Arithmetic;

/// "p = 2^64 - 2^32 + 1 = 18446744069414584321."
pub const P: u64 = 18_446_744_069_414_584_321;

pub const ID_BITS: u32 = 30;
pub const OPCODE_BITS: u32 = 60;

pub fn add(a: u64, b: u64) -> u64 {
    ((u128::from(a) + u128::from(b)) % u128::from(P)) as u64
}

pub fn sub(a: u64, b: u64) -> u64 {
    ((u128::from(a) + u128::from(P) - u128::from(b)) % u128::from(P)) as u64
}

pub fn mul(a: u64, b: u64) -> u64 {
    (u128::from(a) * u128::from(b) % u128::from(P)) as u64
}

impl Arithmetic {
    pub fn of_elements(self, [a, b]: [u64; 2]) -> u64 {
        match self {
            Arithmetic::Add => add(a, b),
            Arithmetic::Sub => sub(a, b),
            Arithmetic::Mul => mul(a, b),
        }
    }

    /// "A pair (a0, a1) stands for a0 + a1·X with X·X = 7, so (a0, a1)(b0, b1) =
    /// (a0·b0 + 7·a1·b1, a0·b1 + a1·b0)."
    pub fn of_pairs(self, [a0, a1, b0, b1]: [u64; 4]) -> [u64; 2] {
        match self {
            Arithmetic::Add => [add(a0, b0), add(a1, b1)],
            Arithmetic::Sub => [sub(a0, b0), sub(a1, b1)],
            Arithmetic::Mul => [
                add(mul(a0, b0), mul(7, mul(a1, b1))),
                add(mul(a0, b1), mul(a1, b0)),
            ],
        }
    }
}

/// The left id, the right id and the opcode: "left id = v mod 2^30, right id = floor(v / 2^30) mod
/// 2^30, opcode = floor(v / 2^60). 0 Sub, 1 Mul, 2 Add, 3 to 15 refused."
pub fn decode(word: u64) -> Option<[u64; 3]> {
    let ids = 1 << ID_BITS;
    let opcode = word >> OPCODE_BITS;
    (opcode <= 2).then_some([word % ids, (word >> ID_BITS) % ids, opcode])
}
