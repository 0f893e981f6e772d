//! A refusal of document 01.

/// "What isn't in 'also returns' is 0."
#[derive(Clone, Copy, Debug, PartialEq)]
pub struct Refusal {
    pub number: u32,
    pub place: u64,
}

pub fn refuse<T>(number: u32, place: u64) -> Result<T, Refusal> {
    Err(Refusal { number, place })
}
