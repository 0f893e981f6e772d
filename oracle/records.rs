//! The Rust's record writer and reader.

use miden_core::serde::{
    ByteReader, ByteWriter, Deserializable, DeserializationError, Serializable, Source,
};

use crate::{CircuitEvaluation, ContextId};

impl Serializable for ContextId {
    fn write_into<W: ByteWriter>(&self, target: &mut W) {
        self.0.write_into(target);
    }
}

impl Deserializable for ContextId {
    fn read_from<R: ByteReader>(source: &mut R) -> Result<ContextId, DeserializationError> {
        u32::read_from(source).map(ContextId)
    }
}

pub enum Failed {
    /// The text of a check.
    Check(String),
    /// Refusal 15, 16 or 17 of a number, and its place.
    Number(u32, u64),
}

/// What the Rust read, how many bytes it took, and the list lengths that it met.
pub struct Tried {
    pub read: Result<CircuitEvaluation, Failed>,
    pub taken: usize,
    pub lengths: Vec<u64>,
}

pub fn try_read(bytes: &[u8]) -> Tried {
    let mut source = Source::new(bytes);
    let read = CircuitEvaluation::read_from(&mut source).map_err(|error| match error {
        DeserializationError::InvalidValue(text) => Failed::Check(text),
        DeserializationError::Number(number, place) => Failed::Number(number, place),
    });
    Tried {
        read,
        taken: source.at,
        lengths: source.lengths,
    }
}

impl CircuitEvaluation {
    pub fn bytes(&self) -> Vec<u8> {
        let mut bytes = Vec::new();
        self.write_into(&mut bytes);
        bytes
    }
}
