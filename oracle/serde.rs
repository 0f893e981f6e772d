//! The traits of the Rust's serialization, with document 01's number coding: "number coding ours". The order
//! of a record's fields and the checks are the Rust's own.

#[path = "../vectors/coding.rs"]
mod coding;

use crate::{Felt, P, field::QuadFelt};
use coding::{encode, read, read_below};

pub enum DeserializationError {
    /// A check of the Rust's own.
    InvalidValue(String),
    /// Refusal 15, 16 or 17, and the "byte offset of the number".
    Number(u32, u64),
}

pub trait ByteWriter {
    fn write_number(&mut self, number: u64);
}

impl ByteWriter for Vec<u8> {
    fn write_number(&mut self, number: u64) {
        self.extend(encode(number));
    }
}

pub trait ByteReader {
    fn read_below(&mut self, bound: u64) -> Result<u64, DeserializationError>;

    /// A list length has no range of its own.
    fn read_length(&mut self) -> Result<u64, DeserializationError>;
}

/// Bytes, the place of the next number, and the list lengths read so far.
pub struct Source<'a> {
    bytes: &'a [u8],
    pub at: usize,
    pub lengths: Vec<u64>,
}

impl<'a> Source<'a> {
    pub fn new(bytes: &'a [u8]) -> Source<'a> {
        Source {
            bytes,
            at: 0,
            lengths: Vec::new(),
        }
    }

    fn taken(&mut self, number: Result<(u64, usize), u32>) -> Result<u64, DeserializationError> {
        let failed = |number| DeserializationError::Number(number, self.at as u64);
        let (value, next) = number.map_err(failed)?;
        self.at = next;
        Ok(value)
    }
}

impl ByteReader for Source<'_> {
    fn read_below(&mut self, bound: u64) -> Result<u64, DeserializationError> {
        let number = read_below(self.bytes, self.at, bound);
        self.taken(number)
    }

    fn read_length(&mut self) -> Result<u64, DeserializationError> {
        let number = read(self.bytes, self.at);
        let length = self.taken(number)?;
        self.lengths.push(length);
        Ok(length)
    }
}

pub trait Serializable {
    fn write_into<W: ByteWriter>(&self, target: &mut W);
}

pub trait Deserializable: Sized {
    fn read_from<R: ByteReader>(source: &mut R) -> Result<Self, DeserializationError>;

    /// A number has one byte at least.
    fn min_serialized_size() -> usize {
        1
    }
}

macro_rules! number {
    ($kind:ty, $end:expr) => {
        impl Serializable for $kind {
            fn write_into<W: ByteWriter>(&self, target: &mut W) {
                target.write_number((*self).into());
            }
        }

        impl Deserializable for $kind {
            fn read_from<R: ByteReader>(source: &mut R) -> Result<$kind, DeserializationError> {
                Ok(source.read_below($end)? as $kind)
            }
        }
    };
}

number!(u8, 1 << 8);
number!(u32, 1 << 32);

/// "Elements below p."
impl Serializable for Felt {
    fn write_into<W: ByteWriter>(&self, target: &mut W) {
        target.write_number(self.as_canonical_u64());
    }
}

impl Deserializable for Felt {
    fn read_from<R: ByteReader>(source: &mut R) -> Result<Felt, DeserializationError> {
        source.read_below(P).map(Felt::new_unchecked)
    }
}

/// "A pair taking two cells."
impl Serializable for QuadFelt {
    fn write_into<W: ByteWriter>(&self, target: &mut W) {
        let [a, b] = self.cells();
        a.write_into(target);
        b.write_into(target);
    }
}

impl Deserializable for QuadFelt {
    fn read_from<R: ByteReader>(source: &mut R) -> Result<QuadFelt, DeserializationError> {
        let [a, b] = [Felt::read_from(source)?, Felt::read_from(source)?];
        Ok(QuadFelt::of_cells([a, b]))
    }

    fn min_serialized_size() -> usize {
        2
    }
}

impl<A: Serializable, B: Serializable> Serializable for (A, B) {
    fn write_into<W: ByteWriter>(&self, target: &mut W) {
        self.0.write_into(target);
        self.1.write_into(target);
    }
}

impl<A: Deserializable, B: Deserializable> Deserializable for (A, B) {
    fn read_from<R: ByteReader>(source: &mut R) -> Result<(A, B), DeserializationError> {
        Ok((A::read_from(source)?, B::read_from(source)?))
    }
}

impl<T: Serializable> Serializable for Vec<T> {
    fn write_into<W: ByteWriter>(&self, target: &mut W) {
        target.write_number(self.len() as u64);
        self.iter().for_each(|item| item.write_into(target));
    }
}

impl<T: Deserializable> Deserializable for Vec<T> {
    fn read_from<R: ByteReader>(source: &mut R) -> Result<Vec<T>, DeserializationError> {
        let mut list = Vec::new();
        for _ in 0..source.read_length()? {
            list.push(T::read_from(source)?);
        }
        Ok(list)
    }
}
