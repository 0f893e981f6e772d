//! Records field by field, right or wrong, of which the reader's questions are made.

use crate::coding::encode;
use crate::record_script::{record, Of};
use crate::script::{room, Lengths};
use crate::steps::{EVAL_NODE, READ_NODE};

#[derive(Clone, Copy, PartialEq)]
pub enum Kind {
    Word,
    Element,
    Length,
}

#[derive(Clone, Copy)]
pub struct Field {
    pub kind: Kind,
    pub value: u64,
}

#[derive(Clone)]
pub struct Form {
    pub ctx: u64,
    pub clk: u64,
    pub id_next: u64,
    /// Two elements and a count.
    pub wires: Vec<[u64; 3]>,
    pub declared: u64,
    pub reads: Vec<[u64; READ_NODE]>,
    pub evals: Vec<[u64; EVAL_NODE]>,
}

fn word(value: u64) -> Field {
    let kind = Kind::Word;
    Field { kind, value }
}

fn element(value: u64) -> Field {
    let kind = Kind::Element;
    Field { kind, value }
}

fn length<T>(list: &[T]) -> Field {
    let (kind, value) = (Kind::Length, list.len() as u64);
    Field { kind, value }
}

pub fn bytes_of(fields: &[Field]) -> Vec<u8> {
    fields
        .iter()
        .flat_map(|field| encode(field.value))
        .collect()
}

impl Form {
    /// Cells and counts as they come from `next`.
    pub fn of(
        [wires, declared, reads, evals]: [u64; 4],
        mut next: impl FnMut(Kind) -> u64,
    ) -> Form {
        let wire = |next: &mut dyn FnMut(Kind) -> u64| {
            [Kind::Element, Kind::Element, Kind::Word].map(next)
        };
        Form {
            ctx: next(Kind::Word),
            clk: next(Kind::Word),
            id_next: next(Kind::Element),
            wires: (0..wires).map(|_| wire(&mut next)).collect(),
            declared,
            reads: (0..reads)
                .map(|_| std::array::from_fn(|_| next(Kind::Element)))
                .collect(),
            evals: (0..evals)
                .map(|_| std::array::from_fn(|_| next(Kind::Element)))
                .collect(),
        }
    }

    /// A right one.
    pub fn right(reads: u64, evals: u64, next: impl FnMut(Kind) -> u64) -> Form {
        let wires = 2 * reads + evals;
        Form::of([wires, wires, reads, evals], next)
    }

    pub fn fields(&self) -> Vec<Field> {
        let mut fields = vec![word(self.ctx), word(self.clk), element(self.id_next)];
        fields.push(length(&self.wires));
        for &[a, b, count] in &self.wires {
            fields.extend([element(a), element(b), word(count)]);
        }
        fields.push(word(self.declared));
        fields.push(length(&self.reads));
        fields.extend(self.reads.concat().into_iter().map(element));
        fields.push(length(&self.evals));
        fields.extend(self.evals.concat().into_iter().map(element));
        fields
    }

    pub fn bytes(&self) -> Vec<u8> {
        bytes_of(&self.fields())
    }

    /// The room that the lists need.
    pub fn room(&self) -> Lengths {
        let wires = self.wires.len();
        let [_, _, nodes] = room(self.reads.len() as u32, self.evals.len() as u32);
        [2 * wires, wires, nodes]
    }

    /// The record that a right one is.
    pub fn record(&self) -> Of {
        let counts = [self.reads.len() as u32, self.evals.len() as u32];
        let [num_read, num_eval] = counts;
        let opened = [self.ctx as u32, self.clk as u32, num_read, num_eval];
        record(opened, self.id_next)
    }
}

/// Rising numbers of one byte and of two.
pub fn rising() -> impl FnMut(Kind) -> u64 {
    let mut last = 0;
    move |_| {
        last += 11;
        last
    }
}
