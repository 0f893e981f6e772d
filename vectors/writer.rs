//! The record writer, from document 01 alone.

use crate::coding::encode;
use crate::record::Record;
use crate::refusal::{refuse, Refusal};
use crate::steps::{wires, Header, Lent};

/// "A record: ctx, clk, id_next; wire list length, each wire as two elements and its count; declared
/// wires; READ list length and nodes; EVAL list length and nodes."
fn numbers(record: &Record<'_>) -> Vec<u64> {
    let Header {
        ctx,
        clk,
        num_read,
        num_eval,
        id_next,
    } = record.header;
    let num_wires = wires(num_read, num_eval) as u64;
    let mut numbers = vec![ctx.into(), clk.into(), id_next, num_wires];
    for (value, &count) in record.values.chunks_exact(2).zip(record.counts) {
        numbers.extend(value);
        numbers.push(count.into());
    }
    numbers.extend([num_wires, num_read.into()]);
    record.read_nodes().for_each(|node| numbers.extend(node));
    numbers.push(num_eval.into());
    record.eval_nodes().for_each(|node| numbers.extend(node));
    numbers
}

/// The number of bytes, or 24: "room lent for output too small". "A refusal changes nothing."
pub fn write(header: Header, lent: &Lent<'_>, out: &mut [u8]) -> Result<usize, Refusal> {
    let record = Record::checked(header, lent)?;
    let bytes: Vec<u8> = numbers(&record).into_iter().flat_map(encode).collect();
    match out.get_mut(..bytes.len()) {
        Some(room) => {
            room.copy_from_slice(&bytes);
            Ok(bytes.len())
        }
        None => refuse(24, 0),
    }
}
