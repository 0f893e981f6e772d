//! The record reader, from document 01 alone.

use crate::field::P;
use crate::numbers::{read, read_below};
use crate::record::MOST_WIRES;
use crate::refusal::{refuse, Refusal};
use crate::steps::{Header, Lent, EVAL_NODE, READ_NODE};

/// "ctx, clk, counts and declared wires must be below 2^32."
const WORDS: u64 = 1 << 32;

/// The bytes, and the place of the next number.
struct Source<'a> {
    bytes: &'a [u8],
    at: usize,
}

impl Source<'_> {
    fn below(&mut self, bound: u64) -> Result<u64, Refusal> {
        let (value, next) = read_below(self.bytes, self.at, bound)?;
        self.at = next;
        Ok(value)
    }

    fn word(&mut self) -> Result<u32, Refusal> {
        self.below(WORDS).map(|word| word as u32)
    }

    fn element(&mut self) -> Result<u64, Refusal> {
        self.below(P)
    }

    /// "24 at each list length that passes the room": so many cells a node, after those before it.
    fn length(&mut self, before: u128, each: u128, room: usize) -> Result<usize, Refusal> {
        let (length, next) = read(self.bytes, self.at)?;
        self.at = next;
        if before + each * u128::from(length) > room as u128 {
            return refuse(24, 0);
        }
        Ok(length as usize)
    }

    fn elements(&mut self, count: usize) -> Result<Vec<u64>, Refusal> {
        (0..count).map(|_| self.element()).collect()
    }
}

/// The wires of a record as read: two cells and a count for each.
struct Wires {
    values: Vec<u64>,
    counts: Vec<u32>,
}

/// "Wire list length, each wire as two elements and its count."
fn wires(source: &mut Source<'_>, lent: &Lent<'_>) -> Result<Wires, Refusal> {
    let room = lent.counts.len().min(lent.values.len() / 2);
    let length = source.length(0, 1, room)?;
    let mut wires = Wires {
        values: Vec::new(),
        counts: Vec::new(),
    };
    for _ in 0..length {
        wires.values.extend([source.element()?, source.element()?]);
        wires.counts.push(source.word()?);
    }
    Ok(wires)
}

/// "After the declared count 18, 19, 20": "record declares 0 wires", "over 1,073,741,823 wires", "wire
/// list's length differs from the declared count".
fn declared(source: &mut Source<'_>, wires: &Wires) -> Result<u128, Refusal> {
    let declared = u128::from(source.word()?);
    if declared == 0 {
        return refuse(18, 0);
    }
    if declared > MOST_WIRES {
        return refuse(19, 0);
    }
    if declared != wires.counts.len() as u128 {
        return refuse(20, 0);
    }
    Ok(declared)
}

/// "At the end 21, 19, 22, 23": "no EVAL node", "over 1,073,741,823 wires", "nodes' wires differ from
/// the declared count", "bytes left over".
fn check_end(
    source: &Source<'_>,
    declared: u128,
    reads: usize,
    evals: usize,
) -> Result<(), Refusal> {
    let nodes_wires = 2 * reads as u128 + evals as u128;
    let conditions = [
        (21, evals == 0),
        (19, nodes_wires > MOST_WIRES),
        (22, nodes_wires != declared),
        (23, source.at < source.bytes.len()),
    ];
    match conditions.iter().find(|(_, holds)| *holds) {
        Some(&(number, _)) => refuse(number, 0),
        None => Ok(()),
    }
}

/// "In field order 15, 16, 17 at each number and 24 at each list length that passes the room." "A
/// refusal changes nothing."
pub fn read_from(bytes: &[u8], lent: &mut Lent<'_>) -> Result<Header, Refusal> {
    let source = &mut Source { bytes, at: 0 };
    let [ctx, clk] = [source.word()?, source.word()?];
    let id_next = source.element()?;
    let wires = wires(source, lent)?;
    let declared = declared(source, &wires)?;
    let node_cells = lent.nodes.len();
    let reads = source.length(0, READ_NODE as u128, node_cells)?;
    let mut nodes = source.elements(READ_NODE * reads)?;
    let evals = source.length(nodes.len() as u128, EVAL_NODE as u128, node_cells)?;
    nodes.extend(source.elements(EVAL_NODE * evals)?);
    check_end(source, declared, reads, evals)?;
    lent.values[..wires.values.len()].copy_from_slice(&wires.values);
    lent.counts[..wires.counts.len()].copy_from_slice(&wires.counts);
    lent.nodes[..nodes.len()].copy_from_slice(&nodes);
    Ok(Header {
        ctx,
        clk,
        num_read: reads as u32,
        num_eval: evals as u32,
        id_next,
    })
}
