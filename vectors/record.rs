//! A record, and what row fill and the record writer refuse alike, from document 01 alone.

use crate::field::P;
use crate::refusal::{refuse, Refusal};
use crate::steps::{check_room, needs, wires, Header, Lent, State};
use crate::steps::{EVAL_NODE, READ_NODE};

/// "19: over 1,073,741,823 wires."
pub const MOST_WIRES: u128 = 1_073_741_823;

/// "Given a step state, 13 and 11 come before these." "11: result asked before all steps are done."
pub fn header_of_state(state: &State) -> Result<Header, Refusal> {
    if !state.is_sound() {
        return refuse(13, 0);
    }
    if state.lacks_reads() || state.lacks_evals() {
        return refuse(11, 0);
    }
    Ok(state.header())
}

/// A header, and what it uses of the lent buffers.
pub struct Record<'a> {
    pub header: Header,
    pub values: &'a [u64],
    pub counts: &'a [u32],
    nodes: &'a [u64],
}

impl<'a> Record<'a> {
    /// "Fill and record writer: 21, 19, 6, 17 (a used value or node cell, or id_next, p or more)."
    /// 17 returns "0 where no bytes are read".
    pub fn checked(header: Header, lent: &'a Lent<'_>) -> Result<Record<'a>, Refusal> {
        let Header {
            num_read, num_eval, ..
        } = header;
        if num_eval == 0 {
            return refuse(21, 0);
        }
        if wires(num_read, num_eval) > MOST_WIRES {
            return refuse(19, 0);
        }
        check_room(num_read, num_eval, lent)?;
        let [values, counts, nodes] = needs(num_read, num_eval).map(|need| need as usize);
        let record = Record {
            header,
            values: &lent.values[..values],
            counts: &lent.counts[..counts],
            nodes: &lent.nodes[..nodes],
        };
        let mut elements = record.values.iter().chain(record.nodes);
        if header.id_next >= P || elements.any(|&cell| cell >= P) {
            return refuse(17, 0);
        }
        Ok(record)
    }

    /// "7 a READ node .., then 11 an EVAL node."
    fn split_nodes(&self) -> (&[u64], &[u64]) {
        self.nodes
            .split_at(READ_NODE * self.header.num_read as usize)
    }

    pub fn read_nodes(&self) -> impl Iterator<Item = &[u64]> {
        self.split_nodes().0.chunks_exact(READ_NODE)
    }

    pub fn eval_nodes(&self) -> impl Iterator<Item = &[u64]> {
        self.split_nodes().1.chunks_exact(EVAL_NODE)
    }
}
