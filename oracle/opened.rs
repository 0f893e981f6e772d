//! What the Rust keeps to itself, as document 01 lays it out in lent memory. A module inside the
//! Rust's trace.rs, since only such a one sees private fields.

use miden_core::{Felt, field::QuadFelt};

use super::{CircuitEvaluation, EvalNode, ReadNode, WireBus};
use crate::ContextId;

/// `num_wires` is what the whole circuit has; the rest goes as far as its steps are done, `num_read` and
/// `num_eval` with it.
#[derive(Clone, Debug, PartialEq)]
pub struct Opened {
    pub ctx: u32,
    pub clk: u32,
    pub num_wires: u32,
    pub num_read: u32,
    pub num_eval: u32,
    pub id_next: u64,
    pub values: Vec<u64>,
    pub counts: Vec<u32>,
    pub nodes: Vec<u64>,
}

/// "7 a READ node (ptr, id_0, v_0, id_1, v_1)."
fn read_cells(node: &ReadNode) -> [Felt; 7] {
    let ReadNode {
        ptr,
        id_0,
        v_0,
        id_1,
        v_1,
    } = *node;
    let ([a, b], [c, d]) = (v_0.cells(), v_1.cells());
    [ptr, id_0, a, b, id_1, c, d]
}

/// "11 an EVAL node (ptr, eval_op, id_0, v_0, id_1, v_1, id_2, v_2)."
fn eval_cells(node: &EvalNode) -> [Felt; 11] {
    let EvalNode {
        ptr,
        eval_op,
        id_0,
        v_0,
        id_1,
        v_1,
        id_2,
        v_2,
    } = *node;
    let ([a, b], [c, d], [e, f]) = (v_0.cells(), v_1.cells(), v_2.cells());
    [ptr, eval_op, id_0, a, b, id_1, c, d, id_2, e, f]
}

fn felt(cell: u64) -> Felt {
    Felt::new_unchecked(cell)
}

fn quad(a: u64, b: u64) -> QuadFelt {
    QuadFelt::of_cells([felt(a), felt(b)])
}

fn read_node(cells: &[u64]) -> ReadNode {
    ReadNode {
        ptr: felt(cells[0]),
        id_0: felt(cells[1]),
        v_0: quad(cells[2], cells[3]),
        id_1: felt(cells[4]),
        v_1: quad(cells[5], cells[6]),
    }
}

fn eval_node(cells: &[u64]) -> EvalNode {
    EvalNode {
        ptr: felt(cells[0]),
        eval_op: felt(cells[1]),
        id_0: felt(cells[2]),
        v_0: quad(cells[3], cells[4]),
        id_1: felt(cells[5]),
        v_1: quad(cells[6], cells[7]),
        id_2: felt(cells[8]),
        v_2: quad(cells[9], cells[10]),
    }
}

impl Opened {
    /// The Rust's own evaluation of which this is what it keeps. Cells are elements, as many as wires and
    /// nodes need.
    pub fn closed(&self) -> CircuitEvaluation {
        let wires = self.values.chunks_exact(2).zip(&self.counts);
        let (reads, evals) = self.nodes.split_at(7 * self.num_read as usize);
        CircuitEvaluation {
            ctx: ContextId(self.ctx),
            clk: self.clk.into(),
            wire_bus: WireBus {
                id_next: felt(self.id_next),
                wires: wires.map(|(v, &m)| (quad(v[0], v[1]), m)).collect(),
                num_wires: self.num_wires,
            },
            read_nodes: reads.chunks_exact(7).map(read_node).collect(),
            eval_nodes: evals.chunks_exact(11).map(eval_node).collect(),
        }
    }
}

impl CircuitEvaluation {
    pub fn opened(&self) -> Opened {
        let wires = &self.wire_bus.wires;
        let values = wires.iter().flat_map(|&(v, _)| v.cells());
        let reads = self.read_nodes.iter().flat_map(read_cells);
        let nodes = reads.chain(self.eval_nodes.iter().flat_map(eval_cells));
        Opened {
            ctx: self.ctx(),
            clk: self.clk(),
            num_wires: self.wire_bus.num_wires,
            num_read: self.num_read_rows(),
            num_eval: self.num_eval_rows(),
            id_next: self.wire_bus.id_next.as_canonical_u64(),
            values: values.map(Felt::as_canonical_u64).collect(),
            counts: wires.iter().map(|&(_, count)| count).collect(),
            nodes: nodes.map(Felt::as_canonical_u64).collect(),
        }
    }
}
