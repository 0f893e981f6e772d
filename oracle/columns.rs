//! The rows that the Rust fills, each column under its name: "columns are compared by name".

use std::borrow::BorrowMut;

use miden_air::{AceCols, QuadFeltExpr, trace::chiplets::ace::ACE_CHIPLET_NUM_COLS};
use miden_core::{Felt, field::PrimeCharacteristicRing};

use crate::CircuitEvaluation;

pub type Column = (&'static str, u64);
pub type Row = [Column; ACE_CHIPLET_NUM_COLS];

/// The columns that READ and EVAL rows name otherwise.
fn named_last(cols: &mut AceCols<Felt>, is_read: bool) -> [(&'static str, Felt); 4] {
    if is_read {
        let read = cols.read_mut();
        [
            ("num_eval", read.num_eval),
            ("unused", read.unused),
            ("m_1", read.m_1),
            ("m_0", read.m_0),
        ]
    } else {
        let eval = cols.eval_mut();
        let QuadFeltExpr(v_20, v_21) = eval.v_2;
        [
            ("id_2", eval.id_2),
            ("v_2[0]", v_20),
            ("v_2[1]", v_21),
            ("m_0", eval.m_0),
        ]
    }
}

fn named(row: &mut [Felt], is_read: bool) -> Row {
    let cols: &mut AceCols<Felt> = row.borrow_mut();
    let (QuadFeltExpr(v_00, v_01), QuadFeltExpr(v_10, v_11)) = (cols.v_0, cols.v_1);
    let [a, b, c, d] = named_last(cols, is_read);
    [
        ("s_start", cols.s_start),
        ("s_block", cols.s_block),
        ("ctx", cols.ctx),
        ("ptr", cols.ptr),
        ("clk", cols.clk),
        ("eval_op", cols.eval_op),
        ("id_0", cols.id_0),
        ("v_0[0]", v_00),
        ("v_0[1]", v_01),
        ("id_1", cols.id_1),
        ("v_1[0]", v_10),
        ("v_1[1]", v_11),
        a,
        b,
        c,
        d,
    ]
    .map(|(name, cell)| (name, cell.as_canonical_u64()))
}

impl CircuitEvaluation {
    /// The Rust's rows, filled at an offset into zeros; those before it are zeros still.
    pub fn rows(&self, offset: usize) -> Vec<Row> {
        let mut cells = Felt::zero_vec((offset + self.num_rows()) * ACE_CHIPLET_NUM_COLS);
        self.fill(offset, &mut cells);
        let (before, filled) = cells.split_at_mut(offset * ACE_CHIPLET_NUM_COLS);
        assert!(before.iter().all(|&cell| cell == Felt::ZERO));
        let reads = self.num_read_rows() as usize;
        let rows = filled.chunks_exact_mut(ACE_CHIPLET_NUM_COLS).enumerate();
        rows.map(|(i, row)| named(row, i < reads)).collect()
    }
}
