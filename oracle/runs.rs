//! The Rust's run list, and what it says of itself: the trace that it fills.

use miden_core::Felt;

use crate::{
    CircuitEvaluation,
    trace::{ChipletTraceFragment, chiplets::Ace},
};

#[derive(Default)]
pub struct Runs(Ace);

/// A run as its rows show it.
#[derive(Debug, PartialEq)]
pub struct Run {
    pub clk: u64,
    pub num_read: u64,
    pub num_eval: u64,
    pub first_row: u64,
}

/// Of the evaluations in the list only the clock and the counts matter: any words, any gates.
fn any_evaluation(clk: u32, num_read: u32, num_eval: u32) -> CircuitEvaluation {
    let mut evaluation = CircuitEvaluation::open([0, clk, num_read, num_eval]);
    (0..num_read).for_each(|_| evaluation.read(0, [0; 4]));
    let first_wire = u64::from(2 * num_read + num_eval - 1);
    let gate = first_wire << 30 | first_wire;
    for _ in 0..num_eval {
        evaluation.eval(0, gate).expect("the first wire is made");
    }
    evaluation
}

impl Runs {
    pub fn add(&mut self, clk: u32, num_read: u32, num_eval: u32) {
        let evaluation = any_evaluation(clk, num_read, num_eval);
        self.0.add_circuit_evaluation(clk.into(), evaluation);
    }

    pub fn trace_len(&self) -> usize {
        self.0.trace_len()
    }

    /// The runs in the order of the filled trace.
    pub fn traced(self) -> Vec<Run> {
        let mut trace = ChipletTraceFragment::of_rows(self.trace_len());
        self.0.fill_trace(&mut trace);
        let mut runs: Vec<Run> = Vec::new();
        for (first_row, cols) in (0..).zip(trace.rows()) {
            if cols.s_start == Felt::ONE {
                runs.push(Run {
                    clk: cols.clk.as_canonical_u64(),
                    num_read: 0,
                    num_eval: 0,
                    first_row,
                });
            }
            let run = runs.last_mut().expect("the first row starts a run");
            assert_eq!(run.clk, cols.clk.as_canonical_u64());
            if cols.s_block == Felt::ONE {
                run.num_eval += 1;
            } else {
                run.num_read += 1;
            }
        }
        runs
    }
}
