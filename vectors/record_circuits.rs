//! Accepted evaluations: their records read, written, and filled from the record and from the state.

use crate::circuits::{gate, listing, sixteen, Circuit, ADD, MUL, SUB};
use crate::field::P;
use crate::random::Random;
use crate::record_script::{finished, Of, Records, ALL, BYTES, FILLING, ROWS};
use crate::script::{room, Script};
use crate::steps::Lent;
use crate::whole::{evaluate, Call};
use crate::writer::write;

const SEED: u64 = 4;
const CIRCUITS: usize = 30;
const LARGE: [[u64; 2]; 2] = [[200, 100], [2, 300]];

/// Elements are mostly of few digits.
fn element(random: &mut Random) -> u64 {
    match random.next() % 10 {
        0 => random.next() % P,
        1 => P - 1 - random.next() % 3,
        _ => random.next() % 12,
    }
}

/// Gates of any kind on wires made before, at last the newest wire less itself.
fn circuit(random: &mut Random, num_vars: u64, gates: u64) -> Circuit {
    let num_wires = num_vars + gates;
    let variables = (0..num_vars).map(|_| [element(random), element(random)]);
    let variables = variables.collect();
    let any_gate = |made: u64| {
        let [left, right] = [0, 1].map(|_| num_wires - 1 - random.next() % made);
        gate(random.next() % 3, left, right)
    };
    let mut gates: Vec<u64> = (num_vars..num_wires).map(any_gate).collect();
    *gates.last_mut().expect("a gate") = gate(SUB, 1, 1);
    Circuit { variables, gates }
}

/// Zeros and ones, and of the differences only such as are zero: few digits in a large circuit.
fn large_circuit(random: &mut Random, num_vars: u64, gates: u64) -> Circuit {
    let num_wires = num_vars + gates;
    let variables = (0..num_vars).map(|_| [random.next() % 2, 0]).collect();
    let small_gate = |made: u64| {
        let [left, right] = [0, 1].map(|_| num_wires - 1 - random.next() % made);
        match random.next() % 8 {
            0 => gate(SUB, left, left),
            1 => gate(ADD, left, right),
            _ => gate(MUL, left, right),
        }
    };
    let mut gates: Vec<u64> = (num_vars..num_wires).map(small_gate).collect();
    *gates.last_mut().expect("a gate") = gate(SUB, 1, 1);
    Circuit { variables, gates }
}

fn ask(records: &mut Records<'_>, clk: u32, circuit: &Circuit) {
    let (num_vars, num_eval) = (circuit.variables.len() as u64, circuit.gates.len() as u64);
    let call = Call {
        ctx: clk % 3,
        clk,
        ptr: 0,
        num_vars,
        num_eval,
    };
    let [values, counts, nodes] = room((num_vars / 2) as u32, num_eval as u32);
    let lent = &mut Lent {
        values: &mut vec![0; values],
        counts: &mut vec![0; counts],
        nodes: &mut vec![0; nodes],
    };
    let header = evaluate(&call, &circuit.cells(), lent);
    let header = header.unwrap_or_else(|refusal| panic!("refused {}", refusal.number));
    let mut out = vec![0; BYTES];
    let length = write(header, lent, &mut out).unwrap_or_else(|_| panic!("no room"));
    records.through(&out[..length], Of::Record(header));
    let opened = [header.ctx, header.clk, header.num_read, header.num_eval];
    let state = Of::State(finished(opened));
    if length < 1_000 {
        records.fill(ALL, state, u64::from(clk % 4), ROWS);
        records.write([values, counts, nodes], state, FILLING, length);
    }
}

pub fn cases(script: &mut Script) {
    let mut random = Random(SEED);
    let records = &mut Records(script);
    ask(records, 7, &listing());
    ask(records, 300, &sixteen());
    for clk in 0..CIRCUITS as u32 {
        let num_vars = 2 + 2 * (random.next() % 3);
        let gates = 4 + 4 * (random.next() % 2);
        let circuit = circuit(&mut random, num_vars, gates);
        ask(records, clk, &circuit);
    }
    for (clk, [num_vars, gates]) in (100_000..).zip(LARGE) {
        let circuit = large_circuit(&mut random, num_vars, gates);
        ask(records, clk, &circuit);
    }
}
