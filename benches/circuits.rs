//! Compares the exported whole evaluation with plain Rust, and then times both over the same buffers and
//! the same memory cells. Plain Rust multiplies in two ways.

#[path = "../vectors/random.rs"]
mod random;
mod random_circuit;
mod times;

use std::hint::black_box;

use ace::{Buffers, Header, Refused, State};
use random::Random;
use random_circuit::{any_element, edge_element, questions, Cells, Circuit};
use times::{both, ratio, rounds, timed};

const ROUNDS: usize = 201;
const SEED: u64 = 1;

/// How many wires a round makes at least: few, so that a round is seldom interrupted.
const WIRES: usize = 16_384;

const SIZES: [u64; 6] = [6, 96, 1_024, 6_044, 13_912, 32_768];

/// Circuits that are compared and not timed.
const EDGES: usize = 100;
const EDGE_WIRES: u64 = 96;

/// The sizes at which buffers are also cleared before each evaluation.
const LARGE: usize = 6_044;

const STEPPED: usize = 13_912;

const CTX: u32 = 2;
const CLK: u32 = 7;

type Answer = Result<Header, Refused>;
type Evaluate = fn(u32, u32, u64, u64, u64, &[u64], &mut Buffers<'_>) -> Answer;

const SIDES: usize = 3;
const EVALUATE: [Evaluate; SIDES] = [
    ace::eval_circuit,
    plain_circuit::by_remainder,
    plain_circuit::by_form,
];

fn evaluate(by: Evaluate, circuit: &Circuit, cells: &mut Cells) -> Answer {
    let &Circuit {
        ptr,
        num_vars,
        num_eval,
        ref memory,
    } = circuit;
    by(CTX, CLK, ptr, num_vars, num_eval, memory, &mut cells.lend())
}

/// The same circuit by the step surface: opening, every step, the result.
fn by_steps(circuit: &Circuit, cells: &mut Cells) -> Answer {
    let mut lent = cells.lend();
    let (num_read, num_eval) = (circuit.num_vars as u32 / 2, circuit.num_eval as u32);
    let mut state = State::open(CTX, CLK, num_read, num_eval, &lent)?;
    let mut ptr = circuit.ptr;
    for &[a, b, c, d] in circuit.variables().as_chunks().0 {
        state.read(ptr, [[a, b], [c, d]], &mut lent)?;
        ptr += 4;
    }
    for &word in circuit.gates() {
        state.eval(ptr, word, &mut lent)?;
        ptr += 1;
    }
    state.result(&lent)
}

/// Refusals too, and every cell of all buffers, so that no wrong evaluation can be fast.
fn compare(circuit: &Circuit) -> usize {
    let questions = questions(circuit);
    for question in &questions {
        let [rattle, remainder, form] = EVALUATE.map(|by| {
            let mut cells = question.cells.clone();
            let answer = evaluate(by, &question.circuit, &mut cells);
            (answer, cells)
        });
        let number = rattle.0.map_or_else(|refused| refused.number, |_| 0);
        assert_eq!(number, question.number, "another refusal than meant");
        let same = rattle == remainder && rattle == form;
        assert!(same, "refusal {number}: answers or cells differ");
        if number == 0 {
            let mut cells = question.cells.clone();
            let answer = by_steps(&question.circuit, &mut cells);
            assert!(rattle == (answer, cells), "the steps differ");
        }
    }
    questions.len()
}

/// How the buffers are before each evaluation.
#[derive(Clone, Copy)]
enum Before {
    /// As the evaluation before left them.
    Kept,
    /// Set to zero, outside the timing.
    Cleared,
}

/// Nanoseconds a wire of one round.
fn round(circuit: &Circuit, cells: &mut Cells, before: Before, side: usize) -> f64 {
    let repeats = WIRES.div_ceil(circuit.wires());
    let once = |cells: &mut Cells| {
        evaluate(EVALUATE[side], black_box(circuit), black_box(cells)).expect("it is accepted")
    };
    let nanoseconds: f64 = match before {
        Before::Kept => timed(|| {
            for _ in 0..repeats {
                black_box(once(cells));
            }
        }),
        Before::Cleared => (0..repeats)
            .map(|_| {
                cells.clear();
                timed(|| once(cells))
            })
            .sum(),
    };
    nanoseconds / (repeats * circuit.wires()) as f64
}

fn row(circuit: &Circuit, before: Before) {
    let mut cells = Cells::of(circuit);
    let [rattle, remainder, form] =
        rounds::<SIDES>(ROUNDS, |side| round(circuit, &mut cells, before, side));
    let buffers = match before {
        Before::Kept => "as they were left",
        Before::Cleared => "cleared before",
    };
    println!(
        "| {} | {buffers} | {} | {} | {} | {} | {} |",
        circuit.wires(),
        both(rattle),
        both(remainder),
        ratio(rattle, remainder),
        both(form),
        ratio(rattle, form),
    );
}

/// Whole evaluation and the step surface in turn.
fn steps(circuit: &Circuit) {
    let mut cells = Cells::of(circuit);
    let ways: [fn(&Circuit, &mut Cells) -> Answer; 2] = [by_steps, |circuit, cells| {
        evaluate(ace::eval_circuit, circuit, cells)
    }];
    let [stepped, whole] = rounds::<2>(ROUNDS, |way| {
        timed(|| ways[way](black_box(circuit), black_box(&mut cells))) / circuit.wires() as f64
    });
    println!(
        "steps at {} wires: {} ns a wire, {} times whole evaluation",
        circuit.wires(),
        both(stepped),
        ratio(stepped, whole)
    );
}

fn main() {
    let mut random = Random(SEED);
    let circuits = SIZES.map(|wires| Circuit::random(&mut random, wires, any_element));
    let edges = [(); EDGES].map(|()| Circuit::random(&mut random, EDGE_WIRES, edge_element));
    let compared: usize = circuits.iter().chain(&edges).map(compare).sum();
    println!("{compared} evaluations, accepted and refused: no difference");
    println!("ns a wire and Rattle/Rust, minimum / median of {ROUNDS} rounds");
    println!("| wires | buffers | Rattle | Rust, 128-bit remainder | ratio | Rust, prime's form | ratio |");
    println!("|---|---|---|---|---|---|---|");
    for circuit in &circuits {
        row(circuit, Before::Kept);
        if circuit.wires() >= LARGE {
            row(circuit, Before::Cleared);
        }
    }
    circuits
        .iter()
        .filter(|circuit| circuit.wires() == STEPPED)
        .for_each(steps);
}
