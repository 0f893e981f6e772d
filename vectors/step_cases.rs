//! Calls of opening, steps and result: each refusal, its neighbours, and two reasons at once.

use crate::circuits::{gate as word, listing as listed, WORD_OF_P12};
use crate::field::{ID_BITS, P};
use crate::instruction::{Buffer, Instruction};
use crate::script::{room_of, Lengths, Said, Script, NEAR_P};
use crate::step_script::{
    calls, cell, count, last_wire, seven, sound_states, value, Steps, ALL, GOOD_WORD, NEAR_FULL,
    OPENINGS, SEVEN_WIRES,
};

const LISTING: [u32; 4] = [0, 7, 1, 4];

/// An opcode that is refused, with ids that are made.
const NO_OPCODE: u64 = 3;

/// Enough, and each buffer one short, one over and empty.
fn lengths_near(lent: Lengths) -> Vec<Lengths> {
    let mut all = vec![lent, lent.map(|n| n - 1), [0; 3]];
    for buffer in 0..3 {
        for length in [lent[buffer] - 1, lent[buffer] + 1, 0] {
            let mut lengths = lent;
            lengths[buffer] = length;
            all.push(lengths);
        }
    }
    all
}

fn opening(steps: &mut Steps<'_>) {
    let mut open = |lent, opened: [u32; 4]| {
        steps.begin(lent);
        steps.call(Instruction::Open(opened.map(u64::from)));
    };
    for [num_read, num_eval] in OPENINGS {
        for lent in [ALL, [0; 3]] {
            open(lent, [1, 2, num_read, num_eval]);
        }
    }
    for opened in [[0, u32::MAX, 1, 1], [u32::MAX, 0, 2, 3], [3, 4, 4, 5]] {
        for lent in lengths_near(room_of(opened)) {
            open(lent, opened);
        }
    }
}

/// The listing step by step, with the result asked after every step, and steps past the end.
fn listing(steps: &mut Steps<'_>) {
    let listed = listed();
    for circuit in [listed.clone(), listed.with_gate(3, WORD_OF_P12)] {
        steps.begin(room_of(LISTING));
        let mut call = |call| steps.call_and(Said::Cells, call);
        call(Instruction::Open(LISTING.map(u64::from)));
        call(Instruction::Output);
        call(Instruction::Read(0, [3, 0, 4, 0]));
        for (word, ptr) in circuit.gates.into_iter().zip(4..) {
            call(Instruction::Output);
            call(Instruction::Eval(ptr, word));
        }
        calls().into_iter().for_each(call);
    }
}

/// Every call on every state that calls give, with room enough and near it.
fn turns(steps: &mut Steps<'_>) {
    for state in sound_states() {
        for lent in lengths_near(room_of(SEVEN_WIRES)) {
            steps.calls(lent, state);
        }
    }
}

/// What a call does not look at, out of every range: wires that are not made yet, the nodes, and for
/// the result all wires but the last.
fn not_looked_at(steps: &mut Steps<'_>) {
    for state in sound_states() {
        let [values, counts, nodes] = room_of(SEVEN_WIRES);
        let from = if state.made() == counts {
            0
        } else {
            state.made()
        };
        let mut cells: Vec<Instruction> = Vec::new();
        cells.extend((2 * from..values).map(|i| cell(Buffer::Values, i, u64::MAX)));
        cells.extend((from..counts).map(|i| cell(Buffer::Counts, i, u32::MAX.into())));
        cells.extend((0..nodes).map(|i| cell(Buffer::Nodes, i, P)));
        let call = if state.lacks_reads() {
            Instruction::Read(20, GOOD_WORD)
        } else if state.lacks_evals() {
            Instruction::Eval(21, word(1, 6, 3))
        } else {
            cells.extend(last_wire([0, 0]));
            Instruction::Output
        };
        steps.ask_with(room_of(SEVEN_WIRES), state, &cells, call);
    }
}

fn handed(steps: &mut Steps<'_>) {
    let reading = [seven(0, 0), seven(1, 0)];
    for (place, number) in (0..5).flat_map(|place| NEAR_P.map(|number| (place, number))) {
        for (second, state) in (0..5).zip(reading.iter().cycle()) {
            let mut numbers = [11, 12, 13, 14, 20];
            numbers[second] = P;
            numbers[place] = number;
            let [a, b, c, d, ptr] = numbers;
            steps.ask(ALL, *state, Instruction::Read(ptr, [a, b, c, d]));
        }
    }
    for ptr in [20, P - 1, P, u64::MAX] {
        steps.ask(ALL, seven(0, 0), Instruction::Read(ptr, GOOD_WORD));
        steps.ask(ALL, seven(0, 0), Instruction::Read(ptr, [P - 1; 4]));
        for gate in [word(1, 6, 3), word(NO_OPCODE, 6, 3), P - 1, P, u64::MAX] {
            steps.ask(ALL, seven(2, 1), Instruction::Eval(ptr, gate));
        }
    }
    // "13, 6, 7": each ahead of all that follow it.
    let short = room_of(SEVEN_WIRES).map(|n| n - 1);
    for state in sound_states() {
        for lent in [short, ALL] {
            steps.ask(lent, state, Instruction::Read(P, [P; 4]));
            steps.ask(lent, state, Instruction::Eval(P, P));
            steps.ask(lent, state, Instruction::Eval(20, word(NO_OPCODE, 0, 7)));
        }
    }
}

fn gates(steps: &mut Steps<'_>) {
    for opcode in 0..16 {
        for evals in 0..3 {
            steps.eval_with(seven(2, evals), &[], word(opcode, 6, 4));
        }
    }
    let pairs = [
        [[0, 0], [1, 0]],
        [[0, 1], [0, 1]],
        [[1, 2], [3, 4]],
        [[P - 1, P - 1], [P - 1, P - 1]],
        [[P - 1, 0], [1, P - 1]],
        [[1 << 32, (1 << 32) - 1], [(1 << 32) + 1, 1 << 63]],
    ];
    for [left, right] in pairs {
        for opcode in 0..3 {
            let cells = [value(6, left), value(3, right)].concat();
            steps.eval_with(seven(2, 0), &cells, word(opcode, 6, 3));
            steps.eval_with(seven(2, 2), &cells, word(opcode, 3, 3));
        }
    }
}

/// Every id and some past the wires, on the left, on the right and on both sides.
fn operand_ids(steps: &mut Steps<'_>) {
    for state in [seven(2, 0), seven(2, 1), seven(2, 2)] {
        for id in (0..9).chain([32_767, (1 << ID_BITS) - 1]) {
            for (opcode, [left, right]) in (0..3).zip([[id, 6], [6, id], [id, id]]) {
                steps.eval_with(state, &[], word(opcode, left, right));
            }
        }
    }
}

fn counts(steps: &mut Steps<'_>) {
    let state = seven(2, 1);
    for left in NEAR_FULL {
        for right in NEAR_FULL {
            let cells = [count(5, left), count(2, right)];
            steps.eval_with(state, &cells, word(0, 5, 2));
        }
        steps.eval_with(state, &[count(5, left)], word(1, 5, 5));
        // The count of a wire that is no operand, and a right operand that is not made.
        steps.eval_with(state, &[count(4, left), count(1, left)], word(2, 5, 5));
        steps.eval_with(state, &[count(5, left)], word(2, 5, 1));
    }
}

/// Stored cells near p, alone and with each reason that comes before or after.
fn stored(steps: &mut Steps<'_>) {
    let state = seven(2, 2);
    let full = |id| count(id, u32::MAX);
    for number in NEAR_P {
        for id in [1, 4] {
            let cells = value(id, [number; 2]);
            for held in [&cells[..1], &cells[1..], &cells] {
                let with = |more: &[Instruction]| [held, more].concat();
                for (left, right) in [(4, 1), (4, 4), (1, 1), (3, 4), (id, 0), (0, id), (7, id)] {
                    steps.eval_with(state, &with(&[]), word(1, left, right));
                }
                steps.eval_with(state, &with(&[full(4)]), word(0, 4, 1));
                steps.eval_with(state, &with(&[full(1)]), word(0, 4, 1));
                steps.eval_with(state, &with(&[full(id)]), word(NO_OPCODE, 4, 1));
            }
        }
        // A cell that no operand has.
        steps.eval_with(state, &last_wire([number; 2]), word(2, 5, 3));
    }
}

/// "12 (last wire is not (0, 0))"; the wires beside the last do not tell.
fn results(steps: &mut Steps<'_>) {
    let pairs = [
        [0, 0],
        [1, 0],
        [0, 1],
        [P, 0],
        [0, P],
        [P - 1, 1],
        [u64::MAX, 0],
    ];
    for state in sound_states() {
        for pair in pairs {
            let last = last_wire(pair);
            steps.ask_with(room_of(SEVEN_WIRES), state, &last, Instruction::Output);
            let cells = [last, value(1, [0, 0]), value(3, [0, 0])].concat();
            steps.ask_with(ALL, state, &cells, Instruction::Output);
        }
    }
}

pub fn cases(script: &mut Script) {
    let steps = &mut Steps(script);
    opening(steps);
    listing(steps);
    turns(steps);
    not_looked_at(steps);
    handed(steps);
    gates(steps);
    operand_ids(steps);
    counts(steps);
    stored(steps);
    results(steps);
}
