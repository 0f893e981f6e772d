//! Faults of a program, such as "a careful reader still makes". Each runs the machine and then does or
//! answers something else.

use crate::field::{decode, P};
use crate::instruction::{Arithmetic, Instruction};
use crate::machine::Machine;
use crate::rows::WIDTH;
use crate::told::header_numbers;

/// What the instruction writes.
pub type Run = fn(&mut Machine, &Instruction) -> Vec<u64>;

pub const FAULTS: [(&str, Run); 13] = [
    ("none", Machine::run),
    ("sum", sum),
    ("once", once),
    ("left", left),
    ("output", output),
    ("clear", clear),
    ("many", many),
    ("row", row),
    ("left-over", left_over),
    ("form", form),
    ("full", full),
    ("first-row", first_row),
    ("end", end),
];

/// A sum that is p is not brought down to 0.
fn sum(machine: &mut Machine, instruction: &Instruction) -> Vec<u64> {
    match instruction {
        Instruction::Felt(Arithmetic::Add, [a, b]) if a.checked_add(*b) == Some(P) => vec![0, P],
        _ => machine.run(instruction),
    }
}

/// The count of a gate's left operand.
fn left_count<'a>(machine: &'a mut Machine, word: u64) -> &'a mut u32 {
    let left = decode(word).map_or(0, |[left, ..]| left);
    let position = machine.state.num_wires() - 1 - left as usize;
    &mut machine.buffers.counts.lent_mut()[position]
}

/// A wire that both operands name is counted once.
fn once(machine: &mut Machine, instruction: &Instruction) -> Vec<u64> {
    let written = machine.run(instruction);
    if let (Some(0), Instruction::Eval(_, word)) = (written.first(), instruction) {
        if decode(*word).is_some_and(|[left, right, _]| left == right) {
            *left_count(machine, *word) -= 1;
        }
    }
    written
}

/// The left count is not raised where the right operand is refused.
fn left(machine: &mut Machine, instruction: &Instruction) -> Vec<u64> {
    let written = machine.run(instruction);
    if let (Some(10), Instruction::Eval(_, word)) = (written.first(), instruction) {
        *left_count(machine, *word) -= 1;
    }
    written
}

/// Of the last wire only the first part is looked at.
fn output(machine: &mut Machine, instruction: &Instruction) -> Vec<u64> {
    let written = machine.run(instruction);
    let state = machine.state;
    match (written.first(), instruction) {
        (Some(12), Instruction::Output)
            if machine.buffers.values.lent()[2 * state.num_wires() - 2] == 0 =>
        {
            [&[0], header_numbers(state.header()).as_slice()].concat()
        }
        _ => written,
    }
}

/// A refused evaluation leaves the first count as it is.
fn clear(machine: &mut Machine, instruction: &Instruction) -> Vec<u64> {
    let count = machine.buffers.counts.lent().first().copied();
    let written = machine.run(instruction);
    if let (Some(8..=12), Instruction::Evaluate(_)) = (written.first(), instruction) {
        machine.buffers.counts.lent_mut()[0] = count.unwrap_or(0);
    }
    written
}

/// A circuit of more than 256 wires has its first wire counted once too often.
fn many(machine: &mut Machine, instruction: &Instruction) -> Vec<u64> {
    let written = machine.run(instruction);
    if let (Some(0), Instruction::Evaluate(numbers)) = (written.first(), instruction) {
        if numbers[3] + numbers[4] > 256 {
            machine.buffers.counts.lent_mut()[0] += 1;
        }
    }
    written
}

/// The num_eval cell of the first READ row holds num_eval.
fn row(machine: &mut Machine, instruction: &Instruction) -> Vec<u64> {
    let written = machine.run(instruction);
    if let (Some(0), Instruction::Fill(header, offset)) = (written.first(), instruction) {
        if header[2] > 0 {
            machine.rows.lent_mut()[WIDTH * *offset as usize + 12] += 1;
        }
    }
    written
}

/// Bytes left over are not seen.
fn left_over(machine: &mut Machine, instruction: &Instruction) -> Vec<u64> {
    let written = machine.run(instruction);
    match (written.first(), instruction) {
        (Some(23), Instruction::ReadRecord) => vec![0, 0, 0, 0, 1, 0],
        _ => written,
    }
}

/// A number that is not in shortest form is a number.
fn form(machine: &mut Machine, instruction: &Instruction) -> Vec<u64> {
    let written = machine.run(instruction);
    match (written.first(), instruction) {
        (Some(16), Instruction::ReadNumber(at)) => vec![0, 0, at + 2],
        _ => written,
    }
}

/// A full list refuses an equal clock too.
fn full(machine: &mut Machine, instruction: &Instruction) -> Vec<u64> {
    let list = machine.list;
    let written = machine.run(instruction);
    match (written.first(), instruction) {
        (Some(0), Instruction::Add(_)) if list.len == 32 => {
            machine.list = list;
            [&[25, 0], &written[1..]].concat()
        }
        _ => written,
    }
}

/// The first row of a clock is one too far.
fn first_row(machine: &mut Machine, instruction: &Instruction) -> Vec<u64> {
    let written = machine.run(instruction);
    match (written.as_slice(), instruction) {
        (&[0, row], Instruction::FirstRow(_)) => vec![0, row + 1],
        _ => written,
    }
}

/// The program ends at a gate word that does not decode.
fn end(machine: &mut Machine, instruction: &Instruction) -> Vec<u64> {
    let written = machine.run(instruction);
    if let (Some(8), Instruction::Decode(_)) = (written.first(), instruction) {
        std::process::exit(0);
    }
    written
}
