//! What docs/REPLAY.md says of settings and looks, at the ends of numbers and buffers.

use crate::instruction::{Buffer, Instruction, BUFFERS, SIZES};
use crate::script::Script;

/// Around the largest numbers of each width.
const NUMBERS: [u64; 8] = [
    0,
    255,
    256,
    (1 << 32) - 1,
    1 << 32,
    (1 << 32) + 1,
    u64::MAX - 1,
    u64::MAX,
];

/// "A cell past the end is left out."
fn of_ends(script: &mut Script, buffer: Buffer, size: u64) {
    script.ask(Instruction::Show(buffer, 0, 9));
    for at in [0, size - 5, size, u64::MAX - 1, u64::MAX] {
        script.ask(Instruction::Set(buffer, at, NUMBERS.to_vec()));
        script.ask(Instruction::Set(buffer, at, Vec::new()));
        for cells in [0, 1, 9, u64::MAX] {
            // Of the whole buffer a sum is enough.
            if at > 0 || cells < u64::MAX {
                script.ask(Instruction::Show(buffer, at, cells));
            }
            script.ask(Instruction::Sum(buffer, at, cells));
        }
    }
}

/// "Cell i - back and step more, with the cell's width wrapping; it is `step` where i is less than back or
/// back is 0."
fn of_rises(script: &mut Script, buffer: Buffer, size: u64) {
    for back in [0, 1, 3, u64::MAX] {
        for step in NUMBERS {
            for (at, cells) in [(0, 7), (5, 8), (size - 3, u64::MAX)] {
                script.ask(Instruction::Rise {
                    buffer,
                    at,
                    cells,
                    back,
                    step,
                });
            }
            script.ask(Instruction::Sum(buffer, 0, 16));
            script.ask(Instruction::Show(buffer, size - 4, 5));
        }
        script.ask(Instruction::Show(buffer, 0, 16));
    }
}

/// "A u32 .. is taken for the largest that fits": in a state, which the step that is refused gives back, in an
/// entry, and in the numbers of calls.
fn of_words(script: &mut Script) {
    for number in NUMBERS {
        for i in 0..7 {
            let mut state = [1, 2, 3, 4, 5, 6, 7];
            state[i] = number;
            script.ask(Instruction::State(state));
            script.ask(Instruction::Read(0, [0; 4]));
        }
        script.ask(Instruction::Entry(3, [number; 3]));
        script.ask(Instruction::Length(number));
        script.ask(Instruction::Add([number, 0, 0]));
        script.ask(Instruction::Open([number, number, 1, 1]));
        script.ask(Instruction::Open([1, 1, number, number]));
        script.ask(Instruction::Evaluate([number, number, 0, 0, 0]));
        script.ask(Instruction::Fill([number; 5], number));
        script.ask(Instruction::Write([number; 5]));
    }
    // "None where i is over 31."
    for at in [31, 32, 33, u64::MAX] {
        script.ask(Instruction::Entry(at, [at; 3]));
        script.ask(Instruction::Add([1, 1, 1]));
    }
}

/// "Or all where it has fewer": as much as is lent, a call can need.
fn of_lending(script: &mut Script) {
    let size = SIZES[Buffer::Bytes as usize] as u64;
    for cells in [0, 1, size - 1, size, size + 1, u64::MAX] {
        script.ask(Instruction::Lend(Buffer::Bytes, cells));
        for at in [0, 1, size - 2, size - 1, size] {
            script.ask(Instruction::WriteNumber(7, at));
            script.ask(Instruction::ReadNumber(at));
        }
    }
}

pub fn cases(script: &mut Script) {
    for (buffer, size) in BUFFERS.into_iter().zip(SIZES) {
        of_ends(script, buffer, size as u64);
        of_rises(script, buffer, size as u64);
    }
    of_words(script);
    of_lending(script);
}
