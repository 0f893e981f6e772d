//! The plain machine as a process in the place of the program `replay`, so that `./compare` can be seen to
//! find faults (tools/compare-test).

use std::io::{self, Read, Write};

use crate::fault::FAULTS;
use crate::instruction::Instruction;
use crate::machine::Machine;
use crate::stream::{bytes_of, numbers_of};

/// The first instruction of a stream, and what comes after it.
fn first(numbers: &[u64]) -> Option<(Instruction, &[u64])> {
    let [code, count, rest @ ..] = numbers else {
        return None;
    };
    let (arguments, rest) = rest.split_at_checked(*count as usize)?;
    Some((Instruction::parse(*code, arguments)?, rest))
}

/// Answers standard input with a fault, or with "none".
pub fn answer(fault: &str) -> io::Result<()> {
    let Some((_, run)) = FAULTS.iter().find(|(name, _)| *name == fault) else {
        return Err(io::Error::other(format!("no fault is called '{fault}'")));
    };
    let mut input = Vec::new();
    io::stdin().read_to_end(&mut input)?;
    let numbers = numbers_of(&input);
    let mut rest = numbers.as_slice();
    let mut machine = Machine::new();
    let mut output = Vec::new();
    while let Some((instruction, after)) = first(rest) {
        output.extend(bytes_of(&run(&mut machine, &instruction)));
        rest = after;
    }
    io::stdout().write_all(&output)
}
