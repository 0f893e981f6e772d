//! Runs a list of instructions on both sides, and finds the first one that they answer otherwise.

use std::io;

use crate::instruction::Instruction;
use crate::judge::Judge;
use crate::machine::Machine;
use crate::program::Program;
use crate::stream::{bytes_of, numbers_of, questions};

/// The instruction that is answered otherwise, and both answers.
pub struct Difference {
    pub at: usize,
    pub plain: Vec<u64>,
    pub other: Other,
}

pub enum Other {
    /// All that the program wrote from there on.
    Program(Vec<u64>),
    /// In which way the Rust disagrees with the plain Rust.
    Rust(String),
    /// The answers are the same, and then the program failed.
    Failed(String),
}

/// What each instruction writes, as far as the Rust agrees, and where it does not.
fn plain_answers(list: &[Instruction], judge: &mut Judge) -> (Vec<Vec<u64>>, Option<String>) {
    let mut machine = Machine::new();
    let mut answers = Vec::new();
    for instruction in list {
        match judge.run(&mut machine, instruction) {
            Ok(written) => answers.push(written),
            Err(what) => return (answers, Some(what)),
        }
    }
    (answers, None)
}

fn last_answer(list: &[Instruction]) -> Vec<u64> {
    let mut machine = Machine::new();
    let answers = list.iter().map(|instruction| machine.run(instruction));
    answers.last().unwrap_or_default()
}

/// Every byte is compared, so that a number in another form is another answer.
fn first_other(answers: &[Vec<u64>], bytes: &[u8]) -> Option<Difference> {
    let mut rest = bytes;
    for (at, plain) in answers.iter().enumerate() {
        match rest.strip_prefix(bytes_of(plain).as_slice()) {
            Some(after) if at + 1 < answers.len() || after.is_empty() => rest = after,
            _ => {
                return Some(Difference {
                    at,
                    plain: plain.clone(),
                    other: Other::Program(numbers_of(rest)),
                });
            }
        }
    }
    None
}

pub fn difference(
    program: &Program,
    list: &[Instruction],
    judge: &mut Judge,
) -> io::Result<Option<Difference>> {
    let running = program.start(questions(list))?;
    let (answers, disagreement) = plain_answers(list, judge);
    let (bytes, status) = running.finish()?;
    if let Some(what) = disagreement {
        return Ok(Some(Difference {
            at: answers.len(),
            plain: last_answer(&list[..=answers.len()]),
            other: Other::Rust(what),
        }));
    }
    let failed = (!status.success()).then(|| Difference {
        at: list.len().saturating_sub(1),
        plain: Vec::new(),
        other: Other::Failed(status.to_string()),
    });
    Ok(first_other(&answers, &bytes).or(failed))
}
