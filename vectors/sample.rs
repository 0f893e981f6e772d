//! The stored sample of the program `replay`: `sample questions` writes the instructions, `sample answers` the
//! numbers that document 01's plain models and docs/REPLAY.md give, and `sample other FILE` says which instruction
//! FILE answers otherwise first. Built with the oracle (cfg `oracle`), every call in document 01's domain is put to
//! the Rust too, and it stops where the Rust disagrees.

mod arithmetic_cases;
mod cells;
mod circuits;
mod coding;
mod draws;
mod field;
mod fill_cases;
mod instruction;
mod judge;
#[cfg(oracle)]
mod list_judge;
mod machine;
mod machine_cases;
mod names;
mod number_cases;
mod numbers;
mod pattern;
mod random;
mod reader;
mod reader_cases;
mod record;
mod record_circuits;
mod record_form;
#[cfg(oracle)]
mod record_judge;
mod record_large;
mod record_random;
mod record_script;
mod refusal;
#[cfg(oracle)]
mod row_names;
mod rows;
mod run_cases;
mod run_list;
mod run_random;
mod run_script;
mod script;
mod spoil;
mod state_cases;
mod step_cases;
#[cfg(oracle)]
mod step_judge;
mod step_random;
mod step_script;
mod steps;
mod stream;
mod tally;
mod told;
mod whole;
mod whole_cases;
#[cfg(oracle)]
mod whole_judge;
mod whole_large;
mod whole_random;
mod whole_script;
mod whole_values;
mod writer;

use std::io::{self, Write};
use std::process::ExitCode;

use instruction::Instruction;
use script::{Answered, Script};

/// Small circuits first: the buffers that are held grow.
const LISTS: [fn(&mut Script); 17] = [
    arithmetic_cases::cases,
    number_cases::cases,
    step_cases::cases,
    state_cases::cases,
    step_random::cases,
    run_cases::cases,
    run_random::cases,
    whole_cases::cases,
    whole_values::cases,
    whole_random::cases,
    fill_cases::cases,
    reader_cases::cases,
    record_random::cases,
    record_circuits::cases,
    whole_large::cases,
    record_large::cases,
    machine_cases::cases,
];

/// `trace_len` with an argument: "an instruction that the table does not have, with as many arguments, is answered
/// by 255, and ends it".
const NO_INSTRUCTION: [u64; 3] = [26, 1, 5];
const NO_ANSWER: u64 = 255;

fn questions(answered: &[Answered]) -> Vec<u8> {
    let mut bytes = stream::questions(answered.iter().map(|a| &a.instruction));
    bytes.extend(stream::bytes_of(&NO_INSTRUCTION));
    bytes.extend(stream::questions([&Instruction::TraceLen]));
    bytes
}

fn answers(answered: &[Answered]) -> Vec<u8> {
    let written = answered.iter().flat_map(|a| a.written.iter().copied());
    let numbers: Vec<u64> = written.chain([NO_ANSWER]).collect();
    stream::bytes_of(&numbers)
}

/// The first instruction whose numbers are others in a program's output.
fn first_other(answered: &[Answered], output: &[u8]) -> Option<String> {
    let numbers = stream::numbers_of(output);
    let mut rest = numbers.as_slice();
    for (
        i,
        Answered {
            instruction,
            written,
        },
    ) in answered.iter().enumerate()
    {
        let (found, after) = rest.split_at(written.len().min(rest.len()));
        if found != written {
            return Some(format!(
                "{i}: {instruction:?}: {found:?} and not {written:?}"
            ));
        }
        rest = after;
    }
    (rest != [NO_ANSWER]).then(|| format!("the end: {rest:?} and not [{NO_ANSWER}]"))
}

fn made() -> Script {
    let mut script = Script::new();
    LISTS.iter().for_each(|cases| cases(&mut script));
    script
}

fn report(script: &Script) {
    script.report();
    let instructions = script.answered.len();
    let calls = script.answered.iter().filter(|a| a.instruction.is_call());
    eprintln!(
        "{instructions} instructions, {} of them calls",
        calls.count()
    );
}

fn main() -> ExitCode {
    let words: Vec<String> = std::env::args().skip(1).collect();
    let words: Vec<&str> = words.iter().map(String::as_str).collect();
    let written = match words[..] {
        ["questions"] => io::stdout().write_all(&questions(&made().answered)),
        ["answers"] => {
            let script = made();
            report(&script);
            io::stdout().write_all(&answers(&script.answered))
        }
        ["other", file] => std::fs::read(file).map(|output| {
            let other = first_other(&made().answered, &output);
            println!("{}", other.as_deref().unwrap_or("no other answer"));
        }),
        _ => Err(io::Error::other(
            "usage: sample questions|answers|other FILE",
        )),
    };
    match written {
        Ok(()) => ExitCode::SUCCESS,
        Err(error) => {
            eprintln!("sample: {error}");
            ExitCode::FAILURE
        }
    }
}
