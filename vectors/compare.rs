//! usage: compare SEED COUNT PROGRAM.., or compare stand-in FAULT. Draws so many cases, runs the program
//! `replay` and the plain machine on each, the latter judged by the Rust of the request where it is built in,
//! and stops at the first difference, which it makes as small as it can. Called by the second line it is
//! itself such a program.

mod cells;
mod circuits;
mod coding;
mod draw;
mod draw_circuits;
mod draw_elements;
mod draw_lists;
mod draw_numbers;
mod draw_records;
mod draw_spoils;
mod draw_steps;
mod draws;
mod fault;
mod field;
mod instruction;
mod judge;
mod kinds;
#[cfg(oracle)]
mod list_judge;
mod machine;
mod names;
mod numbers;
mod parse;
mod program;
mod random;
mod reader;
mod record;
#[cfg(oracle)]
mod record_judge;
mod refusal;
#[cfg(oracle)]
mod row_names;
mod rows;
mod run_list;
mod shrink;
mod stand_in;
#[cfg(oracle)]
mod step_judge;
mod steps;
mod stream;
mod tally;
mod told;
mod trial;
mod whole;
#[cfg(oracle)]
mod whole_judge;
mod words;
mod writer;

use std::io;
use std::process::ExitCode;

use instruction::Instruction;
use judge::Judge;
use kinds::Seed;
use program::Program;
use random::Random;
use shrink::{Found, Shrink};
use trial::{difference, Other};

/// So many cases are one run of the program, if they are small.
const BATCH: usize = 40;
/// Cases between two lines of progress.
const PROGRESS: u64 = 1_000;
/// Of a long answer so many numbers are printed.
const PRINTED: usize = 120;

/// Cases that are run one after the other by one process.
#[derive(Default)]
struct Batch {
    seeds: Vec<Seed>,
    list: Vec<Instruction>,
    /// Where each case begins in the list.
    starts: Vec<usize>,
}

impl Batch {
    fn push(&mut self, seed: Seed) {
        self.seeds.push(seed);
        self.starts.push(self.list.len());
        self.list.extend(seed.case());
    }

    /// The case to which an instruction belongs.
    fn seed_at(&self, at: usize) -> Seed {
        let cases = self.starts.iter().filter(|&&start| start <= at).count();
        self.seeds[cases - 1]
    }
}

/// The case alone, or else all that ran before it too.
fn first_found(shrink: &mut Shrink<'_>, seed: Seed, batch: &Batch) -> io::Result<Option<Found>> {
    let Some(found) = shrink.find(seed.case())? else {
        return shrink.find(batch.list.clone());
    };
    halved(shrink, seed, found).map(Some)
}

/// A case of the same kind, of the smallest size that still differs.
fn halved(shrink: &mut Shrink<'_>, seed: Seed, found: Found) -> io::Result<Found> {
    for seed in seed.halved() {
        if let Some(smaller) = shrink.find(seed.case())? {
            return halved(shrink, seed, smaller);
        }
    }
    Ok(found)
}

fn printed(numbers: &[u64]) -> String {
    let words: Vec<String> = numbers.iter().take(PRINTED).map(u64::to_string).collect();
    match words.len() < numbers.len() {
        true => format!("{} and {} more", words.join(" "), numbers.len() - PRINTED),
        false if words.is_empty() => "nothing".to_string(),
        false => words.join(" "),
    }
}

fn print_found(found: &Found) {
    for (at, instruction) in found.list.iter().enumerate() {
        let mark = match at == found.difference.at {
            true => '>',
            false => ' ',
        };
        println!("  {mark} {}", instruction.words());
    }
    match &found.difference.other {
        Other::Program(numbers) => {
            println!("  plain Rust: {}", printed(&found.difference.plain));
            println!("  program:    {}", printed(numbers));
        }
        Other::Rust(what) => {
            println!("  plain Rust: {}", printed(&found.difference.plain));
            println!("  the Rust:   {what}");
        }
        Other::Failed(status) => println!("  the program ended with {status}"),
    }
}

fn report(program: &Program, batch: &Batch, at: usize) -> io::Result<()> {
    let seed = batch.seed_at(at);
    println!(
        "compare: a difference, first in a case of {}",
        seed.kind.name
    );
    let mut shrink = Shrink::new(program);
    match first_found(&mut shrink, seed, batch)? {
        Some(found) => {
            let found = shrink.smallest(found)?;
            let (left, trials) = (found.list.len(), shrink.trials);
            println!("compare: the smallest that {trials} trials found has {left} instructions:");
            print_found(&found);
        }
        None => println!("compare: it does not show again when the same is run once more"),
    }
    Ok(())
}

/// Whether all cases were answered alike.
fn compare(seed: u64, count: u64, program: &Program) -> io::Result<bool> {
    let mut random = Random(seed);
    let mut judge = Judge::default();
    let mut batch = Batch::default();
    for done in 1..=count {
        let case = Seed::of(random.next(), random.next());
        batch.push(case);
        if batch.seeds.len() == BATCH || case.kind.is_large || done == count {
            if let Some(difference) = difference(program, &batch.list, &mut judge)? {
                report(program, &batch, difference.at)?;
                return Ok(false);
            }
            batch = Batch::default();
        }
        if done % PROGRESS == 0 {
            eprintln!("compare: {done} of {count} cases");
        }
    }
    judge.report();
    println!("compare: {count} cases, no difference");
    Ok(true)
}

fn said(result: io::Result<bool>) -> ExitCode {
    match result {
        Ok(true) => ExitCode::SUCCESS,
        Ok(false) => ExitCode::FAILURE,
        Err(error) => {
            eprintln!("compare: {error}");
            ExitCode::FAILURE
        }
    }
}

fn main() -> ExitCode {
    let words: Vec<String> = std::env::args().skip(1).collect();
    if let [first, fault] = words.as_slice() {
        if first == "stand-in" {
            return said(stand_in::answer(fault).map(|()| true));
        }
    }
    let number = |i: usize| words.get(i)?.parse().ok();
    let (Some(seed), Some(count)) = (number(0), number(1)) else {
        eprintln!("usage: compare SEED COUNT PROGRAM..");
        return ExitCode::FAILURE;
    };
    let command = words[2..].to_vec();
    said(compare(seed, count, &Program { command }))
}
