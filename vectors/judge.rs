//! The Rust of the request as a judge of calls, beside the plain models that answer them.

use crate::instruction::Instruction;
use crate::machine::Machine;
use crate::tally::Tally;
#[cfg(oracle)]
use crate::{
    cells::Cell, list_judge, record_judge, refusal::Refusal, step_judge, told::entry_of,
    whole_judge,
};

#[cfg(oracle)]
pub enum Verdict {
    /// The call is not in document 01's domain, or the Rust has no such call.
    Unasked,
    Agrees,
    Disagrees(String),
}

#[cfg(oracle)]
impl Verdict {
    pub fn of(is_alike: bool, what: &str) -> Verdict {
        match is_alike {
            true => Verdict::Agrees,
            false => Verdict::Disagrees(what.to_string()),
        }
    }
}

/// A call as it went: the machine before it, the call, the numbers that it wrote, and the machine after it.
#[cfg(oracle)]
pub struct Called<'a> {
    pub before: &'a Machine,
    pub call: &'a Instruction,
    pub written: &'a [u64],
    pub after: &'a Machine,
}

#[cfg(oracle)]
impl Called<'_> {
    /// The values of the answer, and what is written after them.
    pub fn answer(&self) -> Result<&[u64], Refusal> {
        match *self.written {
            [0, ref values @ ..] => Ok(values),
            [number, place, ..] => Err(Refusal {
                number: number as u32,
                place,
            }),
            _ => unreachable!("an answer is 0 or a refusal and its place"),
        }
    }

    /// Every surface that the Rust has is judged from here, and from here alone.
    fn verdict(&self) -> Verdict {
        use Instruction::*;
        match *self.call {
            Decode(word) => step_judge::of_decode(self, word),
            Open(numbers) => step_judge::of_open(self, numbers),
            Read(ptr, word) => step_judge::of_read(self, ptr, word),
            Eval(ptr, word) => step_judge::of_eval(self, ptr, word),
            Output => step_judge::of_output(self),
            Evaluate(numbers) => whole_judge::judge(self, numbers),
            Fill(..) | FillState(_) => record_judge::of_fill(self),
            Write(_) | WriteState => record_judge::of_write(self),
            ReadRecord => record_judge::of_read(self),
            Add(entry) => list_judge::of_add(self, &entry_of(entry)),
            TraceLen => list_judge::of_trace_len(self),
            FirstRow(clk) => list_judge::of_first_row(self, u32::of(clk)),
            _ => Verdict::Unasked,
        }
    }
}

/// Without the Rust's sources the plain models stand alone, and calls are counted all the same.
#[derive(Default)]
pub struct Judge(Tally);

impl Judge {
    /// What the instruction writes, or in which way the Rust disagrees.
    pub fn run(
        &mut self,
        machine: &mut Machine,
        instruction: &Instruction,
    ) -> Result<Vec<u64>, String> {
        if !instruction.is_call() {
            return Ok(machine.run(instruction));
        }
        let (written, is_judged) = judged(machine, instruction)?;
        let (code, _) = instruction.numbers();
        self.0.count(code, written[0], is_judged);
        Ok(written)
    }

    pub fn report(&self) {
        self.0.lines().iter().for_each(|line| eprintln!("{line}"));
    }
}

#[cfg(not(oracle))]
fn judged(machine: &mut Machine, call: &Instruction) -> Result<(Vec<u64>, bool), String> {
    Ok((machine.run(call), false))
}

#[cfg(oracle)]
fn judged(machine: &mut Machine, call: &Instruction) -> Result<(Vec<u64>, bool), String> {
    let before = &machine.clone();
    let written = machine.run(call);
    let called = Called {
        before,
        call,
        written: &written,
        after: machine,
    };
    match called.verdict() {
        Verdict::Unasked => Ok((written, false)),
        Verdict::Agrees => Ok((written, true)),
        Verdict::Disagrees(what) => Err(what),
    }
}
