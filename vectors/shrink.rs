//! Makes a list of instructions that two sides answer otherwise smaller, as long as they still do.

use std::io;
use std::time::{Duration, Instant};

use crate::instruction::Instruction;
use crate::judge::Judge;
use crate::program::Program;
use crate::trial::{difference, Difference};

/// Each trial runs the program; after so many of them, or so long, what was found is taken.
const MOST_TRIALS: usize = 3_000;
const MOST_TIME: Duration = Duration::from_secs(60);

/// "The number n of its arguments, at most 16."
const MOST_ARGUMENTS: usize = 16;

/// Up to here numbers are lowered one by one.
const SMALL: u64 = 16;

pub struct Shrink<'a> {
    program: &'a Program,
    pub trials: usize,
    start: Instant,
}

/// A list and the first instruction of it that is answered otherwise, mostly its last.
pub struct Found {
    pub list: Vec<Instruction>,
    pub difference: Difference,
}

impl<'a> Shrink<'a> {
    pub fn new(program: &'a Program) -> Shrink<'a> {
        Shrink {
            program,
            trials: 0,
            start: Instant::now(),
        }
    }

    pub fn find(&mut self, list: Vec<Instruction>) -> io::Result<Option<Found>> {
        self.trials += 1;
        let difference = difference(self.program, &list, &mut Judge::default())?;
        Ok(difference.map(|difference| Found { list, difference }))
    }

    /// The smaller list takes the place of the old one where the two sides differ on it too.
    fn attempt(&mut self, found: &mut Found, list: Vec<Instruction>) -> io::Result<bool> {
        if self.trials >= MOST_TRIALS || self.start.elapsed() >= MOST_TIME {
            return Ok(false);
        }
        match self.find(list)? {
            Some(smaller) => {
                *found = smaller;
                self.cut(found)?;
                Ok(true)
            }
            None => Ok(false),
        }
    }

    /// What comes after the difference is left out. A program that ends without writing what it had to say
    /// differs too early, and needs it.
    fn cut(&mut self, found: &mut Found) -> io::Result<()> {
        let end = found.difference.at + 1;
        if end < found.list.len() {
            if let Some(cut) = self.find(found.list[..end].to_vec())? {
                *found = cut;
            }
        }
        Ok(())
    }

    /// Runs of instructions are left out, long ones first.
    fn drop_instructions(&mut self, found: &mut Found) -> io::Result<bool> {
        let before = found.list.len();
        let mut length = before.div_ceil(2);
        while length > 0 {
            let mut at = 0;
            while at < found.list.len() {
                let end = found.list.len().min(at + length);
                let without = [&found.list[..at], &found.list[end..]].concat();
                if !self.attempt(found, without)? {
                    at = end;
                }
            }
            length /= 2;
        }
        Ok(found.list.len() < before)
    }

    fn lower_arguments(&mut self, found: &mut Found) -> io::Result<bool> {
        let mut is_lowered = false;
        for at in 0..found.list.len() {
            let named = found.list.get(at).map_or(0, Instruction::named_arguments);
            for which in named..MOST_ARGUMENTS {
                while self.lower(found, at, which)? {
                    is_lowered = true;
                }
            }
        }
        Ok(is_lowered)
    }

    /// An argument becomes zero or half; a small one, one less.
    fn lower(&mut self, found: &mut Found, at: usize, which: usize) -> io::Result<bool> {
        let Some((code, arguments)) = found.list.get(at).map(Instruction::numbers) else {
            return Ok(false);
        };
        let number = arguments.get(which).copied().unwrap_or(0);
        let less = number.saturating_sub(1);
        let lower = [0, number / 2, less];
        let tried = match less < SMALL {
            true => &lower[..],
            false => &lower[..2],
        };
        for &lower in tried.iter().filter(|&&lower| lower < number) {
            let mut arguments = arguments.clone();
            arguments[which] = lower;
            let mut list = found.list.clone();
            list[at] = Instruction::parse(code, &arguments).expect("as many arguments");
            if self.attempt(found, list)? {
                return Ok(true);
            }
        }
        Ok(false)
    }

    /// Cells that are set are left out, the last ones first.
    fn drop_cells(&mut self, found: &mut Found) -> io::Result<bool> {
        let mut is_dropped = false;
        for at in 0..found.list.len() {
            while let Some(Instruction::Set(buffer, from, cells)) = found.list.get(at) {
                let (_, fewer) = cells.split_last().unwrap_or((&0, &[]));
                if fewer.is_empty() {
                    break;
                }
                let mut list = found.list.clone();
                list[at] = Instruction::Set(*buffer, *from, fewer.to_vec());
                if !self.attempt(found, list)? {
                    break;
                }
                is_dropped = true;
            }
        }
        Ok(is_dropped)
    }

    pub fn smallest(&mut self, mut found: Found) -> io::Result<Found> {
        self.cut(&mut found)?;
        loop {
            let is_shorter = self.drop_instructions(&mut found)?;
            let has_fewer_cells = self.drop_cells(&mut found)?;
            let is_lower = self.lower_arguments(&mut found)?;
            if !is_shorter && !has_fewer_cells && !is_lower {
                return Ok(found);
            }
        }
    }
}
