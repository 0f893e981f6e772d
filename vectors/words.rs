//! Instructions in words, for a reader.

use crate::instruction::Instruction;
use crate::names::NAMES;

/// In the order of their numbers.
const BUFFERS: [&str; 6] = ["memory", "values", "counts", "nodes", "rows", "bytes"];
const OPERATIONS: [&str; 3] = ["add", "sub", "mul"];

impl Instruction {
    /// How many of its arguments, the first ones, are no numbers.
    pub fn named_arguments(&self) -> usize {
        let (code, _) = self.numbers();
        usize::from(NAMES[code as usize].1.first() == Some(&""))
    }

    pub fn words(&self) -> String {
        let (code, arguments) = self.numbers();
        let (name, names) = NAMES[code as usize];
        let mut words = vec![name.to_string()];
        for (i, &argument) in arguments.iter().enumerate() {
            match names.get(i) {
                Some(&"") if self.is_call() => words.push(OPERATIONS[argument as usize].into()),
                Some(&"") => words.push(BUFFERS[argument as usize].into()),
                Some(name) => words.push(format!("{name} {argument}")),
                None => words.push(argument.to_string()),
            }
        }
        words.join(" ")
    }
}
