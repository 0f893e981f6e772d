//! The program `replay` as a process: instructions go in, and the bytes that it writes come out.

use std::io::{self, Write};
use std::process::{Child, Command, ExitStatus, Stdio};
use std::thread::{self, JoinHandle};

pub struct Program {
    /// The words of the command that starts it.
    pub command: Vec<String>,
}

/// It reads and writes on its own while its answers are worked out here.
pub struct Running {
    child: Child,
    writer: JoinHandle<io::Result<()>>,
}

impl Program {
    pub fn start(&self, input: Vec<u8>) -> io::Result<Running> {
        let (first, rest) = self.command.split_first().ok_or(io::ErrorKind::NotFound)?;
        let mut child = Command::new(first)
            .args(rest)
            .stdin(Stdio::piped())
            .stdout(Stdio::piped())
            .spawn()?;
        let mut stdin = child.stdin.take().ok_or(io::ErrorKind::BrokenPipe)?;
        let writer = thread::spawn(move || stdin.write_all(&input));
        Ok(Running { child, writer })
    }
}

impl Running {
    /// All that it wrote. That it did not read all of its input shows in what it did not write.
    pub fn finish(self) -> io::Result<(Vec<u8>, ExitStatus)> {
        let output = self.child.wait_with_output()?;
        match self.writer.join() {
            Ok(Err(error)) if error.kind() != io::ErrorKind::BrokenPipe => Err(error),
            _ => Ok((output.stdout, output.status)),
        }
    }
}
