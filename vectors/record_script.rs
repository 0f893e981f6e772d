//! What the cases of records are made of.

use crate::instruction::{Buffer, Instruction, WRITTEN};
use crate::script::{room, Lengths, Said, Script, PAST};
use crate::steps::{Header, State};
use crate::told::{header_numbers, state_numbers};

/// The most that is lent of each buffer: there is room for 302 wires, and cells past it.
pub const ALL: Lengths = [640, 320, 3_400];
pub const ROWS: usize = 4_960;
pub const BYTES: usize = 8_192;

/// What the cells rise from where they are to be written: elements, no two of them alike.
const FIRST: [u64; 3] = [1_000, 2_000, 3_000];

/// Written bytes show in it: the last byte of a number has no high bit.
pub const FILLING: u8 = 0xff;

/// As many cells are shown after a call, and of more of them their sum has to do.
const SHOWN: u64 = 1_000;

/// What a record is taken from.
#[derive(Clone, Copy)]
pub enum Of {
    Record(Header),
    State(State),
}

pub fn finished(opened: [u32; 4]) -> State {
    let [_, _, num_read, num_eval] = opened;
    State::after(opened, num_read, num_eval)
}

pub fn record([ctx, clk, num_read, num_eval]: [u32; 4], id_next: u64) -> Of {
    Of::Record(Header {
        ctx,
        clk,
        num_read,
        num_eval,
        id_next,
    })
}

pub struct Records<'a>(pub &'a mut Script);

impl Records<'_> {
    /// Cells below p.
    pub fn begin(&mut self) {
        for ((buffer, cells), first) in WRITTEN.into_iter().zip(ALL).zip(FIRST) {
            self.0.rise(buffer, cells as u64 + PAST, first, 1);
        }
    }

    /// The same, but for one.
    pub fn begin_with(&mut self, buffer: Buffer, i: usize, cell: u64) {
        self.begin();
        self.0.set_cells(buffer, i as u64, &[cell]);
    }

    /// The call of a record or of a state, which is set before.
    fn call(
        &mut self,
        of: Of,
        of_record: impl FnOnce([u64; 5]) -> Instruction,
        of_state: Instruction,
    ) -> Vec<u64> {
        let call = match of {
            Of::Record(header) => of_record(header_numbers(header)),
            Of::State(state) => {
                self.0.set(Instruction::State(state_numbers(&state)));
                of_state
            }
        };
        self.0.ask(call).to_vec()
    }

    /// Shown besides the sum of all that is lent.
    fn show(&mut self, buffer: Buffer, at: u64, cells: u64) {
        if cells <= SHOWN {
            self.0.ask(Instruction::Show(buffer, at, cells));
        }
    }

    /// Into canaries. Rows that are filled are shown.
    pub fn fill(&mut self, lent: Lengths, of: Of, offset: u64, rows: usize) {
        self.0.lend_written(lent);
        self.0.canaries(Buffer::Rows, ROWS as u64 + PAST);
        self.0.lend(Buffer::Rows, rows);
        let of_record = |header| Instruction::Fill(header, offset);
        let written = self.call(of, of_record, Instruction::FillState(offset));
        self.0.look(Buffer::Rows, Said::Sums);
        if written[0] == 0 {
            let (Of::Record(Header {
                num_read, num_eval, ..
            })
            | Of::State(State {
                num_read, num_eval, ..
            })) = of;
            let cells = 16 * u64::from(num_read + num_eval);
            self.show(Buffer::Rows, 16 * offset, cells);
        }
    }

    /// Into bytes that are alike. Bytes that are written are shown.
    pub fn write(&mut self, lent: Lengths, of: Of, filling: u8, bytes: usize) {
        self.0.lend_written(lent);
        self.0
            .fill(Buffer::Bytes, BYTES as u64 + PAST, filling.into());
        self.0.lend(Buffer::Bytes, bytes);
        let written = self.call(of, Instruction::Write, Instruction::WriteState);
        self.0.look(Buffer::Bytes, Said::Sums);
        if let [0, length] = written[..] {
            self.show(Buffer::Bytes, 0, length);
        }
    }

    /// Fill and writer, with room enough for output.
    pub fn both(&mut self, lent: Lengths, of: Of) {
        self.fill(lent, of, 0, ROWS);
        self.write(lent, of, FILLING, BYTES);
    }

    /// Into canaries. Cells that are read are shown.
    pub fn read(&mut self, lent: Lengths, bytes: &[u8]) {
        let cells: Vec<u64> = bytes.iter().map(|&byte| byte.into()).collect();
        self.0.set_cells(Buffer::Bytes, 0, &cells);
        self.read_first(lent, bytes.len());
    }

    /// So many of the bytes that are there.
    pub fn read_first(&mut self, lent: Lengths, bytes: usize) {
        for (buffer, cells) in WRITTEN.into_iter().zip(ALL) {
            self.0.canaries(buffer, cells as u64 + PAST);
        }
        self.0.lend_written(lent);
        self.0.lend(Buffer::Bytes, bytes);
        let written = self.0.ask(Instruction::ReadRecord).to_vec();
        self.0.look_written(Said::Sums);
        if let [0, _, _, num_read, num_eval, _] = written[..] {
            let used = room(num_read as u32, num_eval as u32);
            for (buffer, cells) in WRITTEN.into_iter().zip(used) {
                self.show(buffer, 0, cells as u64);
            }
        }
    }

    /// One byte is another.
    pub fn read_with(&mut self, lent: Lengths, bytes: &[u8], at: usize, byte: u8) {
        let mut bytes = bytes.to_vec();
        bytes[at] = byte;
        self.read(lent, &bytes);
    }

    /// The bytes are read, and what was read fills rows and is written.
    pub fn through(&mut self, bytes: &[u8], of: Of) {
        self.read(ALL, bytes);
        self.both(ALL, of);
    }
}
