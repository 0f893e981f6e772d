//! The program `replay` in plain Rust: what docs/REPLAY.md says, over the plain models of document 01.

use crate::cells::{AnyCells, Cell, Cells};
use crate::coding::width;
use crate::field::decode;
use crate::instruction::{Buffer, Instruction, SIZES};
use crate::numbers;
use crate::reader::read_from;
use crate::record::header_of_state;
use crate::refusal::{refuse, Refusal};
use crate::rows::fill;
use crate::run_list::RunList;
use crate::steps::{self, check_elements, Header, Lent, State};
use crate::told::{
    entry_of, header_numbers, header_of, list_numbers, state_numbers, state_of, told,
};
use crate::whole::{evaluate, Call};
use crate::writer::write;

#[derive(Clone)]
pub struct Buffers {
    pub values: Cells<u64>,
    pub counts: Cells<u32>,
    pub nodes: Cells<u64>,
}

#[derive(Clone)]
pub struct Machine {
    pub memory: Cells<u64>,
    pub buffers: Buffers,
    pub rows: Cells<u64>,
    pub bytes: Cells<u8>,
    pub state: State,
    pub list: RunList,
}

impl Buffers {
    pub fn lent(&mut self) -> Lent<'_> {
        Lent {
            values: self.values.lent_mut(),
            counts: self.counts.lent_mut(),
            nodes: self.nodes.lent_mut(),
        }
    }

    #[cfg(oracle)]
    pub fn lent_lengths(&self) -> [usize; 3] {
        let Buffers {
            values,
            counts,
            nodes,
        } = self;
        [values.lent().len(), counts.lent().len(), nodes.lent().len()]
    }
}

const SUM_MODULUS: u64 = 4_294_967_291;
const SUM_FACTOR: u64 = 65_599;

/// "From 0, for each cell its low and its high half of 32 bits are taken in turn, sum = (sum · 65599 +
/// half) mod 4294967291."
fn sum(cells: &[u64]) -> u64 {
    let add = |sum: u64, half: u64| (sum * SUM_FACTOR + half) % SUM_MODULUS;
    let cells = cells.iter();
    cells.fold(0, |sum, cell| add(add(sum, cell % (1 << 32)), cell >> 32))
}

/// "Decode called alone gives 8 with gate 0."
fn decode_alone(word: u64) -> Result<[u64; 3], Refusal> {
    check_elements(&[word])?;
    decode(word).map_or(refuse(8, 0), Ok)
}

fn place_told(next: Result<usize, Refusal>) -> Vec<u64> {
    told(next.map(|next| [next as u64]))
}

fn number_told(read: Result<(u64, usize), Refusal>) -> Vec<u64> {
    told(read.map(|(number, next)| [number, next as u64]))
}

impl Machine {
    pub fn new() -> Machine {
        let [memory, values, counts, nodes, rows, bytes] = SIZES;
        Machine {
            memory: Cells::new(memory),
            buffers: Buffers {
                values: Cells::new(values),
                counts: Cells::new(counts),
                nodes: Cells::new(nodes),
            },
            rows: Cells::new(rows),
            bytes: Cells::new(bytes),
            state: State::default(),
            list: RunList::default(),
        }
    }

    pub fn cells(&self, buffer: Buffer) -> &dyn AnyCells {
        match buffer {
            Buffer::Memory => &self.memory,
            Buffer::Values => &self.buffers.values,
            Buffer::Counts => &self.buffers.counts,
            Buffer::Nodes => &self.buffers.nodes,
            Buffer::Rows => &self.rows,
            Buffer::Bytes => &self.bytes,
        }
    }

    fn cells_mut(&mut self, buffer: Buffer) -> &mut dyn AnyCells {
        match buffer {
            Buffer::Memory => &mut self.memory,
            Buffer::Values => &mut self.buffers.values,
            Buffer::Counts => &mut self.buffers.counts,
            Buffer::Nodes => &mut self.buffers.nodes,
            Buffer::Rows => &mut self.rows,
            Buffer::Bytes => &mut self.bytes,
        }
    }

    /// What the instruction writes.
    pub fn run(&mut self, instruction: &Instruction) -> Vec<u64> {
        match *instruction {
            Instruction::Set(buffer, at, ref cells) => self.cells_mut(buffer).set(at, cells),
            Instruction::Rise {
                buffer,
                at,
                cells,
                back,
                step,
            } => self.cells_mut(buffer).rise(at, cells, back, step),
            Instruction::Lend(buffer, cells) => self.cells_mut(buffer).lend(cells),
            Instruction::State(state) => self.state = state_of(state),
            Instruction::Entry(at, entry) => {
                if let Some(old) = self.list.entries.get_mut(at as usize) {
                    *old = entry_of(entry);
                }
            }
            Instruction::Length(len) => self.list.len = u32::of(len),
            Instruction::Show(buffer, at, cells) => return self.cells(buffer).shown(at, cells),
            Instruction::Sum(buffer, at, cells) => {
                return vec![sum(&self.cells(buffer).shown(at, cells))];
            }
            _ => return self.call(instruction),
        }
        Vec::new()
    }

    fn call(&mut self, instruction: &Instruction) -> Vec<u64> {
        use Instruction::*;
        match *instruction {
            Felt(op, handed) => told(check_elements(&handed).map(|()| [op.of_elements(handed)])),
            Quad(op, handed) => told(check_elements(&handed).map(|()| op.of_pairs(handed))),
            Decode(word) => told(decode_alone(word)),
            Open(opened) => self.open(opened),
            Read(ptr, word) => self.step(|state, lent| steps::read(state, ptr, word, lent)),
            Eval(ptr, word) => self.step(|state, lent| steps::eval(state, ptr, word, lent)),
            Output => told(steps::result(self.state, &self.buffers.lent()).map(header_numbers)),
            Evaluate(numbers) => self.evaluate(numbers),
            Fill(header, offset) => self.fill(Ok(header_of(header)), offset),
            FillState(offset) => self.fill(header_of_state(&self.state), offset),
            Write(header) => self.write(Ok(header_of(header))),
            WriteState => self.write(header_of_state(&self.state)),
            ReadRecord => {
                let header = read_from(self.bytes.lent(), &mut self.buffers.lent());
                told(header.map(header_numbers))
            }
            Width(number) => told(Ok([width(number) as u64])),
            WriteNumber(number, at) => {
                place_told(numbers::write(number, self.bytes.lent_mut(), at as usize))
            }
            ReadNumber(at) => number_told(numbers::read(self.bytes.lent(), at as usize)),
            ReadBelow(at, bound) => {
                number_told(numbers::read_below(self.bytes.lent(), at as usize, bound))
            }
            Add(entry) => {
                let added = self.list.add(entry_of(entry));
                [told(added.map(|()| [])), list_numbers(&self.list)].concat()
            }
            TraceLen => told(self.list.trace_len().map(|rows| [rows])),
            FirstRow(clk) => told(self.list.first_row(u32::of(clk)).map(|row| [row])),
            _ => unreachable!("the others are no calls"),
        }
    }

    fn open(&mut self, opened: [u64; 4]) -> Vec<u64> {
        let state = steps::open(opened.map(u32::of), &self.buffers.lent());
        self.state = state.unwrap_or(self.state);
        told(state.map(|state| state_numbers(&state)))
    }

    /// "After the answer, whatever it is, the state that came back."
    fn step(
        &mut self,
        step: impl FnOnce(State, &mut Lent<'_>) -> Result<State, Refusal>,
    ) -> Vec<u64> {
        let state = step(self.state, &mut self.buffers.lent());
        self.state = state.unwrap_or(self.state);
        let answer = told(state.map(|_| []));
        [answer.as_slice(), &state_numbers(&self.state)].concat()
    }

    fn evaluate(&mut self, [ctx, clk, ptr, num_vars, num_eval]: [u64; 5]) -> Vec<u64> {
        let call = Call {
            ctx: u32::of(ctx),
            clk: u32::of(clk),
            ptr,
            num_vars,
            num_eval,
        };
        let header = evaluate(&call, self.memory.lent(), &mut self.buffers.lent());
        told(header.map(header_numbers))
    }

    fn fill(&mut self, header: Result<Header, Refusal>, offset: u64) -> Vec<u64> {
        let lent = &self.buffers.lent();
        let rows = self.rows.lent_mut();
        told(
            header
                .and_then(|header| fill(header, lent, offset, rows))
                .map(|()| []),
        )
    }

    fn write(&mut self, header: Result<Header, Refusal>) -> Vec<u64> {
        let lent = &self.buffers.lent();
        let bytes = self.bytes.lent_mut();
        place_told(header.and_then(|header| write(header, lent, bytes)))
    }
}
