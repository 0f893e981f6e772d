//! The instructions of the program `replay`, as docs/REPLAY.md has them.

/// A buffer of the program.
#[derive(Clone, Copy, Debug, PartialEq, Eq)]
pub enum Buffer {
    Memory,
    Values,
    Counts,
    Nodes,
    Rows,
    Bytes,
}

/// In the order of their numbers.
pub const BUFFERS: [Buffer; 6] = [
    Buffer::Memory,
    Buffer::Values,
    Buffer::Counts,
    Buffer::Nodes,
    Buffer::Rows,
    Buffer::Bytes,
];

/// What a step, an evaluation and the record reader write.
pub const WRITTEN: [Buffer; 3] = [Buffer::Values, Buffer::Counts, Buffer::Nodes];

/// How many cells each buffer has, in the order of their numbers.
pub const SIZES: [usize; 6] = [65_600, 65_544, 32_772, 360_480, 352_256, 720_896];

/// How many cells one instruction sets at most.
pub const SET_AT_ONCE: usize = 14;

#[derive(Clone, Copy, Debug, PartialEq, Eq)]
pub enum Arithmetic {
    Add,
    Sub,
    Mul,
}

#[derive(Clone, Debug, PartialEq, Eq)]
pub enum Instruction {
    Set(Buffer, u64, Vec<u64>),
    Rise {
        buffer: Buffer,
        at: u64,
        cells: u64,
        back: u64,
        step: u64,
    },
    Lend(Buffer, u64),
    State([u64; 7]),
    Entry(u64, [u64; 3]),
    Length(u64),
    Show(Buffer, u64, u64),
    Sum(Buffer, u64, u64),
    Felt(Arithmetic, [u64; 2]),
    Quad(Arithmetic, [u64; 4]),
    Decode(u64),
    Open([u64; 4]),
    Read(u64, [u64; 4]),
    Eval(u64, u64),
    Output,
    Evaluate([u64; 5]),
    Fill([u64; 5], u64),
    FillState(u64),
    Write([u64; 5]),
    WriteState,
    ReadRecord,
    Width(u64),
    WriteNumber(u64, u64),
    ReadNumber(u64),
    ReadBelow(u64, u64),
    Add([u64; 3]),
    TraceLen,
    FirstRow(u64),
}

fn with(first: &[u64], rest: &[u64]) -> Vec<u64> {
    [first, rest].concat()
}

impl Instruction {
    /// Its code and its arguments.
    pub fn numbers(&self) -> (u64, Vec<u64>) {
        use Instruction::*;
        match self {
            Set(buffer, at, cells) => (0, with(&[*buffer as u64, *at], cells)),
            Rise {
                buffer,
                at,
                cells,
                back,
                step,
            } => (1, vec![*buffer as u64, *at, *cells, *back, *step]),
            Lend(buffer, cells) => (2, vec![*buffer as u64, *cells]),
            State(state) => (3, state.to_vec()),
            Entry(at, entry) => (4, with(&[*at], entry)),
            Length(length) => (5, vec![*length]),
            Show(buffer, at, cells) => (6, vec![*buffer as u64, *at, *cells]),
            Sum(buffer, at, cells) => (7, vec![*buffer as u64, *at, *cells]),
            Felt(op, numbers) => (8, with(&[*op as u64], numbers)),
            Quad(op, numbers) => (9, with(&[*op as u64], numbers)),
            Decode(word) => (10, vec![*word]),
            Open(numbers) => (11, numbers.to_vec()),
            Read(ptr, cells) => (12, with(&[*ptr], cells)),
            Eval(ptr, word) => (13, vec![*ptr, *word]),
            Output => (14, vec![]),
            Evaluate(numbers) => (15, numbers.to_vec()),
            Fill(header, offset) => (16, with(header, &[*offset])),
            FillState(offset) => (17, vec![*offset]),
            Write(header) => (18, header.to_vec()),
            WriteState => (19, vec![]),
            ReadRecord => (20, vec![]),
            Width(number) => (21, vec![*number]),
            WriteNumber(number, at) => (22, vec![*number, *at]),
            ReadNumber(at) => (23, vec![*at]),
            ReadBelow(at, bound) => (24, vec![*at, *bound]),
            Add(entry) => (25, entry.to_vec()),
            TraceLen => (26, vec![]),
            FirstRow(clk) => (27, vec![*clk]),
        }
    }

    /// Of the table "Calls".
    pub fn is_call(&self) -> bool {
        self.numbers().0 >= 8
    }

    /// All numbers of the instruction, as they stand in the stream.
    pub fn stream(&self) -> Vec<u64> {
        let (code, arguments) = self.numbers();
        with(&[code, arguments.len() as u64], &arguments)
    }
}
