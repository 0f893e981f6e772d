//! An instruction of the program `replay` from its code and its arguments.

use crate::instruction::{Arithmetic, Buffer, Instruction, BUFFERS};

fn buffer(number: u64) -> Option<Buffer> {
    BUFFERS.get(usize::try_from(number).ok()?).copied()
}

fn arithmetic(number: u64) -> Option<Arithmetic> {
    use Arithmetic::*;
    [Add, Sub, Mul].get(usize::try_from(number).ok()?).copied()
}

impl Instruction {
    /// None where the table of docs/REPLAY.md has no such instruction with so many arguments.
    pub fn parse(code: u64, arguments: &[u64]) -> Option<Instruction> {
        use Instruction::*;
        Some(match (code, arguments) {
            (0, &[b, at, ref cells @ ..]) => Set(buffer(b)?, at, cells.to_vec()),
            (1, &[b, at, cells, back, step]) => Rise {
                buffer: buffer(b)?,
                at,
                cells,
                back,
                step,
            },
            (2, &[b, cells]) => Lend(buffer(b)?, cells),
            (3, state) => State(state.try_into().ok()?),
            (4, &[at, ref entry @ ..]) => Entry(at, entry.try_into().ok()?),
            (5, &[length]) => Length(length),
            (6, &[b, at, cells]) => Show(buffer(b)?, at, cells),
            (7, &[b, at, cells]) => Sum(buffer(b)?, at, cells),
            (8, &[op, ref numbers @ ..]) => Felt(arithmetic(op)?, numbers.try_into().ok()?),
            (9, &[op, ref numbers @ ..]) => Quad(arithmetic(op)?, numbers.try_into().ok()?),
            (10, &[word]) => Decode(word),
            (11, opened) => Open(opened.try_into().ok()?),
            (12, &[ptr, ref cells @ ..]) => Read(ptr, cells.try_into().ok()?),
            (13, &[ptr, word]) => Eval(ptr, word),
            (14, []) => Output,
            (15, numbers) => Evaluate(numbers.try_into().ok()?),
            (16, &[ref header @ .., offset]) => Fill(header.try_into().ok()?, offset),
            (17, &[offset]) => FillState(offset),
            (18, header) => Write(header.try_into().ok()?),
            (19, []) => WriteState,
            (20, []) => ReadRecord,
            (21, &[number]) => Width(number),
            (22, &[number, at]) => WriteNumber(number, at),
            (23, &[at]) => ReadNumber(at),
            (24, &[at, bound]) => ReadBelow(at, bound),
            (25, entry) => Add(entry.try_into().ok()?),
            (26, []) => TraceLen,
            (27, &[clk]) => FirstRow(clk),
            _ => return None,
        })
    }
}
