//! Holds the answers to the Rust's own row fill, record writer and record reader.

use oracle::{try_read, Failed, Opened, Tried};

use crate::instruction::Instruction;
use crate::judge::{Called, Verdict};
use crate::machine::Machine;
use crate::refusal::Refusal;
use crate::row_names;
use crate::rows::WIDTH;
use crate::steps::{needs, Header};
use crate::told::header_of;

/// How each of the Rust's texts begins, and the number that it stands for.
const CHECKS: [(&str, u32); 6] = [
    ("ACE wire bus must contain at least one wire", 18),
    ("ACE declared wire count", 19),
    ("ACE wire count", 20),
    (
        "ACE circuit evaluation must contain at least one eval node",
        21,
    ),
    ("ACE circuit evaluation wire count", 19),
    ("ACE wire bus count", 22),
];

/// What a header uses of the lent buffers.
fn opened(header: &Header, machine: &Machine) -> Opened {
    let needed = needs(header.num_read, header.num_eval);
    let [values, counts, nodes] = needed.map(|need| need as usize);
    Opened {
        ctx: header.ctx,
        clk: header.clk,
        num_wires: counts as u32,
        num_read: header.num_read,
        num_eval: header.num_eval,
        id_next: header.id_next,
        values: machine.buffers.values.lent()[..values].to_vec(),
        counts: machine.buffers.counts.lent()[..counts].to_vec(),
        nodes: machine.buffers.nodes.lent()[..nodes].to_vec(),
    }
}

/// "24 at each list length that passes the room": the Rust has no such test, but it says which lists come
/// when. READ nodes lie before the EVAL nodes.
fn passes_room([values, counts, nodes]: [usize; 3], lengths: &[u64]) -> bool {
    let list = |k: usize| lengths.get(k).map_or(0, |&length| u128::from(length));
    2 * list(0) > values as u128
        || list(0) > counts as u128
        || 7 * list(1) + 11 * list(2) > nodes as u128
}

fn refusal_of(failed: &Failed) -> Option<(u32, u64)> {
    match failed {
        Failed::Number(number, place) => Some((*number, *place)),
        Failed::Check(text) => {
            let known = CHECKS.iter().find(|(start, _)| text.starts_with(start));
            known.map(|&(_, number)| (number, 0))
        }
    }
}

/// What the Rust makes of the bytes; 24 and "bytes left over" are the caller's.
pub fn of_read(called: &Called<'_>) -> Verdict {
    let bytes = called.before.bytes.lent();
    let Tried {
        read,
        taken,
        lengths,
    } = try_read(bytes);
    let refusal = match &read {
        _ if passes_room(called.before.buffers.lent_lengths(), &lengths) => Some((24, 0)),
        Err(failed) => match refusal_of(failed) {
            Some(refusal) => Some(refusal),
            None => return Verdict::of(false, "by a text that is not known"),
        },
        Ok(_) if taken < bytes.len() => Some((23, 0)),
        Ok(_) => None,
    };
    let is_alike = match (called.answer(), refusal, read) {
        (Err(Refusal { number, place }), Some(refusal), _) => (number, place) == refusal,
        (Ok(&[ctx, clk, num_read, num_eval, id_next]), None, Ok(evaluation)) => {
            let header = header_of([ctx, clk, num_read, num_eval, id_next]);
            opened(&header, called.after) == evaluation.opened()
        }
        _ => false,
    };
    Verdict::of(is_alike, "it reads otherwise")
}

/// The header of what is filled or written, where that is accepted: the Rust has no refusals there.
fn accepted(called: &Called<'_>) -> Option<Header> {
    called.answer().ok()?;
    match *called.call {
        Instruction::Fill(header, _) | Instruction::Write(header) => Some(header_of(header)),
        _ => Some(called.before.state.header()),
    }
}

pub fn of_fill(called: &Called<'_>) -> Verdict {
    let Some(header) = accepted(called) else {
        return Verdict::Unasked;
    };
    let (Instruction::Fill(_, offset) | Instruction::FillState(offset)) = *called.call else {
        return Verdict::Unasked;
    };
    let offset = offset as usize;
    let rows = opened(&header, called.before).closed().rows(offset);
    let cells = &called.after.rows.lent()[WIDTH * offset..][..WIDTH * rows.len()];
    let is_alike = row_names::is_same(cells, header.num_read, &rows);
    Verdict::of(is_alike, "it fills other rows")
}

pub fn of_write(called: &Called<'_>) -> Verdict {
    let Some(header) = accepted(called) else {
        return Verdict::Unasked;
    };
    let bytes = opened(&header, called.before).closed().bytes();
    let is_alike = called.answer() == Ok(&[bytes.len() as u64])
        && called.after.bytes.lent().starts_with(&bytes);
    Verdict::of(is_alike, "it writes other bytes")
}
