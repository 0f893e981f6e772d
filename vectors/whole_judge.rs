//! Holds the answers to the Rust's own evaluation.

use oracle::{try_read, CircuitEvaluation, Opened};

use crate::cells::Cell;
use crate::field::P;
use crate::judge::{Called, Verdict};
use crate::machine::Machine;
use crate::reader::read_from;
use crate::refusal::Refusal;
use crate::row_names;
use crate::rows::{fill, WIDTH};
use crate::step_judge::refusal_of_run;
use crate::steps::{needs, Header, Lent};
use crate::told::header_of;
use crate::writer::write;

/// How each of the Rust's errors begins, and the number that it stands for. Of a gate's errors it says neither
/// the gate nor which operand is missing.
const ERRORS: [(&str, u32); 4] = [
    ("num of wires cannot exceed", 1),
    ("num of variables should be word aligned", 2),
    ("num of evaluation gates should be word aligned", 3),
    ("circuit does not evaluate to zero", 12),
];

fn number_of(text: &str) -> Option<u32> {
    let known = ERRORS.iter().find(|(start, _)| text.starts_with(start));
    known.map(|&(_, number)| number)
}

/// "Domain: regions inside memory, cells below p, room enough." The Rust meets a pointer that is no
/// multiple of 4 as a bad address. The counts are known to be small.
fn is_in_domain(machine: &Machine, [ptr, num_vars, num_eval]: [u64; 3]) -> bool {
    let needed = needs((num_vars / 2) as u32, num_eval as u32);
    let lent = machine.buffers.lent_lengths();
    let has_room = lent
        .iter()
        .zip(needed)
        .all(|(&length, need)| length as u128 >= need);
    let memory = machine.memory.lent();
    let rest = memory.get(ptr as usize..).unwrap_or_default();
    let region = rest.get(..(2 * num_vars + num_eval) as usize);
    let is_region_good = region.is_some_and(|cells| cells.iter().all(|&cell| cell < P));
    ptr % 4 == 0 && has_room && is_region_good
}

/// Every value, multiplicity, id, pointer and eval_op.
fn is_same(opened: &Opened, header: &Header, machine: &Machine) -> bool {
    let counts = [header.ctx, header.clk, header.num_read, header.num_eval];
    counts == [opened.ctx, opened.clk, opened.num_read, opened.num_eval]
        && header.id_next == opened.id_next
        && machine.buffers.values.lent().starts_with(&opened.values)
        && machine.buffers.counts.lent().starts_with(&opened.counts)
        && machine.buffers.nodes.lent().starts_with(&opened.nodes)
}

fn lent(opened: &mut Opened) -> Lent<'_> {
    Lent {
        values: &mut opened.values,
        counts: &mut opened.counts,
        nodes: &mut opened.nodes,
    }
}

/// The rows, at an offset: all that the Rust fills.
fn is_filled_alike(evaluation: &CircuitEvaluation, header: &Header, offset: usize) -> bool {
    let rows = evaluation.rows(offset);
    let mut cells = vec![P; WIDTH * (offset + rows.len())];
    let mut opened = evaluation.opened();
    fill(*header, &lent(&mut opened), offset as u64, &mut cells).is_ok()
        && row_names::is_same(&cells[WIDTH * offset..], header.num_read, &rows)
}

/// The bytes that the Rust writes, and what they read back to.
fn is_written_alike(evaluation: &CircuitEvaluation, header: &Header) -> bool {
    let mut opened = evaluation.opened();
    let bytes = evaluation.bytes();
    let mut out = vec![0; bytes.len()];
    let written = write(*header, &lent(&mut opened), &mut out);
    let mut read = opened.clone();
    read.values.fill(P);
    read.counts.fill(u32::MAX);
    read.nodes.fill(P);
    let is_back = read_from(&out, &mut lent(&mut read)).is_ok_and(|back| back == *header);
    let rust = try_read(&bytes).read;
    written.is_ok_and(|written| written == bytes.len())
        && out == bytes
        && is_back
        && read == opened
        && rust.is_ok_and(|back| back.opened() == opened)
}

/// What is accepted: the record, its rows at an offset, and its bytes.
fn of_accepted(called: &Called<'_>, evaluation: &CircuitEvaluation, header: &Header) -> Verdict {
    if !is_same(&evaluation.opened(), header, called.after) {
        return Verdict::of(false, "it makes another record");
    }
    if !is_filled_alike(evaluation, header, header.clk as usize % 3) {
        return Verdict::of(false, "it fills other rows");
    }
    let is_alike = is_written_alike(evaluation, header);
    Verdict::of(is_alike, "it writes or reads other bytes")
}

/// A gate's refusal is what the Rust's steps come to.
fn refusal_of(called: &Called<'_>, numbers: [u64; 5], text: &str) -> Option<Refusal> {
    if let Some(number) = number_of(text) {
        return Some(Refusal { number, place: 0 });
    }
    let [ctx, clk, ptr, num_vars, num_eval] = numbers;
    let opened = [ctx, clk, num_vars / 2, num_eval].map(u32::of);
    let region = &called.before.memory.lent()[ptr as usize..];
    let cells = (2 * num_vars + num_eval) as usize;
    refusal_of_run(opened, ptr, &region[..cells])
}

pub fn judge(called: &Called<'_>, numbers: [u64; 5]) -> Verdict {
    let [ctx, clk, elements @ ..] = numbers;
    if elements.iter().any(|&number| number >= P) {
        return Verdict::Unasked;
    }
    let memory = called.before.memory.lent();
    let rust = oracle::evaluate(u32::of(ctx), u32::of(clk), elements, memory);
    // The Rust looks at the counts before memory, so those that it refuses are always judged.
    let is_of_counts = match &rust {
        Some(Err(text)) => number_of(text).is_some_and(|number| number <= 3),
        _ => false,
    };
    if !is_of_counts && !is_in_domain(called.before, elements) {
        return Verdict::Unasked;
    }
    match (rust, called.answer()) {
        (Some(Ok(evaluation)), Ok(&[ctx, clk, num_read, num_eval, id_next])) => {
            let header = header_of([ctx, clk, num_read, num_eval, id_next]);
            of_accepted(called, &evaluation, &header)
        }
        (Some(Ok(_)), _) => Verdict::of(false, "it accepts"),
        (Some(Err(text)), Err(refusal)) => {
            let is_alike = refusal_of(called, numbers, &text) == Some(refusal);
            Verdict::of(is_alike, &text)
        }
        (Some(Err(text)), Ok(_)) => Verdict::of(false, &text),
        (None, _) => Verdict::of(false, "it meets a bad address"),
    }
}
