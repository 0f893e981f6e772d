//! Answers, states, headers and run lists as docs/REPLAY.md has them in the stream.

use crate::cells::Cell;
use crate::refusal::Refusal;
use crate::run_list::{Entry, RunList};
use crate::steps::{Header, State};

/// "An answer is 0 and its values, or the refusal's number and its place."
pub fn told<T: AsRef<[u64]>>(answer: Result<T, Refusal>) -> Vec<u64> {
    match answer {
        Ok(values) => [&[0], values.as_ref()].concat(),
        Err(Refusal { number, place }) => vec![number.into(), place],
    }
}

/// "A state is its seven numbers, in the order of instruction 3."
pub fn state_numbers(state: &State) -> [u64; 7] {
    [
        state.ctx.into(),
        state.clk.into(),
        state.num_read.into(),
        state.num_eval.into(),
        state.reads_done.into(),
        state.evals_done.into(),
        state.id_next,
    ]
}

pub fn state_of(
    [ctx, clk, num_read, num_eval, reads_done, evals_done, id_next]: [u64; 7],
) -> State {
    State {
        ctx: u32::of(ctx),
        clk: u32::of(clk),
        num_read: u32::of(num_read),
        num_eval: u32::of(num_eval),
        reads_done: u32::of(reads_done),
        evals_done: u32::of(evals_done),
        id_next,
    }
}

/// "A header is ctx, clk, num_read, num_eval, id_next."
pub fn header_numbers(header: Header) -> [u64; 5] {
    [
        header.ctx.into(),
        header.clk.into(),
        header.num_read.into(),
        header.num_eval.into(),
        header.id_next,
    ]
}

pub fn header_of([ctx, clk, num_read, num_eval, id_next]: [u64; 5]) -> Header {
    Header {
        ctx: u32::of(ctx),
        clk: u32::of(clk),
        num_read: u32::of(num_read),
        num_eval: u32::of(num_eval),
        id_next,
    }
}

pub fn entry_of([clk, num_read, num_eval]: [u64; 3]) -> Entry {
    Entry {
        clk: u32::of(clk),
        num_read: u32::of(num_read),
        num_eval: u32::of(num_eval),
    }
}

pub fn entry_numbers(entry: &Entry) -> [u64; 3] {
    [entry.clk, entry.num_read, entry.num_eval].map(u64::from)
}

/// "Its length and all 32 entries, clk, num_read, num_eval each."
pub fn list_numbers(list: &RunList) -> Vec<u64> {
    let entries = list.entries.iter().flat_map(entry_numbers);
    std::iter::once(list.len.into()).chain(entries).collect()
}
