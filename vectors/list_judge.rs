//! Holds the answers to the Rust's own run list, `Ace`, and to the trace that it fills.

use oracle::{Run, Runs};

use crate::judge::{Called, Verdict};
use crate::machine::Machine;
use crate::refusal::Refusal;
use crate::run_list::Entry;

/// A trace is filled whole, so that lists of many rows are left to the plain Rust.
const MOST_ROWS: u64 = 40_000;

/// The Rust's list, where ours is one that its calls can give.
fn runs(machine: &Machine) -> Option<Runs> {
    let entries = machine.list.checked().ok()?;
    if machine.list.trace_len().ok()? > MOST_ROWS {
        return None;
    }
    let mut runs = Runs::default();
    for &Entry {
        clk,
        num_read,
        num_eval,
    } in entries
    {
        runs.add(clk, num_read, num_eval);
    }
    Some(runs)
}

fn is_same(run: &Run, entry: &Entry) -> bool {
    let Entry {
        clk,
        num_read,
        num_eval,
    } = *entry;
    [run.clk, run.num_read, run.num_eval] == [clk, num_read, num_eval].map(u64::from)
}

/// The Rust has no refusals here, so that it judges what is accepted.
pub fn of_add(called: &Called<'_>, entry: &Entry) -> Verdict {
    let (true, Some(mut runs)) = (called.answer().is_ok(), runs(called.before)) else {
        return Verdict::Unasked;
    };
    if u64::from(entry.num_read) + u64::from(entry.num_eval) > MOST_ROWS {
        return Verdict::Unasked;
    }
    runs.add(entry.clk, entry.num_read, entry.num_eval);
    let traced = runs.traced();
    let is_alike = called.after.list.checked().is_ok_and(|entries| {
        let mut both = traced.iter().zip(entries);
        traced.len() == entries.len() && both.all(|(run, entry)| is_same(run, entry))
    });
    Verdict::of(is_alike, "it has another list")
}

pub fn of_trace_len(called: &Called<'_>) -> Verdict {
    let Some(runs) = runs(called.before) else {
        return Verdict::Unasked;
    };
    let rows = runs.trace_len() as u64;
    Verdict::of(called.answer() == Ok(&[rows]), "it has another length")
}

/// Where the rows of a clock begin in the filled trace, or that there are none.
pub fn of_first_row(called: &Called<'_>, clk: u32) -> Verdict {
    let Some(runs) = runs(called.before) else {
        return Verdict::Unasked;
    };
    let traced = runs.traced();
    let run = traced.iter().find(|run| run.clk == u64::from(clk));
    let is_alike = match (run, called.answer()) {
        (Some(run), answer) => answer == Ok(&[run.first_row]),
        (None, answer) => {
            answer
                == Err(Refusal {
                    number: 26,
                    place: 0,
                })
        }
    };
    Verdict::of(is_alike, "it fills the rows elsewhere")
}
