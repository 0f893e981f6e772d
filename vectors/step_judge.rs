//! Holds the answers to the Rust's own decode, opening, steps and result.

use oracle::{decode, CircuitEvaluation, Opened};

use crate::cells::Cell;
use crate::field::P;
use crate::judge::{Called, Verdict};
use crate::machine::Machine;
use crate::refusal::Refusal;
use crate::steps::{check_room, State, EVAL_NODE, READ_NODE};
use crate::told::{header_numbers, state_numbers};

pub fn of_decode(called: &Called<'_>, word: u64) -> Verdict {
    if word >= P {
        return Verdict::Unasked;
    }
    let decoded = decode(word);
    let is_alike = match &decoded {
        Some(parts) => called.answer() == Ok(parts),
        None => called.answer() == refused(8, 0),
    };
    Verdict::of(is_alike, &format!("{decoded:?}"))
}

fn refused<'a>(number: u32, place: u64) -> Result<&'a [u64], Refusal> {
    Err(Refusal { number, place })
}

/// What the steps done so far use of the lent buffers.
fn opened(machine: &Machine) -> Opened {
    let (state, buffers) = (&machine.state, &machine.buffers);
    let nodes = buffers.nodes.lent();
    let reads = &nodes[..READ_NODE * state.reads_done as usize];
    let evals = &nodes[READ_NODE * state.num_read as usize..];
    let evals = &evals[..EVAL_NODE * state.evals_done as usize];
    Opened {
        ctx: state.ctx,
        clk: state.clk,
        num_wires: state.num_wires() as u32,
        num_read: state.reads_done,
        num_eval: state.evals_done,
        id_next: state.id_next,
        values: buffers.values.lent()[..2 * state.made()].to_vec(),
        counts: buffers.counts.lent()[..state.made()].to_vec(),
        nodes: [reads, evals].concat(),
    }
}

/// The Rust's own evaluation before the call, where the state is sound, has room and holds elements.
fn evaluation(machine: &Machine) -> Option<CircuitEvaluation> {
    let State {
        num_read, num_eval, ..
    } = machine.state;
    let mut buffers = machine.buffers.clone();
    if !machine.state.is_sound() || check_room(num_read, num_eval, &buffers.lent()).is_err() {
        return None;
    }
    let opened = opened(machine);
    let mut cells = opened.values.iter().chain(&opened.nodes);
    cells.all(|&cell| cell < P).then(|| opened.closed())
}

/// The answer is this one, the state that came back follows it, and the buffers hold what the Rust keeps.
fn is_stepped(called: &Called<'_>, answer: &[u64], evaluation: &CircuitEvaluation) -> bool {
    let state = state_numbers(&called.after.state);
    called.written == [answer, &state].concat() && opened(called.after) == evaluation.opened()
}

/// The Rust takes counts that are refused here, so that it judges what is accepted.
pub fn of_open(called: &Called<'_>, numbers: [u64; 4]) -> Verdict {
    if called.answer().is_err() {
        return Verdict::Unasked;
    }
    let evaluation = CircuitEvaluation::open(numbers.map(u32::of));
    Verdict::of(is_stepped(called, &[0], &evaluation), "it opens otherwise")
}

pub fn of_read(called: &Called<'_>, ptr: u64, word: [u64; 4]) -> Verdict {
    let is_element = ptr < P && word.iter().all(|&cell| cell < P);
    if !is_element || !called.before.state.lacks_reads() {
        return Verdict::Unasked;
    }
    let Some(mut evaluation) = evaluation(called.before) else {
        return Verdict::Unasked;
    };
    evaluation.read(ptr, word);
    Verdict::of(is_stepped(called, &[0], &evaluation), "it reads otherwise")
}

/// What the Rust's error stands for: it has one text for both operands, but the left count is raised
/// before the right operand is looked at.
fn number_of(text: &str, is_left_raised: bool) -> Option<u64> {
    match (text, is_left_raised) {
        ("failed to decode instruction", false) => Some(8),
        ("failed to read from the wiring bus", false) => Some(9),
        ("failed to read from the wiring bus", true) => Some(10),
        _ => None,
    }
}

/// The refusal's number and the gate where the Rust's EVAL step refuses, or what it said.
fn eval(
    evaluation: &mut CircuitEvaluation,
    ptr: u64,
    word: u64,
) -> Result<Option<[u64; 2]>, String> {
    let before = evaluation.opened();
    let Err(text) = evaluation.eval(ptr, word) else {
        return Ok(None);
    };
    let is_left_raised = evaluation.opened().counts != before.counts;
    let number = number_of(&text, is_left_raised).ok_or(text)?;
    Ok(Some([number, before.num_eval.into()]))
}

/// A count that cannot be raised stops the Rust.
fn can_be_counted(machine: &Machine, word: u64) -> bool {
    let Some([left, right, _]) = decode(word) else {
        return true;
    };
    let num_wires = machine.state.num_wires() as u64;
    let mut counts = machine.buffers.counts.lent()[..machine.state.made()].to_vec();
    [left, right].into_iter().all(|id| {
        let position = num_wires.checked_sub(id + 1);
        match position.and_then(|position| counts.get_mut(position as usize)) {
            Some(&mut u32::MAX) => false,
            Some(count) => {
                *count += 1;
                true
            }
            None => true,
        }
    })
}

pub fn of_eval(called: &Called<'_>, ptr: u64, word: u64) -> Verdict {
    let state = called.before.state;
    if ptr >= P || word >= P || state.lacks_reads() || !state.lacks_evals() {
        return Verdict::Unasked;
    }
    let Some(mut evaluation) = evaluation(called.before) else {
        return Verdict::Unasked;
    };
    if !can_be_counted(called.before, word) {
        return Verdict::Unasked;
    }
    match eval(&mut evaluation, ptr, word) {
        Ok(None) => Verdict::of(
            is_stepped(called, &[0], &evaluation),
            "it makes another wire",
        ),
        Ok(Some(refusal)) => {
            let is_alike = is_stepped(called, &refusal, &evaluation);
            Verdict::of(is_alike, &format!("it refuses {refusal:?}"))
        }
        Err(text) => Verdict::of(false, &text),
    }
}

/// The Rust's value is compared with zero by its caller.
pub fn of_output(called: &Called<'_>) -> Verdict {
    let Some(evaluation) = evaluation(called.before) else {
        return Verdict::Unasked;
    };
    let output = evaluation.output();
    let is_alike = match output {
        None => called.answer() == refused(11, 0),
        Some([0, 0]) => called.answer() == Ok(&header_numbers(called.before.state.header())),
        Some(_) => called.answer() == refused(12, 0),
    };
    Verdict::of(is_alike, &format!("{output:?}"))
}

/// So many gates of a region done by the Rust's steps, or as many as it does.
fn run(opened: [u32; 4], ptr: u64, region: &[u64], gates: usize) -> (CircuitEvaluation, usize) {
    let mut evaluation = CircuitEvaluation::open(opened);
    let (variables, words) = region.split_at(4 * opened[2] as usize);
    for (ptr, word) in (ptr..).step_by(4).zip(variables.chunks_exact(4)) {
        evaluation.read(ptr, [word[0], word[1], word[2], word[3]]);
    }
    let words = (ptr + variables.len() as u64..).zip(&words[..gates]);
    let done = words.take_while(|&(ptr, &word)| evaluation.eval(ptr, word).is_ok());
    let done = done.count();
    (evaluation, done)
}

/// At which gate the Rust stops, and why: its whole evaluation says neither that nor which operand is
/// missing, but its steps show both.
pub fn refusal_of_run(opened: [u32; 4], ptr: u64, region: &[u64]) -> Option<Refusal> {
    let gates = opened[3] as usize;
    let (_, done) = run(opened, ptr, region, gates);
    let (mut evaluation, _) = run(opened, ptr, region, done);
    let at = region.len() - gates + done;
    let word = *region.get(at)?;
    let [number, place] = eval(&mut evaluation, ptr + at as u64, word).ok()??;
    Some(Refusal {
        number: number as u32,
        place,
    })
}
