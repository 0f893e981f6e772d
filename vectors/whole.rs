//! Whole evaluation, from document 01 alone, over the steps.

use crate::field::P;
use crate::refusal::Refusal;
use crate::steps::{self, needs, Header, Lent, State};

/// "1: num_vars + num_eval over 32768, as whole numbers."
const MOST_WIRES: u128 = 32_768;

/// "A slice longer than 2^32 counts as 2^32 cells."
const MOST_CELLS: u128 = 1 << 32;

#[derive(Clone, Copy)]
pub struct Call {
    pub ctx: u32,
    pub clk: u32,
    pub ptr: u64,
    pub num_vars: u64,
    pub num_eval: u64,
}

/// The first of refusals 1 to 5 whose condition holds.
fn check_call(call: &Call, memory: &[u64]) -> Result<(), Refusal> {
    let [ptr, num_vars, num_eval] = [call.ptr, call.num_vars, call.num_eval].map(u128::from);
    let cells = MOST_CELLS.min(memory.len() as u128);
    let conditions = [
        (1, num_vars + num_eval > MOST_WIRES),
        (2, num_vars % 2 == 1 || num_vars == 0),
        (3, num_eval == 0 || num_eval % 4 != 0),
        (4, ptr % 4 != 0),
        (5, ptr + 2 * num_vars + num_eval > cells),
    ];
    match conditions.iter().find(|(_, holds)| *holds) {
        Some(&(number, _)) => Err(Refusal { number, place: 0 }),
        None => Ok(()),
    }
}

/// "7: a cell is p or more; first such address." "Refusal 7 looks only at the region."
fn check_region(ptr: u64, region: &[u64]) -> Result<(), Refusal> {
    match (ptr..).zip(region).find(|&(_, &cell)| cell >= P) {
        Some((place, _)) => Err(Refusal { number: 7, place }),
        None => Ok(()),
    }
}

/// "Gate by gate 8, 9, 10, then 12."
fn run(mut state: State, ptr: u64, region: &[u64], lent: &mut Lent<'_>) -> Result<Header, Refusal> {
    let (variables, gates) = region.split_at(4 * state.num_read as usize);
    for (ptr, word) in (ptr..).step_by(4).zip(variables.chunks_exact(4)) {
        state = steps::read(state, ptr, [word[0], word[1], word[2], word[3]], lent)?;
    }
    for (ptr, &word) in (ptr + variables.len() as u64..).zip(gates) {
        state = steps::eval(state, ptr, word, lent)?;
    }
    steps::result(state, lent)
}

/// "8, 9, 10 and 12 leave the used value cells, counts and node cells zero; used means all that the
/// whole circuit needs."
fn clear(num_read: u32, num_eval: u32, lent: &mut Lent<'_>) {
    let [values, counts, nodes] = needs(num_read, num_eval).map(|need| need as usize);
    lent.values[..values].fill(0);
    lent.counts[..counts].fill(0);
    lent.nodes[..nodes].fill(0);
}

/// "Order 1 to 7, then gate by gate 8, 9, 10, then 12. 1 to 7 change nothing." "Here num_read =
/// num_vars / 2."
pub fn evaluate(call: &Call, memory: &[u64], lent: &mut Lent<'_>) -> Result<Header, Refusal> {
    check_call(call, memory)?;
    let (num_read, num_eval) = ((call.num_vars / 2) as u32, call.num_eval as u32);
    let state = steps::open([call.ctx, call.clk, num_read, num_eval], lent)?;
    let region = &memory[call.ptr as usize..][..(2 * call.num_vars + call.num_eval) as usize];
    check_region(call.ptr, region)?;
    let header = run(state, call.ptr, region, lent);
    if header.is_err() {
        clear(num_read, num_eval, lent);
    }
    header
}
