//! Wires and steps, from document 01 alone: opening, READ step, EVAL step and result.

use crate::field::{decode, sub, P};
use crate::instruction::Arithmetic;
use crate::refusal::{refuse, Refusal};

/// "1 (2·num_read + num_eval over 32768)."
const MOST_WIRES: u128 = 32_768;

/// "13 (count at 4294967295)."
const FULL_COUNT: u32 = 4_294_967_295;

/// "7 a READ node (ptr, id_0, v_0, id_1, v_1), then 11 an EVAL node (ptr, eval_op, id_0, v_0, id_1,
/// v_1, id_2, v_2), a pair taking two cells."
pub const READ_NODE: usize = 7;
pub const EVAL_NODE: usize = 11;

#[derive(Clone, Copy, Default, PartialEq)]
pub struct State {
    pub ctx: u32,
    pub clk: u32,
    pub num_read: u32,
    pub num_eval: u32,
    pub reads_done: u32,
    pub evals_done: u32,
    pub id_next: u64,
}

/// "A record header holds ctx, clk, num_read, num_eval (each u32) and id_next."
#[derive(Clone, Copy, PartialEq)]
pub struct Header {
    pub ctx: u32,
    pub clk: u32,
    pub num_read: u32,
    pub num_eval: u32,
    pub id_next: u64,
}

pub struct Lent<'a> {
    pub values: &'a mut [u64],
    pub counts: &'a mut [u32],
    pub nodes: &'a mut [u64],
}

/// "With num_wires = 2·num_read + num_eval": a READ step makes two wires, an EVAL step one.
pub fn wires(reads: u32, evals: u32) -> u128 {
    2 * u128::from(reads) + u128::from(evals)
}

/// How many value cells, counts and node cells the whole circuit needs: "value cells (two u64 a wire),
/// counts (one u32 a wire) and node cells".
pub fn needs(num_read: u32, num_eval: u32) -> [u128; 3] {
    let num_wires = wires(num_read, num_eval);
    let nodes = READ_NODE as u128 * u128::from(num_read) + EVAL_NODE as u128 * u128::from(num_eval);
    [2 * num_wires, num_wires, nodes]
}

/// "6: a lent value, count or node buffer is shorter than the whole circuit needs."
pub fn check_room(num_read: u32, num_eval: u32, lent: &Lent<'_>) -> Result<(), Refusal> {
    let lengths = [lent.values.len(), lent.counts.len(), lent.nodes.len()];
    let needed = needs(num_read, num_eval);
    let short = lengths
        .iter()
        .zip(needed)
        .any(|(&length, need)| (length as u128) < need);
    if short {
        return refuse(6, 0);
    }
    Ok(())
}

/// "Refuses 1 (2·num_read + num_eval over 32768), 2 (num_read zero), 3 (num_eval zero)."
pub fn check_counts(num_read: u32, num_eval: u32) -> Result<(), Refusal> {
    if wires(num_read, num_eval) > MOST_WIRES {
        return refuse(1, 0);
    }
    if num_read == 0 {
        return refuse(2, 0);
    }
    if num_eval == 0 {
        return refuse(3, 0);
    }
    Ok(())
}

/// "7 (its own cells; a step returns the cell's number in what it was handed, from 0, the pointer
/// being last)."
pub fn check_elements(handed: &[u64]) -> Result<(), Refusal> {
    match handed.iter().position(|&cell| cell >= P) {
        Some(place) => refuse(7, place as u64),
        None => Ok(()),
    }
}

impl State {
    /// The state after so many steps. "Ids are given downwards from num_wires - 1 to 0"; "after
    /// evaluation id_next is p - 1".
    pub fn after([ctx, clk, num_read, num_eval]: [u32; 4], reads: u32, evals: u32) -> State {
        let left = wires(num_read, num_eval) - wires(reads, evals);
        State {
            ctx,
            clk,
            num_read,
            num_eval,
            reads_done: reads,
            evals_done: evals,
            id_next: if left == 0 { P - 1 } else { left as u64 - 1 },
        }
    }

    /// "13 looks at the state's own numbers: counts opening would accept, steps done not past their
    /// end, id_next as they say." "All READ steps come before the EVAL steps."
    pub fn is_sound(&self) -> bool {
        let opened = [self.ctx, self.clk, self.num_read, self.num_eval];
        check_counts(self.num_read, self.num_eval).is_ok()
            && self.reads_done <= self.num_read
            && self.evals_done <= self.num_eval
            && (self.evals_done == 0 || self.reads_done == self.num_read)
            && *self == State::after(opened, self.reads_done, self.evals_done)
    }

    pub fn lacks_reads(&self) -> bool {
        self.reads_done < self.num_read
    }

    pub fn lacks_evals(&self) -> bool {
        self.evals_done < self.num_eval
    }

    pub fn header(&self) -> Header {
        Header {
            ctx: self.ctx,
            clk: self.clk,
            num_read: self.num_read,
            num_eval: self.num_eval,
            id_next: self.id_next,
        }
    }

    pub fn num_wires(&self) -> usize {
        wires(self.num_read, self.num_eval) as usize
    }

    pub fn made(&self) -> usize {
        wires(self.reads_done, self.evals_done) as usize
    }
}

/// "13: step out of turn, or a state that no calls give."
fn check_turn(state: &State, its_turn: bool) -> Result<(), Refusal> {
    if !state.is_sound() || !its_turn {
        return refuse(13, 0);
    }
    Ok(())
}

impl Lent<'_> {
    /// "Making a wire writes its value and count 0."
    fn make_wire(&mut self, position: usize, value: [u64; 2]) {
        self.values[2 * position..][..2].copy_from_slice(&value);
        self.counts[position] = 0;
    }

    /// An operand's value, and its count raised: "the left operand: 9, 7 (a stored value p or more;
    /// returns its value cell), 13 (count at 4294967295), then the right with 10 likewise". "9, 10:
    /// left, right operand not yet made, or id at least num_wires." "The wire with an id lies at
    /// position num_wires - 1 - id."
    fn take(&mut self, state: &State, id: u64, not_made: u32) -> Result<[u64; 2], Refusal> {
        let num_wires = state.num_wires() as u64;
        let gate = u64::from(state.evals_done);
        if id >= num_wires {
            return refuse(not_made, gate);
        }
        let position = (num_wires - 1 - id) as usize;
        if position >= state.made() {
            return refuse(not_made, gate);
        }
        let first = 2 * position;
        let value = [self.values[first], self.values[first + 1]];
        if let Some(part) = value.iter().position(|&cell| cell >= P) {
            return refuse(7, (first + part) as u64);
        }
        if self.counts[position] == FULL_COUNT {
            return refuse(13, 0);
        }
        self.counts[position] += 1;
        Ok(value)
    }
}

/// "0 Sub, 1 Mul, 2 Add", and "eval_op is p - 1 for Sub, 0 for Mul, 1 for Add".
fn operation(opcode: u64) -> (Arithmetic, u64) {
    match opcode {
        0 => (Arithmetic::Sub, P - 1),
        1 => (Arithmetic::Mul, 0),
        _ => (Arithmetic::Add, 1),
    }
}

/// "Opening takes ctx, clk, num_read and num_eval (u32) and refuses 1, 2, 3, 6, changing nothing."
pub fn open(opened: [u32; 4], lent: &Lent<'_>) -> Result<State, Refusal> {
    let [_, _, num_read, num_eval] = opened;
    check_counts(num_read, num_eval)?;
    check_room(num_read, num_eval, lent)?;
    Ok(State::after(opened, 0, 0))
}

/// "A step refuses in the order 13, 6, 7." "A memory word is two pairs, first cells first."
pub fn read(
    state: State,
    ptr: u64,
    [a, b, c, d]: [u64; 4],
    lent: &mut Lent<'_>,
) -> Result<State, Refusal> {
    check_turn(&state, state.lacks_reads())?;
    check_room(state.num_read, state.num_eval, lent)?;
    check_elements(&[a, b, c, d, ptr])?;
    let position = state.made();
    lent.make_wire(position, [a, b]);
    lent.make_wire(position + 1, [c, d]);
    let (id_0, id_1) = (state.id_next, sub(state.id_next, 1));
    let at = READ_NODE * state.reads_done as usize;
    lent.nodes[at..][..READ_NODE].copy_from_slice(&[ptr, id_0, a, b, id_1, c, d]);
    Ok(State {
        reads_done: state.reads_done + 1,
        id_next: sub(state.id_next, 2),
        ..state
    })
}

/// "13, 6, 7, 8, then the left operand .., then the right .. the left count is raised before the right
/// operand is looked at, and stays raised where the right is refused; nothing else changes on a
/// refused step."
pub fn eval(state: State, ptr: u64, word: u64, lent: &mut Lent<'_>) -> Result<State, Refusal> {
    check_turn(&state, !state.lacks_reads() && state.lacks_evals())?;
    check_room(state.num_read, state.num_eval, lent)?;
    check_elements(&[word, ptr])?;
    let Some([id_1, id_2, opcode]) = decode(word) else {
        return refuse(8, u64::from(state.evals_done));
    };
    let [l_0, l_1] = lent.take(&state, id_1, 9)?;
    let [r_0, r_1] = lent.take(&state, id_2, 10)?;
    let (op, eval_op) = operation(opcode);
    let [v_0, v_1] = op.of_pairs([l_0, l_1, r_0, r_1]);
    lent.make_wire(state.made(), [v_0, v_1]);
    let id_0 = state.id_next;
    let node = [ptr, eval_op, id_0, v_0, v_1, id_1, l_0, l_1, id_2, r_0, r_1];
    let at = READ_NODE * state.num_read as usize + EVAL_NODE * state.evals_done as usize;
    lent.nodes[at..][..EVAL_NODE].copy_from_slice(&node);
    Ok(State {
        evals_done: state.evals_done + 1,
        id_next: sub(id_0, 1),
        ..state
    })
}

/// "The result: 13, 6, 11, 12, changing nothing." "11: result asked before all steps are done." "12:
/// last wire is not (0, 0)."
pub fn result(state: State, lent: &Lent<'_>) -> Result<Header, Refusal> {
    check_turn(&state, true)?;
    check_room(state.num_read, state.num_eval, lent)?;
    if state.lacks_reads() || state.lacks_evals() {
        return refuse(11, 0);
    }
    let last = 2 * (state.num_wires() - 1);
    if lent.values[last..][..2] != [0, 0] {
        return refuse(12, 0);
    }
    Ok(state.header())
}
