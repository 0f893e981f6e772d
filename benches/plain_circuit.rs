//! Whole evaluation in plain Rust over the same lent buffers, with document 01's checks in their order. It
//! multiplies in two ways, each behind a function that is never inlined; a crate of its own, so that it is
//! called as the functions of a library are.

use ace::{Buffers, Header, Pair, Refused, EVAL_CELLS, P, READ_CELLS, VALUE_CELLS};

const MOST_WIRES: u64 = 32_768;

/// "A slice longer than 2^32 counts as 2^32 cells."
const MOST_CELLS: u64 = 1 << 32;

const ID_BITS: u32 = 30;
const MAX_ID: u64 = (1 << ID_BITS) - 1;
const OPCODE_BITS: u32 = 60;

fn refuse<T>(number: u32, place: u64) -> Result<T, Refused> {
    Err(Refused { number, place })
}

trait Multiply {
    fn mul(a: u64, b: u64) -> u64;
}

struct Remainder;
struct Form;

impl Multiply for Remainder {
    fn mul(a: u64, b: u64) -> u64 {
        (u128::from(a) * u128::from(b) % u128::from(P)) as u64
    }
}

impl Multiply for Form {
    /// Modulo p, 2^64 is 2^32 - 1 and 2^96 is -1.
    fn mul(a: u64, b: u64) -> u64 {
        const LOW: u64 = (1 << 32) - 1;
        let product = u128::from(a) * u128::from(b);
        let (low, high) = (product as u64, (product >> 64) as u64);
        let (less, below) = low.overflowing_sub(high >> 32);
        let less = less.wrapping_sub(if below { LOW } else { 0 });
        let (sum, over) = less.overflowing_add((high & LOW) * LOW);
        let sum = sum.wrapping_add(if over { LOW } else { 0 });
        if sum < P {
            sum
        } else {
            sum - P
        }
    }
}

fn add(a: u64, b: u64) -> u64 {
    let (sum, over) = a.overflowing_add(b);
    if over || sum >= P {
        sum.wrapping_sub(P)
    } else {
        sum
    }
}

fn sub(a: u64, b: u64) -> u64 {
    let (difference, below) = a.overflowing_sub(b);
    if below {
        difference.wrapping_add(P)
    } else {
        difference
    }
}

/// "(a0, a1)(b0, b1) = (a0·b0 + 7·a1·b1, a0·b1 + a1·b0)"
fn mul_pairs<M: Multiply>([a0, a1]: Pair, [b0, b1]: Pair) -> Pair {
    [
        add(M::mul(a0, b0), M::mul(7, M::mul(a1, b1))),
        add(M::mul(a0, b1), M::mul(a1, b0)),
    ]
}

/// "The wire with an id lies at position num_wires - 1 - id."
struct Wires<'a> {
    values: &'a mut [Pair],
    counts: &'a mut [u32],
}

impl Wires<'_> {
    fn make(&mut self, position: usize, value: Pair) {
        self.values[position] = value;
        self.counts[position] = 0;
    }

    /// The value of a wire that is made, its count raised.
    fn take(&mut self, id: u64, made: usize) -> Option<Pair> {
        let position = (self.values.len() as u64).checked_sub(1 + id)? as usize;
        if position >= made {
            return None;
        }
        self.counts[position] += 1;
        Some(self.values[position])
    }

    fn read_all(&mut self, ptr: u64, words: &[[u64; 4]], nodes: &mut [[u64; READ_CELLS]]) {
        let last_id = self.values.len() as u64 - 1;
        for (k, (&[a, b, c, d], node)) in words.iter().zip(nodes).enumerate() {
            self.make(2 * k, [a, b]);
            self.make(2 * k + 1, [c, d]);
            let (ptr, id_0) = (ptr + 4 * k as u64, last_id - 2 * k as u64);
            *node = [ptr, id_0, a, b, id_0 - 1, c, d];
        }
    }

    /// "Gate by gate 8, 9, 10."
    fn eval_all<M: Multiply>(
        &mut self,
        ptr: u64,
        gates: &[u64],
        nodes: &mut [[u64; EVAL_CELLS]],
    ) -> Result<(), Refused> {
        let num_wires = self.values.len();
        let num_vars = num_wires - gates.len();
        for (k, (&word, node)) in gates.iter().zip(nodes).enumerate() {
            let (gate, made) = (k as u64, num_vars + k);
            let (id_l, id_r) = (word & MAX_ID, (word >> ID_BITS) & MAX_ID);
            let opcode = word >> OPCODE_BITS;
            if opcode > 2 {
                return refuse(8, gate);
            }
            let Some(l) = self.take(id_l, made) else {
                return refuse(9, gate);
            };
            let Some(r) = self.take(id_r, made) else {
                return refuse(10, gate);
            };
            let (v, eval_op) = match opcode {
                0 => ([sub(l[0], r[0]), sub(l[1], r[1])], P - 1),
                1 => (mul_pairs::<M>(l, r), 0),
                _ => ([add(l[0], r[0]), add(l[1], r[1])], 1),
            };
            self.make(made, v);
            let (ptr, id) = (ptr + gate, (num_wires - 1 - made) as u64);
            *node = [
                ptr, eval_op, id, v[0], v[1], id_l, l[0], l[1], id_r, r[0], r[1],
            ];
        }
        Ok(())
    }
}

/// Refusals 1 to 5.
fn check_call(ptr: u64, num_vars: u64, num_eval: u64, cells: u64) -> Result<(), Refused> {
    if num_vars > MOST_WIRES || num_eval > MOST_WIRES - num_vars {
        return refuse(1, 0);
    }
    if num_vars == 0 || num_vars % 2 != 0 {
        return refuse(2, 0);
    }
    if num_eval == 0 || num_eval % 4 != 0 {
        return refuse(3, 0);
    }
    if ptr % 4 != 0 {
        return refuse(4, 0);
    }
    match ptr.checked_add(2 * num_vars + num_eval) {
        Some(end) if end <= cells.min(MOST_CELLS) => Ok(()),
        _ => refuse(5, 0),
    }
}

/// All steps, and 12, over buffers of just the used cells.
fn run<M: Multiply>(
    ptr: u64,
    num_vars: usize,
    region: &[u64],
    buffers: &mut Buffers<'_>,
) -> Result<(), Refused> {
    let (variables, gates) = region.split_at(2 * num_vars);
    let (read_nodes, eval_nodes) = buffers.nodes.split_at_mut(READ_CELLS * (num_vars / 2));
    let mut wires = Wires {
        values: buffers.values.as_chunks_mut().0,
        counts: buffers.counts,
    };
    wires.read_all(ptr, variables.as_chunks().0, read_nodes.as_chunks_mut().0);
    let gates_at = ptr + variables.len() as u64;
    wires.eval_all::<M>(gates_at, gates, eval_nodes.as_chunks_mut().0)?;
    match wires.values.last() {
        Some([0, 0]) => Ok(()),
        _ => refuse(12, 0),
    }
}

/// The cells that a circuit uses, or 6.
fn used<'a>(
    num_vars: usize,
    num_eval: usize,
    lent: &'a mut Buffers<'_>,
) -> Result<Buffers<'a>, Refused> {
    let num_wires = num_vars + num_eval;
    let node_cells = READ_CELLS * (num_vars / 2) + EVAL_CELLS * num_eval;
    let values = lent.values.get_mut(..VALUE_CELLS * num_wires);
    let counts = lent.counts.get_mut(..num_wires);
    let nodes = lent.nodes.get_mut(..node_cells);
    match (values, counts, nodes) {
        (Some(values), Some(counts), Some(nodes)) => Ok(Buffers {
            values,
            counts,
            nodes,
        }),
        _ => refuse(6, 0),
    }
}

#[inline(always)]
fn evaluate<M: Multiply>(
    [ctx, clk]: [u32; 2],
    [ptr, num_vars, num_eval]: [u64; 3],
    memory: &[u64],
    lent: &mut Buffers<'_>,
) -> Result<Header, Refused> {
    check_call(ptr, num_vars, num_eval, memory.len() as u64)?;
    let mut buffers = used(num_vars as usize, num_eval as usize, lent)?;
    let region = &memory[ptr as usize..][..(2 * num_vars + num_eval) as usize];
    if let Some(at) = region.iter().position(|&cell| cell >= P) {
        return refuse(7, ptr + at as u64);
    }
    if let Err(refusal) = run::<M>(ptr, num_vars as usize, region, &mut buffers) {
        buffers.values.fill(0);
        buffers.counts.fill(0);
        buffers.nodes.fill(0);
        return Err(refusal);
    }
    Ok(Header {
        ctx,
        clk,
        num_read: num_vars as u32 / 2,
        num_eval: num_eval as u32,
        id_next: P - 1,
    })
}

/// Products reduced by the remainder of 128 bits.
#[inline(never)]
pub fn by_remainder(
    ctx: u32,
    clk: u32,
    ptr: u64,
    num_vars: u64,
    num_eval: u64,
    memory: &[u64],
    buffers: &mut Buffers<'_>,
) -> Result<Header, Refused> {
    evaluate::<Remainder>([ctx, clk], [ptr, num_vars, num_eval], memory, buffers)
}

/// Products reduced by the prime's form.
#[inline(never)]
pub fn by_form(
    ctx: u32,
    clk: u32,
    ptr: u64,
    num_vars: u64,
    num_eval: u64,
    memory: &[u64],
    buffers: &mut Buffers<'_>,
) -> Result<Header, Refused> {
    evaluate::<Form>([ctx, clk], [ptr, num_vars, num_eval], memory, buffers)
}
