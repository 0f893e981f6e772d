//! Random circuits that come to zero, and the refusals that they get when they are spoilt.

use ace::{Buffers, EVAL_CELLS, P, READ_CELLS, VALUE_CELLS};

use crate::random::Random;

/// "0 Sub, 1 Mul, 2 Add."
const SUB: u64 = 0;
const ADD: u64 = 2;
const OPCODES: u64 = 3;

/// Cells of memory before and after the region, which no evaluation reads.
const AROUND: usize = 8;

/// Cells past those that a circuit uses.
const PAST: usize = 3;

fn gate(opcode: u64, left: u64, right: u64) -> u64 {
    (opcode << 60) | (right << 30) | left
}

/// Any element but 0, so that the spoilt circuits of 12 do not come to zero.
pub fn any_element(random: &mut Random) -> u64 {
    1 + random.next() % (P - 1)
}

/// One whose sums and products come to 0 and p - 1 more often than those of any elements.
pub fn edge_element(random: &mut Random) -> u64 {
    [1, 2, P - 2, P - 1][(random.next() % 4) as usize]
}

#[derive(Clone)]
pub struct Circuit {
    pub ptr: u64,
    pub num_vars: u64,
    pub num_eval: u64,
    pub memory: Vec<u64>,
}

impl Circuit {
    /// Two gates for a variable. Operands are any wires made earlier and opcodes any of the three, each as
    /// often; the last gate takes the wire before it from itself.
    pub fn random(random: &mut Random, wires: u64, element: fn(&mut Random) -> u64) -> Circuit {
        let num_eval = 4 * (wires / 6);
        let num_vars = wires - num_eval;
        let mut cells = vec![P; AROUND];
        cells.extend((0..2 * num_vars).map(|_| element(random)));
        cells.extend((num_vars..wires).map(|made| {
            let mut operand = || wires - 1 - random.next() % made;
            let (left, right) = (operand(), operand());
            gate(random.next() % OPCODES, left, right)
        }));
        cells.extend([P; AROUND]);
        let mut circuit = Circuit {
            ptr: AROUND as u64,
            num_vars,
            num_eval,
            memory: cells,
        };
        circuit.set_gate(num_eval - 1, gate(SUB, 1, 1));
        circuit
    }

    pub fn wires(&self) -> usize {
        (self.num_vars + self.num_eval) as usize
    }

    pub fn variables(&self) -> &[u64] {
        &self.memory[self.ptr as usize..][..2 * self.num_vars as usize]
    }

    fn gates_at(&self) -> usize {
        (self.ptr + 2 * self.num_vars) as usize
    }

    pub fn gates(&self) -> &[u64] {
        &self.memory[self.gates_at()..][..self.num_eval as usize]
    }

    fn set_gate(&mut self, k: u64, word: u64) {
        let at = self.gates_at() + k as usize;
        self.memory[at] = word;
    }

    fn but(&self, edit: impl FnOnce(&mut Circuit)) -> Circuit {
        let mut circuit = self.clone();
        edit(&mut circuit);
        circuit
    }
}

/// What is lent to an evaluation.
#[derive(Clone, PartialEq)]
pub struct Cells {
    pub values: Vec<u64>,
    pub counts: Vec<u32>,
    pub nodes: Vec<u64>,
}

impl Cells {
    /// Room for the circuit and a little more, where no cell is an element.
    pub fn of(circuit: &Circuit) -> Cells {
        let (num_read, num_eval) = (circuit.num_vars as usize / 2, circuit.num_eval as usize);
        let nodes = READ_CELLS * num_read + EVAL_CELLS * num_eval;
        Cells {
            values: vec![u64::MAX; VALUE_CELLS * circuit.wires() + PAST],
            counts: vec![u32::MAX; circuit.wires() + PAST],
            nodes: vec![u64::MAX; nodes + PAST],
        }
    }

    /// Without so many cells at the end of each.
    fn less(mut self, [values, counts, nodes]: [usize; 3]) -> Cells {
        self.values.truncate(self.values.len() - values);
        self.counts.truncate(self.counts.len() - counts);
        self.nodes.truncate(self.nodes.len() - nodes);
        self
    }

    pub fn clear(&mut self) {
        self.values.fill(0);
        self.counts.fill(0);
        self.nodes.fill(0);
    }

    pub fn lend(&mut self) -> Buffers<'_> {
        Buffers {
            values: &mut self.values,
            counts: &mut self.counts,
            nodes: &mut self.nodes,
        }
    }
}

/// An evaluation with the number that it is refused with, where 0 is none.
pub struct Question {
    pub number: u32,
    pub circuit: Circuit,
    pub cells: Cells,
}

/// Each refusal of whole evaluation but 6: those of a gate at the first, a middle and the last one.
fn spoilt(circuit: &Circuit) -> Vec<(u32, Circuit)> {
    let (wires, last) = (circuit.wires() as u64, circuit.num_eval - 1);
    let (first, end) = (circuit.ptr as usize, circuit.gates_at() + last as usize);
    let made = wires - 1;
    let mut spoilt = vec![
        (1, circuit.but(|c| c.num_eval += 32_768)),
        (2, circuit.but(|c| c.num_vars -= 1)),
        (3, circuit.but(|c| c.num_eval -= 2)),
        (4, circuit.but(|c| c.ptr += 2)),
        (5, circuit.but(|c| c.memory.truncate(end))),
        (7, circuit.but(|c| c.memory[first] = P)),
        (7, circuit.but(|c| c.memory[end] = u64::MAX)),
        (12, circuit.but(|c| c.set_gate(last, gate(ADD, made, made)))),
    ];
    for k in [0, last / 2, last] {
        let own = last - k;
        spoilt.extend([
            (8, circuit.but(|c| c.set_gate(k, gate(OPCODES, made, made)))),
            (9, circuit.but(|c| c.set_gate(k, gate(ADD, own, wires)))),
            (10, circuit.but(|c| c.set_gate(k, gate(ADD, made, wires)))),
        ]);
    }
    spoilt
}

/// The circuit as it is, and each refusal of whole evaluation.
pub fn questions(circuit: &Circuit) -> Vec<Question> {
    let lent = Cells::of(circuit);
    let with = |(number, circuit)| Question {
        number,
        circuit,
        cells: lent.clone(),
    };
    let short = [[1, 0, 0], [0, 1, 0], [0, 0, 1]].map(|one| Question {
        number: 6,
        circuit: circuit.clone(),
        cells: lent.clone().less(one.map(|less| less * (PAST + 1))),
    });
    let mut questions = vec![with((0, circuit.clone()))];
    questions.extend(short);
    questions.extend(spoilt(circuit).into_iter().map(with));
    questions
}
