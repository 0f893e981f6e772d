//! Draws about whole evaluation: circuits of many shapes and sizes in memory, accepted or spoilt on purpose,
//! and then their rows, their bytes, and these read back.

use crate::circuits::{gate, listing, sixteen, Circuit, ADD, MUL, SUB, WORD_OF_P12};
use crate::draw::Draw;
use crate::instruction::{Buffer, Instruction, SIZES};
use crate::steps::State;
use crate::told::state_numbers;

/// num_vars and num_eval of the largest circuits.
const LARGEST: [[u64; 2]; 4] = [[4, 32_764], [16_384, 16_384], [32_764, 4], [10_764, 22_004]];

/// Where the operands of a gate lie.
#[derive(Clone, Copy)]
enum Shape {
    Any,
    Newest,
    First,
    Window(u64),
}

const SHAPES: [Shape; 5] = [
    Shape::Any,
    Shape::Newest,
    Shape::First,
    Shape::Window(2),
    Shape::Window(9),
];

/// What is asked: a circuit's cells and where they lie, and the call.
pub struct Asked {
    pub ptr: u64,
    pub num_vars: u64,
    pub num_eval: u64,
    pub cells: Vec<u64>,
    /// How many cells of memory are lent.
    pub memory: u64,
}

impl Asked {
    pub fn num_wires(&self) -> u64 {
        self.num_vars + self.num_eval
    }

    /// The counts are still those of the cells.
    pub fn is_whole(&self) -> bool {
        let [num_vars, num_eval] = [self.num_vars, self.num_eval].map(u128::from);
        num_eval > 0 && self.cells.len() as u128 == 2 * num_vars + num_eval
    }

    /// The cell of a gate's word.
    pub fn word(&mut self, gate: u64) -> &mut u64 {
        &mut self.cells[(2 * self.num_vars + gate) as usize]
    }
}

impl Draw {
    fn operand(&mut self, shape: Shape, num_wires: u64, made: u64) -> u64 {
        let position = match shape {
            Shape::Any => self.random.below(made),
            Shape::Newest => made - 1,
            Shape::First => self.random.below(made.min(3)),
            Shape::Window(width) => made - 1 - self.random.below(made.min(width)),
        };
        num_wires - 1 - position
    }

    /// The last wire becomes zero: a wire less itself or less an equal one, or zero times or plus something.
    fn cancel(&mut self, circuit: &mut Circuit) {
        let first = (circuit.variables.len() + circuit.gates.len()) as u64 - 1;
        let id = 1 + self.random.below(first);
        let last = circuit.gates.len() - 1;
        circuit.gates[last] = match self.random.below(4) {
            0 => gate(SUB, id, id),
            1 => {
                circuit.gates[last - 1] = circuit.gates[last - 2];
                gate(SUB, 1, 2)
            }
            2 => {
                circuit.variables[0] = [0, 0];
                gate(ADD, first, first)
            }
            _ => {
                circuit.variables[0] = [0, 0];
                gate(MUL, id, first)
            }
        };
    }

    fn circuit(&mut self, num_vars: u64, num_eval: u64) -> Circuit {
        let num_wires = num_vars + num_eval;
        let variables = (0..num_vars).map(|_| [self.element(), self.element()]);
        let variables = variables.collect();
        let shape = self.random.one_of(&SHAPES);
        let mut gates = Vec::new();
        for made in num_vars..num_wires {
            let [left, right] = [0; 2].map(|_| self.operand(shape, num_wires, made));
            gates.push(gate(self.random.below(3), left, right));
        }
        let mut circuit = Circuit { variables, gates };
        self.cancel(&mut circuit);
        circuit
    }

    fn counts(&mut self) -> [u64; 2] {
        let most = 2 * self.random.below(self.most_wires / 2 - 2) + 6;
        let num_vars = match self.random.below(3) {
            0 => 2,
            1 => most - 4,
            _ => 2 + 2 * self.random.below((most - 4) / 2),
        };
        [num_vars, (most - num_vars) / 4 * 4]
    }

    fn asked(&mut self, circuit: &Circuit) -> Asked {
        let ptr = 4 * self.random.below(8);
        let cells = circuit.cells();
        let memory = ptr + cells.len() as u64;
        Asked {
            ptr,
            num_vars: circuit.variables.len() as u64,
            num_eval: circuit.gates.len() as u64,
            cells,
            memory: memory + self.random.below(3),
        }
    }

    /// The circuit in memory and the call; the header's numbers where it is accepted.
    fn evaluate(&mut self, asked: &Asked) -> Option<Vec<u64>> {
        self.lend(Buffer::Memory, asked.memory);
        self.set(Buffer::Memory, asked.ptr, &asked.cells);
        let [ctx, clk] = [self.word(), self.word()];
        let numbers = [ctx, clk, asked.ptr, asked.num_vars, asked.num_eval];
        let written = self.ask(Instruction::Evaluate(numbers));
        self.look();
        match written.as_slice() {
            [0, header @ ..] => Some(header.to_vec()),
            _ => None,
        }
    }

    /// The rows at an offset, the bytes, and what they read back to; from the record or from a state.
    fn rows_and_bytes(&mut self, header: [u64; 5]) {
        let [ctx, clk, num_read, num_eval, _] = header;
        let opened = [ctx, clk, num_read, num_eval].map(|number| number as u32);
        let state = State::after(opened, num_read as u32, num_eval as u32);
        self.ask(Instruction::State(state_numbers(&state)));
        self.ask(Instruction::Output);
        let offset = self.random.below(3);
        self.lend(Buffer::Rows, 16 * (offset + num_read + num_eval));
        let most_bytes = 100 + 80 * num_read + 140 * num_eval;
        self.lend(
            Buffer::Bytes,
            most_bytes.min(SIZES[Buffer::Bytes as usize] as u64),
        );
        let is_state = self.chance(3);
        let written = match is_state {
            true => {
                self.ask(Instruction::FillState(offset));
                self.ask(Instruction::WriteState)
            }
            false => {
                self.ask(Instruction::Fill(header, offset));
                self.ask(Instruction::Write(header))
            }
        };
        self.look();
        if let &[0, length] = written.as_slice() {
            self.lend_for(num_read, num_eval);
            self.ask(Instruction::Lend(Buffer::Bytes, length));
            self.ask(Instruction::ReadRecord);
            self.look();
        }
    }

    /// A circuit, some changes of it at most, and where it is accepted what follows on it.
    fn ask_circuit(&mut self, circuit: &Circuit, most_spoils: u64) {
        let mut asked = self.asked(circuit);
        self.lend_for(asked.num_vars / 2, asked.num_eval);
        for _ in 0..self.random.below(most_spoils + 1) {
            self.spoil(&mut asked);
        }
        if let Some(header) = self.evaluate(&asked) {
            let header = header.try_into().expect("a header is five numbers");
            self.rows_and_bytes(header);
        }
    }

    pub fn circuits(&mut self) {
        let circuit = match self.random.below(30) {
            0 => listing(),
            1 => listing().with_gate(3, WORD_OF_P12),
            2 => sixteen(),
            _ => {
                let [num_vars, num_eval] = self.counts();
                self.circuit(num_vars, num_eval)
            }
        };
        self.ask_circuit(&circuit, 2);
    }

    /// One of the largest sizes, or any up to them.
    pub fn large_circuits(&mut self) {
        let largest = self.random.one_of(&LARGEST);
        let [num_vars, num_eval] = match largest[0] + largest[1] <= self.most_wires {
            true if self.chance(2) => largest,
            _ => self.counts(),
        };
        let circuit = self.circuit(num_vars, num_eval);
        self.ask_circuit(&circuit, 1);
    }
}
