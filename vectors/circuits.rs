//! Circuits by hand, and what they are made of.

use crate::field::{ID_BITS, OPCODE_BITS};

/// "0 Sub, 1 Mul, 2 Add."
pub const SUB: u64 = 0;
pub const MUL: u64 = 1;
pub const ADD: u64 = 2;

pub fn gate(opcode: u64, left: u64, right: u64) -> u64 {
    (opcode << OPCODE_BITS) | (right << ID_BITS) | left
}

#[derive(Clone)]
pub struct Circuit {
    pub variables: Vec<[u64; 2]>,
    pub gates: Vec<u64>,
}

/// "The program" of document 01: ids 5 and 4 are read, ids 3 to 0 are gates.
pub fn listing() -> Circuit {
    Circuit {
        variables: vec![[3, 0], [4, 0]],
        gates: vec![
            2_305_843_013_508_661_253,
            1_152_921_508_901_814_277,
            3_221_225_475,
            1_152_921_506_754_330_625,
        ],
    }
}

/// Ids 15 to 8 are read, ids 7 to 0 are gates: every kind, operands near and far.
pub fn sixteen() -> Circuit {
    let variables = (1..9).map(|i| [10 * i, 10 * i + 1]).collect();
    let gates = vec![
        gate(ADD, 15, 8),
        gate(MUL, 14, 7),
        gate(SUB, 6, 13),
        gate(ADD, 5, 5),
        gate(MUL, 12, 11),
        gate(SUB, 10, 9),
        gate(ADD, 2, 3),
        gate(SUB, 1, 1),
    ];
    Circuit { variables, gates }
}

/// "P12 its last word as 2305843011361177601: 12."
pub const WORD_OF_P12: u64 = 2_305_843_011_361_177_601;

impl Circuit {
    pub fn with_gate(&self, k: usize, word: u64) -> Circuit {
        let mut circuit = self.clone();
        circuit.gates[k] = word;
        circuit
    }

    pub fn cells(&self) -> Vec<u64> {
        [self.variables.concat(), self.gates.clone()].concat()
    }
}
