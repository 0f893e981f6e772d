//! Circuits by hand that tell values, counts and nodes, with every cell of the buffers.

use crate::circuits::{gate, Circuit, ADD, MUL, SUB};
use crate::field::P;
use crate::script::Script;
use crate::whole_script::Wholes;

const CORNER_PAIRS: [[u64; 2]; 6] = [
    [0, 0],
    [1, 0],
    [0, 1],
    [P - 1, P - 1],
    [1 << 32, (1 << 32) - 1],
    [9_223_372_034_707_292_161, 16_045_690_984_503_098_046],
];

/// "Errors a careful reader still makes", each with a circuit that it answers otherwise. Evenness before
/// size and the record's limit are told by the counts of `whole_cases` and `whole_large`.
fn of_careful_readers(wholes: &mut Wholes<'_>) {
    // Taking the id for the position: wires lie at both, with other values. The one comes to zero by its
    // ids alone, the other by its positions alone.
    wholes.evaluate(&Circuit {
        variables: [1, 2, 3, 4, 5, 6, 7, 8].map(|v| [v, 0]).to_vec(),
        gates: vec![
            gate(SUB, 7, 4),
            gate(SUB, 5, 6),
            gate(ADD, 3, 4),
            gate(SUB, 1, 7),
        ],
    });
    wholes.evaluate(&Circuit {
        variables: [1, 2, 3, 4, 4, 6, 7, 8].map(|v| [v, 0]).to_vec(),
        gates: vec![
            gate(SUB, 7, 4),
            gate(SUB, 5, 6),
            gate(ADD, 3, 4),
            gate(SUB, 3, 4),
        ],
    });
    // Counting a wire once when both operands name it.
    wholes.evaluate(&Circuit {
        variables: vec![[2, 5], [7, 1]],
        gates: vec![
            gate(MUL, 5, 5),
            gate(ADD, 4, 4),
            gate(SUB, 3, 3),
            gate(SUB, 1, 1),
        ],
    });
    // Reading the last READ wire as the output: it is zero and the output is not; the other way round.
    wholes.evaluate(&Circuit {
        variables: vec![[2, 5], [0, 0]],
        gates: vec![
            gate(ADD, 5, 4),
            gate(ADD, 3, 4),
            gate(MUL, 2, 5),
            gate(ADD, 1, 4),
        ],
    });
    wholes.evaluate(&Circuit {
        variables: vec![[0, 0], [2, 5]],
        gates: vec![
            gate(ADD, 5, 4),
            gate(ADD, 3, 4),
            gate(MUL, 2, 5),
            gate(ADD, 1, 5),
        ],
    });
    // Checking the total of counts only: it is the same of both, and spread otherwise.
    wholes.evaluate(&Circuit {
        variables: vec![[0, 0], [2, 5]],
        gates: vec![
            gate(MUL, 5, 5),
            gate(MUL, 5, 4),
            gate(MUL, 3, 5),
            gate(MUL, 4, 5),
        ],
    });
    wholes.evaluate(&Circuit {
        variables: vec![[0, 0], [2, 5]],
        gates: vec![
            gate(MUL, 4, 4),
            gate(MUL, 4, 4),
            gate(MUL, 3, 4),
            gate(MUL, 4, 5),
        ],
    });
}

/// Every operation on values near the edges, and its result with itself.
fn of_values(wholes: &mut Wholes<'_>) {
    for left in CORNER_PAIRS {
        for right in CORNER_PAIRS {
            wholes.evaluate(&Circuit {
                variables: vec![left, right],
                gates: vec![
                    gate(SUB, 5, 4),
                    gate(MUL, 5, 4),
                    gate(ADD, 5, 4),
                    gate(SUB, 2, 2),
                ],
            });
        }
    }
    // Both operands the newest wire, again and again.
    for opcode in [SUB, MUL, ADD] {
        for first in CORNER_PAIRS {
            let own = |k: u64| gate(opcode, 4 - k, 4 - k);
            wholes.evaluate(&Circuit {
                variables: vec![[5, 6], first],
                gates: (0..4).map(own).collect(),
            });
        }
    }
}

/// "12: last wire is not (0, 0)": each part alone, and sums and products that come to zero.
fn of_outputs(wholes: &mut Wholes<'_>) {
    for [a, b] in [
        [0, 0],
        [0, 1],
        [1, 0],
        [0, P - 1],
        [P - 1, 0],
        [P - 1, P - 1],
    ] {
        wholes.evaluate(&Circuit {
            variables: vec![[0, 0], [a, b]],
            gates: vec![
                gate(MUL, 5, 4),
                gate(ADD, 5, 5),
                gate(SUB, 4, 5),
                gate(ADD, 4, 5),
            ],
        });
        let zero = [P - a, P - b].map(|cell| cell % P);
        wholes.evaluate(&Circuit {
            variables: vec![zero, [a, b]],
            gates: vec![
                gate(MUL, 5, 4),
                gate(SUB, 4, 5),
                gate(ADD, 3, 2),
                gate(ADD, 4, 5),
            ],
        });
    }
}

pub fn cases(script: &mut Script) {
    let wholes = &mut Wholes(script);
    of_careful_readers(wholes);
    of_values(wholes);
    of_outputs(wholes);
}
