//! Which elements, pairs and gate words are asked about.

use std::ops::Range;

use crate::field::{ID_BITS, OPCODE_BITS, P};
use crate::instruction::{Arithmetic, Instruction};
use crate::random::Random;
use crate::script::Script;

const TWO_32: u64 = 1 << 32;

const CORNERS: [u64; 7] = [0, 1, P - 1, P, TWO_32 - 1, TWO_32 + 1, u64::MAX];
/// For elements only.
const MORE_CORNERS: [u64; 2] = [TWO_32, P + 1];

/// The second pairs that sums and differences meet with every first pair: no change, a wrap and a
/// borrow in one part each, and refusals at the third place, at the fourth and at both.
const TELLING: [[u64; 2]; 6] = [
    [0, 0],
    [P - 1, 1],
    [P, 0],
    [0, P],
    [P - 1, u64::MAX],
    [u64::MAX, P],
];

const IDS: [u64; 6] = [0, 1, 2, 1 << 29, (1 << ID_BITS) - 2, (1 << ID_BITS) - 1];

const EDGE_WORDS: [u64; 7] = [
    (3 << OPCODE_BITS) - 1,
    3 << OPCODE_BITS,
    (3 << OPCODE_BITS) + 1,
    P - 2,
    P - 1,
    P,
    P + 1,
];

/// The words of P1 to P5.
const WORDS_OF_01: [u64; 5] = [
    0,
    2_305_843_013_508_661_253,
    1_152_921_504_606_846_975,
    3_458_764_513_820_540_928,
    P - 1,
];

const RANDOM_CASES: usize = 200;
const SEED: u64 = 1;

const OPS: [Arithmetic; 3] = [Arithmetic::Add, Arithmetic::Sub, Arithmetic::Mul];

impl Random {
    /// A plain random u64 is p or more once in 2^32 draws, so one draw in sixteen is made so.
    fn number(&mut self) -> u64 {
        if self.next() >> 60 == 0 {
            P + self.next() % (TWO_32 - 1)
        } else {
            self.next() % P
        }
    }

    fn numbers<const N: usize>(&mut self) -> [u64; N] {
        std::array::from_fn(|_| self.number())
    }

    fn word(&mut self, opcodes: Range<u64>) -> u64 {
        let opcode = opcodes.start + self.next() % (opcodes.end - opcodes.start);
        (opcode << OPCODE_BITS) | (self.next() >> (u64::BITS - OPCODE_BITS))
    }
}

/// Every choice of two, the last one changing fastest.
fn twos<T: Copy>(of: &[T]) -> impl Iterator<Item = [T; 2]> + '_ {
    of.iter().flat_map(|&a| of.iter().map(move |&b| [a, b]))
}

fn of_elements(script: &mut Script, random: &mut Random) {
    let corners = [CORNERS.as_slice(), &MORE_CORNERS].concat();
    for op in OPS {
        for numbers in twos(&corners) {
            script.ask(Instruction::Felt(op, numbers));
        }
    }
    for op in OPS {
        for _ in 0..RANDOM_CASES {
            script.ask(Instruction::Felt(op, random.numbers()));
        }
    }
}

/// The parts of a sum or a difference do not meet, so of its fourfold choices those suffice that
/// are accepted or have a telling second pair; a product takes all.
fn is_asked(op: Arithmetic, numbers: &[u64; 4]) -> bool {
    let [_, _, b0, b1] = *numbers;
    op == Arithmetic::Mul || numbers.iter().all(|&n| n < P) || TELLING.contains(&[b0, b1])
}

fn of_pairs(script: &mut Script, random: &mut Random) {
    let pairs: Vec<[u64; 2]> = twos(&CORNERS).collect();
    for op in OPS {
        let fours = twos(&pairs).map(|[[a0, a1], [b0, b1]]| [a0, a1, b0, b1]);
        for numbers in fours.filter(|numbers| is_asked(op, numbers)) {
            script.ask(Instruction::Quad(op, numbers));
        }
    }
    for op in OPS {
        for _ in 0..RANDOM_CASES {
            script.ask(Instruction::Quad(op, random.numbers()));
        }
    }
}

fn of_words(script: &mut Script, random: &mut Random) {
    let mut words = Vec::new();
    for opcode in 0..16 {
        let ids = twos(&IDS);
        words.extend(ids.map(|[left, right]| (opcode << OPCODE_BITS) | (right << ID_BITS) | left));
    }
    words.extend(CORNERS);
    words.extend(EDGE_WORDS);
    words.extend(WORDS_OF_01);
    for _ in 0..RANDOM_CASES / 2 {
        words.extend([random.word(0..3), random.word(3..16)]);
    }
    for word in words {
        script.ask(Instruction::Decode(word));
    }
}

pub fn cases(script: &mut Script) {
    let mut random = Random(SEED);
    of_elements(script, &mut random);
    of_pairs(script, &mut random);
    of_words(script, &mut random);
}
