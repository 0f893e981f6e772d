//! Random circuits: some written down, and some patterns. Of each kind some are spoilt.

use crate::circuits::{gate, Circuit, SUB};
use crate::field::P;
use crate::pattern::Pattern;
use crate::random::Random;
use crate::script::{Said, Script};
use crate::spoil::Spoil;
use crate::whole_script::Wholes;

const SEED: u64 = 2;
const WRITTEN: usize = 300;
const PATTERNS: usize = 600;

/// Mostly of few digits.
fn element(random: &mut Random) -> u64 {
    match random.below(8) {
        0 => random.next() % P,
        1 => P - 1 - random.below(3),
        _ => random.below(12),
    }
}

/// Mostly one that is made.
fn id(random: &mut Random, num_wires: u64, made: u64) -> u64 {
    match random.below(60) {
        0 => random.below(num_wires + 2),
        _ => num_wires - 1 - random.below(made),
    }
}

fn any_gate(random: &mut Random, num_wires: u64, made: u64) -> u64 {
    if random.below(30) == 0 {
        return random.next() % P;
    }
    let [left, right] = [id(random, num_wires, made), id(random, num_wires, made)];
    gate(random.below(3), left, right)
}

fn any_circuit(random: &mut Random) -> Circuit {
    let num_vars = 2 + 2 * random.below(3);
    let num_wires = num_vars + 4 + 4 * random.below(2);
    let variables = (0..num_vars).map(|_| [element(random), element(random)]);
    let variables = variables.collect();
    let gates = (num_vars..num_wires).map(|made| any_gate(random, num_wires, made));
    let mut gates: Vec<u64> = gates.collect();
    // Few circuits come to zero by themselves.
    if random.below(5) > 0 {
        let id = 1 + random.below(num_wires - 1);
        *gates.last_mut().expect("a gate") = gate(SUB, id, id);
    }
    Circuit { variables, gates }
}

fn any_pattern(random: &mut Random) -> Pattern {
    let vars = 2 + 2 * random.below(8);
    let seed = 1 + random.below(1_000_000);
    Pattern {
        seed,
        at: 4 + 4 * random.below(10),
        vars,
        gates: 4 + 4 * random.below((32 - vars) / 4),
        window: [1, 2, 5, 1 << 20][random.below(4) as usize],
        period: 1 + seed % 6,
        others: seed % 3,
    }
}

fn any_spoil(random: &mut Random, pattern: &Pattern) -> Spoil {
    let k = random.below(pattern.gates);
    match random.below(11) {
        0 => Spoil::Wires1,
        1 => Spoil::Vars2,
        2 => Spoil::Gates3,
        3 => Spoil::Pointer4,
        4 => Spoil::Memory5(1 + random.below(4) as usize),
        5 => Spoil::Lent6(random.below(3) as usize, 1 + random.below(4) as usize),
        6 => Spoil::Cell7(random.below(2 * pattern.vars + pattern.gates)),
        7 => Spoil::Opcode8(k),
        8 => Spoil::Left9(k),
        9 => Spoil::Right10(k),
        _ => Spoil::Output12,
    }
}

pub fn cases(script: &mut Script) {
    let mut random = Random(SEED);
    let wholes = &mut Wholes(script);
    for _ in 0..WRITTEN {
        let circuit = any_circuit(&mut random);
        wholes.place(&circuit, 0);
        wholes.ask(Said::Sums, circuit.at(0));
    }
    for _ in 0..PATTERNS {
        let pattern = any_pattern(&mut random);
        let placed = wholes.place_pattern(pattern);
        let spoils: Vec<Spoil> = (0..random.below(4))
            .map(|_| any_spoil(&mut random, &pattern))
            .collect();
        wholes.ask_spoilt(Said::Sums, &placed, &spoils);
    }
}
