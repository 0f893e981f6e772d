//! Circuits of the sizes that the Rust names, 6,044 and 13,912 wires, and of the largest, 32,768.

use crate::pattern::Pattern;
use crate::script::{Said, Script};
use crate::spoil::Spoil;
use crate::whole_script::{Wholes, LARGE};

/// num_vars and num_eval.
const SIZES: [[u64; 2]; 5] = [
    [2_044, 4_000],
    [5_912, 8_000],
    [4, 32_764],
    [16_384, 16_384],
    [32_764, 4],
];

pub const UNIFORM: u64 = 1 << 20;

/// Every refusal; 8, 9 and 10 at the first, a middle and the last gate.
fn spoils([num_vars, num_eval]: [u64; 2]) -> Vec<Spoil> {
    let region = 2 * num_vars + num_eval;
    let mut spoils = vec![
        Spoil::Wires1,
        Spoil::Vars2,
        Spoil::Gates3,
        Spoil::Pointer4,
        Spoil::Memory5(1),
        Spoil::Lent6(0, 1),
        Spoil::Lent6(1, 1),
        Spoil::Lent6(2, 1),
        Spoil::Cell7(0),
        Spoil::Cell7(region / 2),
        Spoil::Cell7(region - 1),
        Spoil::Output12,
    ];
    for k in [0, num_eval / 2, num_eval - 1] {
        spoils.extend([Spoil::Opcode8(k), Spoil::Left9(k), Spoil::Right10(k)]);
    }
    spoils
}

pub fn pattern(at: u64, [vars, gates]: [u64; 2], window: u64) -> Pattern {
    Pattern {
        seed: vars + window,
        at,
        vars,
        gates,
        window,
        period: 13,
        others: 9,
    }
}

pub fn cases(script: &mut Script) {
    let wholes = &mut Wholes(script);
    for size in SIZES {
        for window in [UNIFORM, 1, 3] {
            let placed = wholes.place_pattern(pattern(8, size, window));
            wholes.ask(Said::Sums, placed.setting);
            if window == UNIFORM {
                wholes.ask(Said::Sums, placed.setting.with_lent(LARGE));
                for spoil in spoils(size) {
                    wholes.ask_spoilt(Said::Sums, &placed, &[spoil]);
                }
            }
        }
    }
    // Past the limit, with room and memory enough: the counts are sound but for their sum.
    for size in [[2, 32_768], [6, 32_764], [32_766, 4]] {
        let placed = wholes.place_pattern(pattern(0, size, UNIFORM));
        wholes.ask(Said::Sums, placed.setting);
    }
}
