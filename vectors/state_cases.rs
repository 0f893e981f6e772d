//! Steps and results asked of states that no calls give, and of their neighbours that calls do give.

use crate::field::P;
use crate::script::Script;
use crate::step_script::{seven, sound_states, Steps, ALL, OPENINGS};
use crate::steps::State;

/// A state with one number as another would have it.
pub fn with_number(state: &State, which: usize, change: impl Fn(u64) -> u64) -> State {
    let mut new = *state;
    let narrow = |n: &mut u32| *n = change(u64::from(*n)) as u32;
    match which {
        0 => narrow(&mut new.ctx),
        1 => narrow(&mut new.clk),
        2 => narrow(&mut new.num_read),
        3 => narrow(&mut new.num_eval),
        4 => narrow(&mut new.reads_done),
        5 => narrow(&mut new.evals_done),
        _ => new.id_next = change(new.id_next),
    }
    new
}

fn tampered(steps: &mut Steps<'_>) {
    for state in sound_states() {
        for which in 0..7 {
            steps.calls(ALL, with_number(&state, which, |n| n.wrapping_add(1)));
            steps.calls(ALL, with_number(&state, which, |n| n.wrapping_sub(1)));
            steps.calls(ALL, with_number(&state, which, |_| 0));
            steps.calls(ALL, with_number(&state, which, |_| u64::MAX));
        }
        for id_next in [P - 1, P, P - 2, 1 << 32] {
            steps.calls(ALL, with_number(&state, 6, |_| id_next));
        }
    }
}

/// Several numbers changed so that id_next is what they say, and counts that opening refuses.
fn liars(steps: &mut Steps<'_>) {
    let by = |reads_done, evals_done, id_next| State {
        reads_done,
        evals_done,
        id_next,
        ..seven(0, 0)
    };
    let states = [
        by(0, 1, 5),
        by(1, 1, 3),
        by(0, 3, 3),
        by(1, 3, 1),
        by(3, 0, 0),
        by(3, 1, P - 1),
        by(2, 4, P - 2),
        by(0, 7, P - 1),
        by(u32::MAX, 3, P - 1),
    ];
    for state in states {
        steps.calls(ALL, state);
    }
    for [num_read, num_eval] in OPENINGS {
        for (reads, evals) in [(0, 0), (num_read, 0), (num_read, num_eval)] {
            steps.calls(ALL, State::after([1, 2, num_read, num_eval], reads, evals));
        }
    }
}

pub fn cases(script: &mut Script) {
    let steps = &mut Steps(script);
    tampered(steps);
    liars(steps);
}
