//! The kinds of case that `./compare` draws, and how often each of them is drawn.

use crate::draw::Draw;
use crate::instruction::Instruction;

pub struct Kind {
    pub name: &'static str,
    draw: fn(&mut Draw),
    /// So many of all.
    share: u64,
    most_wires: u64,
    /// Its buffers are large, so that it is run by itself.
    pub is_large: bool,
}

const ALL: u64 = 1_000;

/// Draws of circuits need so many wires.
const SMALLEST: u64 = 12;
/// A smaller case of the same seed need not show the same, so that a few are drawn.
const TRIES: u64 = 12;

const KINDS: [Kind; 9] = [
    small("elements, pairs and gate words", Draw::elements, 120, 0),
    small("numbers", Draw::numbers, 100, 0),
    small("steps", Draw::steps, 250, 24),
    small("circuits", Draw::circuits, 240, 40),
    small("circuits of hundreds of wires", Draw::circuits, 30, 400),
    small("records", Draw::records, 150, 48),
    small("run lists", Draw::lists, 100, 0),
    large("steps of large circuits", Draw::far_steps, 6),
    large("large circuits", Draw::large_circuits, 4),
];

const fn small(name: &'static str, draw: fn(&mut Draw), share: u64, most_wires: u64) -> Kind {
    Kind {
        name,
        draw,
        share,
        most_wires,
        is_large: false,
    }
}

const fn large(name: &'static str, draw: fn(&mut Draw), share: u64) -> Kind {
    Kind {
        name,
        draw,
        share,
        most_wires: 32_768,
        is_large: true,
    }
}

/// What a case is drawn from: the same always gives the same case.
#[derive(Clone, Copy)]
pub struct Seed {
    pub kind: &'static Kind,
    seed: u64,
    most_wires: u64,
}

impl Seed {
    pub fn of(which: u64, seed: u64) -> Seed {
        let mut left = which % ALL;
        let kind = KINDS.iter().find(|kind| {
            let is_it = left < kind.share;
            left = left.saturating_sub(kind.share);
            is_it
        });
        let kind = kind.expect("the shares are all");
        Seed {
            kind,
            seed,
            most_wires: kind.most_wires,
        }
    }

    pub fn case(&self) -> Vec<Instruction> {
        let mut draw = Draw::new(self.seed, self.most_wires);
        (self.kind.draw)(&mut draw);
        draw.case
    }

    /// Cases of the same kind with half as many wires at most; none where a circuit could not be smaller.
    pub fn halved(self) -> impl Iterator<Item = Seed> {
        let most_wires = self.most_wires / 2;
        let tries = match most_wires >= SMALLEST {
            true => TRIES,
            false => 0,
        };
        (0..tries).map(move |i| Seed {
            seed: self.seed.wrapping_add(i),
            most_wires,
            ..self
        })
    }
}
