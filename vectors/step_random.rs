//! Random sequences of calls, in which good steps and bad ones follow on each other.

use crate::circuits::gate as word;
use crate::field::{OPCODE_BITS, P};
use crate::instruction::{Buffer, Instruction};
use crate::random::Random;
use crate::script::{room_of, Lengths, Script, NEAR_P};
use crate::state_cases::with_number;
use crate::step_script::{cell, Steps, ALL, NEAR_FULL};
use crate::steps::State;

const SEQUENCES: usize = 260;
const SEED: u64 = 3;

const CORNERS: [u64; 6] = [0, 1, 7, P - 1, P - 7, 1 << 32];

/// What is asked next depends on how far the calls have come.
struct Sequence<'a> {
    random: &'a mut Random,
    steps: Steps<'a>,
}

/// Mostly of few digits.
fn element(random: &mut Random) -> u64 {
    match random.below(8) {
        0 => random.one_of(&CORNERS),
        1 => random.next() % P,
        _ => random.below(10),
    }
}

fn cells(random: &mut Random) -> [u64; 4] {
    std::array::from_fn(|_| element(random))
}

/// The buffers hold the largest of these circuits.
fn circuit(random: &mut Random) -> [u32; 4] {
    let [ctx, clk] = [random.below(100), random.next() >> 32];
    let [num_read, num_eval] = [1 + random.below(4), 1 + random.below(6)];
    [ctx, clk, num_read, num_eval].map(|n| n as u32)
}

/// What the circuit needs, or up to two cells more; sometimes one less.
fn lengths(random: &mut Random, opened: [u32; 4]) -> Lengths {
    let mut lengths = room_of(opened);
    for (length, all) in lengths.iter_mut().zip(ALL) {
        *length = all.min(*length + random.below(3) as usize);
    }
    if random.below(12) == 0 {
        let buffer = random.below(3) as usize;
        lengths[buffer] = room_of(opened)[buffer] - 1;
    }
    lengths
}

impl Sequence<'_> {
    fn state(&self) -> &State {
        &self.steps.0.machine.state
    }

    fn set(&mut self, setting: Instruction) {
        self.steps.0.set(setting);
    }

    fn is_done(&self) -> bool {
        !self.state().lacks_reads() && !self.state().lacks_evals()
    }

    /// The id of a wire that is made, where one is.
    fn made_id(&mut self) -> u64 {
        let made = self.state().made() as u64;
        let num_wires = self.state().num_wires() as u64;
        match made {
            0 => 0,
            _ => num_wires - 1 - self.random.below(made),
        }
    }

    fn made_position(&mut self) -> usize {
        let id = self.made_id() as usize;
        self.state().num_wires() - 1 - id
    }

    fn good_read(&mut self) -> Instruction {
        Instruction::Read(self.random.below(1000), cells(self.random))
    }

    /// Sometimes a wire less itself, which is zero.
    fn good_eval(&mut self) -> Instruction {
        let [left, right] = [self.made_id(), self.made_id()];
        let gate = match self.random.below(4) {
            0 => word(0, left, left),
            _ => word(self.random.below(3), left, right),
        };
        Instruction::Eval(self.random.below(1000), gate)
    }

    fn good_step(&mut self) -> Instruction {
        if self.state().lacks_reads() {
            self.good_read()
        } else {
            self.good_eval()
        }
    }

    /// A step with a number that is no element.
    fn foreign_step(&mut self) -> Instruction {
        let number = self.random.one_of(&NEAR_P);
        let place = self.random.below(5) as usize;
        match self.good_step() {
            Instruction::Read(_, _) if place == 4 => Instruction::Read(number, cells(self.random)),
            Instruction::Read(ptr, mut cells) => {
                cells[place] = number;
                Instruction::Read(ptr, cells)
            }
            Instruction::Eval(_, gate) if place < 2 => Instruction::Eval(number, gate),
            _ => Instruction::Eval(self.random.below(1000), number),
        }
    }

    /// A gate that names any wires, or whose word does not decode.
    fn wild_eval(&mut self) -> Instruction {
        let ids = self.state().num_wires() as u64 + 2;
        let [left, right] = [self.random.below(ids), self.random.below(ids)];
        let opcode = match self.random.below(3) {
            0 => 3 + self.random.below((1 << (u64::BITS - OPCODE_BITS)) - 3),
            _ => self.random.below(3),
        };
        Instruction::Eval(self.random.below(1000), word(opcode, left, right))
    }

    /// A step after a made wire's cell or count was set near its end. Left so, the cell would stop most
    /// steps to come.
    fn spoilt_wire(&mut self) {
        let position = self.made_position();
        if self.random.below(2) == 0 {
            let i = 2 * position + self.random.below(2) as usize;
            let number = self.random.one_of(&NEAR_P);
            self.set(cell(Buffer::Values, i, number));
            let step = self.good_step();
            self.steps.call(step);
            let element = element(self.random);
            self.set(cell(Buffer::Values, i, element));
        } else {
            let count = self.random.one_of(&NEAR_FULL);
            self.set(cell(Buffer::Counts, position, count.into()));
            let step = self.good_step();
            self.steps.call(step);
        }
    }

    /// A call on a state with one number a little off; where it is refused, the sound state goes on.
    fn spoilt_state(&mut self) {
        let sound = *self.state();
        let which = self.random.below(7) as usize;
        let by = self.random.one_of(&[1, 2, u64::MAX, u64::MAX - 1]);
        let spoilt: State = with_number(&sound, which, |n| n.wrapping_add(by));
        self.steps.set(spoilt);
        let call = match self.random.below(3) {
            0 => Instruction::Output,
            _ => self.good_step(),
        };
        self.steps.call(call);
        if *self.state() == spoilt {
            self.steps.set(sound);
        }
    }

    fn next(&mut self) {
        let call = match self.random.below(16) {
            0 => self.good_read(),
            1 => self.good_eval(),
            2 => Instruction::Output,
            3 => self.foreign_step(),
            4 => self.wild_eval(),
            5 => return self.spoilt_wire(),
            6 => return self.spoilt_state(),
            _ => self.good_step(),
        };
        self.steps.call(call);
    }

    fn run(&mut self) {
        let opened = circuit(self.random);
        let lengths = lengths(self.random, opened);
        self.steps.begin(lengths);
        self.steps.call(Instruction::Open(opened.map(u64::from)));
        // Refused for its room, as the step on it is then too.
        if self.state().num_read == 0 {
            let begun = State::after(opened, 0, 0);
            self.steps.set(begun);
            self.next();
            return;
        }
        let most = 3 * (opened[2] + opened[3]);
        for _ in 0..most {
            if self.is_done() {
                break;
            }
            self.next();
        }
        self.steps.call(Instruction::Output);
        self.next();
    }
}

pub fn cases(script: &mut Script) {
    let mut random = Random(SEED);
    for _ in 0..SEQUENCES {
        let mut sequence = Sequence {
            random: &mut random,
            steps: Steps(script),
        };
        sequence.run();
    }
}
