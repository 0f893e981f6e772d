//! Changes of a circuit or of its call, each for one of the refusals 1 to 12 on purpose.

use crate::circuits::gate;
use crate::draw::Draw;
use crate::draw_circuits::Asked;
use crate::field::P;
use crate::instruction::{Instruction, WRITTEN};

/// Sums of the counts on both sides of 32768: num_vars and num_eval.
const SUMS: [[u64; 2]; 7] = [
    [4, 32_764],
    [6, 32_764],
    [32_769, 0],
    [3, 5],
    [2, 32_768],
    [u64::MAX, u64::MAX],
    [P - 2, 4],
];

const MASK: u64 = (1 << 30) - 1;

impl Draw {
    fn spoil_counts(&mut self, asked: &mut Asked) {
        match self.random.below(6) {
            0 => [asked.num_vars, asked.num_eval] = self.random.one_of(&SUMS),
            1 => asked.num_eval += 32_768,
            2 => asked.num_vars += 1,
            3 => asked.num_vars = 0,
            4 => asked.num_eval += 1 + self.random.below(3),
            _ => asked.num_eval = 0,
        }
    }

    fn spoil_place(&mut self, asked: &mut Asked) {
        match self.random.below(5) {
            0 => asked.ptr = asked.ptr.wrapping_add(1 + self.random.below(3)),
            1 => asked.ptr = self.number(),
            2 => asked.ptr = u64::MAX - 3,
            _ => {
                let end = asked.ptr.saturating_add(asked.cells.len() as u64);
                asked.memory = end.saturating_sub(1 + self.random.below(2));
            }
        }
    }

    fn spoil_room(&mut self) {
        let buffer = self.random.one_of(&WRITTEN);
        let cells = self.lent_cells(buffer);
        let short = 1 + self.random.below(4);
        self.ask(Instruction::Lend(buffer, cells.saturating_sub(short)));
    }

    /// Cells p or near it, at an end or anywhere.
    fn spoil_cell(&mut self, asked: &mut Asked) {
        let last = asked.cells.len() as u64 - 1;
        let any = self.random.below(last + 1);
        let at = self.random.one_of(&[0, last, any]);
        asked.cells[at as usize] = P - 1 + self.random.below(3);
    }

    /// Gates are counted from 0; the last one more often than others.
    fn any_gate(&mut self, asked: &Asked) -> u64 {
        let gates = asked.cells.len() as u64 - 2 * asked.num_vars;
        match self.chance(4) {
            true => gates - 1,
            false => self.random.below(gates),
        }
    }

    /// The id of the gate's own wire, of a later one, or one that no wire has.
    fn unmade_id(&mut self, asked: &Asked, gate: u64) -> u64 {
        let own = (asked.num_eval - 1).saturating_sub(gate);
        match self.random.below(3) {
            0 => own,
            1 => self.random.below(own + 1),
            _ => (asked.num_wires() + self.random.below(3)) & MASK,
        }
    }

    fn spoil_gate(&mut self, asked: &mut Asked) {
        let k = self.any_gate(asked);
        let id = self.unmade_id(asked, k);
        let opcode = 3 + self.random.below(13);
        let way = self.random.below(4);
        let any = self.random.next() % P;
        let word = asked.word(k);
        *word = match way {
            0 => *word & (gate(1, 0, 0) - 1) | gate(opcode, 0, 0),
            1 => *word & !MASK | id,
            2 => *word & !(MASK << 30) | gate(0, 0, id),
            _ => any,
        };
    }

    /// The last gate names any wires, and seldom comes to zero.
    fn spoil_output(&mut self, asked: &mut Asked) {
        let num_wires = asked.num_wires();
        let ids = [0; 2].map(|_| 1 + self.random.below(num_wires - 1));
        let opcode = self.random.below(3);
        *asked.cells.last_mut().expect("a gate") = gate(opcode, ids[0], ids[1]);
    }

    /// The cells are changed as long as the counts tell where they lie.
    pub fn spoil(&mut self, asked: &mut Asked) {
        let is_whole = asked.is_whole();
        match self.random.below(8) {
            0 if is_whole => self.spoil_counts(asked),
            1 => self.spoil_place(asked),
            2 => self.spoil_room(),
            3 => self.spoil_cell(asked),
            4 if is_whole => self.spoil_output(asked),
            _ if is_whole => self.spoil_gate(asked),
            _ => {}
        }
    }
}
