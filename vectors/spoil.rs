//! What makes an evaluation be refused: one change each, of what is asked or of memory, so that two of
//! them can be made at once.

use crate::circuits::{gate, ADD};
use crate::field::P;
use crate::script::Said;
use crate::whole_script::{Setting, Wholes, LAST_ID};

/// Gates are counted from 0. The name of each gives the refusal.
#[derive(Clone, Copy)]
pub enum Spoil {
    Wires1,
    Vars2,
    Gates3,
    Pointer4,
    /// How many cells short.
    Memory5(usize),
    /// The value, count or node buffer, and how many cells short.
    Lent6(usize, usize),
    /// The cell's number in the region.
    Cell7(u64),
    Opcode8(u64),
    Left9(u64),
    Right10(u64),
    Output12,
}

/// A circuit that is accepted, in memory.
#[derive(Clone)]
pub struct Placed {
    pub memory: Vec<u64>,
    pub setting: Setting,
}

impl Placed {
    fn word(&mut self, k: u64) -> &mut u64 {
        let Setting { ptr, num_vars, .. } = self.setting;
        &mut self.memory[(ptr + 2 * num_vars + k) as usize]
    }

    /// The id of the wire that gate k makes.
    fn own_id(&self, k: u64) -> u64 {
        self.setting.num_eval - 1 - k
    }

    /// Counts, pointer and lengths are changed after memory, whose places they tell.
    fn change_cells(&mut self, spoil: Spoil) {
        let num_wires = self.setting.num_vars + self.setting.num_eval;
        match spoil {
            Spoil::Cell7(i) => self.memory[(self.setting.ptr + i) as usize] = P,
            Spoil::Opcode8(k) => *self.word(k) |= gate(3, 0, 0),
            Spoil::Left9(k) => {
                let own = gate(0, self.own_id(k), 0);
                *self.word(k) = *self.word(k) & !gate(0, LAST_ID, 0) | own;
            }
            Spoil::Right10(k) => {
                let own = gate(0, 0, self.own_id(k));
                *self.word(k) = *self.word(k) & !gate(0, 0, LAST_ID) | own;
            }
            Spoil::Output12 => {
                let last = self.setting.num_eval - 1;
                *self.word(last) = gate(ADD, num_wires - 1, num_wires - 1);
            }
            _ => {}
        }
    }

    fn change_setting(&mut self, spoil: Spoil) {
        let setting = &mut self.setting;
        match spoil {
            Spoil::Wires1 => setting.num_eval += 32_768,
            Spoil::Vars2 => setting.num_vars -= 1,
            Spoil::Gates3 => setting.num_eval -= 1,
            Spoil::Pointer4 => setting.ptr -= 2,
            Spoil::Memory5(cells) => setting.memory -= cells,
            Spoil::Lent6(i, cells) => setting.lent[i] -= cells,
            _ => {}
        }
    }

    fn spoilt(&self, spoils: &[Spoil]) -> Placed {
        let mut spoilt = self.clone();
        spoils.iter().for_each(|&spoil| spoilt.change_cells(spoil));
        spoils
            .iter()
            .for_each(|&spoil| spoilt.change_setting(spoil));
        spoilt
    }
}

impl Wholes<'_> {
    /// Memory is as it was again after it.
    pub fn ask_spoilt(&mut self, said: Said, placed: &Placed, spoils: &[Spoil]) {
        let spoilt = placed.spoilt(spoils);
        let cells = placed.memory.iter().zip(&spoilt.memory).zip(0..);
        let changes: Vec<_> = cells.filter(|((old, new), _)| old != new).collect();
        changes
            .iter()
            .for_each(|&((_, &new), at)| self.cell(at, new));
        self.ask(said, spoilt.setting);
        changes
            .iter()
            .for_each(|&((&old, _), at)| self.cell(at, old));
    }

    pub fn ask_spoilt_twice(&mut self, said: Said, placed: &Placed, spoils: &[Spoil]) {
        for (i, &earlier) in spoils.iter().enumerate() {
            for &later in &spoils[i + 1..] {
                self.ask_spoilt(said, placed, &[earlier, later]);
            }
        }
    }
}
