//! What the cases of whole evaluation are made of.

use crate::circuits::Circuit;
use crate::field::ID_BITS;
use crate::instruction::{Buffer, Instruction, SIZES, WRITTEN};
use crate::pattern::Pattern;
use crate::script::{room, Lengths, Said, Script, PAST};
use crate::spoil::Placed;

/// The most that small cases have of the value, count and node buffers, and of memory.
pub const SMALL: Lengths = [72, 36, 384];
const SMALL_MEMORY: u64 = 512;

/// All that there is of the buffers: room for two wires more than document 01 allows, and cells past it.
pub const LARGE: Lengths = [SIZES[1], SIZES[2], SIZES[3]];

/// What is lent, and what is asked.
#[derive(Clone, Copy)]
pub struct Setting {
    pub lent: Lengths,
    pub memory: usize,
    pub ctx: u32,
    pub clk: u32,
    pub ptr: u64,
    pub num_vars: u64,
    pub num_eval: u64,
}

/// The last id that a word can name.
pub const LAST_ID: u64 = (1 << ID_BITS) - 1;

impl Circuit {
    pub fn num_wires(&self) -> u64 {
        (self.variables.len() + self.gates.len()) as u64
    }

    /// The evaluation of the circuit at an address, with all that it needs and nothing more.
    pub fn at(&self, ptr: u64) -> Setting {
        exact(ptr, self.variables.len() as u64, self.gates.len() as u64)
    }
}

/// What the whole circuit needs, and nothing more.
pub fn exact(ptr: u64, num_vars: u64, num_eval: u64) -> Setting {
    Setting {
        lent: room((num_vars / 2) as u32, num_eval as u32),
        memory: (ptr + 2 * num_vars + num_eval) as usize,
        ctx: 0,
        clk: 7,
        ptr,
        num_vars,
        num_eval,
    }
}

impl Setting {
    pub fn with_counts(mut self, num_vars: u64, num_eval: u64) -> Setting {
        self.num_vars = num_vars;
        self.num_eval = num_eval;
        self
    }

    pub fn with_ptr(mut self, ptr: u64) -> Setting {
        self.ptr = ptr;
        self
    }

    pub fn with_memory(mut self, memory: usize) -> Setting {
        self.memory = memory;
        self
    }

    pub fn with_lent(mut self, lent: Lengths) -> Setting {
        self.lent = lent;
        self
    }
}

pub struct Wholes<'a>(pub &'a mut Script);

impl Wholes<'_> {
    /// Memory that holds the circuit at an address, and no other element.
    pub fn place(&mut self, circuit: &Circuit, ptr: u64) -> Placed {
        self.0.canaries(Buffer::Memory, SMALL_MEMORY);
        self.0.set_cells(Buffer::Memory, ptr, &circuit.cells());
        self.placed(circuit.at(ptr))
    }

    pub fn place_pattern(&mut self, pattern: Pattern) -> Placed {
        let setting = exact(pattern.at, pattern.vars, pattern.gates);
        let is_small = setting.memory < SMALL_MEMORY as usize;
        let cells = if is_small {
            SMALL_MEMORY
        } else {
            SIZES[0] as u64
        };
        self.0.canaries(Buffer::Memory, cells);
        pattern.place(self.0);
        self.placed(setting)
    }

    fn placed(&self, setting: Setting) -> Placed {
        let memory = self.0.machine.cells(Buffer::Memory);
        let memory = memory.shown(0, setting.memory as u64);
        Placed { memory, setting }
    }

    pub fn cell(&mut self, at: u64, cell: u64) {
        self.0.set_cells(Buffer::Memory, at, &[cell]);
    }

    /// On canaries.
    pub fn ask(&mut self, said: Said, setting: Setting) {
        let is_small = setting
            .lent
            .iter()
            .zip(SMALL)
            .all(|(&cells, small)| cells <= small);
        let room = if is_small { SMALL } else { LARGE };
        for (buffer, cells) in WRITTEN.into_iter().zip(room) {
            self.0.canaries(buffer, cells as u64 + PAST);
        }
        self.0.lend_written(setting.lent);
        self.0.lend(Buffer::Memory, setting.memory);
        let (ctx, clk) = (setting.ctx.into(), setting.clk.into());
        let Setting {
            ptr,
            num_vars,
            num_eval,
            ..
        } = setting;
        let call = Instruction::Evaluate([ctx, clk, ptr, num_vars, num_eval]);
        // "1 to 7 change nothing": canaries need not be shown.
        let said = match self.0.ask(call)[0] {
            1..=7 => Said::Sums,
            _ => said,
        };
        self.0.look_written(said);
    }

    pub fn cells(&mut self, setting: Setting) {
        self.ask(Said::Cells, setting);
    }

    /// The circuit at address 0, with what it needs.
    pub fn evaluate(&mut self, circuit: &Circuit) {
        self.place(circuit, 0);
        self.cells(circuit.at(0));
    }
}
