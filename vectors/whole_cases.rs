//! Refusals by hand: what is asked, and gates that cannot be done. Cells or sums of the buffers are said.

use crate::circuits::{gate, listing, sixteen, ADD, MUL, WORD_OF_P12};
use crate::field::P;
use crate::script::{Said, Script, NEAR_P};
use crate::spoil::Spoil;
use crate::whole_script::{Wholes, LAST_ID, SMALL};

/// Counts on both sides of each edge of refusals 1, 2 and 3; of some a sum of 32 or 64 bits would wrap.
const COUNTS: [[u64; 2]; 52] = [
    [0, 0],
    [0, 4],
    [1, 4],
    [2, 0],
    [2, 1],
    [2, 2],
    [2, 3],
    [2, 4],
    [2, 5],
    [2, 6],
    [2, 7],
    [2, 8],
    [3, 4],
    [3, 5],
    [4, 4],
    [5, 4],
    [0, 32_768],
    [0, 32_769],
    [1, 32_767],
    [1, 32_768],
    [2, 32_764],
    [2, 32_766],
    [2, 32_767],
    [2, 32_768],
    [4, 32_764],
    [5, 32_764],
    [6, 32_764],
    [32_764, 4],
    [32_765, 4],
    [32_766, 4],
    [32_766, 2],
    [32_767, 1],
    [32_767, 2],
    [32_768, 0],
    [32_768, 1],
    [32_769, 0],
    [1_073_741_819, 4],
    [1_073_741_820, 4],
    [LAST_ID - 3, 4],
    [LAST_ID, 4],
    [(1 << 32) + 2, 4],
    [2, (1 << 32) + 4],
    [1 << 32, 1 << 32],
    [1 << 63, 1 << 63],
    [P - 1, 4],
    [P, 4],
    [2, P - 1],
    [2, P],
    [2, u64::MAX - 1],
    [6, u64::MAX - 1],
    [u64::MAX, 5],
    [u64::MAX, u64::MAX],
];

/// Multiples of 4 near 2^32 and 2^64, and p's neighbours: the sum with 8 cells passes 2^64 for some.
const FAR_POINTERS: [u64; 12] = [
    1 << 31,
    (1 << 32) - 8,
    1 << 32,
    (1 << 32) + 4,
    1 << 62,
    1 << 63,
    P - 1,
    P,
    P + 3,
    u64::MAX - 11,
    u64::MAX - 7,
    u64::MAX - 3,
];

/// P11, P12, and "memory of 7 cells for the listing: 5".
fn of_the_listing(wholes: &mut Wholes<'_>) {
    let circuit = listing();
    wholes.evaluate(&circuit);
    wholes.cells(circuit.at(0).with_memory(7));
    for [ctx, clk] in [[u32::MAX, 0], [3, u32::MAX]] {
        let mut setting = circuit.at(0);
        (setting.ctx, setting.clk) = (ctx, clk);
        wholes.cells(setting);
    }
    wholes.evaluate(&circuit.with_gate(3, WORD_OF_P12));
}

/// Memory is enough for the small ones alone.
fn of_counts(wholes: &mut Wholes<'_>) {
    wholes.place(&sixteen(), 0);
    for [num_vars, num_eval] in COUNTS {
        let setting = listing().at(0).with_counts(num_vars, num_eval);
        wholes.cells(setting.with_memory(24).with_lent(SMALL));
    }
}

fn of_pointers(wholes: &mut Wholes<'_>) {
    let circuit = listing();
    for ptr in [0, 4, 20, 400] {
        wholes.place(&circuit, ptr);
        let setting = circuit.at(ptr);
        for memory in [setting.memory - 1, setting.memory, setting.memory + 1] {
            wholes.cells(setting.with_memory(memory));
        }
        for off in 1..4 {
            wholes.cells(setting.with_ptr(ptr + off).with_memory(500));
        }
        wholes.cells(setting.with_ptr(ptr + 4));
    }
    for ptr in FAR_POINTERS {
        wholes.cells(circuit.at(0).with_ptr(ptr).with_memory(500));
    }
    for memory in 0..8 {
        wholes.cells(circuit.at(0).with_memory(memory));
    }
}

/// Each buffer exact, one short, one more, and empty.
fn of_lengths(wholes: &mut Wholes<'_>) {
    for circuit in [listing(), sixteen()] {
        wholes.place(&circuit, 0);
        let setting = circuit.at(0);
        for buffer in 0..3 {
            for length in [setting.lent[buffer] - 1, setting.lent[buffer] + 1, 0] {
                let mut lent = setting.lent;
                lent[buffer] = length;
                wholes.ask(Said::Sums, setting.with_lent(lent));
            }
        }
        for lent in [setting.lent.map(|length| length + 1), SMALL, [0; 3]] {
            wholes.ask(Said::Sums, setting.with_lent(lent));
        }
    }
}

/// Cells near p in the region, each alone and two at once; outside it every cell is over p always.
fn of_cells(wholes: &mut Wholes<'_>) {
    let circuit = listing();
    let cells = circuit.cells();
    wholes.place(&circuit, 8);
    for (at, &cell) in (8..).zip(&cells) {
        for near in NEAR_P {
            wholes.cell(at, near);
            wholes.cells(circuit.at(8));
        }
        wholes.cell(at, cell);
    }
    for [first, second] in [[8, 9], [10, 15], [12, 13], [14, 15]] {
        wholes.cell(first, P);
        wholes.cell(second, u64::MAX);
        wholes.cells(circuit.at(8));
        wholes.cell(first, cells[first as usize - 8]);
        wholes.cells(circuit.at(8));
        wholes.cell(second, cells[second as usize - 8]);
    }
}

/// Opcodes and ids at the first, a middle and the last gate: on each side the ids that are made last
/// and first, and their neighbours that are not.
fn of_gates(wholes: &mut Wholes<'_>) {
    let circuit = sixteen();
    let num_wires = circuit.num_wires();
    wholes.place(&circuit, 0);
    for k in [0, 3, 7] {
        let at = 2 * circuit.variables.len() as u64 + k;
        let own = 7 - k;
        for opcode in [3, 4, 15] {
            wholes.cell(at, gate(opcode, own + 1, own + 1));
            wholes.cells(circuit.at(0));
        }
        let made = [own + 1, num_wires - 1];
        let others = [
            own,
            own.saturating_sub(1),
            num_wires,
            num_wires + 1,
            LAST_ID,
        ];
        for id in made.into_iter().chain(others) {
            for (left, right) in [(id, own + 1), (own + 1, id), (id, id)] {
                wholes.cell(at, gate(MUL, left, right));
                wholes.ask(Said::Sums, circuit.at(0));
            }
        }
        wholes.cell(at, circuit.gates[k as usize]);
    }
    // "First gate naming id 3 (itself) or 6 on the left: 9."
    for id in [3, 6] {
        for (left, right) in [(id, 5), (5, id), (id, id)] {
            wholes.evaluate(&listing().with_gate(0, gate(ADD, left, right)));
        }
    }
}

/// Two reasons at once: the earlier one is given. What is short is so by more than another change frees.
fn of_two_reasons(wholes: &mut Wholes<'_>) {
    let spoils = [
        Spoil::Wires1,
        Spoil::Vars2,
        Spoil::Gates3,
        Spoil::Pointer4,
        Spoil::Memory5(4),
        Spoil::Lent6(0, 16),
        Spoil::Lent6(1, 16),
        Spoil::Lent6(2, 16),
        Spoil::Cell7(2),
        Spoil::Opcode8(4),
        Spoil::Left9(4),
        Spoil::Right10(4),
        Spoil::Output12,
    ];
    // At an address from which the pointer can be moved back.
    let placed = wholes.place(&sixteen(), 4);
    wholes.ask(Said::Sums, placed.setting);
    for spoil in spoils {
        wholes.ask_spoilt(Said::Sums, &placed, &[spoil]);
    }
    wholes.ask_spoilt_twice(Said::Sums, &placed, &spoils);
    // Gate by gate: an earlier gate's refusal goes before a later one's, whatever their numbers.
    let by_gate = [
        Spoil::Right10(0),
        Spoil::Left9(1),
        Spoil::Opcode8(2),
        Spoil::Cell7(17),
        Spoil::Cell7(23),
    ];
    wholes.ask_spoilt_twice(Said::Sums, &placed, &by_gate);
}

pub fn cases(script: &mut Script) {
    let wholes = &mut Wholes(script);
    of_the_listing(wholes);
    of_counts(wholes);
    of_pointers(wholes);
    of_lengths(wholes);
    of_cells(wholes);
    of_gates(wholes);
    of_two_reasons(wholes);
}
