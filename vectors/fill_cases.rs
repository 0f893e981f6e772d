//! Row fill and the record writer by hand: every refusal in its order, and where each cell goes.

use crate::field::P;
use crate::instruction::Buffer;
use crate::record_script::{finished, record, Of, Records, ALL, ROWS};
use crate::rows::WIDTH;
use crate::script::{room, room_of, Script, NEAR_P};
use crate::step_script::SEVEN_WIRES as SEVEN;
use crate::steps::State;

const SEVEN_ROWS: usize = 5;

/// ctx, clk, num_read and num_eval of a record of three wires.
const THREE: [u32; 4] = [6, 7, 1, 1];

/// READ and EVAL counts on both sides of refusals 21 and 19, none with room; of some a sum of 32 bits
/// would wrap.
const COUNTS: [[u32; 2]; 22] = [
    [0, 0],
    [1, 0],
    [2, 0],
    [16_384, 0],
    [536_870_911, 0],
    [536_870_912, 0],
    [1 << 31, 0],
    [u32::MAX, 0],
    [0, 32_769],
    [16_384, 1],
    [536_870_910, 3],
    [536_870_911, 1],
    [536_870_911, 2],
    [536_870_912, 1],
    [0, 1_073_741_823],
    [0, 1_073_741_824],
    [1, 1_073_741_821],
    [1, 1_073_741_822],
    [1 << 31, 1],
    [1 << 31, 4],
    [0, u32::MAX],
    [u32::MAX, u32::MAX],
];

/// Offsets whose rows pass 2^60, or 2^64, or whose cells come to 2^64, to a little more, and to less.
const FAR_OFFSETS: [u64; 14] = [
    1 << 28,
    (1 << 32) - 1,
    1 << 32,
    (1 << 60) - 6,
    (1 << 60) - 5,
    (1 << 60) - 4,
    (1 << 60) - 1,
    1 << 60,
    (1 << 60) + 1,
    1 << 63,
    u64::MAX - 5,
    u64::MAX - 4,
    u64::MAX - 3,
    u64::MAX,
];

fn seven() -> Of {
    record(SEVEN, P - 1)
}

fn three() -> Of {
    record(THREE, P - 1)
}

/// Records of many shapes, and the states that have them.
fn of_shapes(records: &mut Records<'_>) {
    records.begin();
    let shapes = [
        [0, 1],
        [0, 2],
        [0, 5],
        [1, 1],
        [1, 4],
        [2, 3],
        [3, 1],
        [4, 8],
    ];
    for [num_read, num_eval] in shapes {
        let opened = [num_read + 3, num_eval + 30, num_read, num_eval];
        records.both(room(num_read, num_eval), record(opened, P - 1));
        records.both(room(num_read, num_eval), Of::State(finished(opened)));
    }
    for [ctx, clk] in [[0, 0], [u32::MAX, 0], [0, u32::MAX], [127, 128]] {
        records.both(ALL, record([ctx, clk, 1, 1], P - 1));
    }
}

/// Each buffer exact, one short, one more, and empty.
fn of_lengths(records: &mut Records<'_>) {
    records.begin();
    for of in [seven(), Of::State(finished(SEVEN))] {
        for buffer in 0..3 {
            for length in [room_of(SEVEN)[buffer] - 1, room_of(SEVEN)[buffer] + 1, 0] {
                let mut lent = room_of(SEVEN);
                lent[buffer] = length;
                records.both(lent, of);
            }
        }
        records.both([0; 3], of);
    }
}

/// Row buffers exact, one short and longer, at offsets small and large: 14.
fn of_offsets(records: &mut Records<'_>) {
    records.begin();
    let lent = room_of(SEVEN);
    for offset in [0, 1, 2, 7, 300] {
        let need = WIDTH * (offset as usize + SEVEN_ROWS);
        for rows in [need - WIDTH, need - 1, need, need + 1, need + 40] {
            records.fill(lent, seven(), offset, rows);
        }
        let state = Of::State(finished(SEVEN));
        records.fill(lent, state, offset, need - 1);
        records.fill(lent, state, offset, need);
    }
    for rows in [0, 1, WIDTH] {
        records.fill(lent, seven(), 0, rows);
    }
    for offset in FAR_OFFSETS {
        for rows in [0, WIDTH * SEVEN_ROWS, ROWS] {
            records.fill(lent, seven(), offset, rows);
        }
        let state = Of::State(finished(SEVEN));
        records.fill(lent, state, offset, ROWS);
    }
}

fn of_counts(records: &mut Records<'_>) {
    records.begin();
    for [num_read, num_eval] in COUNTS {
        records.both(ALL, record([5, 9, num_read, num_eval], P - 1));
        records.both([0; 3], record([5, 9, num_read, num_eval], P));
    }
}

/// Cells near p, each alone; the first past the used ones does not count. A count may be anything.
fn of_cells(records: &mut Records<'_>) {
    let [values, counts, nodes] = room_of(THREE);
    for i in 0..values + 2 {
        for cell in NEAR_P {
            records.begin_with(Buffer::Values, i, cell);
            records.both(ALL, three());
        }
    }
    for i in 0..nodes + 2 {
        for cell in NEAR_P {
            records.begin_with(Buffer::Nodes, i, cell);
            records.both(ALL, three());
        }
    }
    for i in 0..counts + 1 {
        records.begin_with(Buffer::Counts, i, u32::MAX.into());
        records.both(ALL, three());
    }
    for id_next in [0, 1, 2, 3, 1 << 32, P - 2, P - 1, P, P + 1, u64::MAX] {
        records.both(ALL, record(THREE, id_next));
    }
}

/// As many steps done as these counts say, whatever opening says of them.
fn all_done(num_read: u32, num_eval: u32) -> State {
    State {
        num_read,
        num_eval,
        reads_done: num_read,
        evals_done: num_eval,
        ..finished(SEVEN)
    }
}

/// States that no calls give, and such as lack steps.
fn states() -> Vec<State> {
    let done = finished(SEVEN);
    let mut states = vec![done];
    for reads_done in 0..=3 {
        for evals_done in 0..=4 {
            states.push(State {
                reads_done,
                evals_done,
                ..done
            });
        }
    }
    for (reads, evals) in [(0, 0), (1, 0), (2, 0), (2, 1), (2, 2)] {
        states.push(State::after(SEVEN, reads, evals));
    }
    states.extend([0, 1, P - 2, P, u64::MAX].map(|id_next| State { id_next, ..done }));
    // Counts that opening refuses are 13, and never 21 or 19.
    let counts = [
        [0, 3],
        [2, 0],
        [0, 0],
        [16_384, 1],
        [1 << 31, 4],
        [0, u32::MAX],
    ];
    states.extend(counts.map(|[num_read, num_eval]| all_done(num_read, num_eval)));
    states
}

fn of_states(records: &mut Records<'_>) {
    records.begin();
    for state in states() {
        records.both(room_of(SEVEN), Of::State(state));
    }
    // 32,768 wires are the most; there is no room for so many.
    for [num_read, num_eval] in [
        [1, 32_766],
        [2, 32_764],
        [16_383, 2],
        [1, 32_767],
        [16_383, 3],
    ] {
        records.both(ALL, Of::State(all_done(num_read, num_eval)));
    }
}

/// Two reasons and more at once: the earlier one is given. Each row of cases takes one reason away.
fn of_order(records: &mut Records<'_>) {
    let lacking = State::after(SEVEN, 2, 2);
    let unsound = State {
        id_next: 3,
        ..lacking
    };
    let none = record([5, 9, 1 << 31, 0], P);
    let many = record([5, 9, 1 << 31, 1], P);
    let ofs = [
        Of::State(unsound),
        Of::State(lacking),
        Of::State(finished(SEVEN)),
        none,
        many,
        seven(),
    ];
    for bad in [true, false] {
        match bad {
            true => records.begin_with(Buffer::Values, 13, P),
            false => records.begin(),
        }
        for of in ofs {
            for lent in [[0; 3], room_of(SEVEN)] {
                for cells in [0, ROWS] {
                    records.fill(lent, of, 0, cells);
                    records.write(lent, of, 0xaa, cells);
                }
            }
        }
    }
}

pub fn cases(script: &mut Script) {
    let records = &mut Records(script);
    of_shapes(records);
    of_lengths(records);
    of_offsets(records);
    of_counts(records);
    of_cells(records);
    of_states(records);
    of_order(records);
}
