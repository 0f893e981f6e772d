//! Records of large circuits, straight from their evaluation: rows filled, bytes written and read back. What the
//! program's buffers do not hold is refused.

use crate::field::P;
use crate::instruction::{Buffer, Instruction, SIZES, WRITTEN};
use crate::script::{Said, Script};
use crate::whole_large::{pattern, UNIFORM};
use crate::whole_script::Wholes;

/// num_vars and num_eval: rows and bytes are held of the first, and of the others the rows.
const CIRCUITS: [[u64; 2]; 3] = [[2_044, 4_000], [5_912, 8_000], [32_764, 4]];

const OFFSET: u64 = 3;

fn fill(script: &mut Script, header: [u64; 5]) {
    let [_, _, num_read, num_eval, _] = header;
    let need = 16 * (OFFSET + num_read + num_eval) as usize;
    for room in [need - 1, need, SIZES[Buffer::Rows as usize]] {
        script.canaries(Buffer::Rows, u64::MAX);
        script.lend(Buffer::Rows, room);
        script.ask(Instruction::Fill(header, OFFSET));
        script.look(Buffer::Rows, Said::Sums);
    }
}

fn write(script: &mut Script, header: [u64; 5], room: usize) -> Vec<u64> {
    script.fill(Buffer::Bytes, u64::MAX, 0xff);
    script.lend(Buffer::Bytes, room);
    let written = script.ask(Instruction::Write(header)).to_vec();
    script.look(Buffer::Bytes, Said::Sums);
    written
}

fn write_and_read(script: &mut Script, header: [u64; 5]) {
    let [0, length] = write(script, header, SIZES[Buffer::Bytes as usize])[..] else {
        return;
    };
    write(script, header, length as usize - 1);
    write(script, header, length as usize);
    for lent in [length - 1, length] {
        for buffer in WRITTEN {
            script.canaries(buffer, u64::MAX);
        }
        script.lend(Buffer::Bytes, lent as usize);
        script.ask(Instruction::ReadRecord);
        script.look_written(Said::Sums);
    }
}

pub fn cases(script: &mut Script) {
    for size in CIRCUITS {
        let wholes = &mut Wholes(script);
        let placed = wholes.place_pattern(pattern(8, size, UNIFORM));
        wholes.ask(Said::Sums, placed.setting);
        let [num_vars, num_eval] = size;
        let header = [0, 7, num_vars / 2, num_eval, P - 1];
        fill(script, header);
        write_and_read(script, header);
    }
}
