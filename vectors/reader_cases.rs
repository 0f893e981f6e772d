//! The record reader by hand: every refusal at every field.

use crate::coding::encode;
use crate::field::P;
use crate::record;
use crate::record_form::{bytes_of, rising, Field, Form, Kind};
use crate::record_script::{Records, ALL, BYTES};
use crate::script::Script;

const MOST_WIRES: u64 = record::MOST_WIRES as u64;

/// Three wires, numbers of one byte, of two, and of ten.
fn small() -> Form {
    Form {
        id_next: P - 1,
        ..Form::right(1, 1, rising())
    }
}

/// READ and EVAL counts of right records.
const SHAPES: [[u64; 2]; 6] = [[0, 1], [0, 2], [1, 1], [1, 3], [2, 3], [3, 1]];

/// Every prefix, and the whole with bytes after it.
fn of_prefixes(records: &mut Records<'_>) {
    for [reads, evals] in SHAPES {
        let form = Form::right(reads, evals, rising());
        let bytes = form.bytes();
        records.read(form.room(), &bytes);
        for length in 0..bytes.len() {
            records.read_first(ALL, length);
        }
        for after in [vec![0], vec![1], vec![0x80], vec![0xff; 10], bytes.clone()] {
            records.read(ALL, &[bytes.clone(), after].concat());
        }
    }
}

/// Each byte of a record as others.
fn of_bytes(records: &mut Records<'_>) {
    let form = small();
    let bytes = form.bytes();
    for (at, &byte) in bytes.iter().enumerate() {
        let mut others = vec![0, 1, 2, 0x7f, 0x80, 0xff, byte ^ 1, byte ^ 0x80];
        others.sort();
        others.dedup();
        for other in others.into_iter().filter(|&other| other != byte) {
            records.read_with(form.room(), &bytes, at, other);
        }
    }
}

/// The ends of a field's range, and numbers past it. A list length's are near the length.
fn values_near(field: Field) -> Vec<u64> {
    match field.kind {
        Kind::Word => vec![(1 << 32) - 1, 1 << 32, P, u64::MAX],
        Kind::Element => vec![(1 << 32) - 1, P - 1, P, u64::MAX],
        Kind::Length => vec![0, field.value + 1, (1 << 32) + field.value, u64::MAX],
    }
}

/// Forms that are no number: not the shortest, of ten bytes with a tenth that cannot be, and too long.
fn no_numbers(value: u64) -> Vec<Vec<u8>> {
    let mut longer = encode(value);
    *longer.last_mut().expect("a number has a byte") |= 0x80;
    let nine = vec![0x80; 9];
    let ten = |last: u8| [nine.clone(), vec![last]].concat();
    let longer = [longer, vec![0]].concat();
    vec![longer, ten(0), ten(2), ten(0x7f), ten(0x80), vec![0xff; 11]]
}

/// Every refusal of a number, at each field of a record.
fn of_fields(records: &mut Records<'_>) {
    let form = small();
    let fields = form.fields();
    for (i, &field) in fields.iter().enumerate() {
        let (before, after) = (bytes_of(&fields[..i]), bytes_of(&fields[i + 1..]));
        let numbers = values_near(field).into_iter().map(encode);
        for number in numbers.chain(no_numbers(field.value)) {
            records.read(
                form.room(),
                &[before.clone(), number, after.clone()].concat(),
            );
        }
        // Nine bytes of a number, and the end.
        records.read(form.room(), &[before.clone(), vec![0x80; 9]].concat());
    }
}

/// Lengths that pass the room; of some the cells come to a small number modulo 2^64.
fn of_long_lists(records: &mut Records<'_>) {
    let form = Form::right(2, 3, rising());
    let fields = form.fields();
    let lengths = fields.iter().enumerate();
    for (i, field) in lengths.filter(|(_, field)| field.kind == Kind::Length) {
        let wrapping = [
            1 << 63,
            (1 << 63) + field.value,
            (u64::MAX - 1) / 7 + 1,
            (u64::MAX - 4) / 11 + 1,
            (u64::MAX - 14) / 11 + 1,
        ];
        let near = [1, 2].map(|more| field.value + more);
        let large = [1 << 31, 1 << 32, (1 << 32) + field.value, u64::MAX - 1];
        for value in near.into_iter().chain(large).chain(wrapping) {
            let mut fields = fields.clone();
            fields[i].value = value;
            records.read(ALL, &bytes_of(&fields));
            records.read(form.room(), &bytes_of(&fields));
        }
    }
}

/// Each buffer exact, one short, one more and empty: 24 at the list that passes it.
fn of_rooms(records: &mut Records<'_>) {
    for [reads, evals] in SHAPES {
        let form = Form::right(reads, evals, rising());
        let bytes = form.bytes();
        records.read(form.room(), &bytes);
        for buffer in 0..3 {
            let exact = form.room()[buffer];
            let before = (7 * reads as usize).saturating_sub(1);
            for length in [0, before, before + 1, exact - 1, exact, exact + 1] {
                let mut lent = form.room();
                lent[buffer] = length;
                records.read(lent, &bytes);
            }
        }
        // What comes before the length is refused before the room, what comes after it is not.
        for at in 0..bytes.len() {
            records.read_first([0; 3], at);
        }
    }
}

/// Lists and declared counts that do not fit one another: 18 to 23.
fn of_counts(records: &mut Records<'_>) {
    for wires in 0..4_u64 {
        let others = [
            0,
            1,
            2,
            3,
            4,
            MOST_WIRES - 1,
            MOST_WIRES,
            MOST_WIRES + 1,
            1 << 31,
        ];
        for declared in others.into_iter().chain([(1 << 32) - 1, 1 << 32]) {
            let is_right = declared == wires;
            let nodes = if is_right { 0..3 } else { 1..2 };
            for reads in nodes.clone() {
                for evals in nodes.clone() {
                    let form = Form::of([wires, declared, reads, evals], rising());
                    records.read(ALL, &form.bytes());
                    if is_right {
                        records.read(form.room(), &[form.bytes(), vec![0x80]].concat());
                    }
                }
            }
        }
    }
}

/// The writer's room: exact, one short, one more and none.
fn of_written_room(records: &mut Records<'_>) {
    for [reads, evals] in SHAPES {
        let form = Form::right(reads, evals, rising());
        let bytes = form.bytes();
        records.through(&bytes, form.record());
        for room in [0, 1, bytes.len() - 1, bytes.len(), bytes.len() + 1] {
            for filling in [0xaa, 0xff] {
                records.write(ALL, form.record(), filling, room);
            }
        }
        records.write(form.room(), form.record(), 0, BYTES);
    }
}

pub fn cases(script: &mut Script) {
    let records = &mut Records(script);
    of_prefixes(records);
    of_bytes(records);
    of_fields(records);
    of_long_lists(records);
    of_rooms(records);
    of_counts(records);
    of_written_room(records);
}
