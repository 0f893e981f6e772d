//! Random records, read, written and filled, and bytes of records changed at random.

use crate::field::P;
use crate::random::Random;
use crate::record_form::{Form, Kind};
use crate::record_script::{Records, ALL, FILLING};
use crate::script::Script;

const SEED: u64 = 3;
const RECORDS: usize = 40;
const CHANGES: usize = 8;

/// Mostly of few digits; of the others every length is met.
fn number(random: &mut Random, kind: Kind) -> u64 {
    let bits = match kind {
        Kind::Word => 32,
        _ => 64,
    };
    match random.below(6) {
        0 => (random.next() >> (64 - bits) >> random.below(bits)) % P,
        _ => random.below(40),
    }
}

pub fn cases(script: &mut Script) {
    let mut random = Random(SEED);
    let records = &mut Records(script);
    for _ in 0..RECORDS {
        let (reads, evals) = (random.below(4), 1 + random.below(4));
        let form = Form::right(reads, evals, |kind| number(&mut random, kind));
        let bytes = form.bytes();
        records.through(&bytes, form.record());
        let record = form.record();
        let offset = random.below(5);
        let rows = 16 * (offset + reads + evals) - random.below(2);
        records.fill(form.room(), record, offset, rows as usize);
        let room = bytes.len() - random.below(2) as usize;
        records.write(form.room(), record, FILLING, room);
        for _ in 0..CHANGES {
            let at = random.below(bytes.len() as u64) as usize;
            records.read_with(ALL, &bytes, at, random.next() as u8);
        }
    }
}
