//! Which numbers in groups of seven bits are asked about.

use crate::coding::{encode, width, GROUP_BITS, HIGH_BIT, MOST_BYTES};
use crate::field::P;
use crate::instruction::{Buffer, Instruction};
use crate::random::Random;
use crate::script::Script;

/// The bytes in use: a case lends no more of them, and all are shown where a number was to be written.
const BUFFER: usize = 16;

const TWO_32: u64 = 1 << 32;

/// Two, so that a store of either byte shows in a buffer that is filled with the other.
const FILLINGS: [u8; 2] = [0x00, 0xff];

/// Bytes around a number: no byte of another number may tell for it.
const BEFORE: [u8; 3] = [0x80, 0x00, 0xff];
const AFTER: [u8; 2] = [0x80, 0x01];

const BOUNDS: [u64; 5] = [0, 1, TWO_32, P, u64::MAX];

const SEED: u64 = 2;

/// The smallest and the largest number of each length, and those that ranges end at.
fn edges() -> Vec<u64> {
    let mut edges = vec![0, 1];
    for groups in 1..MOST_BYTES {
        let next = 1 << (GROUP_BITS * groups);
        edges.extend([next - 1, next]);
    }
    edges.extend([TWO_32 - 1, TWO_32, P - 1, P, u64::MAX]);
    edges
}

/// Up to `end`, itself left out.
fn below(random: &mut Random, end: usize) -> usize {
    random.below(end as u64) as usize
}

/// As many bits as another draw says, so that every length is met.
fn any_number(random: &mut Random) -> u64 {
    random.next() >> below(random, 64)
}

fn any_byte(random: &mut Random) -> u8 {
    random.next() as u8
}

fn any_bytes(random: &mut Random, count: usize) -> Vec<u8> {
    (0..count).map(|_| any_byte(random)).collect()
}

/// Three bytes of four have the high bit, so that long numbers are met.
fn any_string(random: &mut Random) -> Vec<u8> {
    let count = below(random, BUFFER + 1);
    let byte = |random: &mut Random| match below(random, 4) {
        0 => any_byte(random),
        _ => any_byte(random) | HIGH_BIT,
    };
    (0..count).map(|_| byte(random)).collect()
}

/// A number among others, and its place.
fn any_place(random: &mut Random, number: &[u8]) -> (usize, Vec<u8>) {
    let before = below(random, 4);
    let after = below(random, BUFFER - number.len() - before + 1);
    let bytes = [
        any_bytes(random, before),
        number.to_vec(),
        any_bytes(random, after),
    ]
    .concat();
    (before, bytes)
}

fn of_widths(script: &mut Script, random: &mut Random) {
    let mut values = edges();
    for bit in 0..u64::BITS {
        values.extend([1 << bit, (1 << bit) - 1]);
    }
    values.extend((0..200).map(|_| any_number(random)));
    for value in values {
        script.ask(Instruction::Width(value));
    }
}

/// What is lent and the place, for a number of a length: room enough, exact and one short, from the
/// start, from within and up to the buffer's end; a place at the end of what is lent and past it;
/// places whose sum with the length is 2^64 - 1, is 2^64, and is over it.
fn rooms(width: usize) -> [(usize, usize); 13] {
    let end = BUFFER - width;
    [
        (BUFFER, 0),
        (width, 0),
        (width - 1, 0),
        (3 + width, 3),
        (2 + width, 3),
        (BUFFER, end),
        (BUFFER, end + 1),
        (5, 5),
        (5, 6),
        (0, 0),
        (BUFFER, usize::MAX - width),
        (BUFFER, usize::MAX - width + 1),
        (BUFFER, usize::MAX),
    ]
}

/// A number written into bytes that are alike.
fn write(script: &mut Script, value: u64, filling: u8, lent: usize, at: usize) {
    script.fill(Buffer::Bytes, BUFFER as u64, filling.into());
    script.lend(Buffer::Bytes, lent);
    script.ask(Instruction::WriteNumber(value, at as u64));
    script.ask(Instruction::Show(Buffer::Bytes, 0, BUFFER as u64));
}

fn of_writing(script: &mut Script, random: &mut Random) {
    for value in edges() {
        for (lent, at) in rooms(width(value)) {
            for filling in FILLINGS {
                write(script, value, filling, lent, at);
            }
        }
    }
    for _ in 0..300 {
        let (value, filling) = (any_number(random), any_byte(random));
        let lent = below(random, BUFFER + 1);
        write(script, value, filling, lent, below(random, BUFFER));
    }
}

/// Every beginning of a number that is not all of it.
fn cut_forms(value: u64) -> Vec<Vec<u8>> {
    let bytes = encode(value);
    (0..bytes.len())
        .map(|count| bytes[..count].to_vec())
        .collect()
}

/// The number with groups of 0 after its last, up to eleven bytes in all.
fn overlong_forms(value: u64) -> Vec<Vec<u8>> {
    let mut bytes = encode(value);
    let mut forms = Vec::new();
    while bytes.len() <= MOST_BYTES {
        *bytes.last_mut().expect("a number has a byte") |= HIGH_BIT;
        bytes.push(0);
        forms.push(bytes.clone());
    }
    forms
}

/// None to eleven bytes with the high bit, and then the end or one byte more. Among them are `80`,
/// `80 00`, nine bytes and the end, and ten bytes with every kind of tenth.
fn runs() -> Vec<Vec<u8>> {
    let mut runs = Vec::new();
    for byte in [0x80, 0x81, 0xff] {
        for count in 0..=MOST_BYTES + 1 {
            let run = vec![byte; count];
            runs.extend([0, 1, 2, 127, 128, 255].map(|last| [run.as_slice(), &[last]].concat()));
            runs.push(run);
        }
    }
    runs
}

/// Places at the end of the bytes, past it, and where a place and ten bytes pass the largest usize.
fn past_the_end(bytes: &[u8]) -> Vec<(usize, Vec<u8>)> {
    let end = bytes.len();
    let places = [
        end,
        end + 1,
        usize::MAX - MOST_BYTES,
        usize::MAX - 1,
        usize::MAX,
    ];
    places.map(|at| (at, bytes.to_vec())).to_vec()
}

/// Alone, and with bytes before.
fn ending(bytes: &[u8]) -> [(usize, Vec<u8>); 2] {
    [
        (0, bytes.to_vec()),
        (BEFORE.len(), [&BEFORE, bytes].concat()),
    ]
}

/// Alone, and with bytes before and after.
fn among(bytes: &[u8]) -> [(usize, Vec<u8>); 2] {
    [
        (0, bytes.to_vec()),
        (BEFORE.len(), [&BEFORE, bytes, &AFTER].concat()),
    ]
}

fn lend_bytes(script: &mut Script, bytes: &[u8]) {
    let cells: Vec<u64> = bytes.iter().map(|&byte| byte.into()).collect();
    script.set_cells(Buffer::Bytes, 0, &cells);
    script.lend(Buffer::Bytes, bytes.len());
}

fn of_reading(script: &mut Script, random: &mut Random) {
    let mut asked = Vec::new();
    for value in edges() {
        asked.extend(among(&encode(value)));
        asked.extend(cut_forms(value).iter().flat_map(|form| ending(form)));
        asked.extend(overlong_forms(value).iter().flat_map(|form| among(form)));
    }
    asked.extend(runs().into_iter().map(|run| (0, run)));
    asked.extend((0..=u8::MAX).map(|byte| (0, vec![byte])));
    for bytes in [vec![], vec![0], vec![0x80], encode(P - 1)] {
        asked.extend(past_the_end(&bytes));
    }
    asked.extend(random_reads(random));
    for (at, bytes) in asked {
        lend_bytes(script, &bytes);
        script.ask(Instruction::ReadNumber(at as u64));
    }
}

/// Numbers among others, numbers with one byte changed, and any bytes.
fn random_reads(random: &mut Random) -> Vec<(usize, Vec<u8>)> {
    let mut asked = Vec::new();
    for _ in 0..300 {
        let number = encode(any_number(random));
        asked.push(any_place(random, &number));
    }
    for _ in 0..200 {
        let mut number = encode(any_number(random));
        let changed = below(random, number.len());
        number[changed] = any_byte(random);
        asked.push(any_place(random, &number));
    }
    for _ in 0..300 {
        let bytes = any_string(random);
        asked.push((below(random, bytes.len() + 2), bytes));
    }
    asked
}

/// The number at the bound and its neighbours, where there are such.
fn around(bound: u64) -> Vec<u64> {
    [bound.checked_sub(1), Some(bound), bound.checked_add(1)]
        .into_iter()
        .flatten()
        .collect()
}

/// What is refused 15 or 16 whatever the bound.
fn refused_forms() -> Vec<(usize, Vec<u8>)> {
    let mut forms = past_the_end(&[0]);
    for value in [0, 127, P] {
        forms.extend(cut_forms(value).iter().flat_map(|form| ending(form)));
        forms.extend(overlong_forms(value).iter().flat_map(|form| among(form)));
    }
    forms
}

fn of_reading_below(script: &mut Script, random: &mut Random) {
    let mut asked = Vec::new();
    for bound in BOUNDS {
        let values = [around(bound), edges()].concat();
        let numbers = values.iter().flat_map(|&value| among(&encode(value)));
        asked.extend(
            numbers
                .chain(refused_forms())
                .map(|(at, bytes)| (bound, at, bytes)),
        );
    }
    for _ in 0..100 {
        let value = any_number(random);
        for bound in around(value).into_iter().chain([any_number(random)]) {
            let (at, bytes) = any_place(random, &encode(value));
            asked.push((bound, at, bytes));
        }
    }
    for _ in 0..100 {
        let bytes = any_string(random);
        asked.push((any_number(random), below(random, bytes.len() + 2), bytes));
    }
    for (bound, at, bytes) in asked {
        lend_bytes(script, &bytes);
        script.ask(Instruction::ReadBelow(at as u64, bound));
    }
}

pub fn cases(script: &mut Script) {
    let mut random = Random(SEED);
    of_widths(script, &mut random);
    of_writing(script, &mut random);
    of_reading(script, &mut random);
    of_reading_below(script, &mut random);
}
