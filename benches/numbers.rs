//! Compares the exported functions of `numbers_c` with plain Rust, and then times both over the same
//! buffers. Plain Rust is timed twice: called through the same kind of function as the exports, and
//! inlined, as the functions of an archive never are.

#[path = "../vectors/random.rs"]
mod random;
mod times;

use std::hint::black_box;

use plain::Refusal;
use random::Random;
use times::{both, ratio, rounds, timed};

const P: u64 = 18_446_744_069_414_584_321;

const COMPARED: usize = 1_000_000;
const NUMBERS: usize = 1_000_000;
const ROUNDS: usize = 31;
const SEED: u64 = 1;

/// Shows where a function that is called tells no place.
const UNTOLD: u64 = u64::MAX - 1;

#[link(name = "numbers_c", kind = "static")]
extern "C" {
    fn numbers_width(v: u64) -> usize;
    fn numbers_write(v: u64, out: *mut u8, out_len: usize, at: usize, place: *mut u64) -> u32;
    fn numbers_read(s: *const u8, s_len: usize, at: usize, value: *mut u64, place: *mut u64)
        -> u32;
    fn numbers_read_below(
        s: *const u8,
        s_len: usize,
        at: usize,
        bound: u64,
        value: *mut u64,
        place: *mut u64,
    ) -> u32;
}

/// The place after the number.
type Written = Result<usize, Refusal>;

/// The number and the place after it.
type Found = Result<(u64, usize), Refusal>;

trait Codec {
    fn write(value: u64, out: &mut [u8], at: usize) -> Written;
    fn read(bytes: &[u8], at: usize) -> Found;
}

struct Rattle;
struct Called;
struct Inlined;

fn written(number: u32, place: u64) -> Written {
    match number {
        0 => Ok(place as usize),
        _ => Err((number, place)),
    }
}

fn found(number: u32, value: u64, place: u64) -> Found {
    match number {
        0 => Ok((value, place as usize)),
        _ => Err((number, place)),
    }
}

impl Codec for Rattle {
    fn write(value: u64, out: &mut [u8], at: usize) -> Written {
        let mut place = UNTOLD;
        let number = unsafe { numbers_write(value, out.as_mut_ptr(), out.len(), at, &mut place) };
        written(number, place)
    }

    fn read(bytes: &[u8], at: usize) -> Found {
        let (mut value, mut place) = (0, UNTOLD);
        let number =
            unsafe { numbers_read(bytes.as_ptr(), bytes.len(), at, &mut value, &mut place) };
        found(number, value, place)
    }
}

impl Codec for Called {
    fn write(value: u64, out: &mut [u8], at: usize) -> Written {
        let mut place = UNTOLD;
        let number =
            unsafe { plain::plain_write(value, out.as_mut_ptr(), out.len(), at, &mut place) };
        written(number, place)
    }

    fn read(bytes: &[u8], at: usize) -> Found {
        let (mut value, mut place) = (0, UNTOLD);
        let number =
            unsafe { plain::plain_read(bytes.as_ptr(), bytes.len(), at, &mut value, &mut place) };
        found(number, value, place)
    }
}

impl Codec for Inlined {
    fn write(value: u64, out: &mut [u8], at: usize) -> Written {
        plain::write(value, out, at)
    }

    fn read(bytes: &[u8], at: usize) -> Found {
        plain::read(bytes, at)
    }
}

impl Random {
    fn below(&mut self, end: usize) -> usize {
        (self.next() % end as u64) as usize
    }

    /// Every width from one to ten bytes as often, and every number of a width.
    fn of_any_width(&mut self) -> u64 {
        let groups = self.below(10);
        let smallest = if groups == 0 { 0 } else { 1 << (7 * groups) };
        let past_largest = 1_u128 << (7 * (groups + 1)).min(64);
        let count = past_largest - u128::from(smallest);
        smallest + (u128::from(self.next()) % count) as u64
    }

    /// Bytes of which many have the high bit, and some are 0 or 1.
    fn bytes(&mut self) -> [u8; 12] {
        std::array::from_fn(|_| match self.below(16) {
            0 => 0,
            1 => 1,
            2 => self.next() as u8,
            _ => self.next() as u8 | 0x80,
        })
    }
}

fn written_by<C: Codec>(value: u64, lent: usize, at: usize) -> (Written, [u8; 16]) {
    let mut buffer = [0xa5; 16];
    let written = C::write(value, &mut buffer[..lent], at);
    (written, buffer)
}

fn compare_writes(value: u64, lent: usize, at: usize) {
    let rattle = written_by::<Rattle>(value, lent, at);
    assert_eq!(
        rattle,
        written_by::<Called>(value, lent, at),
        "{value} {lent} {at}"
    );
    assert_eq!(
        rattle,
        written_by::<Inlined>(value, lent, at),
        "{value} {lent} {at}"
    );
    assert_eq!(
        unsafe { numbers_width(value) },
        plain::width(value),
        "{value}"
    );
}

fn rattle_read_below(bytes: &[u8], at: usize, bound: u64) -> Found {
    let (mut value, mut place) = (0, UNTOLD);
    let number = unsafe {
        numbers_read_below(
            bytes.as_ptr(),
            bytes.len(),
            at,
            bound,
            &mut value,
            &mut place,
        )
    };
    found(number, value, place)
}

fn compare_reads(bytes: &[u8], at: usize, bound: u64) {
    let rattle = Rattle::read(bytes, at);
    assert_eq!(rattle, Called::read(bytes, at), "{bytes:?} {at}");
    assert_eq!(rattle, Inlined::read(bytes, at), "{bytes:?} {at}");
    let below = match rattle {
        Ok((value, _)) if value >= bound => Err((17, at as u64)),
        read => read,
    };
    assert_eq!(
        rattle_read_below(bytes, at, bound),
        below,
        "{bytes:?} {at} {bound}"
    );
}

/// Refusals too, and every byte of a buffer, so that a wrong codec cannot be fast.
fn compare(random: &mut Random) {
    for at in [usize::MAX - 9, usize::MAX] {
        compare_writes(u64::MAX, 16, at);
        compare_reads(&[0; 16], at, 1);
    }
    for _ in 0..COMPARED {
        let value = random.of_any_width();
        compare_writes(value, random.below(17), random.below(18));
        let (_, number) = written_by::<Rattle>(value, 16, 0);
        compare_reads(&number, 0, random.of_any_width());
        let bytes = random.bytes();
        compare_reads(
            &bytes[..random.below(13)],
            random.below(3),
            random.of_any_width(),
        );
    }
    println!("{COMPARED} numbers and {COMPARED} strings of bytes: no difference");
}

/// Writes one after another, and gives the place after the last.
#[inline(never)]
fn write_all<C: Codec>(values: &[u64], out: &mut [u8]) -> usize {
    values.iter().fold(0, |at, &value| {
        C::write(value, out, at).expect("there is room")
    })
}

/// Reads one after another up to the end, and gives the sum.
#[inline(never)]
fn read_all<C: Codec>(bytes: &[u8]) -> u64 {
    let (mut at, mut sum) = (0, 0_u64);
    while at < bytes.len() {
        let (value, next) = C::read(bytes, at).expect("a number stands there");
        sum = sum.wrapping_add(value);
        at = next;
    }
    sum
}

const CODECS: usize = 3;
const WRITES: [fn(&[u64], &mut [u8]) -> usize; CODECS] = [
    write_all::<Rattle>,
    write_all::<Called>,
    write_all::<Inlined>,
];
const READS: [fn(&[u8]) -> u64; CODECS] =
    [read_all::<Rattle>, read_all::<Called>, read_all::<Inlined>];

fn row(what: &str, mix: &str, [rattle, called, inlined]: [[f64; 2]; CODECS]) {
    println!(
        "| {what} | {mix} | {} | {} | {} | {} | {} |",
        both(rattle),
        both(called),
        ratio(rattle, called),
        both(inlined),
        ratio(rattle, inlined),
    );
}

/// A buffer that holds any mix.
fn buffer() -> Vec<u8> {
    vec![0; 10 * NUMBERS]
}

/// The bytes of the numbers, which every codec has to write, and to read back.
fn agreed(values: &[u64]) -> Vec<u8> {
    let [bytes, called, inlined] = WRITES.map(|write| {
        let mut out = buffer();
        let end = write(values, &mut out);
        out.truncate(end);
        out
    });
    assert!(bytes == called && bytes == inlined, "the bytes differ");
    let sum = values.iter().copied().fold(0, u64::wrapping_add);
    let all_read = READS.iter().all(|read| read(&bytes) == sum);
    assert!(all_read, "the numbers differ");
    bytes
}

fn measure(mix: &str, values: &[u64]) {
    let bytes = agreed(values);
    let mut out = buffer();
    let a_number = |nanoseconds: f64| nanoseconds / NUMBERS as f64;
    let writes = rounds(ROUNDS, |codec| {
        a_number(timed(|| {
            WRITES[codec](black_box(values), black_box(&mut out))
        }))
    });
    let reads = rounds(ROUNDS, |codec| {
        a_number(timed(|| READS[codec](black_box(&bytes))))
    });
    row("write", mix, writes);
    row("read", mix, reads);
}

fn main() {
    let mut random = Random(SEED);
    compare(&mut random);
    println!(
        "ns a number and Rattle/Rust, minimum / median of {ROUNDS} rounds of {NUMBERS} numbers"
    );
    println!("| | numbers | Rattle | Rust called | ratio | Rust inlined | ratio |");
    println!("|---|---|---|---|---|---|---|");
    let mut numbers = |number: fn(&mut Random) -> u64| -> Vec<u64> {
        (0..NUMBERS).map(|_| number(&mut random)).collect()
    };
    measure("one byte", &numbers(|random| random.next() % 128));
    measure("any width", &numbers(Random::of_any_width));
    measure("elements", &numbers(|random| random.next() % P));
}
