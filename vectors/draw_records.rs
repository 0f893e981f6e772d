//! Draws about records: filled, written, and read from their bytes, which are damaged in between.

use crate::coding::read;
use crate::draw::Draw;
use crate::field::P;
use crate::instruction::{Buffer, Instruction};
use crate::steps::needs;
use crate::stream::bytes_of;

const READINGS: usize = 6;

/// Counts that need no room to be refused, or more than there is.
const COUNTS: [[u64; 2]; 7] = [
    [0, 0],
    [7, 0],
    [536_870_911, 1],
    [536_870_911, 2],
    [0, 1_073_741_824],
    [4_294_967_295, 4_294_967_295],
    [20_000, 20_000],
];

impl Draw {
    /// A header, and cells and counts for it in the buffers.
    fn record(&mut self) -> [u64; 5] {
        let most = self.most_wires / 12;
        let num_read = self.random.below(most + 1);
        let num_eval = 1 + self.random.below(most);
        self.lend_for(num_read, num_eval);
        let [values, counts, nodes] = needs(num_read as u32, num_eval as u32).map(|n| n as u64);
        for (buffer, cells) in [(Buffer::Values, values), (Buffer::Nodes, nodes)] {
            let cells: Vec<u64> = (0..cells).map(|_| self.element()).collect();
            self.set(buffer, 0, &cells);
        }
        let counts: Vec<u64> = (0..counts).map(|_| self.record_count()).collect();
        self.set(Buffer::Counts, 0, &counts);
        let id_next = match self.chance(3) {
            true => P - 1,
            false => self.element(),
        };
        [self.word(), self.word(), num_read, num_eval, id_next]
    }

    fn record_count(&mut self) -> u64 {
        match self.chance(5) {
            true => self.word(),
            false => self.random.below(9),
        }
    }

    /// One thing about a record that its test refuses, now and then.
    fn spoil_record(&mut self, header: &mut [u64; 5]) {
        let [values, _, nodes] = needs(header[2] as u32, header[3] as u32).map(|need| need as u64);
        let number = P - 1 + self.random.below(3);
        match self.random.below(12) {
            0 => {
                let cell = self.random.below(values + 1);
                self.set(Buffer::Values, cell, &[number]);
            }
            1 => {
                let cell = self.random.below(nodes + 1);
                self.set(Buffer::Nodes, cell, &[number]);
            }
            2 => header[4] = number,
            3 => [header[2], header[3]] = self.random.one_of(&COUNTS),
            4 => header[2] += 1,
            5 => header[3] -= 1,
            _ => {}
        }
    }

    fn fill_record(&mut self, header: [u64; 5]) {
        let rows = header[2].saturating_add(header[3]).min(20);
        let offset = match self.chance(8) {
            true => self.number(),
            false => self.random.below(4),
        };
        let short = u64::from(self.chance(5));
        let cells = (16 * (offset.min(4) + rows)).saturating_sub(short);
        self.lend(Buffer::Rows, cells);
        self.ask(Instruction::Fill(header, offset));
    }

    /// The record's bytes, where it is written.
    fn write_record(&mut self, header: [u64; 5]) -> Option<Vec<u8>> {
        self.lend(Buffer::Bytes, 1_000);
        let written = self.ask(Instruction::Write(header));
        let &[0, length] = written.as_slice() else {
            return None;
        };
        let cells = self.ask(Instruction::Show(Buffer::Bytes, 0, length));
        let short = self.random.below(2);
        self.lend(Buffer::Bytes, length - short);
        self.ask(Instruction::Write(header));
        Some(cells.into_iter().map(|byte| byte as u8).collect())
    }

    /// A number of the record changed: mostly a length, a declared count, or one near the end of its range.
    fn damage_number(&mut self, bytes: &[u8]) -> Vec<u8> {
        let mut numbers = Vec::new();
        let mut at = 0;
        while let Ok((number, next)) = read(bytes, at) {
            numbers.push(number);
            at = next;
        }
        let wires = numbers[3] as usize;
        let declared = 4 + 3 * wires;
        let reads = declared + 1;
        let evals = reads + 1 + 7 * numbers[reads] as usize;
        let any = self.random.below(numbers.len() as u64) as usize;
        let which = self.random.one_of(&[3, declared, reads, evals, any, any]);
        let old = numbers[which];
        numbers[which] = match self.random.below(8) {
            0 => old.wrapping_add(1),
            1 => old.wrapping_sub(1),
            2 => 0,
            3 => 1 << 32,
            4 => (1 << 32) - 1,
            5 => self.random.one_of(&[1_073_741_823, 1_073_741_824]),
            6 => P - self.random.below(2),
            _ => self.number(),
        };
        bytes_of(&numbers)
    }

    fn damage_bytes(&mut self, bytes: &[u8]) -> Vec<u8> {
        let mut bytes = bytes.to_vec();
        let at = self.random.below(bytes.len() as u64) as usize;
        match self.random.below(5) {
            0 => bytes[at] = self.random.next() as u8,
            1 => bytes[at] ^= 1 << self.random.below(8),
            2 => bytes.truncate(at),
            3 => bytes.push(self.random.next() as u8),
            _ => bytes.insert(at, 0x80),
        }
        bytes
    }

    /// A list taken out or put in whole, so that the numbers after it are read in other places.
    fn damage_lists(&mut self, bytes: &[u8]) -> Vec<u8> {
        let [num_read, num_eval] = [self.random.below(3), self.random.below(3)];
        let wires = 2 * num_read + num_eval;
        let length = match self.chance(2) {
            true => wires,
            false => self.random.below(6),
        };
        let declared = match self.chance(2) {
            true => length,
            false => wires,
        };
        let mut numbers = vec![bytes.len() as u64, 1, 2, length];
        numbers.extend(0..3 * length);
        numbers.extend([declared, num_read]);
        numbers.extend(0..7 * num_read);
        numbers.push(num_eval);
        numbers.extend(0..11 * num_eval);
        bytes_of(&numbers)
    }

    fn read_record(&mut self, bytes: &[u8], header: [u64; 5]) {
        let bytes = match self.random.below(4) {
            0 => bytes.to_vec(),
            1 => self.damage_bytes(bytes),
            2 => self.damage_lists(bytes),
            _ => self.damage_number(bytes),
        };
        self.lend_for(header[2], header[3]);
        self.lend(Buffer::Bytes, bytes.len() as u64);
        self.lend_bytes(&bytes);
        self.ask(Instruction::ReadRecord);
        self.look();
    }

    pub fn records(&mut self) {
        let mut header = self.record();
        self.spoil_record(&mut header);
        self.fill_record(header);
        let bytes = self.write_record(header);
        self.look();
        if let Some(bytes) = bytes {
            for _ in 0..READINGS {
                self.read_record(&bytes, header);
            }
        }
    }
}
