//! The circuit of document 01's listing, and what its evaluation leaves, worked out by hand from document
//! 01. Every buffer has a cell past those used.

// Each test file takes what it needs.
#![allow(dead_code)]

use ace::{Buffers, Header, Refused, State, P};

pub const MEMORY: [u64; 8] = [
    3,
    0,
    4,
    0,
    2_305_843_013_508_661_253,
    1_152_921_508_901_814_277,
    3_221_225_475,
    1_152_921_506_754_330_625,
];

pub const HEADER: Header = Header {
    ctx: 0,
    clk: 7,
    num_read: 1,
    num_eval: 4,
    id_next: P - 1,
};

/// The state once all steps are done.
pub const FINISHED: State = State {
    ctx: 0,
    clk: 7,
    num_read: 1,
    num_eval: 4,
    reads_done: 1,
    evals_done: 4,
    id_next: P - 1,
};

pub fn refused<T>(number: u32, place: u64) -> Result<T, Refused> {
    Err(Refused { number, place })
}

const CANARY: u64 = 99;

#[derive(Clone, Debug, PartialEq)]
pub struct Cells {
    pub values: [u64; 13],
    pub counts: [u32; 7],
    pub nodes: [u64; 52],
}

impl Cells {
    pub fn canaries() -> Cells {
        Cells {
            values: [CANARY; 13],
            counts: [CANARY as u32; 7],
            nodes: [CANARY; 52],
        }
    }

    pub fn lend(&mut self) -> Buffers<'_> {
        Buffers {
            values: &mut self.values,
            counts: &mut self.counts,
            nodes: &mut self.nodes,
        }
    }

    /// As an accepted evaluation leaves them. "P11 the listing's circuit: counts 2, 2, 2, 1, 1, 0 from id 5
    /// to 0."
    pub fn evaluated() -> Cells {
        let mut cells = Cells::canaries();
        cells.values[..12].copy_from_slice(&[3, 0, 4, 0, 7, 0, 12, 0, 0, 0, 0, 0]);
        cells.counts[..6].copy_from_slice(&[2, 2, 2, 1, 1, 0]);
        let nodes = [
            &[0, 5, 3, 0, 4, 4, 0][..],
            &[4, 1, 3, 7, 0, 5, 3, 0, 4, 4, 0],
            &[5, 0, 2, 12, 0, 5, 3, 0, 4, 4, 0],
            &[6, P - 1, 1, 0, 0, 3, 7, 0, 3, 7, 0],
            &[7, 0, 0, 0, 0, 1, 0, 0, 2, 12, 0],
        ];
        cells.nodes[..51].copy_from_slice(&nodes.concat());
        cells
    }

    /// "8, 9, 10 and 12 leave the used value cells, counts and node cells zero."
    pub fn cleared() -> Cells {
        let mut cells = Cells::canaries();
        cells.values[..12].fill(0);
        cells.counts[..6].fill(0);
        cells.nodes[..51].fill(0);
        cells
    }
}

/// The listing's rows.
pub const ROWS: [[u64; 16]; 5] = [
    [1, 0, 0, 0, 7, 0, 5, 3, 0, 4, 4, 0, 3, 0, 2, 2],
    [0, 1, 0, 4, 7, 1, 3, 7, 0, 5, 3, 0, 4, 4, 0, 2],
    [0, 1, 0, 5, 7, 0, 2, 12, 0, 5, 3, 0, 4, 4, 0, 1],
    [0, 1, 0, 6, 7, P - 1, 1, 0, 0, 3, 7, 0, 3, 7, 0, 1],
    [0, 1, 0, 7, 7, 0, 0, 0, 0, 1, 0, 0, 2, 12, 0, 0],
];

/// The record: "ctx, clk, id_next; wire list length, each wire as two elements and its count; declared
/// wires; READ list length and nodes; EVAL list length and nodes".
pub fn bytes() -> Vec<u8> {
    // "P10 p - 1: 80 80 80 80 F0 FF FF FF FF 01."
    let last: &[u8] = &[0x80, 0x80, 0x80, 0x80, 0xf0, 0xff, 0xff, 0xff, 0xff, 0x01];
    [
        &[0, 7],
        last,
        &[6],
        &[3, 0, 2, 4, 0, 2, 7, 0, 2, 12, 0, 1, 0, 0, 1, 0, 0, 0],
        &[6],
        &[1, 0, 5, 3, 0, 4, 4, 0],
        &[4],
        &[4, 1, 3, 7, 0, 5, 3, 0, 4, 4, 0],
        &[5, 0, 2, 12, 0, 5, 3, 0, 4, 4, 0],
        &[6],
        last,
        &[1, 0, 0, 3, 7, 0, 3, 7, 0],
        &[7, 0, 0, 0, 0, 1, 0, 0, 2, 12, 0],
    ]
    .concat()
}
