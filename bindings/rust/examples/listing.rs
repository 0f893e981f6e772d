//! Evaluates the circuit of document 01's listing and prints its rows as the program does, by safe calls
//! alone.
#![forbid(unsafe_code)]

use ace::{Buffers, Refused, EVAL_CELLS, READ_CELLS, ROW_CELLS, VALUE_CELLS};

const MEMORY: [u64; 8] = [
    3,
    0,
    4,
    0,
    2_305_843_013_508_661_253,
    1_152_921_508_901_814_277,
    3_221_225_475,
    1_152_921_506_754_330_625,
];
const NUM_VARS: usize = 2;
const NUM_READ: usize = NUM_VARS / 2;
const NUM_EVAL: usize = 4;
const WIRES: usize = NUM_VARS + NUM_EVAL;
const ROWS: usize = NUM_READ + NUM_EVAL;

fn main() -> Result<(), Refused> {
    let mut buffers = Buffers {
        values: &mut [0; VALUE_CELLS * WIRES],
        counts: &mut [0; WIRES],
        nodes: &mut [0; READ_CELLS * NUM_READ + EVAL_CELLS * NUM_EVAL],
    };
    let mut rows = [0; ROW_CELLS * ROWS];
    let (num_vars, num_eval) = (NUM_VARS as u64, NUM_EVAL as u64);
    let header = ace::eval_circuit(0, 7, 0, num_vars, num_eval, &MEMORY, &mut buffers)?;
    ace::fill(&header, &buffers, 0, &mut rows)?;
    println!("accept {ROWS} {WIRES}");
    for row in rows.chunks(ROW_CELLS) {
        let cells: Vec<String> = row.iter().map(u64::to_string).collect();
        println!("{}", cells.join(" "));
    }
    Ok(())
}
