//! The rows that the Rust fills, beside those of document 01: "columns are compared by name".

use oracle::Row;

use crate::rows::WIDTH;

/// "16 cells, order ours, names from 000."
const READ: [&str; WIDTH] = [
    "s_start", "s_block", "ctx", "ptr", "clk", "eval_op", "id_0", "v_0[0]", "v_0[1]", "id_1",
    "v_1[0]", "v_1[1]", "num_eval", "unused", "m_1", "m_0",
];
const EVAL: [&str; WIDTH] = [
    "s_start", "s_block", "ctx", "ptr", "clk", "eval_op", "id_0", "v_0[0]", "v_0[1]", "id_1",
    "v_1[0]", "v_1[1]", "id_2", "v_2[0]", "v_2[1]", "m_0",
];

fn is_same_row(names: &[&str; WIDTH], cells: &[u64], row: &Row) -> bool {
    let cell_of = |name: &str| names.iter().position(|&n| n == name).map(|i| cells[i]);
    row.iter().all(|&(name, cell)| cell_of(name) == Some(cell))
}

/// As many rows as the Rust has, READ rows first.
pub fn is_same(cells: &[u64], num_read: u32, rows: &[Row]) -> bool {
    let (reads, evals) = rows.split_at(num_read as usize);
    let names = std::iter::repeat_n(&READ, reads.len()).chain(std::iter::repeat(&EVAL));
    let mut both = cells
        .chunks(WIDTH)
        .zip(names)
        .zip(reads.iter().chain(evals));
    cells.len() == WIDTH * rows.len()
        && both.all(|((cells, names), row)| is_same_row(names, cells, row))
}
