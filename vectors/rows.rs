//! Row fill, from document 01 alone.

use crate::record::Record;
use crate::refusal::{refuse, Refusal};
use crate::steps::{Header, Lent};

/// "16 cells" a row.
pub const WIDTH: usize = 16;

/// "s_start, s_block, ctx, ptr, clk, eval_op, id_0, v_0 (two), id_1, v_1 (two); then READ: num_eval,
/// 0, m_1, m_0." "s_start is 1 only on the first READ row"; "a READ row's eval_op is 0; its num_eval
/// cell holds num_eval - 1". "READ row i takes positions 2i (m_0) and 2i + 1 (m_1)."
fn read_row(record: &Record<'_>, i: usize, node: &[u64]) -> [u64; WIDTH] {
    let Header {
        ctx, clk, num_eval, ..
    } = record.header;
    let &[ptr, id_0, v_00, v_01, id_1, v_10, v_11] = node else {
        unreachable!("a READ node has 7 cells");
    };
    let s_start = u64::from(i == 0);
    let [m_0, m_1] = [2 * i, 2 * i + 1].map(|position| u64::from(record.counts[position]));
    let (ctx, clk, last_eval) = (ctx.into(), clk.into(), u64::from(num_eval) - 1);
    [
        s_start, 0, ctx, ptr, clk, 0, id_0, v_00, v_01, id_1, v_10, v_11, last_eval, 0, m_1, m_0,
    ]
}

/// "EVAL: id_2, v_2 (two), m_0." "s_block is 1 on EVAL rows." "EVAL row j position 2·num_read + j."
fn eval_row(record: &Record<'_>, j: usize, node: &[u64]) -> [u64; WIDTH] {
    let Header {
        ctx, clk, num_read, ..
    } = record.header;
    let &[ptr, eval_op, id_0, v_00, v_01, id_1, v_10, v_11, id_2, v_20, v_21] = node else {
        unreachable!("an EVAL node has 11 cells");
    };
    let m_0 = record.counts[2 * num_read as usize + j].into();
    let (ctx, clk) = (ctx.into(), clk.into());
    [
        0, 1, ctx, ptr, clk, eval_op, id_0, v_00, v_01, id_1, v_10, v_11, id_2, v_20, v_21, m_0,
    ]
}

/// "14: row buffer shorter than 16·(offset + rows)." "READ rows come first." "Every cell of the named
/// rows is written; other rows stay." "A refusal changes nothing."
pub fn fill(header: Header, lent: &Lent<'_>, offset: u64, rows: &mut [u64]) -> Result<(), Refusal> {
    let record = Record::checked(header, lent)?;
    let count = u128::from(header.num_read) + u128::from(header.num_eval);
    if (rows.len() as u128) < WIDTH as u128 * (u128::from(offset) + count) {
        return refuse(14, 0);
    }
    let reads = record.read_nodes().enumerate();
    let evals = record.eval_nodes().enumerate();
    let reads = reads.map(|(i, node)| read_row(&record, i, node));
    let evals = evals.map(|(j, node)| eval_row(&record, j, node));
    let named = &mut rows[WIDTH * offset as usize..];
    for (cells, row) in named.chunks_exact_mut(WIDTH).zip(reads.chain(evals)) {
        cells.copy_from_slice(&row);
    }
    Ok(())
}
