/// The value cells of a wire.
pub const VALUE_CELLS: usize = 2;

/// The cells of a READ node: "ptr, id_0, v_0, id_1, v_1".
pub const READ_CELLS: usize = 7;

/// The cells of an EVAL node: "ptr, eval_op, id_0, v_0, id_1, v_1, id_2, v_2".
pub const EVAL_CELLS: usize = 11;

/// Lent memory: "value cells (two u64 a wire), counts (one u32 a wire) and node cells (u64)". "Cells past
/// those used never change."
pub struct Buffers<'a> {
    pub values: &'a mut [u64],
    pub counts: &'a mut [u32],
    pub nodes: &'a mut [u64],
}
