//! The functions of libace_c.a. A slice is a pointer and a length; what has a fixed number of cells
//! is a reference. All that `bindings/ace.h` asks of a caller, slices and references keep.

use crate::runs::{Entry, MOST_RUNS};

/// ctx, clk, num_read, num_eval, id_next.
pub type HeaderNumbers = [u64; 5];

/// ctx, clk, num_read, num_eval, reads_done, evals_done.
pub type StateNumbers = [u32; 6];

#[link(name = "ace_c", kind = "static")]
extern "C" {
    pub fn ace_eval_circuit(
        ctx: u32,
        clk: u32,
        ptr: u64,
        num_vars: u64,
        num_eval: u64,
        memory: *const u64,
        memory_len: usize,
        values: *mut u64,
        values_len: usize,
        counts: *mut u32,
        counts_len: usize,
        nodes: *mut u64,
        nodes_len: usize,
        header: &mut HeaderNumbers,
        place: &mut u64,
    ) -> u32;

    pub fn ace_new(
        ctx: u32,
        clk: u32,
        num_read: u32,
        num_eval: u32,
        values: *const u64,
        values_len: usize,
        counts: *const u32,
        counts_len: usize,
        nodes: *const u64,
        nodes_len: usize,
        state: &mut StateNumbers,
        id_next: &mut u64,
        place: &mut u64,
    ) -> u32;

    pub fn ace_do_read(
        state: &mut StateNumbers,
        id_next: &mut u64,
        ptr: u64,
        c0: u64,
        c1: u64,
        c2: u64,
        c3: u64,
        values: *mut u64,
        values_len: usize,
        counts: *mut u32,
        counts_len: usize,
        nodes: *mut u64,
        nodes_len: usize,
        place: &mut u64,
    ) -> u32;

    pub fn ace_do_eval(
        state: &mut StateNumbers,
        id_next: &mut u64,
        ptr: u64,
        instruction: u64,
        values: *mut u64,
        values_len: usize,
        counts: *mut u32,
        counts_len: usize,
        nodes: *mut u64,
        nodes_len: usize,
        place: &mut u64,
    ) -> u32;

    pub fn ace_output_value(
        state: &StateNumbers,
        id_next: u64,
        values: *const u64,
        values_len: usize,
        counts: *const u32,
        counts_len: usize,
        nodes: *const u64,
        nodes_len: usize,
        header: &mut HeaderNumbers,
        place: &mut u64,
    ) -> u32;

    pub fn ace_fill(
        ctx: u32,
        clk: u32,
        num_read: u32,
        num_eval: u32,
        id_next: u64,
        values: *const u64,
        values_len: usize,
        counts: *const u32,
        counts_len: usize,
        nodes: *const u64,
        nodes_len: usize,
        offset: usize,
        rows: *mut u64,
        rows_len: usize,
        place: &mut u64,
    ) -> u32;

    pub fn ace_fill_state(
        state: &StateNumbers,
        id_next: u64,
        values: *const u64,
        values_len: usize,
        counts: *const u32,
        counts_len: usize,
        nodes: *const u64,
        nodes_len: usize,
        offset: usize,
        rows: *mut u64,
        rows_len: usize,
        place: &mut u64,
    ) -> u32;

    pub fn ace_write_into(
        ctx: u32,
        clk: u32,
        num_read: u32,
        num_eval: u32,
        id_next: u64,
        values: *const u64,
        values_len: usize,
        counts: *const u32,
        counts_len: usize,
        nodes: *const u64,
        nodes_len: usize,
        out: *mut u8,
        out_len: usize,
        length: &mut u64,
        place: &mut u64,
    ) -> u32;

    pub fn ace_write_state_into(
        state: &StateNumbers,
        id_next: u64,
        values: *const u64,
        values_len: usize,
        counts: *const u32,
        counts_len: usize,
        nodes: *const u64,
        nodes_len: usize,
        out: *mut u8,
        out_len: usize,
        length: &mut u64,
        place: &mut u64,
    ) -> u32;

    pub fn ace_read_from(
        bytes: *const u8,
        bytes_len: usize,
        values: *mut u64,
        values_len: usize,
        counts: *mut u32,
        counts_len: usize,
        nodes: *mut u64,
        nodes_len: usize,
        header: &mut HeaderNumbers,
        place: &mut u64,
    ) -> u32;

    pub fn ace_add_circuit_evaluation(
        entries: &mut [Entry; MOST_RUNS],
        len: &mut u32,
        clk: u32,
        num_read: u32,
        num_eval: u32,
        place: &mut u64,
    ) -> u32;

    pub fn ace_trace_len(
        entries: &[Entry; MOST_RUNS],
        len: u32,
        rows_total: &mut u64,
        place: &mut u64,
    ) -> u32;

    pub fn ace_first_row(
        entries: &[Entry; MOST_RUNS],
        len: u32,
        clk: u32,
        row: &mut u64,
        place: &mut u64,
    ) -> u32;
}
