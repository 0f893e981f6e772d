/* The ACE chiplet for callers in C: the static library libace_c.a that `tools/staticlib ace_c` writes.
 * "Document 01" is the paper "Exact rules for the build"; what stands in quotation marks is from it.
 *
 * Every function returns 0, or the number of a refusal (enum ace_refusal). `place` gets what the
 * paper's table says the refusal "also returns", and 0 where that is nothing or nothing was refused.
 *
 * A buffer is a pointer and its length in cells (bytes for `out` and `bytes`). What a caller owes:
 *   - a pointer is valid for all of its length and aligned for its cells; it may be null only where
 *     its length is 0. A pointer without a length is never null, and has as many cells as its
 *     parameter says;
 *   - what a function writes overlaps nothing else that it is handed. What it only reads (const) may
 *     overlap what else it only reads;
 *   - nobody else writes to what is lent while a call runs.
 * Nothing else is asked: every number, length and cell has an answer. No function keeps a pointer,
 * takes memory of its own or ends the program, and no two calls share anything but what they are lent.
 *
 * The archive is for x86-64 and needs memset of the C library, nothing else:
 *     cc -I bindings program.c target/staticlib/libace_c.a
 */
#ifndef ACE_H
#define ACE_H

#include <stddef.h>
#include <stdint.h>

#ifdef __cplusplus
extern "C" {
#endif

/* "p = 2^64 - 2^32 + 1". An element is a number below p; a pair is two of them, first part first. */
#define ACE_P UINT64_C(18446744069414584321)

/* With num_wires = 2 * num_read + num_eval, a circuit needs ACE_VALUE_CELLS * num_wires value cells,
 * num_wires counts, and ACE_READ_CELLS * num_read + ACE_EVAL_CELLS * num_eval node cells: READ nodes
 * (ptr, id_0, v_0, id_1, v_1), then EVAL nodes (ptr, eval_op, id_0, v_0, id_1, v_1, id_2, v_2), "a
 * pair taking two cells". "The wire with an id lies at position num_wires - 1 - id." "Cells past
 * those used never change." */
#define ACE_VALUE_CELLS 2
#define ACE_READ_CELLS 7
#define ACE_EVAL_CELLS 11

/* The cells of a row: s_start, s_block, ctx, ptr, clk, eval_op, id_0, v_0 (two), id_1, v_1 (two);
 * "then READ: num_eval, 0, m_1, m_0; EVAL: id_2, v_2 (two), m_0". */
#define ACE_ROW_CELLS 16

/* The most wires of a circuit that is evaluated, and of a record. */
#define ACE_MOST_WIRES 32768
#define ACE_MOST_RECORD_WIRES 1073741823

/* The numbers of a record's header: ctx, clk, num_read, num_eval, id_next. */
#define ACE_HEADER 5

/* The numbers of a step state: ctx, clk, num_read, num_eval, reads_done, evals_done. Its id_next is
 * a number of its own, since it takes 64 bits. */
#define ACE_STATE 6

/* A run list: a length, and the numbers clk, num_read, num_eval of each of its entries. A list of
 * length 0 is empty, whatever its entries hold. */
#define ACE_MOST_RUNS 32
#define ACE_ENTRIES (3 * ACE_MOST_RUNS)

enum ace_refusal {
    ACE_TOO_MANY_WIRES = 1,  /* num_vars + num_eval over 32768, as whole numbers */
    ACE_BAD_READ_COUNT = 2,  /* num_vars odd or zero */
    ACE_BAD_EVAL_COUNT = 3,  /* num_eval zero or no multiple of 4 */
    ACE_UNALIGNED = 4,       /* ptr no multiple of 4 */
    ACE_OUT_OF_MEMORY = 5,   /* ptr + 2·num_vars + num_eval over the memory's cells */
    ACE_SHORT_BUFFER = 6,    /* a lent value, count or node buffer is shorter than the whole circuit needs */
    ACE_NOT_ELEMENT = 7,     /* a cell is p or more; place: first such address */
    ACE_NOT_INSTRUCTION = 8, /* gate word doesn't decode; place: gate, from 0 */
    ACE_LEFT_NOT_MADE = 9,   /* left operand not yet made, or id at least num_wires; place: gate */
    ACE_RIGHT_NOT_MADE = 10, /* right operand not yet made, or id at least num_wires; place: gate */
    ACE_NOT_FINISHED = 11,   /* result asked before all steps are done */
    ACE_NOT_ZERO = 12,       /* last wire is not (0, 0) */
    ACE_OUT_OF_TURN = 13,    /* step out of turn, or a state that no calls give */
    ACE_SHORT_ROWS = 14,     /* row buffer shorter than 16·(offset + rows) */
    ACE_CUT_OFF = 15,        /* bytes end before a number's last byte, with fewer than ten of it read;
                                place: byte offset of the number */
    ACE_NOT_SHORTEST = 16,   /* number not in shortest form, or its tenth byte over 1; place: same */
    ACE_OUT_OF_RANGE = 17,   /* number outside its field's range; place: same (0 where no bytes are read) */
    ACE_NO_WIRES = 18,       /* record declares 0 wires */
    ACE_OVER_MAX_WIRES = 19, /* over 1,073,741,823 wires */
    ACE_OTHER_LENGTH = 20,   /* wire list's length differs from the declared count */
    ACE_NO_EVAL_NODE = 21,   /* no EVAL node */
    ACE_OTHER_WIRES = 22,    /* nodes' wires differ from the declared count */
    ACE_BYTES_LEFT = 23,     /* bytes left over */
    ACE_NO_ROOM = 24,        /* room lent for output too small */
    ACE_LIST_FULL = 25,      /* run list full */
    ACE_NO_SUCH_CLOCK = 26   /* clock not in it */
};

/* Whole evaluation of the circuit at address ptr of memory, where "cell k has address k; a slice
 * longer than 2^32 counts as 2^32 cells": num_vars pairs, then num_eval gate words.
 * Refuses in the "order 1 to 7, then gate by gate 8, 9, 10, then 12". "1 to 7 change nothing. 8, 9,
 * 10 and 12 leave the used value cells, counts and node cells zero". 7 "looks only at the region".
 * Accepted: every value, count and node of the circuit is written, and header gets the record's
 * header, with id_next p - 1. A refusal leaves header. */
uint32_t ace_eval_circuit(uint32_t ctx, uint32_t clk, uint64_t ptr, uint64_t num_vars, uint64_t num_eval,
                          const uint64_t *memory, size_t memory_len,
                          uint64_t *values, size_t values_len,
                          uint32_t *counts, size_t counts_len,
                          uint64_t *nodes, size_t nodes_len,
                          uint64_t header[ACE_HEADER], uint64_t *place);

/* Opening: state and id_next get the state before the first step. Refuses "1 (2·num_read + num_eval
 * over 32768), 2 (num_read zero), 3 (num_eval zero), 6, changing nothing"; "num_eval needn't be a
 * multiple of 4". "Opening writes no lent cell." */
uint32_t ace_new(uint32_t ctx, uint32_t clk, uint32_t num_read, uint32_t num_eval,
                 const uint64_t *values, size_t values_len,
                 const uint32_t *counts, size_t counts_len,
                 const uint64_t *nodes, size_t nodes_len,
                 uint32_t state[ACE_STATE], uint64_t *id_next, uint64_t *place);

/* A READ step with the memory word c0, c1, c2, c3 of address ptr: the pairs (c0, c1) and (c2, c3).
 * Refuses 13, 6, 7; the place of 7 is 0 to 3 for the word's cells, 4 for the pointer.
 * Accepted: two wires and their node are written, and the state is the next one. A refusal changes
 * nothing. */
uint32_t ace_do_read(uint32_t state[ACE_STATE], uint64_t *id_next, uint64_t ptr,
                     uint64_t c0, uint64_t c1, uint64_t c2, uint64_t c3,
                     uint64_t *values, size_t values_len,
                     uint32_t *counts, size_t counts_len,
                     uint64_t *nodes, size_t nodes_len,
                     uint64_t *place);

/* An EVAL step with the gate word `instruction` of address ptr.
 * Refuses 13, 6, 7 (place 0 for the word, 1 for the pointer), 8, "then the left operand: 9, 7 (a
 * stored value p or more; returns its value cell), 13 (count at 4294967295), then the right with 10
 * likewise".
 * Accepted: the wire and its node are written, both operands' counts raised, and the state is the
 * next one. "The left count is raised before the right operand is looked at, and stays raised where
 * the right is refused; nothing else changes on a refused step." */
uint32_t ace_do_eval(uint32_t state[ACE_STATE], uint64_t *id_next, uint64_t ptr, uint64_t instruction,
                     uint64_t *values, size_t values_len,
                     uint32_t *counts, size_t counts_len,
                     uint64_t *nodes, size_t nodes_len,
                     uint64_t *place);

/* The result, once all steps are done: header gets the record's header where the last wire is
 * (0, 0). "The result: 13, 6, 11, 12, changing nothing." */
uint32_t ace_output_value(const uint32_t state[ACE_STATE], uint64_t id_next,
                          const uint64_t *values, size_t values_len,
                          const uint32_t *counts, size_t counts_len,
                          const uint64_t *nodes, size_t nodes_len,
                          uint64_t header[ACE_HEADER], uint64_t *place);

/* Fill: the num_read + num_eval rows of a record are written to rows, from row `offset` on. "READ
 * rows come first." "Every cell of the named rows is written; other rows stay."
 * Refuses "21, 19, 6, 17 (a used value or node cell, or id_next, p or more), then fill 14". "A
 * refusal changes nothing." */
uint32_t ace_fill(uint32_t ctx, uint32_t clk, uint32_t num_read, uint32_t num_eval, uint64_t id_next,
                  const uint64_t *values, size_t values_len,
                  const uint32_t *counts, size_t counts_len,
                  const uint64_t *nodes, size_t nodes_len,
                  size_t offset, uint64_t *rows, size_t rows_len, uint64_t *place);

/* Fill from a step state: "13 and 11 come before these." What the last wire holds is not asked. */
uint32_t ace_fill_state(const uint32_t state[ACE_STATE], uint64_t id_next,
                        const uint64_t *values, size_t values_len,
                        const uint32_t *counts, size_t counts_len,
                        const uint64_t *nodes, size_t nodes_len,
                        size_t offset, uint64_t *rows, size_t rows_len, uint64_t *place);

/* Writer: the bytes of a record go to the start of out, and length gets their number. Refuses 21, 19,
 * 6, 17, then 24. "A refusal changes nothing", length included. */
uint32_t ace_write_into(uint32_t ctx, uint32_t clk, uint32_t num_read, uint32_t num_eval, uint64_t id_next,
                        const uint64_t *values, size_t values_len,
                        const uint32_t *counts, size_t counts_len,
                        const uint64_t *nodes, size_t nodes_len,
                        uint8_t *out, size_t out_len, uint64_t *length, uint64_t *place);

/* Writer from a step state: 13 and 11 come first. */
uint32_t ace_write_state_into(const uint32_t state[ACE_STATE], uint64_t id_next,
                              const uint64_t *values, size_t values_len,
                              const uint32_t *counts, size_t counts_len,
                              const uint64_t *nodes, size_t nodes_len,
                              uint8_t *out, size_t out_len, uint64_t *length, uint64_t *place);

/* Reader: a record's values, counts, nodes and header from its bytes, all of which it takes.
 * Refuses "in field order 15, 16, 17 at each number and 24 at each list length that passes the room;
 * after the declared count 18, 19, 20; at the end 21, 19, 22, 23. A refusal changes nothing", header
 * included. */
uint32_t ace_read_from(const uint8_t *bytes, size_t bytes_len,
                       uint64_t *values, size_t values_len,
                       uint32_t *counts, size_t counts_len,
                       uint64_t *nodes, size_t nodes_len,
                       uint64_t header[ACE_HEADER], uint64_t *place);

/* Adds a run to a run list. "Adding an equal clock replaces that entry, full or not."
 * Refuses "13 first (length over 32, clocks not rising, counts that opening refuses; entries past the
 * length aren't looked at)", "then 1, 2, 3 as for opening, 25 (32 other clocks)". "A refusal leaves
 * the list." */
uint32_t ace_add_circuit_evaluation(uint32_t entries[ACE_ENTRIES], uint32_t *len,
                                    uint32_t clk, uint32_t num_read, uint32_t num_eval, uint64_t *place);

/* The total of rows, num_read + num_eval a run. Refuses 13, and leaves rows_total. */
uint32_t ace_trace_len(const uint32_t entries[ACE_ENTRIES], uint32_t len, uint64_t *rows_total, uint64_t *place);

/* "The first row of a clock, the sum of rows of smaller clocks; or 26." Refuses 13 before, and leaves
 * row. */
uint32_t ace_first_row(const uint32_t entries[ACE_ENTRIES], uint32_t len, uint32_t clk, uint64_t *row,
                       uint64_t *place);

#ifdef __cplusplus
}
#endif

#endif
