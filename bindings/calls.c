/* Calls every function of ace.h, once accepted and once refused, on the circuit of document 01's
 * listing, and a few with null buffers of length 0. Expected values were worked out by hand from
 * document 01. Ends with status 1 where one differs. */
#include <inttypes.h>
#include <stdio.h>
#include <stdlib.h>
#include <string.h>

#include "ace.h"

#define LENGTH(array) (sizeof(array) / sizeof *(array))
#define LENT values, LENGTH(values), counts, LENGTH(counts), nodes, LENGTH(nodes)
#define WANT(condition) want(condition, #condition, __LINE__)

/* No call tells this. */
#define UNTOLD 77

static const uint64_t memory[] = {
    3, 0, 4, 0,
    UINT64_C(2305843013508661253), UINT64_C(1152921508901814277),
    UINT64_C(3221225475), UINT64_C(1152921506754330625)
};

static uint64_t values[12], nodes[51], rows[80], header[ACE_HEADER], id_next, place, told;
static uint32_t counts[6], state[ACE_STATE], entries[ACE_ENTRIES], len;
static uint8_t bytes[94];

static void want(int holds, const char *condition, int line) {
    if (!holds) {
        fprintf(stderr, "calls.c:%d: not so: %s (place %" PRIu64 ")\n", line, condition, place);
        exit(1);
    }
}

static uint32_t evaluate(uint64_t num_vars, uint64_t num_eval) {
    place = UNTOLD;
    return ace_eval_circuit(0, 7, 0, num_vars, num_eval, memory, LENGTH(memory), LENT, header, &place);
}

static void circuits(void) {
    WANT(evaluate(3, 5) == ACE_BAD_READ_COUNT && place == 0 && header[1] == 0);
    WANT(evaluate(2, 4) == 0 && place == 0);
    WANT(header[0] == 0 && header[1] == 7 && header[2] == 1 && header[3] == 4 && header[4] == ACE_P - 1);
    WANT(values[0] == 3 && values[2] == 4 && values[4] == 7 && values[6] == 12 && values[8] == 0);
    WANT(counts[0] == 2 && counts[1] == 2 && counts[2] == 2 && counts[3] == 1 && counts[4] == 1 && counts[5] == 0);
}

static uint32_t eval(size_t gate) {
    place = UNTOLD;
    return ace_do_eval(state, &id_next, 4 + gate, memory[4 + gate], LENT, &place);
}

static uint32_t output(void) {
    place = UNTOLD;
    return ace_output_value(state, id_next, LENT, header, &place);
}

static void steps(void) {
    WANT(ace_new(0, 7, 1, 0, LENT, state, &id_next, &place) == ACE_BAD_EVAL_COUNT && state[1] == 0);
    WANT(ace_new(0, 7, 1, 4, LENT, state, &id_next, &place) == 0 && state[1] == 7 && id_next == 5);
    WANT(eval(0) == ACE_OUT_OF_TURN && place == 0);
    WANT(ace_do_read(state, &id_next, 0, 3, 0, 4, ACE_P, LENT, &place) == ACE_NOT_ELEMENT && place == 3);
    WANT(ace_do_read(state, &id_next, 0, 3, 0, 4, 0, LENT, &place) == 0 && place == 0);
    WANT(state[4] == 1 && state[5] == 0 && id_next == 3 && values[2] == 4 && nodes[5] == 4);
    WANT(output() == ACE_NOT_FINISHED && place == 0);
    WANT(eval(1) == 0 && values[4] == 12 && place == 0);
    WANT(eval(2) == 0 && values[6] == 0 && state[5] == 2);
    WANT(eval(3) == ACE_LEFT_NOT_MADE && place == 2);
}

static void all_steps(void) {
    size_t gate;
    WANT(ace_new(0, 7, 1, 4, LENT, state, &id_next, &place) == 0);
    WANT(ace_do_read(state, &id_next, 0, 3, 0, 4, 0, LENT, &place) == 0);
    for (gate = 0; gate < 4; gate++) {
        WANT(eval(gate) == 0);
    }
    header[1] = 0;
    WANT(output() == 0 && header[1] == 7 && header[4] == ACE_P - 1);
}

static void fills(void) {
    WANT(ace_fill(0, 7, 1, 4, ACE_P - 1, LENT, 1, rows, LENGTH(rows), &place) == ACE_SHORT_ROWS && rows[0] == 0);
    WANT(ace_fill(0, 7, 1, 4, ACE_P - 1, LENT, 0, rows, LENGTH(rows), &place) == 0 && rows[0] == 1);
    WANT(rows[14] == 2 && rows[16 + 1] == 1 && rows[16 + 15] == 2 && rows[64 + 13] == 12);
    memset(rows, 0, sizeof rows);
    WANT(ace_fill_state(state, ACE_P - 2, LENT, 0, rows, LENGTH(rows), &place) == ACE_OUT_OF_TURN && rows[0] == 0);
    WANT(ace_fill_state(state, ACE_P - 1, LENT, 0, rows, LENGTH(rows), &place) == 0 && rows[64 + 13] == 12);
}

static void records(void) {
    WANT(ace_write_into(0, 7, 1, 4, ACE_P - 1, LENT, bytes, 93, &told, &place) == ACE_NO_ROOM && told == 0);
    WANT(ace_write_into(0, 7, 1, 4, ACE_P - 1, LENT, bytes, 94, &told, &place) == 0 && told == 94);
    WANT(bytes[1] == 7 && bytes[12] == 6 && bytes[13] == 3 && bytes[92] == 12);
    WANT(ace_write_state_into(state, 0, LENT, bytes, 94, &told, &place) == ACE_OUT_OF_TURN);
    told = UNTOLD;
    WANT(ace_write_state_into(state, id_next, LENT, bytes, 94, &told, &place) == 0 && told == 94);
    memset(values, 0, sizeof values);
    WANT(ace_read_from(bytes, 93, LENT, header, &place) == ACE_CUT_OFF && place == 93 && values[0] == 0);
    header[1] = 0;
    WANT(ace_read_from(bytes, 94, LENT, header, &place) == 0 && place == 0);
    WANT(values[0] == 3 && values[6] == 12 && header[1] == 7 && header[4] == ACE_P - 1);
}

static void run_list(void) {
    WANT(ace_add_circuit_evaluation(entries, &len, 7, 0, 4, &place) == ACE_BAD_READ_COUNT && len == 0);
    WANT(ace_add_circuit_evaluation(entries, &len, 7, 1, 4, &place) == 0 && len == 1);
    WANT(ace_add_circuit_evaluation(entries, &len, 3, 2, 8, &place) == 0 && len == 2);
    WANT(entries[0] == 3 && entries[1] == 2 && entries[2] == 8 && entries[3] == 7);
    WANT(ace_trace_len(entries, len, &told, &place) == 0 && told == 15);
    WANT(ace_trace_len(entries, 3, &told, &place) == ACE_OUT_OF_TURN && told == 15);
    WANT(ace_first_row(entries, len, 7, &told, &place) == 0 && told == 10);
    WANT(ace_first_row(entries, len, 5, &told, &place) == ACE_NO_SUCH_CLOCK && told == 10);
}

static void null_buffers(void) {
    WANT(ace_eval_circuit(0, 7, 0, 2, 4, NULL, 0, LENT, header, &place) == ACE_OUT_OF_MEMORY);
    WANT(ace_eval_circuit(0, 7, 0, 2, 4, memory, LENGTH(memory), NULL, 0, NULL, 0, NULL, 0, header, &place) ==
         ACE_SHORT_BUFFER);
    WANT(ace_fill(0, 7, 1, 4, 0, LENT, 0, NULL, 0, &place) == ACE_SHORT_ROWS);
    WANT(ace_read_from(NULL, 0, LENT, header, &place) == ACE_CUT_OFF && place == 0);
}

int main(void) {
    circuits();
    steps();
    all_steps();
    fills();
    records();
    run_list();
    null_buffers();
    puts("every call answers as document 01 says");
    return 0;
}
