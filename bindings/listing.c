/* Evaluates the circuit of document 01's listing, prints its rows as the program does, and writes the
 * record and reads it back. Ends with status 1 where something differs or is refused. */
#include <inttypes.h>
#include <stdio.h>
#include <stdlib.h>
#include <string.h>

#include "ace.h"

enum {
    NUM_VARS = 2,
    NUM_READ = NUM_VARS / 2,
    NUM_EVAL = 4,
    WIRES = NUM_VARS + NUM_EVAL,
    VALUES = ACE_VALUE_CELLS * WIRES,
    NODES = ACE_READ_CELLS * NUM_READ + ACE_EVAL_CELLS * NUM_EVAL,
    ROWS = NUM_READ + NUM_EVAL,
    ROOM = 1024
};

struct record {
    uint64_t header[ACE_HEADER];
    uint64_t values[VALUES];
    uint32_t counts[WIRES];
    uint64_t nodes[NODES];
};

static const uint64_t memory[] = {
    3, 0, 4, 0,
    UINT64_C(2305843013508661253), UINT64_C(1152921508901814277),
    UINT64_C(3221225475), UINT64_C(1152921506754330625)
};

static void accepted(const char *call, uint32_t number, uint64_t place) {
    if (number != 0) {
        fprintf(stderr, "%s: refusal %" PRIu32 ", place %" PRIu64 "\n", call, number, place);
        exit(1);
    }
}

static void evaluate(struct record *record) {
    uint64_t place;
    const uint32_t number = ace_eval_circuit(0, 7, 0, NUM_VARS, NUM_EVAL, memory, sizeof memory / sizeof *memory,
                                             record->values, VALUES, record->counts, WIRES,
                                             record->nodes, NODES, record->header, &place);
    accepted("ace_eval_circuit", number, place);
}

static void print_rows(const struct record *record) {
    uint64_t rows[ROWS * ACE_ROW_CELLS], place;
    const uint64_t *header = record->header;
    const uint32_t number = ace_fill((uint32_t)header[0], (uint32_t)header[1], (uint32_t)header[2],
                                     (uint32_t)header[3], header[4], record->values, VALUES,
                                     record->counts, WIRES, record->nodes, NODES, 0,
                                     rows, ROWS * ACE_ROW_CELLS, &place);
    accepted("ace_fill", number, place);
    printf("accept %d %d\n", ROWS, WIRES);
    for (size_t cell = 0; cell < ROWS * ACE_ROW_CELLS; cell++) {
        const int ends = cell % ACE_ROW_CELLS == ACE_ROW_CELLS - 1;
        printf("%" PRIu64 "%c", rows[cell], ends ? '\n' : ' ');
    }
}

static size_t write_record(const struct record *record, uint8_t *out) {
    uint64_t length, place;
    const uint64_t *header = record->header;
    const uint32_t number = ace_write_into((uint32_t)header[0], (uint32_t)header[1], (uint32_t)header[2],
                                           (uint32_t)header[3], header[4], record->values, VALUES,
                                           record->counts, WIRES, record->nodes, NODES,
                                           out, ROOM, &length, &place);
    accepted("ace_write_into", number, place);
    return (size_t)length;
}

static void read_record(const uint8_t *bytes, size_t length, struct record *record) {
    uint64_t place;
    const uint32_t number = ace_read_from(bytes, length, record->values, VALUES, record->counts, WIRES,
                                          record->nodes, NODES, record->header, &place);
    accepted("ace_read_from", number, place);
}

static int same(const struct record *a, const struct record *b) {
    return memcmp(a->header, b->header, sizeof a->header) == 0 && memcmp(a->values, b->values, sizeof a->values) == 0 &&
           memcmp(a->counts, b->counts, sizeof a->counts) == 0 && memcmp(a->nodes, b->nodes, sizeof a->nodes) == 0;
}

int main(void) {
    struct record evaluated, read;
    uint8_t bytes[ROOM];
    size_t length;
    evaluate(&evaluated);
    print_rows(&evaluated);
    length = write_record(&evaluated, bytes);
    memset(&read, 0xff, sizeof read);
    read_record(bytes, length, &read);
    if (!same(&evaluated, &read)) {
        fputs("the record that was read back differs\n", stderr);
        return 1;
    }
    return 0;
}
