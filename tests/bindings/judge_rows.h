/* Reads the rows that judge_tables.py writes, from the path in JUDGE_ROWS, or else in
 * build/bindings. */
#ifndef JUDGE_ROWS_H
#define JUDGE_ROWS_H
#include <stdio.h>
#include <stdlib.h>
#include <string.h>
#include <yachtjudge.h>

enum { MOST_BYTES = 64 << 20 };

/* a part: where it is, which the file has as its place there, and its length */
#define PART(type, name) \
    union { \
        const type *name; \
        uint64_t name##_place; \
    }; \
    uint64_t name##_length

typedef struct judge_row {
    uint64_t kind, is_refused, slots, states, memory, moves, number, commands, at, submission, line, fault;
    PART(uint8_t, script);
    PART(uint8_t, text);
    PART(uint8_t, note);
    PART(uint64_t, lengths);
    PART(yacht_file, files);
    PART(yacht_request, requests);
    PART(int32_t, entries);
    PART(uint8_t, bytes);
    PART(yacht_event, events);
} judge_row;

enum { JUDGE, LIST, LOG, TEXT };

static judge_row *judge_rows;
static uint64_t judge_rows_length;

static void read_judge_rows(void) {
    static _Alignas(8) uint8_t data[MOST_BYTES];
    const char *path = getenv("JUDGE_ROWS");
    FILE *file = fopen(path ? path : "build/bindings/judge_rows", "rb");
    if (!file || fread(data, 1, MOST_BYTES, file) < 8 || !feof(file)) abort();
    fclose(file);
    memcpy(&judge_rows_length, data, 8);
    judge_rows = (judge_row *)(data + 8);
    for (judge_row *it = judge_rows; it < judge_rows + judge_rows_length; it++) {
        it->script = data + it->script_place, it->text = data + it->text_place, it->note = data + it->note_place;
        it->lengths = (void *)(data + it->lengths_place), it->files = (void *)(data + it->files_place), it->requests = (void *)(data + it->requests_place);
        it->entries = (void *)(data + it->entries_place), it->bytes = data + it->bytes_place, it->events = (void *)(data + it->events_place);
    }
}
#endif
