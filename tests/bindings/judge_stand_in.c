/* A library in place of libyachtjudge: it answers what the row with these arguments has
 * (judge_rows.h), and nothing else. So each row is a test of what a binding passes, and of what it
 * makes of each answer. JUDGE_ROWS is the path of the rows. */
#include "judge_rows.h"
#include <pthread.h>

static int is_same(const void *its, size_t its_length, const void *bytes, size_t length) { return its_length == length && !memcmp(its, bytes, length); }

static _Thread_local judge_row given;
static pthread_once_t once = PTHREAD_ONCE_INIT; /* tests in Rust have threads */

/* Returns the row with these arguments, and those of `given`. */
static const judge_row *row_of(uint64_t kind, const uint8_t *script, size_t script_length, uint32_t states, uint32_t memory, uint64_t moves, int (*holds)(const judge_row *)) {
    pthread_once(&once, read_judge_rows);
    for (const judge_row *it = judge_rows; it < judge_rows + judge_rows_length; it++)
        if ((it->kind == kind || (kind == LOG && it->kind == TEXT)) && is_same(it->script, it->script_length, script, script_length) && it->states == states && it->memory == memory && it->moves == moves && holds(it)) return it;
    fprintf(stderr, "judge_stand_in.c: no row has these arguments: kind %u, states %u, memory %u, moves %llu\n", (unsigned)kind, states, memory, (unsigned long long)moves);
    abort();
}

static int has_text(const judge_row *it) { return is_same(it->text, it->text_length, given.text, given.text_length); }
static int is_any(const judge_row *it) { return it != NULL; }

static int is_event(const yacht_event *it, const yacht_event *other) {
    return it->kind == other->kind && it->call == other->call && it->member == other->member && it->res == other->res && it->slot == other->slot &&
           it->first == other->first && it->count == other->count && it->by_call == other->by_call && it->by_member == other->by_member &&
           it->by_entry == other->by_entry && it->file == other->file;
}

static int is_request(const yacht_request *it, const yacht_request *other) {
    return it->kind == other->kind && it->slot == other->slot && it->first == other->first && it->count == other->count && it->flags == other->flags &&
           it->file == other->file;
}

static int has_log(const judge_row *it) {
    if (it->slots != given.slots || it->events_length != given.events_length || it->requests_length != given.requests_length) return 0;
    if (!is_same(it->files, it->files_length * sizeof(yacht_file), given.files, given.files_length * sizeof(yacht_file))) return 0;
    if (!is_same(it->entries, it->entries_length * sizeof(int32_t), given.entries, given.entries_length * sizeof(int32_t))) return 0;
    if (!is_same(it->bytes, it->bytes_length, given.bytes, given.bytes_length)) return 0;
    for (size_t nth = 0; nth < given.events_length; nth++)
        if (!is_event(&it->events[nth], &given.events[nth])) return 0;
    for (size_t nth = 0; nth < given.requests_length; nth++)
        if (!is_request(&it->requests[nth], &given.requests[nth])) return 0;
    return 1;
}

uint32_t yacht_judge(const uint8_t *script, size_t script_length, const uint8_t *text, size_t text_length, uint32_t states, uint32_t memory,
                     uint8_t *note, size_t note_length, yacht_verdict *verdict) {
    given.text = text, given.text_length = text_length;
    const judge_row *it = row_of(JUDGE, script, script_length, states, memory, 0, has_text);
    yacht_verdict made = {it->commands, it->at, it->note_length, (uint32_t)it->submission, (uint32_t)it->line};
    *verdict = made;
    memcpy(note, it->note, note_length < it->note_length ? note_length : it->note_length);
    return (uint32_t)it->number;
}

uint32_t yacht_outcomes(const uint8_t *script, size_t script_length, uint32_t states, uint32_t memory, uint8_t *texts, size_t texts_length,
                        uint64_t *lengths, size_t lengths_length, yacht_texts *found) {
    const judge_row *it = row_of(LIST, script, script_length, states, memory, 0, is_any);
    *found = (yacht_texts){it->lengths_length, it->text_length, (uint32_t)it->line};
    if (it->text_length > texts_length || it->lengths_length > lengths_length) return YACHT_NO_ROOM;
    memcpy(texts, it->text, it->text_length);
    if (it->lengths_length) memcpy(lengths, it->lengths, it->lengths_length * sizeof *lengths);
    return (uint32_t)it->number;
}

/* what is passed of a log */
#define LOG_PASSED                                                                                                                              \
    const yacht_file *files, size_t files_length, uint32_t slots, const yacht_request *requests, size_t requests_length, const int32_t *entries, \
        size_t entries_length, const uint8_t *bytes, size_t bytes_length, const yacht_event *events, size_t events_length

uint32_t yacht_judge_events(LOG_PASSED, uint32_t states, uint32_t memory, uint64_t moves, yacht_step *steps, size_t steps_length, yacht_judgement *judgement) {
    (void)steps, (void)steps_length;
    given = (judge_row){.files = files, .files_length = files_length, .slots = slots, .requests = requests, .requests_length = requests_length, .entries = entries, .entries_length = entries_length,
                        .bytes = bytes, .bytes_length = bytes_length, .events = events, .events_length = events_length};
    const judge_row *it = row_of(LOG, bytes, 0, states, memory, moves, has_log);
    *judgement = (yacht_judgement){it->at, 0, (uint32_t)it->fault};
    return (uint32_t)(it->kind == TEXT ? it->commands : it->number);
}

static yacht_point point_of(uint32_t nth) {
    return (yacht_point){nth % 4 + 1, nth + 1, nth + 2, nth + 3, nth + 4, nth + 5, nth + 6, (nth + 7) % 251};
}

/* no row is by whole updates: nothing is decided of a log with events. A log without events has a
 * reason of as many steps as it has slots, each with other numbers. */
uint32_t yacht_judge_whole_updates(LOG_PASSED, uint32_t states, uint32_t memory, uint64_t moves, yacht_step *steps, size_t steps_length, yacht_judgement *judgement) {
    if (events_length) {
        (void)yacht_judge_events(files, files_length, slots, requests, requests_length, entries, entries_length, bytes, bytes_length, events,
                                 events_length, states, memory, moves, steps, steps_length, judgement);
        return YACHT_UNDECIDED;
    }
    *judgement = (yacht_judgement){.at = 7, .steps = slots};
    for (uint32_t nth = 0; nth < slots && nth < steps_length; nth++)
        steps[nth] = (yacht_step){nth % 32 + 1, nth % 2, nth, nth + 1, nth + 2, nth + 3, nth + 4, nth + 5, point_of(nth + 6), point_of(nth + 60)};
    return YACHT_NOT_LEGAL;
}
