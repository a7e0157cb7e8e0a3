/* The rows of the judge in C (judge_rows.h): each number and field, with less and less room, and
 * with each allocation failing in turn. Without JUDGE_ROWS, which names the file to the stand-in,
 * it leaves out the rows that only that answers. */
#include "judge_rows.h"
#include "refusing.h"

enum { ROOM = 4 << 20, MOST_TEXTS = 8192, MOST_STEPS = 64 };
static uint8_t words[ROOM];
static uint64_t lengths[MOST_TEXTS];
static const judge_row *row;
static yacht_verdict verdict;
static yacht_texts found;
static yacht_judgement judgement;
static yacht_step steps[MOST_STEPS];
static yacht_reading reading;
static uint8_t *copy; /* of a text, without a byte more */

/* Calls the library with the arguments of a row, and room for as many bytes and texts. */
static uint32_t call(size_t room, size_t count) {
    const judge_row *it = row;
    uint32_t states = (uint32_t)it->states, memory = (uint32_t)it->memory;
    memset(words, '?', room + 1);
    switch (it->kind) {
    case JUDGE: return yacht_judge(it->script, it->script_length, it->text, it->text_length, states, memory, words, room, &verdict);
    case LIST: return yacht_outcomes(it->script, it->script_length, states, memory, words, room, lengths, count, &found);
    case TEXT: return yacht_judge_log(copy, it->text_length, 0, states, memory, it->moves, words, room, steps, MOST_STEPS, &reading);
    default:
        return yacht_judge_events(it->files, it->files_length, (uint32_t)it->slots, it->requests, it->requests_length, it->entries, it->entries_length,
                                  it->bytes, it->bytes_length, it->events, it->events_length, states, memory, it->moves, steps, MOST_STEPS, &judgement);
    }
}

static void judges(void) {
    size_t whole = row->note_length, rooms[] = {whole + 1, whole, whole / 2, 0};
    for (size_t nth = 0; nth < sizeof rooms / sizeof *rooms; nth++) {
        size_t written = rooms[nth] < whole ? rooms[nth] : whole;
        memset(&verdict, '?', sizeof verdict);
        WANT(call(rooms[nth], 0) == row->number);
        WANT(verdict.commands == row->commands && verdict.at == row->at && verdict.submission == row->submission && verdict.line == row->line);
        WANT(verdict.note == whole && !memcmp(words, row->note, written) && words[written] == '?');
    }
}

/* Checks that each text found is another one of the row's, and that all are found if the list is of
 * all texts. */
static int are_of_row(void) {
    static uint8_t is_taken[MOST_TEXTS];
    memset(is_taken, 0, sizeof is_taken);
    size_t at = 0;
    for (size_t nth = 0; nth < found.count; at += lengths[nth++]) {
        size_t begin = 0, other = 0;
        while (other < row->lengths_length && (is_taken[other] || row->lengths[other] != lengths[nth] || memcmp(row->text + begin, words + at, lengths[nth]))) {
            begin += row->lengths[other++];
        }
        if (other == row->lengths_length) return 0;
        is_taken[other] = 1;
    }
    return at == found.bytes && (row->number != YACHT_ALL || found.count == row->lengths_length);
}

static void lists(void) {
    memset(&found, '?', sizeof found);
    WANT(call(ROOM - 1, MOST_TEXTS) == row->number);
    WANT(found.line == row->line && are_of_row() && words[found.bytes] == '?');
    size_t bytes = found.bytes, count = found.count;
    WANT(call(bytes, count) == row->number);
    if (bytes) WANT(call(bytes - 1, count) == YACHT_NO_ROOM && found.bytes == bytes && found.count == count && words[0] == '?');
    if (count) WANT(call(bytes, count - 1) == YACHT_NO_ROOM && found.bytes == bytes && found.count == count && words[0] == '?');
}

static void judges_log(void) {
    memset(&judgement, '?', sizeof judgement);
    WANT(call(0, 0) == row->number);
    WANT(judgement.at == row->at && judgement.fault == row->fault);
    WANT(row->number == YACHT_NOT_LEGAL || !judgement.steps);
}

/* Reads the text of a log: what it says, and the fault of what isn't a log. */
static void reads(void) {
    size_t whole = row->note_length, rooms[] = {whole + 1, whole, whole / 2, 0};
    for (size_t nth = 0; nth < sizeof rooms / sizeof *rooms; nth++) {
        size_t written = rooms[nth] < whole ? rooms[nth] : whole;
        memset(&reading, '?', sizeof reading);
        WANT(call(rooms[nth], 0) == row->number && reading.line == row->line);
        WANT(reading.note == whole && !memcmp(words, row->note, written) && words[written] == '?');
    }
}

/* Each allocation of the library fails in turn. */
static void refused(void) {
    int is_refused = 0;
    uint32_t answer = YACHT_JUDGE_NO_MEMORY;
    for (long count = 0; answer == YACHT_JUDGE_NO_MEMORY; count++) {
        allowed = count;
        answer = call(1 << 16, MOST_TEXTS);
        allowed = -1;
        is_refused |= answer == YACHT_JUDGE_NO_MEMORY;
    }
    WANT(answer == row->number && (is_refused || !(row->script_length + row->files_length) || row->number > YACHT_NO_ROOM));
}

int main(void) {
    int is_stand_in = getenv("JUDGE_ROWS") != NULL;
    read_judge_rows();
    for (size_t nth = 0; nth < judge_rows_length; nth++) {
        row = &judge_rows[nth];
        if (row->is_refused && !is_stand_in) continue;
        if (row->kind != TEXT) row->kind == JUDGE ? judges() : row->kind == LIST ? lists() : judges_log();
        if (row->kind != TEXT && !is_stand_in) refused();
        if (row->kind < LOG || !row->text_length) continue;
        judge_rows[nth].kind = TEXT, copy = malloc(row->text_length);
        memcpy(copy, row->text, row->text_length);
        reads(), is_alone = 1;
        if (row->number != YACHT_JUDGE_NO_MEMORY) refused();
        free(copy), is_alone = 0;
    }
    return report("rows of the judge");
}
