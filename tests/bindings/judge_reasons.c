/* The reason of a log in C: its last step, less room than it needs, and each allocation failing in
 * turn. tests/reasons.py checks its steps. */
#include "refusing.h"
#include <string.h>
#include <yachtjudge.h>

enum { ROOM = 64 };
#define HEAD "file a 61\ncall 1 sparse 2\ndone 1.1 0\n"
/* a look finds a file that a close removed before the look was called */
static const char stale_begin[] = HEAD "call 7 open a at 0\ndone 7.1 0\ncall 5 close 0\ndone 5.1 0\ncall 9 look 0\n";
static const char stale[] = HEAD "call 7 open a at 0\ndone 7.1 0\ncall 5 close 0\ndone 5.1 0\ncall 9 look 0\ndone 9.1 0 7.1.0\n";
/* during an update of slots 0 and 1 a read finds its file at slot 0, a later one none at slot 1 */
static const char between[] = HEAD "call 2 update 0 0,0\ncall 3 read 0 0 1\ndone 3.1 1 61\ncall 4 read 1 0 1\ndone 4.1 -9\ndone 2.1 2\n";
static yacht_step steps[ROOM];
static yacht_reading reading;
static uint8_t note[1];

static uint32_t judge(const char *text, size_t room, int is_whole) {
    memset(steps, '?', sizeof steps), memset(&reading, '?', sizeof reading);
    return yacht_judge_log((const uint8_t *)text, strlen(text), (uint32_t)is_whole, YACHT_STATES, YACHT_MEMORY, YACHT_ANY_MOVES, note, 0, steps, room, &reading);
}

static int is_untouched(size_t nth) { return steps[nth].rule == 0x3f3f3f3f; }

static int has_details(uint64_t line, uint64_t all) { return reading.line == line && reading.steps == all && !reading.note; }

static void stale_look(void) {
    uint32_t number = judge(stale, ROOM, 0);
    uint64_t all = reading.steps;
    WANT(number == YACHT_NOT_LEGAL && all > 5 && all < ROOM && has_details(9, all) && is_untouched(all));
    const yacht_point *from = &steps[all - 1].from, *to = &steps[all - 1].to;
    WANT(steps[all - 1].is_strict == 1 && !memcmp(from, to, sizeof(uint32_t) * 2) && from->at == to->at && from->by_call == to->by_call);
    /* the file is that of the call 7, and the look is answered at line 9 */
    int is_named = 0;
    for (size_t nth = 0; nth < all; nth++)
        is_named |= steps[nth].rule == YACHT_RULE_FINDS && steps[nth].first == 8 && steps[nth].from.at == 9 && steps[nth].to.by_call == 7;
    WANT(is_named);
    /* with less room the first steps are written, and the number of all of them */
    WANT(judge(stale, 1, 0) == YACHT_NOT_LEGAL && has_details(9, all) && !is_untouched(0) && is_untouched(1));
    WANT(judge(stale, 0, 0) == YACHT_NOT_LEGAL && has_details(9, all) && is_untouched(0));
    /* nothing is wrong before */
    WANT(judge(stale_begin, ROOM, 0) == YACHT_LEGAL && has_details(0, 0) && is_untouched(0));
    /* the log is not legal by whole updates, either */
    WANT(judge(stale, ROOM, 1) == YACHT_NOT_LEGAL && has_details(9, all) && !is_untouched(all - 1) && is_untouched(all));
}

static void refused_allocations(void) {
    int refused = 0;
    uint32_t answer = YACHT_JUDGE_NO_MEMORY;
    for (long number = 0; answer == YACHT_JUDGE_NO_MEMORY; number++) {
        allowed = number;
        answer = judge(stale, ROOM, 0);
        allowed = -1;
        refused += answer == YACHT_JUDGE_NO_MEMORY;
    }
    WANT(answer == YACHT_NOT_LEGAL && refused > 10 && reading.steps > 5);
}

int main(void) {
    stale_look();
    refused_allocations();
    /* by whole updates no read comes between two entries of one; by entries it does, so there is no
     * reason */
    WANT(judge(between, ROOM, 0) == YACHT_LEGAL && has_details(0, 0));
    WANT(judge(between, ROOM, 1) == YACHT_NOT_LEGAL && has_details(8, 0) && is_untouched(0));
    return report("judge reasons");
}
