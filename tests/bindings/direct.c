/* What the contracts of the machine of direct descriptors don't say (crates/fx_direct_c): the
 * header in C, over one life; the largest machine; the queue of releases; and the opening with each
 * allocation failing in turn. */
#include "refusing.h"
#include <pthread.h>
#include <string.h>
#include <yachtdirect.h>

enum { THREADS = 4, NOTES = 10000 };

static yacht_direct machine;
static uint32_t slot;

/* a life whose user is the last to go, by each call */
static void one_life(void) {
    uint64_t key, other = 0;
    uint32_t requests, users;
    WANT(yacht_direct_open(&machine, 2, 0, 0) == YACHT_DIRECT_DONE);
    WANT(yacht_direct_reserve(&machine, &key, &slot) == YACHT_DIRECT_DONE && slot == yacht_direct_slot_of(key));
    WANT(yacht_direct_kind_of(key) == 0 && yacht_direct_kind_of(key | YACHT_DIRECT_MOST_KIND) == YACHT_DIRECT_MOST_KIND);
    WANT(yacht_direct_opened(&machine, key | 9, 0, &slot) == YACHT_DIRECT_DONE);
    WANT(yacht_direct_start(&machine, key, &slot) == YACHT_DIRECT_DONE && yacht_direct_start(&machine, key | 3, &slot) == YACHT_DIRECT_DONE);
    WANT(yacht_direct_hold(&machine, key) == YACHT_DIRECT_DONE);
    WANT(yacht_direct_phase(&machine, key, &requests, &users) == YACHT_DIRECT_LIVE && requests == 2 && users == 1);
    WANT(yacht_direct_len(&machine) == 1 && yacht_direct_in_flight(&machine) == 2);
    WANT(yacht_direct_key_at(&machine, slot, &other) == YACHT_DIRECT_DONE && other == key);
    WANT(yacht_direct_key_in(&machine, YACHT_DIRECT_LIVE, slot, &other) == YACHT_DIRECT_DONE && other == key);
    WANT(yacht_direct_key_in(&machine, YACHT_DIRECT_LIVE, slot + 1, &other) == YACHT_DIRECT_STALE && other == key);
    WANT(yacht_direct_key_in(&machine, 0, 0, &other) == YACHT_DIRECT_BAD_ARGUMENT && yacht_direct_key_in(&machine, 6, 0, &other) == YACHT_DIRECT_BAD_ARGUMENT);
    WANT(yacht_direct_finish(&machine, key, &slot) == YACHT_DIRECT_DONE && yacht_direct_end(&machine, key, &slot) == YACHT_DIRECT_DONE);
    WANT(yacht_direct_finish(&machine, key, &slot) == YACHT_DIRECT_DONE && yacht_direct_release(&machine, key, &slot) == YACHT_DIRECT_CLOSE);
    WANT(yacht_direct_close_failed(&machine, key, &slot) == YACHT_DIRECT_CLOSE && slot == yacht_direct_slot_of(key));
    WANT(yacht_direct_closed(&machine, key) == YACHT_DIRECT_DONE && yacht_direct_len(&machine) == 0);
    yacht_direct_free(machine);
    WANT(yacht_direct_open(&machine, YACHT_DIRECT_MOST_SLOTS, 0, 0) == YACHT_DIRECT_DONE);
    yacht_direct_free(machine);
}

/* a chain whose close is canceled, and one whose open fails */
static void chains(void) {
    uint64_t key, next;
    uint32_t requests, users;
    WANT(yacht_direct_open(&machine, 1, 0, 0) == YACHT_DIRECT_DONE && yacht_direct_reserve(&machine, &key, &slot) == YACHT_DIRECT_DONE);
    WANT(yacht_direct_chain(&machine, key, 1, 1, &slot) == YACHT_DIRECT_DONE && yacht_direct_in_flight(&machine) == 3);
    WANT(yacht_direct_phase(&machine, key, &requests, &users) == YACHT_DIRECT_CHAINED && requests == 1 && users == 0);
    WANT(yacht_direct_start(&machine, key, &slot) == YACHT_DIRECT_IS_CHAINED && yacht_direct_opened(&machine, key, -2, &slot) == YACHT_DIRECT_IS_CHAINED);
    WANT(yacht_direct_end(&machine, key, &slot) == YACHT_DIRECT_DONE && yacht_direct_chained(&machine, key, 3, 0, &slot) == YACHT_DIRECT_BAD_ARGUMENT);
    WANT(yacht_direct_chained(&machine, key, YACHT_DIRECT_CLOSE_OF_CHAIN, -125, &slot) == YACHT_DIRECT_DONE);
    WANT(yacht_direct_chained(&machine, key, YACHT_DIRECT_REQUEST_OF_CHAIN, 3, &slot) == YACHT_DIRECT_DONE);
    WANT(yacht_direct_chained(&machine, key, YACHT_DIRECT_OPEN_OF_CHAIN, 0, &slot) == YACHT_DIRECT_CLOSE && slot == 0);
    WANT(yacht_direct_closed(&machine, key) == YACHT_DIRECT_DONE && yacht_direct_reserve(&machine, &key, &slot) == YACHT_DIRECT_DONE);
    WANT(yacht_direct_chain(&machine, key, 0, 1, &slot) == YACHT_DIRECT_DONE);
    WANT(yacht_direct_chained(&machine, key, YACHT_DIRECT_OPEN_OF_CHAIN, -2, &slot) == YACHT_DIRECT_DONE);
    WANT(yacht_direct_reserve(&machine, &next, &slot) == YACHT_DIRECT_FULL);
    WANT(yacht_direct_chained(&machine, key, YACHT_DIRECT_CLOSE_OF_CHAIN, -9, &slot) == YACHT_DIRECT_DONE && yacht_direct_len(&machine) == 0);
    yacht_direct_free(machine);
}

/* a shutdown amid a live life, an open and a chain without a close: none of their slots is lost */
static void stops(void) {
    uint64_t live, opening, chained, key;
    WANT(yacht_direct_open(&machine, 4, 0, 0) == YACHT_DIRECT_DONE && yacht_direct_reserve(&machine, &live, &slot) == YACHT_DIRECT_DONE);
    WANT(yacht_direct_reserve(&machine, &opening, &slot) == YACHT_DIRECT_DONE && yacht_direct_reserve(&machine, &chained, &slot) == YACHT_DIRECT_DONE);
    WANT(yacht_direct_opened(&machine, live, 0, &slot) == YACHT_DIRECT_DONE && yacht_direct_chain(&machine, chained, 1, 0, &slot) == YACHT_DIRECT_DONE);
    yacht_direct_stop(&machine);
    WANT(yacht_direct_reserve(&machine, &key, &slot) == YACHT_DIRECT_STOPPED);
    WANT(yacht_direct_key_in(&machine, YACHT_DIRECT_LIVE, 0, &key) == YACHT_DIRECT_DONE && key == live);
    WANT(yacht_direct_key_in(&machine, YACHT_DIRECT_OPENING, 0, &key) == YACHT_DIRECT_DONE && key == opening);
    WANT(yacht_direct_key_in(&machine, YACHT_DIRECT_CHAINED, 0, &key) == YACHT_DIRECT_DONE && key == chained);
    WANT(yacht_direct_end(&machine, live, &slot) == YACHT_DIRECT_CLOSE && yacht_direct_closed(&machine, live) == YACHT_DIRECT_DONE);
    WANT(yacht_direct_opened(&machine, opening, 0, &slot) == YACHT_DIRECT_CLOSE && slot == yacht_direct_slot_of(opening));
    WANT(yacht_direct_closed(&machine, opening) == YACHT_DIRECT_DONE);
    WANT(yacht_direct_chained(&machine, chained, YACHT_DIRECT_OPEN_OF_CHAIN, 0, &slot) == YACHT_DIRECT_DONE);
    WANT(yacht_direct_key_in(&machine, YACHT_DIRECT_ENDING, 0, &key) == YACHT_DIRECT_DONE && key == chained);
    WANT(yacht_direct_chained(&machine, chained, YACHT_DIRECT_REQUEST_OF_CHAIN, 3, &slot) == YACHT_DIRECT_CLOSE && slot == yacht_direct_slot_of(chained));
    WANT(yacht_direct_closed(&machine, chained) == YACHT_DIRECT_DONE && yacht_direct_len(&machine) == 0);
    yacht_direct_free(machine);
}

/* files at slots that the kernel chose, and one that comes before the close of the earlier life */
static void adoptions(void) {
    uint64_t key, first, second;
    WANT(yacht_direct_open(&machine, 3, 1, 2) == YACHT_DIRECT_DONE && yacht_direct_reserve(&machine, &key, &slot) == YACHT_DIRECT_DONE && slot == 0);
    WANT(yacht_direct_reserve(&machine, &key, &slot) == YACHT_DIRECT_FULL);
    WANT(yacht_direct_adopt(&machine, 0, &first) == YACHT_DIRECT_BAD_ARGUMENT && yacht_direct_adopt(&machine, 3, &first) == YACHT_DIRECT_BAD_ARGUMENT);
    WANT(yacht_direct_adopt(&machine, 2, &first) == YACHT_DIRECT_DONE && yacht_direct_slot_of(first) == 2 && yacht_direct_kind_of(first) == 0);
    WANT(yacht_direct_adopt(&machine, 2, &second) == YACHT_DIRECT_NOT_FREE && yacht_direct_start(&machine, first, &slot) == YACHT_DIRECT_DONE);
    WANT(yacht_direct_end(&machine, first, &slot) == YACHT_DIRECT_DONE && yacht_direct_adopt(&machine, 2, &second) == YACHT_DIRECT_NOT_FREE);
    WANT(yacht_direct_finish(&machine, first, &slot) == YACHT_DIRECT_CLOSE && slot == 2);
    WANT(yacht_direct_adopt(&machine, 2, &second) == YACHT_DIRECT_DONE && second != first && yacht_direct_slot_of(second) == 2);
    WANT(yacht_direct_closed(&machine, first) == YACHT_DIRECT_STALE && yacht_direct_in_flight(&machine) == 1);
    yacht_direct_stop(&machine);
    WANT(yacht_direct_adopt(&machine, 1, &first) == YACHT_DIRECT_CLOSE && yacht_direct_slot_of(first) == 1);
    WANT(yacht_direct_closed(&machine, first) == YACHT_DIRECT_DONE && yacht_direct_end(&machine, second, &slot) == YACHT_DIRECT_CLOSE);
    yacht_direct_free(machine);
}

struct thread {
    yacht_direct_note notes[NOTES];
    unsigned woke;
};

static void *post(void *with) {
    struct thread *it = with;
    for (int i = 0; i < NOTES; i++) it->woke += (unsigned)yacht_direct_post(&it->notes[i]);
    return NULL;
}

/* each note is collected once, and a thread that found the queue empty is told so */
static void threads_post(void) {
    static struct thread those[THREADS];
    static unsigned char seen[THREADS * NOTES];
    uint64_t key, stale = 0;
    yacht_direct other;
    yacht_direct_note *note;
    WANT(yacht_direct_open(&machine, 1, 0, 0) == YACHT_DIRECT_DONE && yacht_direct_open(&other, 1, 0, 0) == YACHT_DIRECT_DONE);
    WANT(yacht_direct_reserve(&machine, &key, &slot) == YACHT_DIRECT_DONE && yacht_direct_opened(&machine, key, 0, &slot) == YACHT_DIRECT_DONE);
    yacht_direct_queue queue = yacht_direct_queue_of(machine);
    pthread_t threads[THREADS];
    unsigned count = 0, twice = 0, refused = 0, woken = 0, woke = 0;
    WANT(yacht_direct_collect(&machine, &queue, &note) == YACHT_DIRECT_DONE && !note);
    WANT(yacht_direct_hold_by(&other, key, &queue, &those[0].notes[0]) == YACHT_DIRECT_OTHER_MACHINE);
    WANT(yacht_direct_hold_by(&machine, stale, &queue, &those[0].notes[0]) == YACHT_DIRECT_STALE && !those[0].notes[0].queue);
    for (int t = 0; t < THREADS; t++) {
        for (int i = 0; i < NOTES; i++) refused += yacht_direct_hold_by(&machine, key, &queue, &those[t].notes[i]) != YACHT_DIRECT_DONE;
        WANT(!pthread_create(&threads[t], NULL, post, &those[t]));
    }
    while (count < THREADS * NOTES) {
        refused += yacht_direct_collect(&machine, &queue, &note) != YACHT_DIRECT_DONE;
        woken += note != NULL;
        for (; note; note = note->next, count++) {
            size_t t = 0;
            while (note < those[t].notes || note >= those[t].notes + NOTES) t++;
            twice += seen[t * NOTES + (size_t)(note - those[t].notes)]++;
            refused += yacht_direct_release(&machine, note->key, &slot) != YACHT_DIRECT_DONE;
        }
    }
    for (int t = 0; t < THREADS; t++) {
        pthread_join(threads[t], NULL);
        woke += those[t].woke;
    }
    WANT(!twice && woken == woke && !refused && yacht_direct_collect(&machine, &queue, &note) == YACHT_DIRECT_DONE && !note);
    note = those[0].notes;
    WANT(yacht_direct_collect(&other, &queue, &note) == YACHT_DIRECT_OTHER_MACHINE && note == those[0].notes);
    WANT(yacht_direct_release(&machine, key, &slot) == YACHT_DIRECT_IS_LIVE);
    yacht_direct_free(other);
    yacht_direct_free(machine);
}

static void words(void) {
    static const struct {
        int number;
        const char *words;
    } said[] = {
        {0, "done"}, {1, "the slot is to be closed"}, {-6, "no slot is free"}, {-8, "an argument is out of its range"},
        {-9, "an allocation failed"}, {-10, "the life of the key is over"}, {-11, "the open is not completed"},
        {-12, "the file is open"}, {-13, "the life was ended"}, {-14, "the close is not completed"},
        {-15, "too many requests are in flight"}, {-16, "there are too many users"}, {-17, "the chain is not over"},
        {-18, "the machine was stopped"}, {-19, "the slot has a life with a file"}, {-20, "the queue is that of another machine"}, {1234, "not a number of yachtdirect.h"},
    };
    for (size_t nth = 0; nth < sizeof said / sizeof *said; nth++) WANT(!strcmp(yacht_direct_strerror(said[nth].number), said[nth].words));
    WANT(!strcmp(yacht_direct_version(), YACHT_DIRECT_VERSION));
}

static void failing_allocations(void) {
    yacht_direct none = {&none};
    int failed = 0, answer;
    for (;; failed++) {
        allowed = failed, granted = 0;
        answer = yacht_direct_open(&none, 100, 0, 0);
        allowed = -1;
        if (answer == YACHT_DIRECT_DONE) break;
        WANT(answer == YACHT_DIRECT_NO_MEMORY && none.slots == &none);
    }
    WANT(failed > 0 && granted == 28 * 100 + 88); /* docs/use/LIMITS.md has the bytes */
    yacht_direct_free(none);
}

int main(void) {
    one_life();
    chains();
    stops();
    adoptions();
    threads_post();
    words();
    failing_allocations();
    return report("direct");
}
