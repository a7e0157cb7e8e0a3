/* Records random calls of threads on a table of slots, and prints them as a log, which yachtlog
 * judges (docs/use/RECORDING.md). C11 or C++17, POSIX threads, gcc or clang; it needs no library.
 * A program describes its table by a yacht_calls, and calls yacht_record once. The table keeps
 * pointers to a yacht_value, and calls yacht_record_drop when it drops one, in any thread.
 * A ticket of one shared counter orders the lines of all threads, each of which has a buffer of its
 * own. A call's ticket is taken before it begins, and its answer's after it returned. */
#ifndef YACHTRECORD_H
#define YACHTRECORD_H
#include <poll.h>
#include <pthread.h>
#include <signal.h>
#include <stdint.h>
#include <stdio.h>
#include <stdlib.h>
/* A value that the recorder puts into the table. It is readable until the process ends. */
typedef struct { struct yacht_recording *of; uint64_t call, drops, dropped[2]; } yacht_value;
/* The calls of a table. A handle is a thread's access to it. */
typedef struct {
    void *(*enter)(void *table);                                      /* returns a handle for the calling thread, or NULL: none is left */
    yacht_value *(*get)(void *handle, uint64_t slot);                 /* holds the value at a slot, or returns NULL: the slot is empty */
    void (*release)(void *handle, yacht_value *value);                /* ends the hold that get began */
    void (*put)(void *handle, uint64_t slot, yacht_value *value);     /* replaces what is at the slot; NULL: the table chooses its slots */
    int (*put_any)(void *handle, yacht_value *value, uint64_t *slot); /* fills an empty slot, or returns 0: all are full */
    int (*take)(void *handle, uint64_t slot);                         /* empties a slot, or returns 0: it was empty */
    void (*rest)(void *handle);                                       /* waits until each removed value is dropped; may be NULL */
} yacht_calls;

/* Each of `threads` makes `calls` calls in each of `rounds`, at the slots 0 to slots - 1, of which
 * there is at least one. After a round all threads rest, and the log has a `settled` line. The log
 * ends early if no call begins or returns for `silence` seconds. `seed` is any number, and
 * threads * (rounds + 1) * (calls + 1) and `silence` are at most 2^50. Each of them may be 0. */
typedef struct { uint64_t seed, threads, rounds, calls, slots, silence; } yacht_plan;
typedef struct { uint64_t ticket, call, number; const char *format; } yacht_record_line;
typedef struct { yacht_record_line *lines; uint64_t length, random; } yacht_record_thread;
static struct yacht_recording {
    yacht_calls its; yacht_plan plan; void *table; yacht_value *values; pthread_t owner;
    uint64_t clock, last, came, meetings, ended, has_crashed, is_cut;
} yacht_recorded;
#define YACHT_RECORD_GET(of) __atomic_load_n(&(of), __ATOMIC_SEQ_CST)
#define YACHT_RECORD_SET(of, to) __atomic_store_n(&(of), to, __ATOMIC_SEQ_CST)
#define YACHT_RECORD_NEXT(of) __atomic_add_fetch(&(of), 1, __ATOMIC_SEQ_CST)

/* Notes that the table drops a value now. A second drop of it has a line, too. */
static inline void yacht_record_drop(yacht_value *value) {
    uint64_t drops = YACHT_RECORD_NEXT(value->drops);
    if (drops <= 2) YACHT_RECORD_SET(value->dropped[drops - 1], YACHT_RECORD_NEXT(value->of->clock));
}
static inline void yacht_record_note(yacht_record_thread *own, const char *format, uint64_t call, uint64_t number) {
    yacht_record_line line = {YACHT_RECORD_NEXT(yacht_recorded.clock), call, number, format};
    own->lines[own->length] = line;
    YACHT_RECORD_SET(own->length, own->length + 1);
}
static inline uint64_t yacht_record_below(yacht_record_thread *own, uint64_t most) {
    return ((own->random = own->random * 6364136223846793005u + 1442695040888963407u) >> 33) % most;
}
static inline void yacht_record_call(yacht_record_thread *own, const yacht_calls *its, void *handle, uint64_t id) {
    uint64_t kind = yacht_record_below(own, 10), slot = yacht_record_below(own, yacht_recorded.plan.slots);
    yacht_value *value = &yacht_recorded.values[id], *found;
    value->of = &yacht_recorded, value->call = id;
    if (kind < 5) {
        yacht_record_note(own, "call %llu look %llu\n", id, slot);
        found = its->get(handle, slot);
        yacht_record_note(own, found ? "done %llu.1 0 %llu.1.0\n" : "done %llu.1 -9\n", id, found ? found->call : 0);
        if (!found) return;
        if (!yacht_record_below(own, 3)) poll(NULL, 0, 0);
        yacht_record_note(own, "free %llu\n", id, 0);
        its->release(handle, found);
    } else if (kind < 7 && its->put) {
        yacht_record_note(own, "call %llu open v at %llu\n", id, slot);
        its->put(handle, slot, value);
        yacht_record_note(own, "done %llu.1 0\n", id, 0);
    } else if (kind < 8) {
        yacht_record_note(own, "call %llu open v any\n", id, 0);
        const char *answer = its->put_any(handle, value, &slot) ? "done %llu.1 %llu\n" : "done %llu.1 -23\n";
        yacht_record_note(own, answer, id, slot);
    } else {
        yacht_record_note(own, "call %llu close %llu\n", id, slot);
        yacht_record_note(own, its->take(handle, slot) ? "done %llu.1 0\n" : "done %llu.1 -9\n", id, 0);
    }
}
/* Waits until all threads came this many times. The last one may note that all is settled. */
static inline int yacht_record_meet(yacht_record_thread *own, uint64_t times, int settles) {
    struct yacht_recording *it = &yacht_recorded;
    if (YACHT_RECORD_NEXT(it->came) == times * it->plan.threads) {
        if (settles) yacht_record_note(own, "settled\n", 0, 0);
        YACHT_RECORD_NEXT(it->meetings);
    }
    while (YACHT_RECORD_GET(it->meetings) < times && !YACHT_RECORD_GET(it->is_cut)) poll(NULL, 0, 1);
    return !YACHT_RECORD_GET(it->is_cut);
}
static inline void *yacht_record_play(void *of) {
    struct yacht_recording *it = &yacht_recorded;
    yacht_record_thread *own = (yacht_record_thread *)of;
    void *handle = it->its.enter(it->table);
    for (uint64_t round = 0; handle && round < it->plan.rounds; round++) {
        for (uint64_t left = it->plan.calls; left && !YACHT_RECORD_GET(it->is_cut); left--)
            yacht_record_call(own, &it->its, handle, YACHT_RECORD_NEXT(it->last));
        if (!yacht_record_meet(own, 2 * round + 1, 0)) break;
        if (it->its.rest) it->its.rest(handle);
        if (!yacht_record_meet(own, 2 * round + 2, 1)) break;
    }
    YACHT_RECORD_NEXT(*(handle ? &it->ended : &it->has_crashed));
    return NULL;
}
/* The C library's signal, which keeps the handler: under -std=c11 the name stands for one that
 * resets it at each delivery, so that a second thread's crash would end the process. */
extern void (*yacht_record_signal(int number, void (*handler)(int)))(int) __asm__("signal");
/* Stops a thread that crashed, by a signal or, in C++, by an exception, which aborts. */
static inline void yacht_record_crash(int number) {
    if (pthread_equal(pthread_self(), yacht_recorded.owner)) {
        yacht_record_signal(number, SIG_DFL);
        return;
    }
    YACHT_RECORD_SET(yacht_recorded.has_crashed, 1);
    for (;;) poll(NULL, 0, -1);
}
/* Plays a plan on a table, and prints the log. Returns the exit status: 0; 1 if a call crashes or
 * never returns, or a thread gets no handle: the log ends there, standard error says why, and the
 * table must not be freed; 2 if the plan has no slot: standard error says so, and there is no log;
 * 4 if the log can't be printed; 5 if an allocation fails. */
static inline int yacht_record(void *table, yacht_calls its, yacht_plan plan) {
    static const int signals[] = {SIGABRT, SIGSEGV, SIGBUS, SIGFPE, SIGILL};
    struct yacht_recording *it = &yacht_recorded;
    uint64_t room = (3 * plan.calls + 1) * plan.rounds, calls = plan.threads * plan.rounds * plan.calls, quiet = 0, before = 0, end, at;
    pthread_t thread = pthread_self();
    yacht_record_thread *all = (yacht_record_thread *)calloc(plan.threads + 1, sizeof *all), *own;
    yacht_record_line *lines = (yacht_record_line *)calloc(2 * (room * plan.threads + calls + 4), sizeof *lines);
    yacht_record_line *sorted = lines + room * plan.threads, closed = {0, 0, 0, "closed %llu.1.0 v\n"};
    it->values = (yacht_value *)calloc(calls + 2, sizeof *it->values), it->its = its, it->plan = plan, it->table = table, it->owner = thread, it->last = 1;
    if (!plan.slots) return free(all), free(lines), free(it->values), fputs("recorder: the plan has no slot\n", stderr), 2;
    if (!all || !lines || !it->values) return 5;
    for (at = 0; at < 5; at++) yacht_record_signal(signals[at], yacht_record_crash);
    for (own = all; own < all + plan.threads; own++) {
        own->lines = lines + room * (own - all), own->random = plan.seed * 1000 + (own - all);
        if (pthread_create(&thread, NULL, yacht_record_play, own) || pthread_detach(thread)) YACHT_RECORD_SET(it->has_crashed, 1);
    }
    while (YACHT_RECORD_GET(it->ended) < plan.threads && !YACHT_RECORD_GET(it->has_crashed) && quiet <= 100 * plan.silence) {
        poll(NULL, 0, 10);
        at = YACHT_RECORD_GET(it->clock), quiet = at == before ? quiet + 1 : 0, before = at;
    }
    YACHT_RECORD_SET(it->is_cut, YACHT_RECORD_GET(it->ended) < plan.threads);
    for (at = 0; at < 5 && !it->is_cut; at++) yacht_record_signal(signals[at], SIG_DFL);
    end = YACHT_RECORD_NEXT(it->clock);
    for (own = all; own < all + plan.threads; own++)
        for (at = YACHT_RECORD_GET(own->length); at--;)
            if (own->lines[at].ticket < end) sorted[own->lines[at].ticket] = own->lines[at];
    for (closed.call = 2; closed.call < calls + 2; closed.call++)
        for (uint64_t *drop = it->values[closed.call].dropped; drop < it->values[closed.call].dropped + 2; drop++)
            if ((at = YACHT_RECORD_GET(*drop)) && at < end) sorted[at] = closed;
    printf("file v -\ncall 1 sparse %llu\ndone 1.1 0\n", (unsigned long long)plan.slots);
    for (at = 1; at < end; at++)
        if (sorted[at].format) printf(sorted[at].format, (unsigned long long)sorted[at].call, (unsigned long long)sorted[at].number);
    if (it->is_cut) fprintf(stderr, "recorder: %s; the log ends there\n", it->has_crashed ? "a call crashed, or a thread had no handle" : "no call began or ended in time");
    if (!it->is_cut) free(lines), free(all);
    return fflush(stdout) ? 4 : (int)it->is_cut;
}
#endif
