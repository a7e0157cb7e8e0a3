/* The C table after each call, also one that is refused: its answer, by the rules of the header; an
 * error writes nothing and leaves the value with its caller, no call but a look-up takes a hold,
 * the slots have the values that they should have, a key that was written finds its value, and each
 * value is at a slot, held, or dropped once.
 *
 * Each call is made again over a core whose calls are wrapped (-Wl,--wrap=yacht_core_get_at,
 * --wrap=yacht_core_get, --wrap=yacht_core_replace_at, --wrap=yacht_core_insert,
 * --wrap=yacht_core_remove, --wrap=yacht_core_replace), so that what only a race reaches happens
 * each time: a call is the last to use two other values, and drops both; another handle looks a
 * slot up before the call that installed its value returns; the core has changed slots during a
 * round, or look-ups were counted at the slot of a key. */
#include "refusing.h"
#include <stdint.h>
#include <stdlib.h>
#include <string.h>
#include <yachtbanyan.h>
#include "core.h"

enum { FAR = 2 /* a slot that the table hasn't */, KEYS = 4, STATES = 3, USES = 3 };
/* the value of slot 1 before the call: none, one, or one that another handle holds */
enum { EMPTY, FULL, HELD };
/* the call's handle: idle, holding the value of slot 0, or a reader */
enum { IDLE, BUSY, READER };
/* the calls, up to INSERT_WITH those that insert, up to REPLACE those that install */
enum {
    GET_AT, GET, KEY_OF, IS_CURRENT, REMOVE_AT, REMOVE, RELEASE, INSERT, TRY_INSERT, INSERT_KEY, TRY_INSERT_KEY, INSERT_WITH,
    REPLACE_AT, REPLACE_AT_KEY, REPLACE, CALLS
};

static int alive;
static const yacht_key untouched = {77, 78};
static const int other;

static void *new_value(void) {
    alive++;
    return malloc(1);
}

static void drop(void *value, void *with) {
    WANT(with == &alive);
    alive--;
    free(value);
}

/* a call's handle, what it was given, and what it wrote */
typedef struct call {
    yacht_handle *handle;
    yacht_key key, written, made;
    void *value, *found;
} call;

static yacht_table *table;
static yacht_handle *a, *b, *reader, *last;
/* what is at each slot, the key of slot 0, and those of slot 1 now and before */
static void *at[2];
static yacht_key first, right, stale;
/* the call over the wrapped core, or NULL; and the rounds and tries that this has to refuse */
static call *raced;
static int refusals;

/* declares a call of the core, and begins what comes in its place */
#define WRAP(name, ...) \
    int64_t __real_yacht_core_##name(__VA_ARGS__); \
    int64_t __wrap_yacht_core_##name(__VA_ARGS__)

/* makes the call the last to use two other values; returns its answer */
static int64_t hand_over(int64_t answer, yacht_outcome *out) {
    if (raced && !out->freed) out->freed = (uint64_t)(uintptr_t)new_value();
    if (raced && !out->released) out->released = (uint64_t)(uintptr_t)new_value();
    return answer;
}

static int is_refused(void) { return raced && refusals && refusals--; }

/* looks from another handle at the value that the call has installed; returns its answer */
static int64_t looked_up(int64_t answer, uint32_t slot) {
    call *it = raced;
    void *found;
    raced = NULL;
    if (it && answer >= 0)
        WANT(yacht_get_at(last, slot, &found) == YACHT_DONE && found == it->value && yacht_release(last) == YACHT_DONE);
    raced = it;
    return answer;
}

WRAP(get_at, yacht_core *worker, uint32_t slot, yacht_outcome *out) {
    return hand_over(__real_yacht_core_get_at(worker, slot, out), out);
}

WRAP(get, yacht_core *worker, uint32_t slot, uint64_t number, yacht_outcome *out) {
    return hand_over(__real_yacht_core_get(worker, slot, number, out), out);
}

WRAP(replace_at, yacht_core *worker, uint32_t slot, uint64_t tag, yacht_outcome *out) {
    return looked_up(__real_yacht_core_replace_at(worker, slot, tag, out), slot);
}

WRAP(insert, yacht_core *worker, uint64_t tag, uint64_t *number) {
    if (is_refused()) return YACHT_AGAIN;
    int64_t answer = __real_yacht_core_insert(worker, tag, number);
    return looked_up(answer, (uint32_t)answer);
}

WRAP(remove, yacht_core *worker, uint32_t slot, uint64_t number, yacht_outcome *out) {
    if (is_refused()) return *out = (yacht_outcome){0}, hand_over(YACHT_AGAIN, out);
    return hand_over(__real_yacht_core_remove(worker, slot, number, out), out);
}

WRAP(replace, yacht_core *worker, uint32_t slot, uint64_t number, uint64_t tag, yacht_outcome *out) {
    if (is_refused()) return *out = (yacht_outcome){0}, hand_over(YACHT_AGAIN, out);
    return hand_over(looked_up(__real_yacht_core_replace(worker, slot, number, tag, out), slot), out);
}

static void *make(yacht_key key, void *with) {
    call *it = with;
    it->made = key;
    return it->value = new_value();
}

static int answer_of(call *it, int which) {
    yacht_handle *handle = it->handle;
    it->value = which > RELEASE && which != INSERT_WITH ? new_value() : NULL;
    switch (which) {
    case GET_AT: return yacht_get_at(handle, it->key.slot, &it->found);
    case GET: return yacht_get(handle, it->key, &it->found);
    case KEY_OF: return yacht_key_of(handle, &it->written);
    case IS_CURRENT: return yacht_is_current(handle, it->key.slot);
    case REMOVE_AT: return yacht_remove_at(handle, it->key.slot);
    case REMOVE: return yacht_remove(handle, it->key);
    case RELEASE: return yacht_release(handle);
    case INSERT: return yacht_insert(handle, it->value);
    case TRY_INSERT: return yacht_try_insert(handle, it->value);
    case INSERT_KEY: return yacht_insert_key(handle, it->value, &it->written);
    case TRY_INSERT_KEY: return yacht_try_insert_key(handle, it->value, &it->written);
    case INSERT_WITH: return yacht_insert_with(handle, make, it, &it->written);
    case REPLACE_AT: return yacht_replace_at(handle, it->key.slot, it->value);
    case REPLACE_AT_KEY: return yacht_replace_at_key(handle, it->key.slot, it->value, &it->written);
    default: it->written = it->key; return yacht_replace(handle, &it->written, it->value);
    }
}

/* the answer by the header; key 0 is that of slot 1 */
static int expected(int which, int nth, uint32_t slot, int state, int use, int refused) {
    int is_keyed = which == GET || which == REMOVE || which == REPLACE, looks = which == GET_AT || which == GET;
    int is_empty = slot == 1 && state == EMPTY, inserts = RELEASE < which && which <= INSERT_WITH;
    if (which == KEY_OF || which == RELEASE) return use == BUSY ? YACHT_DONE : YACHT_IDLE;
    if (which == IS_CURRENT) return use != BUSY ? YACHT_IDLE : slot == FAR ? YACHT_NO_SLOT : slot == 0;
    if (use == BUSY) return YACHT_BUSY;
    if (use == READER && (inserts || which == REMOVE || which == REPLACE)) return YACHT_READER;
    if (refused && (which == TRY_INSERT || which == TRY_INSERT_KEY)) return YACHT_AGAIN;
    if (inserts) return state == EMPTY ? 1 : YACHT_FULL;
    if (slot == FAR) return YACHT_NO_SLOT;
    if (use == READER && !looks) return YACHT_READER;
    if (is_empty) return which == REPLACE_AT || which == REPLACE_AT_KEY ? YACHT_DONE : YACHT_EMPTY;
    if (is_keyed && nth) return YACHT_STALE;
    return looks ? YACHT_DONE : slot == 1 && state == HELD ? YACHT_IN_USE : YACHT_DROPPED;
}

static int same(yacht_key one, yacht_key two) { return one.number == two.number && one.slot == two.slot; }

static void begin(int state) {
    void *value;
    at[0] = new_value(), at[1] = new_value();
    WANT(yacht_open(&table, 2, 2, 2, drop, &alive) == YACHT_DONE);
    a = yacht_handle_of(table, 0), b = yacht_handle_of(table, 1), reader = yacht_reader_of(table, 0), last = yacht_reader_of(table, 1);
    WANT(yacht_replace_at_key(b, 0, at[0], &first) == YACHT_DONE && yacht_replace_at_key(b, 1, new_value(), &stale) == YACHT_DONE);
    right = stale;
    WANT(yacht_replace(b, &right, at[1]) == YACHT_DROPPED);
    if (state == HELD) WANT(yacht_get_at(b, 1, &value) == YACHT_DONE);
    if (state == EMPTY) WANT(yacht_remove_at(b, 1) == YACHT_DROPPED), at[1] = NULL;
}

/* what a call wrote and changed */
static void check_call(const call *it, int which, int answer) {
    if (answer < 0) {
        WANT(it->found == (void *)&other && (same(it->written, untouched) || (which == REPLACE && same(it->written, it->key))));
        if (it->value) drop(it->value, &alive);
    } else if (which == GET_AT || which == GET) {
        WANT(it->found == at[it->key.slot]);
    } else if (which != KEY_OF && which != IS_CURRENT && which != RELEASE) {
        at[RELEASE < which && which <= INSERT_WITH ? (uint32_t)answer : it->key.slot] = it->value;
    }
}

/* that a slot has what is there, and that a written key finds it */
static void check_slots(const call *it, int which, int answer) {
    void *value;
    for (uint32_t slot = 0; slot < 2; slot++) {
        WANT(yacht_get_at(last, slot, &value) == (at[slot] ? YACHT_DONE : YACHT_EMPTY));
        WANT(!at[slot] || (value == at[slot] && yacht_release(last) == YACHT_DONE));
    }
    if (answer < 0 || same(it->written, untouched)) return;
    WANT(yacht_get(last, it->written, &value) == YACHT_DONE && value == at[it->written.slot] && yacht_release(last) == YACHT_DONE);
    WANT(which == INSERT_WITH ? same(it->made, it->written) : which != KEY_OF || same(it->written, first));
}

static void balance(int which, int nth, int state, int use, int is_raced) {
    void *value;
    int before;
    begin(state);
    const yacht_key keys[KEYS] = {right, stale, {0, 0}, {1, FAR}};
    call it = {.handle = use == READER ? reader : a, .key = keys[nth], .written = untouched, .found = (void *)&other};
    if (use == BUSY) WANT(yacht_get_at(a, 0, &value) == YACHT_DONE);
    void *held = at[1];
    raced = is_raced ? &it : NULL, before = refusals = is_raced && use == IDLE ? 2 : 0;
    int answer = answer_of(&it, which);
    raced = NULL;
    WANT(answer == expected(which, nth, it.key.slot, state, use, before));
    check_call(&it, which, answer);
    /* the handle holds a value if it did before, or if this call found one */
    int holds = (answer >= 0 && which <= GET) || (use == BUSY && which != RELEASE);
    WANT(yacht_release(it.handle) == (holds ? YACHT_DONE : YACHT_IDLE) && yacht_release(it.handle) == YACHT_IDLE);
    if (state == HELD) WANT(yacht_is_current(b, 1) == (at[1] == held) && yacht_release(b) == YACHT_DONE);
    WANT(yacht_release(b) == YACHT_IDLE && alive == (at[0] != NULL) + (at[1] != NULL));
    check_slots(&it, which, answer);
    yacht_free(table);
    WANT(alive == 0);
}

int main(void) {
    for (int which = 0; which < CALLS; which++)
        for (int nth = 0; nth < KEYS; nth++)
            for (int state = 0; state < STATES; state++)
                for (int use = 0; use < USES; use++)
                    for (int is_raced = 0; is_raced < 2; is_raced++) balance(which, nth, state, use, is_raced);
    return report("balance");
}
