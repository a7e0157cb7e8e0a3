/* The C table: arguments that are out of range, values that a drop or a function installs, the bits
 * of a key, and the opening of a table with each allocation failing in turn. balance.c has each
 * answer. */
#include "refusing.h"
#include <string.h>
#include <yachtbanyan.h>

static int dropped[16], drops, other;
/* what a refused opening must leave in *table */
static yacht_table *const untouched = (yacht_table *)&other;
/* the handle by which drops install more values, and how many */
static yacht_handle *again;
static int more;

/* a key that a replacement writes, and the number that a drop within the replacement finds there */
static const yacht_key *written;
static uint64_t number_at_drop;

static void drop(void *value, void *with) {
    WANT(with == &drops);
    drops++;
    if (written) number_at_drop = written->number;
    dropped[(int *)value - dropped]++;
    if (!more) return;
    more--;
    WANT(yacht_insert(again, &dropped[6 + more]) == 0);
}

static int refused(uint32_t slots, uint32_t handles, uint32_t readers, yacht_drop *drops_by) {
    yacht_table *table = untouched;
    return yacht_open(&table, slots, handles, readers, drops_by, NULL) == YACHT_BAD_ARGUMENT && table == untouched;
}

static void numbers_out_of_range(void) {
    yacht_table *table;
    WANT(refused(0, 1, 0, drop));
    WANT(refused(YACHT_MOST_SLOTS + 1, 1, 0, drop));
    WANT(refused(1, 0, 1, drop));
    WANT(refused(1, YACHT_MOST_HANDLES + 1, 0, drop));
    WANT(refused(1, 1, YACHT_MOST_IN_ALL, drop));
    WANT(refused(1, 1, UINT32_MAX, drop));
    WANT(refused(1, 1, 0, NULL));
    WANT(yacht_open(NULL, 1, 1, 0, drop, NULL) == YACHT_BAD_ARGUMENT);
    WANT(yacht_open(&table, YACHT_MOST_SLOTS, YACHT_MOST_HANDLES, YACHT_MOST_IN_ALL - YACHT_MOST_HANDLES, drop, &drops) == YACHT_DONE);
    WANT(yacht_handle_of(table, YACHT_MOST_HANDLES - 1) != NULL);
    WANT(yacht_handle_of(table, YACHT_MOST_HANDLES) == NULL);
    WANT(yacht_reader_of(table, YACHT_MOST_IN_ALL - YACHT_MOST_HANDLES - 1) != NULL);
    WANT(yacht_reader_of(table, YACHT_MOST_IN_ALL - YACHT_MOST_HANDLES) == NULL);
    WANT(yacht_reader_of(table, 0) != yacht_handle_of(table, YACHT_MOST_HANDLES - 1));
    yacht_free(table);
    yacht_free(NULL);
}

/* NULL for a value, a key or a function */
static void bad_arguments(void) {
    yacht_table *table;
    WANT(yacht_open(&table, 1, 1, 0, drop, &drops) == YACHT_DONE);
    yacht_handle *a = yacht_handle_of(table, 0);
    yacht_key key = {1, 0};
    WANT(yacht_replace_at(a, 0, NULL) == YACHT_BAD_ARGUMENT && yacht_replace_at_key(a, 0, &dropped[0], NULL) == YACHT_BAD_ARGUMENT);
    WANT(yacht_replace(a, NULL, &dropped[0]) == YACHT_BAD_ARGUMENT && yacht_replace(a, &key, NULL) == YACHT_BAD_ARGUMENT);
    WANT(yacht_insert(a, NULL) == YACHT_BAD_ARGUMENT && yacht_try_insert(a, NULL) == YACHT_BAD_ARGUMENT);
    WANT(yacht_insert_key(a, &dropped[0], NULL) == YACHT_BAD_ARGUMENT && yacht_try_insert_key(a, &dropped[0], NULL) == YACHT_BAD_ARGUMENT);
    yacht_free(table);
    WANT(!drops);
}

/* within yacht_free, the drop of the only value installs another one, whose drop does too */
static void drops_that_install(void) {
    yacht_table *table;
    WANT(yacht_open(&table, 1, 2, 0, drop, &drops) == YACHT_DONE);
    yacht_key key = {0, 9};
    WANT(yacht_insert_key(yacht_handle_of(table, 0), &dropped[5], &key) == 0 && key.number && !key.slot);
    again = yacht_handle_of(table, 1), more = 2;
    yacht_free(table);
    WANT(drops == 3 && dropped[5] == 1 && dropped[6] == 1 && dropped[7] == 1);
}

/* what `make` returns first and then, and what it does first */
typedef struct making {
    yacht_handle *other;
    int calls, keep;
    yacht_key keys[2];
} making;

static void *make(yacht_key key, void *with) {
    making *it = with;
    WANT(it->calls < 2);
    it->keys[it->calls] = key;
    if (it->calls++ == 0 && it->other) WANT(yacht_replace_at(it->other, key.slot, &dropped[14]) == YACHT_DONE);
    return it->keep ? &dropped[11 + it->calls] : NULL;
}

static void made_from_keys(void) {
    yacht_table *table;
    yacht_key key = {0, 9};
    void *value = NULL;
    WANT(yacht_open(&table, 2, 2, 1, drop, &drops) == YACHT_DONE);
    yacht_handle *a = yacht_handle_of(table, 0), *b = yacht_handle_of(table, 1), *reader = yacht_reader_of(table, 0);
    making none = {0}, lost = {.other = b, .keep = 1}, last = {.other = b, .keep = 1};
    WANT(yacht_insert_with(a, NULL, &none, &key) == YACHT_BAD_ARGUMENT && yacht_insert_with(a, make, &none, NULL) == YACHT_BAD_ARGUMENT);
    WANT(yacht_insert_with(reader, make, &none, &key) == YACHT_READER && !none.calls);
    WANT(yacht_insert_with(a, make, &none, &key) == YACHT_BAD_ARGUMENT && none.calls == 1 && key.slot == 9);
    /* a's numbers are 1, 3, 5..; the first was for nothing; b fills the slot for which a made
     * &dropped[12] */
    drops = 0;
    int slot = yacht_insert_with(a, make, &lost, &key), other = (int)lost.keys[0].slot;
    WANT(slot == 1 - other && lost.calls == 2 && (int)key.slot == slot && key.number == 5);
    WANT(lost.keys[0].number == 3 && (int)lost.keys[1].slot == slot && lost.keys[1].number == 5);
    WANT(drops == 1 && dropped[12] == 1 && yacht_get(a, lost.keys[0], &value) == YACHT_STALE);
    WANT(yacht_get(a, key, &value) == YACHT_DONE && value == &dropped[13]);
    WANT(yacht_insert_with(a, make, &last, &key) == YACHT_BUSY && yacht_release(a) == YACHT_DONE);
    WANT(yacht_insert_with(a, make, &last, &key) == YACHT_FULL && !last.calls);
    WANT(yacht_remove_at(a, other) == YACHT_DROPPED && dropped[14] == 1);
    /* b fills the last slot */
    WANT(yacht_insert_with(a, make, &last, &key) == YACHT_FULL && last.calls == 1 && (int)last.keys[0].slot == other && dropped[12] == 2);
    /* the new key is written before the old value is dropped */
    written = &key;
    WANT(yacht_replace(a, &key, &dropped[12]) == YACHT_DROPPED && dropped[13] == 1 && key.number != 5 && key.number == number_at_drop);
    written = NULL;
    yacht_free(table);
    WANT(drops == 6 && dropped[12] == 3 && dropped[14] == 2);
}

/* looks a value up, removes it, and inserts none, by the handle that makes a value */
static void *make_within(yacht_key key, void *with) {
    yacht_handle *own = with;
    yacht_key inner = {0, 9};
    void *value;
    WANT(yacht_insert(own, &dropped[1]) == YACHT_BUSY && yacht_try_insert(own, &dropped[1]) == YACHT_BUSY);
    WANT(yacht_insert_key(own, &dropped[1], &inner) == YACHT_BUSY && yacht_try_insert_key(own, &dropped[1], &inner) == YACHT_BUSY);
    WANT(yacht_insert_with(own, make_within, own, &inner) == YACHT_BUSY && inner.slot == 9);
    WANT(yacht_get_at(own, 3, &value) == YACHT_DONE && value == &dropped[2] && yacht_release(own) == YACHT_DONE);
    WANT(yacht_remove_at(own, 3) == YACHT_DROPPED && key.slot < 3);
    return &dropped[3];
}

/* leaves the handle that makes a value holding another one */
static void *make_and_hold(yacht_key key, void *own) {
    void *value;
    uint32_t slot = 0;
    while (slot < 4 && yacht_get_at(own, slot, &value) != YACHT_DONE) slot++;
    WANT(slot < 4 && slot != key.slot);
    return &dropped[5];
}

static void made_within(void) {
    yacht_table *table;
    yacht_key key;
    void *value;
    memset(dropped, 0, sizeof dropped);
    WANT(yacht_open(&table, 4, 1, 0, drop, &drops) == YACHT_DONE);
    yacht_handle *own = yacht_handle_of(table, 0);
    WANT(yacht_replace_at(own, 3, &dropped[2]) == YACHT_DONE);
    WANT(yacht_insert_with(own, make_within, own, &key) == (int)key.slot && dropped[2] == 1);
    WANT(yacht_get(own, key, &value) == YACHT_DONE && value == &dropped[3] && yacht_release(own) == YACHT_DONE);
    WANT(yacht_insert_with(own, make_and_hold, own, &key) == YACHT_BUSY && dropped[5] == 1 && yacht_release(own) == YACHT_DONE);
    WANT(yacht_insert(own, &dropped[4]) >= 0);
    yacht_free(table);
    WANT(!dropped[1] && dropped[3] == 1 && dropped[4] == 1 && dropped[5] == 1);
}

static void bits(void) {
    yacht_key key = yacht_key_from_bits(UINT64_MAX);
    WANT(key.slot == 1048575 && key.number == UINT64_MAX >> 21 && yacht_key_to_bits(key) == UINT64_MAX);
    key = yacht_key_from_bits(5 << 13 | 3 << 1);
    WANT(key.slot == 3 && key.number == 5 && yacht_key_to_bits(key) == (5 << 13 | 3 << 1));
    key.slot = 4095, key.number = UINT64_MAX >> 13;
    WANT(yacht_key_to_bits(key) == UINT64_MAX - 1 && yacht_key_from_bits(UINT64_MAX - 1).slot == 4095);
    key.number = 1ull << 51;
    WANT(yacht_key_to_bits(key) == 0);
    key.slot = 4096, key.number = 7;
    WANT(yacht_key_to_bits(key) == (7 << 21 | 4096 << 1 | 1) && yacht_key_from_bits(7 << 21 | 4096 << 1 | 1).number == 7);
    key.number = 1ull << 43;
    WANT(yacht_key_to_bits(key) == 0);
    key.number = 1, key.slot = YACHT_MOST_SLOTS;
    WANT(yacht_key_to_bits(key) == 0);
    WANT(yacht_key_from_bits(0).number == 0 && yacht_key_from_bits(8190).number == 0);
    /* beside the kind of a request */
    key = (yacht_key){5, 3};
    WANT(yacht_key_to_bits_below(key, 16) == (5 << 13 | 3 << 1) && yacht_key_to_bits_below(key, 15) == 0);
    WANT(yacht_key_to_bits_below(key, 64) == (5 << 13 | 3 << 1) && yacht_key_from_bits_below(UINT64_MAX, 64).slot == 1048575);
    key = yacht_key_from_bits_below(9ull << 60 | 7 << 21 | 4096 << 1 | 1, 60);
    WANT(key.slot == 4096 && key.number == 7);
}

static void words(void) {
    static const struct { int number; const char *words; } said[] = {
        {YACHT_DONE, "done"}, {YACHT_DROPPED, "the old value was dropped"}, {YACHT_IN_USE, "the old value is in use"},
        {YACHT_EMPTY, "the slot is empty"}, {YACHT_NO_SLOT, "the table has no such slot"}, {YACHT_BUSY, "the handle holds or makes a value"},
        {YACHT_IDLE, "the handle holds no value"}, {YACHT_READER, "a reader only looks values up"}, {YACHT_FULL, "every slot has a value"},
        {YACHT_AGAIN, "other threads are changing slots"}, {YACHT_BAD_ARGUMENT, "an argument is NULL or out of its range"},
        {YACHT_NO_MEMORY, "an allocation failed"}, {YACHT_STALE, "the slot has another value"}, {3, "not a number of yachtbanyan.h"},
    };
    for (size_t nth = 0; nth < sizeof said / sizeof *said; nth++) WANT(!strcmp(yacht_strerror(said[nth].number), said[nth].words));
}

static void refused_openings(void) {
    int refusals = 0;
    for (long count = 0; count < 1000; count++) {
        yacht_table *table = untouched;
        allowed = count;
        int answer = yacht_open(&table, 3, 2, 2, drop, &drops);
        allowed = -1;
        if (answer == YACHT_DONE) {
            yacht_free(table);
            WANT(refusals > 4);
            return;
        }
        if (answer != YACHT_NO_MEMORY || table != untouched) break;
        refusals++;
    }
    WANT(!"each failed allocation is YACHT_NO_MEMORY, and leaves *table");
}

int main(void) {
    numbers_out_of_range();
    bad_arguments();
    drops_that_install();
    bits();
    made_from_keys();
    made_within();
    words();
    for (; is_alone < 2; is_alone++) refused_openings();
    return report("table");
}
