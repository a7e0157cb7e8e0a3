/* The C part of libyachtbanyan: the pointers to values, and their keys. A value's tag, which the
 * core keeps with the value's file and returns to exactly one call, is its pointer. The core draws
 * the number of each value's key, none of them twice (numbers_are_drawn_once), and keeps it with
 * the file as well. A look-up returns the tag and the number of the file that the worker holds then
 * (fx_server, GetsAs). Each call of a user is one call of the core, which decides what it does
 * (fx_server, specs/Answers.antt). This part moves pointers: it drops each value whose tag the core
 * returns to it, and repeats a call that other threads prevented. */
#include "yachtbanyan.h"
#include "core.h"
#include <sched.h>
#include <stdbool.h>
#include <stdlib.h>

/* The core is not compiled for ThreadSanitizer. If a program has the sanitizer's runtime, these
 * calls report to it what the core orders. */
void __tsan_acquire(void *) __attribute__((weak));
void __tsan_release(void *) __attribute__((weak));

static void acquire(void *value) {
    if (__tsan_acquire) __tsan_acquire(value);
}

static void release(void *value) {
    if (__tsan_release) __tsan_release(value);
}

struct yacht_handle {
    yacht_core core;
    yacht_table *table;
    void *held;      /* or NULL */
    uint64_t number; /* of what it holds */
    uint32_t slot;   /* of what it holds */
    uint32_t making; /* whether it makes a value for yacht_insert_with */
    char apart[128 - 3 * sizeof(void *) - sizeof(uint64_t) - 2 * sizeof(uint32_t)];
};

struct yacht_table {
    yacht_drop *drop;
    void *with;
    uint32_t slots, handles, readers;
    yacht_handle all[];
};

static void *value_of(uint64_t tag) { return (void *)(uintptr_t)tag; }

static uint64_t tag_of(void *value) { return (uint64_t)(uintptr_t)value; }

static void drop_value(yacht_table *table, void *value) {
    acquire(value);
    table->drop(value, table->with);
}

/* drops what a call was the last to use beside the value that it removed */
static void drop_unused(yacht_table *table, const yacht_outcome *out) {
    if (out->freed) drop_value(table, value_of(out->freed));
    if (out->released) drop_value(table, value_of(out->released));
}

/* drops the value that a call with this answer removed, and those that it was the last to use;
 * returns the answer */
static int end(yacht_handle *handle, int64_t answer, const yacht_outcome *out) {
    drop_unused(handle->table, out);
    if (answer == YACHT_DROPPED) drop_value(handle->table, value_of(out->tag));
    return (int)answer;
}

int yacht_open(yacht_table **table, uint32_t slots, uint32_t handles, uint32_t readers,
               yacht_drop *drop, void *with) {
    if (!table || !drop || slots < 1 || slots > YACHT_MOST_SLOTS) return YACHT_BAD_ARGUMENT;
    if (handles < 1 || handles > YACHT_MOST_HANDLES) return YACHT_BAD_ARGUMENT;
    if (readers > YACHT_MOST_IN_ALL - handles) return YACHT_BAD_ARGUMENT;
    uint32_t count = handles + readers;
    yacht_table *it = calloc(1, sizeof *it + count * sizeof *it->all);
    yacht_core *cores = calloc(count, sizeof *cores);
    int64_t answer = it && cores ? yacht_core_open(slots, handles, cores, count) : YACHT_NO_MEMORY;
    if (answer == YACHT_DONE) {
        it->drop = drop, it->with = with;
        it->slots = slots, it->handles = handles, it->readers = readers;
        for (uint32_t i = 0; i < count; i++) it->all[i] = (yacht_handle){cores[i], .table = it};
        *table = it;
    } else {
        free(it);
    }
    free(cores);
    return (int)answer;
}

/* empties each slot, and returns how many had a value */
static uint32_t empty(yacht_table *table) {
    uint32_t removed = 0;
    for (uint32_t slot = 0; slot < table->slots; slot++)
        removed += yacht_remove_at(&table->all[0], slot) >= 0;
    return removed;
}

void yacht_free(yacht_table *table) {
    if (!table) return;
    /* a drop may have installed another value */
    while (empty(table)) continue;
    for (uint32_t i = 0; i < table->handles + table->readers; i++)
        yacht_core_close(table->all[i].core);
    free(table);
}

yacht_handle *yacht_handle_of(yacht_table *table, uint32_t number) {
    return number < table->handles ? &table->all[number] : NULL;
}

yacht_handle *yacht_reader_of(yacht_table *table, uint32_t number) {
    return number < table->readers ? &table->all[table->handles + number] : NULL;
}

/* makes the handle hold what its worker holds if the answer is YACHT_DONE; returns the answer */
static int keep(yacht_handle *handle, uint32_t slot, int64_t answer, const yacht_outcome *out,
                void **value) {
    if (answer == YACHT_DONE) {
        *value = handle->held = value_of(out->tag);
        handle->number = out->number, handle->slot = slot;
        acquire(*value);
    }
    drop_unused(handle->table, out);
    return (int)answer;
}

int yacht_get_at(yacht_handle *handle, uint32_t slot, void **value) {
    yacht_outcome out;
    int64_t answer = yacht_core_get_at(&handle->core, slot, &out);
    return keep(handle, slot, answer, &out, value);
}

int yacht_get(yacht_handle *handle, yacht_key key, void **value) {
    yacht_outcome out;
    int64_t answer = yacht_core_get(&handle->core, key.slot, key.number, &out);
    return keep(handle, key.slot, answer, &out, value);
}

int yacht_release(yacht_handle *handle) {
    uint64_t dropped;
    if (!handle->held) return YACHT_IDLE;
    release(handle->held);
    handle->held = NULL;
    if (yacht_core_release(&handle->core, &dropped) == YACHT_DROPPED)
        drop_value(handle->table, value_of(dropped));
    return YACHT_DONE;
}

int yacht_is_current(yacht_handle *handle, uint32_t slot) {
    return (int)yacht_core_is_current(&handle->core, slot);
}

int yacht_key_of(yacht_handle *handle, yacht_key *key) {
    if (!handle->held) return YACHT_IDLE;
    *key = (yacht_key){handle->number, handle->slot};
    return YACHT_DONE;
}

/* makes rounds to install a value at a free slot: one, or until it is installed or refused */
static int insert(yacht_handle *handle, void *value, yacht_key *key, int once) {
    uint64_t number;
    int64_t answer;
    if (!value || !key) return YACHT_BAD_ARGUMENT;
    if (handle->making) return YACHT_BUSY;
    release(value);
    while ((answer = yacht_core_insert(&handle->core, tag_of(value), &number)) == YACHT_AGAIN && !once)
        sched_yield();
    if (answer >= 0) *key = (yacht_key){number, (uint32_t)answer};
    return (int)answer;
}

int yacht_insert(yacht_handle *handle, void *value) {
    yacht_key key;
    return insert(handle, value, &key, 0);
}

int yacht_try_insert(yacht_handle *handle, void *value) {
    yacht_key key;
    return insert(handle, value, &key, 1);
}

int yacht_insert_key(yacht_handle *handle, void *value, yacht_key *key) {
    return insert(handle, value, key, 0);
}

int yacht_try_insert_key(yacht_handle *handle, void *value, yacht_key *key) {
    return insert(handle, value, key, 1);
}

int yacht_insert_with(yacht_handle *handle, yacht_make *make, void *with, yacht_key *key) {
    if (!make || !key) return YACHT_BAD_ARGUMENT;
    if (handle->making) return YACHT_BUSY;
    for (;;) {
        yacht_key its;
        int64_t answer = yacht_core_find(&handle->core, &its.number);
        if (answer >= 0) {
            its.slot = (uint32_t)answer;
            handle->making = 1;
            void *value = make(its, with);
            handle->making = 0;
            if (!value) return YACHT_BAD_ARGUMENT;
            release(value);
            answer = yacht_core_put_empty(&handle->core, its.slot, tag_of(value));
            if (answer == YACHT_DONE) {
                *key = its;
                return (int)its.slot;
            }
            drop_value(handle->table, value);
        }
        if (answer != YACHT_AGAIN && answer != YACHT_STALE) return (int)answer;
        if (answer == YACHT_AGAIN) sched_yield();
    }
}

int yacht_replace_at_key(yacht_handle *handle, uint32_t slot, void *value, yacht_key *key) {
    yacht_outcome out;
    if (!value || !key) return YACHT_BAD_ARGUMENT;
    release(value);
    int64_t answer = yacht_core_replace_at(&handle->core, slot, tag_of(value), &out);
    if (answer >= 0) *key = (yacht_key){out.number, slot};
    return end(handle, answer, &out);
}

int yacht_replace_at(yacht_handle *handle, uint32_t slot, void *value) {
    yacht_key key;
    return yacht_replace_at_key(handle, slot, value, &key);
}

int yacht_remove_at(yacht_handle *handle, uint32_t slot) {
    yacht_outcome out;
    int64_t answer = yacht_core_remove_at(&handle->core, slot, &out);
    return end(handle, answer, &out);
}

int yacht_remove(yacht_handle *handle, yacht_key key) {
    for (;;) {
        yacht_outcome out;
        int64_t answer = yacht_core_remove(&handle->core, key.slot, key.number, &out);
        if (end(handle, answer, &out) != YACHT_AGAIN) return (int)answer;
        sched_yield();
    }
}

int yacht_replace(yacht_handle *handle, yacht_key *key, void *value) {
    if (!key || !value) return YACHT_BAD_ARGUMENT;
    release(value);
    for (;;) {
        yacht_outcome out;
        int64_t answer =
            yacht_core_replace(&handle->core, key->slot, key->number, tag_of(value), &out);
        if (answer >= 0) key->number = out.number;
        if (end(handle, answer, &out) != YACHT_AGAIN) return (int)answer;
        sched_yield();
    }
}

/* The bits of a slot in those of a key: of one below 4,096, and of another one. The lowest bit of
 * the key says which it is. */
enum { NARROW_SLOT = 12, WIDE_SLOT = 20 };
_Static_assert(YACHT_MOST_SLOTS == 1 << WIDE_SLOT, "a slot has this number of bits");

uint64_t yacht_key_to_bits(yacht_key key) {
    bool is_wide = key.slot >> NARROW_SLOT;
    int width = (is_wide ? WIDE_SLOT : NARROW_SLOT) + 1;
    if (key.slot >= YACHT_MOST_SLOTS || key.number >> (64 - width)) return 0;
    return key.number << width | (uint64_t)key.slot << 1 | is_wide;
}

yacht_key yacht_key_from_bits(uint64_t bits) {
    int width = bits & 1 ? WIDE_SLOT : NARROW_SLOT;
    return (yacht_key){bits >> (width + 1), bits >> 1 & ((1u << width) - 1)};
}

uint64_t yacht_key_to_bits_below(yacht_key key, unsigned width) {
    uint64_t bits = yacht_key_to_bits(key);
    return width < 64 && bits >> width ? 0 : bits;
}

yacht_key yacht_key_from_bits_below(uint64_t bits, unsigned width) {
    return yacht_key_from_bits(width < 64 ? bits & ((UINT64_C(1) << width) - 1) : bits);
}

const char *yacht_strerror(int answer) {
    switch (answer) {
    case YACHT_DONE: return "done";
    case YACHT_DROPPED: return "the old value was dropped";
    case YACHT_IN_USE: return "the old value is in use";
    case YACHT_EMPTY: return "the slot is empty";
    case YACHT_NO_SLOT: return "the table has no such slot";
    case YACHT_BUSY: return "the handle holds or makes a value";
    case YACHT_IDLE: return "the handle holds no value";
    case YACHT_READER: return "a reader only looks values up";
    case YACHT_FULL: return "every slot has a value";
    case YACHT_AGAIN: return "other threads are changing slots";
    case YACHT_BAD_ARGUMENT: return "an argument is NULL or out of its range";
    case YACHT_NO_MEMORY: return "an allocation failed";
    case YACHT_STALE: return "the slot has another value";
    default: return "not a number of yachtbanyan.h";
    }
}
