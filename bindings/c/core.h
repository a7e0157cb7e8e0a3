/* The C interface of the verified core, for this library alone: the shared library does not export
 * its functions. There is one for each call that a user makes; crates/fx_server_c/src/exports.rt
 * describes each. In the core's words a value is a file. The functions return the numbers of
 * yachtbanyan.h: where that says YACHT_DROPPED, the core has returned the tag of a value that
 * nobody uses any more. scripts/declare-core writes this file. */
#ifndef YACHT_CORE_H
#define YACHT_CORE_H
#include <stddef.h>
#include <stdint.h>

/* A worker of the core, which its place in memory owns: one pointer, or NULL if there is none. */
typedef struct yacht_core {
    void *worker;
} yacht_core;

/* The numbers that a call returns beside its answer. Each is 0 if there is no such file. */
typedef struct yacht_outcome {
    /* The number of the file that was found or installed. */
    uint64_t number;
    /* The tag of the file that was found, or that was removed and nobody uses any more. */
    uint64_t tag;
    /* The tag of a removed file that the call's look-up was the last to use. */
    uint64_t freed;
    /* The tag of a file that the call held and was the last to use. */
    uint64_t released;
} yacht_outcome;

int64_t yacht_core_open(uint32_t slots, uint32_t installing, yacht_core *workers, size_t count);
void yacht_core_close(yacht_core worker);
int64_t yacht_core_get_at(yacht_core *worker, uint32_t slot, yacht_outcome *out);
int64_t yacht_core_get(yacht_core *worker, uint32_t slot, uint64_t number, yacht_outcome *out);
int64_t yacht_core_release(yacht_core *worker, uint64_t *dropped);
int64_t yacht_core_is_current(yacht_core *worker, uint32_t slot);
int64_t yacht_core_insert(yacht_core *worker, uint64_t tag, uint64_t *number);
int64_t yacht_core_replace_at(yacht_core *worker, uint32_t slot, uint64_t tag, yacht_outcome *out);
int64_t yacht_core_replace(yacht_core *worker, uint32_t slot, uint64_t number, uint64_t tag,
                           yacht_outcome *out);
int64_t yacht_core_remove_at(yacht_core *worker, uint32_t slot, yacht_outcome *out);
int64_t yacht_core_remove(yacht_core *worker, uint32_t slot, uint64_t number, yacht_outcome *out);
int64_t yacht_core_find(yacht_core *worker, uint64_t *number);
int64_t yacht_core_put_empty(yacht_core *worker, uint32_t slot, uint64_t tag);

#endif
