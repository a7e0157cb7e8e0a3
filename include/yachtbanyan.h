/* A table of slots that threads share without a lock. The verified core counts the users of each
 * value and decides which user is the last. C11 or C++17, POSIX threads. Link with -lyachtbanyan.
 * docs/use/BINDINGS.md says what is proved and what is tested.
 *
 * Drops. A value that was replaced or removed is dropped by its last user, before the call that
 * ends this use returns. Its users are the handles that hold it, the call that replaced or removed
 * it, and each look-up (yacht_get_at, or a call by key) under way that first saw it. Such a look-up
 * is a user until it ends, even if it returns another value. So a look-up may drop a value that its
 * caller never got, and a thread that is stopped within one may delay a drop. While no call is
 * under way, each value that was replaced or removed, and that no handle holds, has been dropped.
 *
 * Keys. A key names one value: its slot, and a number that no other value of the table has or will
 * have. Once the value was replaced or removed, its key is stale: a call by it returns YACHT_STALE
 * if the slot has another value, and YACHT_EMPTY if it has none. Any numbers are a key: one of
 * another table, or one that no call returned, is stale, or is the key of some value. A key with
 * the number 0 is that of no value. The first keys of two tables are equal, so a key in the wrong
 * table often finds a value. A handle has 2^64 numbers divided by the number of handles: if it uses
 * them up, its further values have the number 0. No number is used again.
 *
 * The caller must ensure the following, which nothing checks:
 * - A table or a handle comes from a function of this header, and its table is not yet freed.
 * - One call at a time uses a handle. If a handle goes to another thread, the caller synchronizes
 *   the calls: by a lock, by starting or joining a thread, or by a sequentially consistent atomic
 *   operation. The same holds of yacht_open before all other calls of a table, and of yacht_free
 *   after them.
 * - A value is installed once: it is neither in a table nor held when it is passed to a call that
 *   installs it, or returned to yacht_insert_with.
 * - The drop function returns: it throws no C++ exception, makes no longjmp and doesn't end its
 *   thread. It doesn't use the handle in whose call it runs. It waits for no lock that a thread may
 *   hold around a call of this header.
 * - The function `make` of yacht_insert_with returns, too. If an exception or a longjmp leaves it,
 *   each later insertion by the handle returns YACHT_BUSY.
 * - No pointer is NULL but `with`, the table of yacht_free, and what a function that returns
 *   YACHT_BAD_ARGUMENT gets beside its handle.
 * - No function is called from a signal handler, or in the forked child of a process with threads.
 * - malloc, calloc, realloc and free are one allocator, whose blocks are aligned for any type, as C
 *   requires. */
#ifndef YACHTBANYAN_H
#define YACHTBANYAN_H
#include <stdint.h>
#ifdef __cplusplus
extern "C" {
#endif

/* The version of this header. The shared library of the same major version has the name
 * libyachtbanyan.so.MAJOR. */
#define YACHT_VERSION "6.0.0"
#define YACHT_VERSION_MAJOR 6
#define YACHT_VERSION_MINOR 0
#define YACHT_VERSION_PATCH 0

/* Returns the version of the library, as YACHT_VERSION is that of this header. The string is never
 * freed. */
const char *yacht_version(void);

/* The library's name of yacht_open has the major version. So a program that was compiled with the
 * header of another one doesn't link with the library. */
#define yacht_open yacht_open_6

/* The largest numbers of slots, of handles that install values, and of handles and readers
 * together. */
enum { YACHT_MOST_SLOTS = 1048576, YACHT_MOST_HANDLES = 64, YACHT_MOST_IN_ALL = 1024 };

/* What a function returns. A negative number is an error: the call has changed no slot. */
enum {
    YACHT_DONE = 0,          /* the call is done; of yacht_replace_at: the slot was empty */
    YACHT_DROPPED = 1,       /* done, and the old value had no other user: this call dropped it */
    YACHT_IN_USE = 2,        /* done, and the old value has other users: the last one drops it */
    YACHT_EMPTY = -1,        /* the slot is empty */
    YACHT_NO_SLOT = -2,      /* the table has no such slot */
    YACHT_BUSY = -3,         /* the handle holds a value, or makes one in yacht_insert_with */
    YACHT_IDLE = -4,         /* the handle holds no value */
    YACHT_READER = -5,       /* the handle is a reader, which only looks values up */
    YACHT_FULL = -6,         /* every slot had a value at one moment of the call */
    YACHT_AGAIN = -7,        /* other threads were filling or emptying slots during the call */
    YACHT_BAD_ARGUMENT = -8, /* an argument is NULL or out of its range */
    YACHT_NO_MEMORY = -9,    /* an allocation failed */
    YACHT_STALE = -10        /* the slot has another value than that of the key */
};

/* A table. */
typedef struct yacht_table yacht_table;

/* The access of one thread at a time to a table. It holds at most one value at a time; a thread may
 * use several handles. A reader is a handle that only looks values up. */
typedef struct yacht_handle yacht_handle;

/* The name of one value of a table. */
typedef struct yacht_key {
    uint64_t number;
    uint32_t slot;
} yacht_key;

/* Drops a value that has no users left. Any thread that uses the table may call it, within a
 * look-up, a replacement, a removal, yacht_insert_with, yacht_release or yacht_free. It may use
 * other handles of the table; within yacht_free, any handle but the first. It must not close a
 * direct descriptor of io_uring: the descriptor's slot may be that of another connection by then
 * (docs/use/BINDINGS.md, "Direct descriptors"). */
typedef void yacht_drop(void *value, void *with);

/* Opens a table of 1 to YACHT_MOST_SLOTS empty slots, with 1 to YACHT_MOST_HANDLES handles that
 * install values, and with readers; the handles and the readers are at most YACHT_MOST_IN_ALL
 * together. `drop` is called once for each value, with `with`. While the table is opened, it takes
 * twice its memory.
 * Returns YACHT_DONE and writes *table; or YACHT_BAD_ARGUMENT or YACHT_NO_MEMORY, and writes
 * nothing. */
int yacht_open(yacht_table **table, uint32_t slots, uint32_t handles, uint32_t readers,
               yacht_drop *drop, void *with);

/* Frees a table, and drops the values in its slots, even those that a drop installs meanwhile. The
 * caller must ensure that no handle holds a value or is in use. NULL is allowed. */
void yacht_free(yacht_table *table);

/* Returns the handle with this number, from 0, or NULL if there is none. It is freed with its
 * table. */
yacht_handle *yacht_handle_of(yacht_table *table, uint32_t number);

/* Returns the reader with this number, from 0, or NULL if there is none. It is freed with its
 * table. */
yacht_handle *yacht_reader_of(yacht_table *table, uint32_t number);

/* Looks up the value at a slot, and writes it to *value. The handle holds the value until
 * yacht_release: it isn't dropped before. Returns YACHT_DONE; or YACHT_EMPTY, YACHT_NO_SLOT, or
 * YACHT_BUSY, and writes nothing. */
int yacht_get_at(yacht_handle *handle, uint32_t slot, void **value);

/* Looks up the value with a key, as yacht_get_at.
 * Returns what yacht_get_at returns; or YACHT_STALE, and writes nothing. */
int yacht_get(yacht_handle *handle, yacht_key key, void **value);

/* Writes the key of the value that the handle holds to *key.
 * Returns YACHT_DONE; or YACHT_IDLE, and writes nothing. */
int yacht_key_of(yacht_handle *handle, yacht_key *key);

/* Checks whether a slot has the value that the handle holds, by one load. The answer is right at a
 * moment of the call, and follows all that is ordered before the call, as yacht_get_at does. The
 * handle still holds the value.
 * Returns 1 if the slot has this value, and 0 if it has another one or none; or YACHT_IDLE or
 * YACHT_NO_SLOT, the first that applies. */
int yacht_is_current(yacht_handle *handle, uint32_t slot);

/* Releases the value that the handle holds. Drops it if it was replaced or removed and has no other
 * user.
 * Returns YACHT_DONE, or YACHT_IDLE. */
int yacht_release(yacht_handle *handle);

/* Installs a value, not NULL, at a free slot. It may wait while other threads change slots, and for
 * as long as one other thread is stopped within an insertion, a replacement or a removal. A thread
 * with real-time priority keeps a thread of lower priority on its processor stopped.
 * Returns the slot; or YACHT_FULL, YACHT_BUSY, YACHT_READER or YACHT_BAD_ARGUMENT: then the caller
 * still owns the value. */
int yacht_insert(yacht_handle *handle, void *value);

/* Tries once to install a value, not NULL, at a free slot. It never waits.
 * Returns what yacht_insert returns; or YACHT_AGAIN, if another thread emptied a slot during the
 * call, changed a free one, or was in the middle of a call: then the caller still owns the
 * value. */
int yacht_try_insert(yacht_handle *handle, void *value);

/* Install a value as yacht_insert and yacht_try_insert, and write its key to *key; key is not NULL.
 * Return the same. If that is an error, they write nothing. */
int yacht_insert_key(yacht_handle *handle, void *value, yacht_key *key);
int yacht_try_insert_key(yacht_handle *handle, void *value, yacht_key *key);

/* Returns a value for this key. It may use the handles of the table. But an insertion by the handle
 * that calls it returns YACHT_BUSY: the value would get the slot that was found. */
typedef void *yacht_make(yacht_key key, void *with);

/* Makes a value from its key, installs it at a free slot, and writes the key to *key. It calls
 * `make` with the key that a value gets at a slot that was empty. If the slot is filled meanwhile,
 * the value is dropped, and `make` is called again, with another key. It may wait as yacht_insert.
 * If `make` leaves the handle with a value that it holds, the made value is dropped, and the call
 * returns YACHT_BUSY.
 * Returns the slot; or YACHT_FULL, YACHT_BUSY, YACHT_READER or YACHT_BAD_ARGUMENT, this also if
 * `make` returns NULL: then it has installed and written nothing. */
int yacht_insert_with(yacht_handle *handle, yacht_make *make, void *with, yacht_key *key);

/* Installs a value, not NULL, at a slot, in place of the value there.
 * Returns YACHT_DONE if the slot was empty, YACHT_DROPPED or YACHT_IN_USE; or YACHT_NO_SLOT,
 * YACHT_BUSY, YACHT_READER or YACHT_BAD_ARGUMENT: then the caller still owns the value. */
int yacht_replace_at(yacht_handle *handle, uint32_t slot, void *value);

/* Installs a value as yacht_replace_at, and writes its key to *key; key is not NULL.
 * Returns the same. If that is an error, it writes nothing. */
int yacht_replace_at_key(yacht_handle *handle, uint32_t slot, void *value, yacht_key *key);

/* Removes the value at a slot.
 * Returns YACHT_DROPPED or YACHT_IN_USE; or YACHT_EMPTY, YACHT_NO_SLOT, YACHT_BUSY or
 * YACHT_READER. */
int yacht_remove_at(yacht_handle *handle, uint32_t slot);

/* Installs a value, not NULL, in place of the one with the key *key, and writes the new value's key
 * to *key, before it drops a value. It tries again while other threads look the same slot up.
 * Returns YACHT_DROPPED or YACHT_IN_USE; or YACHT_STALE, YACHT_EMPTY, YACHT_NO_SLOT, YACHT_BUSY,
 * YACHT_READER or YACHT_BAD_ARGUMENT: then the caller still owns the value, and *key stays. */
int yacht_replace(yacht_handle *handle, yacht_key *key, void *value);

/* Removes the value with a key. It tries again while other threads look the same slot up.
 * Returns YACHT_DROPPED or YACHT_IN_USE; or YACHT_STALE, YACHT_EMPTY, YACHT_NO_SLOT, YACHT_BUSY or
 * YACHT_READER. */
int yacht_remove(yacht_handle *handle, yacht_key key);

/* Returns a key in 64 bits, as for the data of epoll or io_uring, of which a completion under a
 * stale key is not ignored (docs/use/BINDINGS.md, "Direct descriptors"): 0, a slot below 4,096 in
 * 12 bits, and above them the number in 51; or 1, another slot in 20 bits, and the number in 43.
 * Returns 0, which are the bits of no value's key, if the number has more bits: a handle installs
 * 2^51 values, or 2^43, divided by the number of handles before that. */
uint64_t yacht_key_to_bits(yacht_key key);

/* Returns the key that has these bits. */
yacht_key yacht_key_from_bits(uint64_t bits);

/* Returns a key in the lowest `width` bits of 64, as yacht_key_to_bits, or 0 if it has more bits.
 * The other bits are the caller's, as for the kind of a request. */
uint64_t yacht_key_to_bits_below(yacht_key key, unsigned width);

/* Returns the key that has the lowest `width` of these bits. */
yacht_key yacht_key_from_bits_below(uint64_t bits, unsigned width);

/* Returns a number of this header in words, such as "the slot is empty". The string is never freed.
 * A slot that yacht_insert returned is no such number. */
const char *yacht_strerror(int answer);

#ifdef __cplusplus
}
#endif
#endif
