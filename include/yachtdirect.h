/* The life of a direct descriptor: when a slot of a ring's table is free, when it may be closed,
 * and whose a completion is. For a server on io_uring with direct descriptors (fixed files). The
 * library makes no system call: it returns what to submit, and takes the completions. C11 or
 * C++17. Link with -lyachtdirect. docs/use/DIRECT.md has the loop of a server, and what surprises
 * on the kernel's side.
 *
 * Life of a slot. A machine keeps the slots of one ring's table:
 *
 *     free -> opening -> live -> ending -> closing -> free
 *
 * yacht_direct_reserve takes a free slot, and the caller submits an open there (openat, accept,
 * socket) in the slot's name: its key. Each request on the file is counted from before its
 * submission (yacht_direct_start) until its last completion (yacht_direct_finish), and each other
 * user, as a thread that works on the connection, from yacht_direct_hold until
 * yacht_direct_release. After yacht_direct_end there is no new request and no new user, and once
 * the last of both is gone, a call returns YACHT_DIRECT_CLOSE: now the slot is to be closed.
 *
 * Chain. An open, requests on its file and perhaps its close may be submitted at once, by hard or
 * soft links: yacht_direct_chain counts them all, and yacht_direct_chained takes each completion.
 * Each member has one completion, whatever it is. The slot is taken until the last of them: after
 * an open that failed, the later members of a hard link run, and answer -EBADF. A chain with a
 * second open or close at the slot is not one life, and the machine can't notice it.
 *
 * Keys. A key names one life of a slot, and no later life has it. It is a number of 64 bits: the
 * number of the life in 40, the slot in 20, and 4 that are the caller's own, the kind. So it is
 * the user_data of a request, with the kind in the lowest bits: `key | kind`. Each call takes a
 * completion's user_data as it is: the kind is ignored. A key that a call returns has the kind 0.
 * Numbers below 2^24 belong to no key, and are free for requests without one.
 *
 * Last completion. Of a multishot request it is the one without IORING_CQE_F_MORE, which may have
 * data. Of a zero-copy send it is the one with IORING_CQE_F_NOTIF, or one without
 * IORING_CQE_F_MORE whose result is negative and not -ECANCELED: a send that its link cancels
 * answers -ECANCELED without IORING_CQE_F_MORE, and its notification follows.
 *
 * Promise. In every run in which the premises below hold: a request that was started under a key
 * finds the file that the open under this key installed, and no other one. So do the members of a
 * chain, or they find no file, if the open failed. An open finds its slot
 * empty. Each file is asked to be closed at most once, or once more after each close that failed;
 * and exactly once if its life was ended, and each request and user came back. When a slot is
 * reserved, no request, no user and no file of an earlier life is left there. This is proved
 * (docs/use/DIRECT.md).
 *
 * Premises. The caller must ensure the following, which nothing checks:
 * - When a machine is opened, its slots lie inside the table that is registered with the ring, they
 *   are empty, and no request is in flight at them. So before another machine is opened for the
 *   same ring, yacht_direct_len of the earlier one is 0.
 * - Each call that this header names is made, and one submission for each: of an open after
 *   `reserve`, of a request after `start`, of the rest of a chain after `chain`, of a close after
 *   YACHT_DIRECT_CLOSE. `finish` is called once, after the last completion of the request.
 * - A member of a chain begins after the completion of the one before it, as a link makes it.
 * - Each key goes to the machine that returned it. A key doesn't name its machine, and the first
 *   keys of two machines are equal: with a key of another machine, yacht_direct_release may ask for
 *   the close of a file that is in use.
 * - Nobody else writes these slots: no io_uring_register_files_update at them, and no request
 *   outside these calls. The ring's allocation range, which by default is the whole table, is the
 *   one with which the machine was opened. Only this ring's opens choose slots there, and each file
 *   is adopted once.
 * - The kernel posts a completion once, with its request's user_data. An open succeeds (its result
 *   is 0 or more) if and only if it put its file at the slot, and a close if and only if it took
 *   one.
 * - A machine comes from yacht_direct_open and isn't yet freed. One thread at a time uses it: if
 *   it goes to another thread, the caller synchronizes the calls. No pointer is NULL.
 * - malloc, calloc, realloc and free are one allocator, whose blocks are aligned for any type. */
#ifndef YACHTDIRECT_H
#define YACHTDIRECT_H
#include <stddef.h>
#include <stdint.h>
#ifdef __cplusplus
extern "C" {
#endif

/* The version of this header. The shared library of the same major version has the name
 * libyachtdirect.so.MAJOR. */
#define YACHT_DIRECT_VERSION "6.0.0"
#define YACHT_DIRECT_VERSION_MAJOR 6
#define YACHT_DIRECT_VERSION_MINOR 0
#define YACHT_DIRECT_VERSION_PATCH 0

/* Returns the version of the library, such as "6.0.0". The string is never freed. */
const char *yacht_direct_version(void);

/* The library's name of yacht_direct_open has the major version. So a program that was compiled
 * with the header of another one doesn't link with the library. */
#define yacht_direct_open yacht_direct_open_6

/* The largest number of slots, and the largest kind. */
enum { YACHT_DIRECT_MOST_SLOTS = 1048576, YACHT_DIRECT_MOST_KIND = 15 };

/* What a function returns. A negative number is a refusal: the call has changed and written
 * nothing. */
enum {
    YACHT_DIRECT_DONE = 0,              /* the call is done */
    YACHT_DIRECT_CLOSE = 1,             /* done, and the file has no user left: submit a close */
    YACHT_DIRECT_FULL = -6,             /* no slot is free */
    YACHT_DIRECT_BAD_ARGUMENT = -8,     /* an argument is out of its range */
    YACHT_DIRECT_NO_MEMORY = -9,        /* an allocation failed */
    YACHT_DIRECT_STALE = -10,           /* the life of the key is over, or never was */
    YACHT_DIRECT_IS_OPENING = -11,      /* the open isn't completed */
    YACHT_DIRECT_IS_LIVE = -12,         /* the file is open */
    YACHT_DIRECT_IS_ENDING = -13,       /* the life was ended, and requests or users are left */
    YACHT_DIRECT_IS_CLOSING = -14,      /* the close was asked for, and isn't completed */
    YACHT_DIRECT_TOO_MANY_REQUESTS = -15, /* 2^32 - 1 requests are in flight under the key */
    YACHT_DIRECT_TOO_MANY_USERS = -16,  /* the key has 2^32 - 1 users */
    YACHT_DIRECT_IS_CHAINED = -17,      /* the chain of the key isn't over */
    YACHT_DIRECT_STOPPED = -18,         /* the machine was stopped */
    YACHT_DIRECT_NOT_FREE = -19,        /* the slot has a life with a file */
    YACHT_DIRECT_OTHER_MACHINE = -20    /* the queue is that of another machine */
};

/* The phases of a life, as yacht_direct_phase returns them. */
enum {
    YACHT_DIRECT_OPENING = 1,
    YACHT_DIRECT_LIVE = 2,
    YACHT_DIRECT_ENDING = 3,
    YACHT_DIRECT_CLOSING = 4,
    YACHT_DIRECT_CHAINED = 5
};

/* The members of a chain. */
enum {
    YACHT_DIRECT_OPEN_OF_CHAIN = 0,
    YACHT_DIRECT_REQUEST_OF_CHAIN = 1,
    YACHT_DIRECT_CLOSE_OF_CHAIN = 2
};

/* A machine. The field is the library's own. */
typedef struct yacht_direct {
    void *slots;
} yacht_direct;

/* Returns the slot of a key, or of user_data that has one. */
static inline uint32_t yacht_direct_slot_of(uint64_t key) { return (uint32_t)(key >> 4 & 0xfffff); }

/* Returns the kind that user_data has. */
static inline unsigned yacht_direct_kind_of(uint64_t data) { return (unsigned)(data & 15); }

/* Opens a machine of 1 to YACHT_DIRECT_MOST_SLOTS free slots: those from 0 of the table that the
 * caller registers with the ring. (A sparse table has at most RLIMIT_NOFILE slots.) The ring's
 * allocation range (io_uring_register_file_alloc_range) begins at slot `first` and has `length`
 * slots; a `length` of 0 means that no slot of the machine is in it. No other call allocates, and
 * each other call but yacht_direct_key_in takes constant time.
 * Returns YACHT_DIRECT_DONE and writes *machine; or YACHT_DIRECT_BAD_ARGUMENT at any other number
 * of slots; or YACHT_DIRECT_NO_MEMORY. */
int yacht_direct_open(yacht_direct *machine, uint32_t slots, uint32_t first, uint32_t length);

/* Frees a machine. It closes no file: the kernel does so when the ring ends. */
void yacht_direct_free(yacht_direct machine);

/* Begins a life at a free slot outside the allocation range, and writes its key and its slot. The
 * caller submits an open at the slot. A slot that has had 2^40 - 1 lives isn't free again.
 * Returns YACHT_DIRECT_DONE, YACHT_DIRECT_FULL, or YACHT_DIRECT_STOPPED. */
int yacht_direct_reserve(yacht_direct *machine, uint64_t *key, uint32_t *slot);

/* Takes the result of the open. If it is 0 or more, the file is open, and else the life is over
 * and the slot is free. After yacht_direct_stop the life of an open file is ended at once.
 * Returns YACHT_DIRECT_DONE; or YACHT_DIRECT_CLOSE, and writes the slot, which the caller closes;
 * or YACHT_DIRECT_STALE; or the phase in which the life is instead of opening:
 * YACHT_DIRECT_IS_LIVE, .._IS_ENDING, .._IS_CLOSING or .._IS_CHAINED. */
int yacht_direct_opened(yacht_direct *machine, uint64_t key, int32_t result, uint32_t *slot);

/* Adopts a file that the kernel has put at a slot of the allocation range: takes the completion of
 * an open with IORING_FILE_INDEX_ALLOC, as each one of a multishot accept, whose result is the
 * slot. A live life begins there, and its key is written. The kernel may choose a slot whose close
 * it has made, before the completion of that close is taken: then the earlier life is over, and
 * yacht_direct_closed answers YACHT_DIRECT_STALE.
 * Returns YACHT_DIRECT_DONE; or YACHT_DIRECT_CLOSE after yacht_direct_stop: the life was ended at
 * once, and the caller closes the slot; or YACHT_DIRECT_BAD_ARGUMENT, if the slot is not one of the
 * machine's in the range; or YACHT_DIRECT_NOT_FREE, if a life has a file there: a premise is
 * broken; or YACHT_DIRECT_FULL, if the slot has had 2^40 - 1 lives: the caller closes it. */
int yacht_direct_adopt(yacht_direct *machine, uint32_t slot, uint64_t *key);

/* Counts a chain in place of an open alone: the open, 0 to 2^32 - 1 requests on its file and,
 * unless `closes` is 0, a close, all under this key. Writes the slot. The caller submits the chain
 * there. Until its last completion yacht_direct_start and yacht_direct_hold are refused; in a chain
 * without a close only until its open is seen to succeed. yacht_direct_end is taken, and the close
 * is due when the chain is over.
 * Returns YACHT_DIRECT_DONE, YACHT_DIRECT_STALE, or the phase in which the life is instead of
 * opening. */
int yacht_direct_chain(yacht_direct *machine, uint64_t key, uint32_t requests, uint32_t closes, uint32_t *slot);

/* Takes the completion of a chain's member, in any order, with its result: of the open, a request
 * or the close. A negative one is a failure. After the last one the slot is free if the open failed
 * or the close took the file. If the open succeeded and the close was canceled (a read that is
 * shorter than its buffer breaks a soft link), the slot is to be closed. A chain without a close is
 * a live life once its open is seen to succeed, and this takes its other requests as
 * yacht_direct_finish does. After yacht_direct_stop that life is ended at once.
 * Returns YACHT_DIRECT_DONE; or YACHT_DIRECT_CLOSE, and writes the slot, which the caller closes;
 * or YACHT_DIRECT_STALE; or the phase in which the life is, if no such member is in flight, or the
 * open failed and the close took a file; or YACHT_DIRECT_BAD_ARGUMENT at any other member. */
int yacht_direct_chained(yacht_direct *machine, uint64_t key, uint32_t member, int32_t result, uint32_t *slot);

/* Counts a request on the file, and writes the slot. The caller submits the request there, with
 * IOSQE_FIXED_FILE.
 * Returns YACHT_DIRECT_DONE, YACHT_DIRECT_STALE, YACHT_DIRECT_TOO_MANY_REQUESTS, or the phase in
 * which the life is instead of live. */
int yacht_direct_start(yacht_direct *machine, uint64_t key, uint32_t *slot);

/* Takes the last completion of a request that was started.
 * Returns YACHT_DIRECT_DONE; or YACHT_DIRECT_CLOSE, and writes the slot, which the caller closes;
 * or YACHT_DIRECT_STALE; or the phase in which the life is, if no request of it is in flight. */
int yacht_direct_finish(yacht_direct *machine, uint64_t key, uint32_t *slot);

/* Counts a user that is not a request: a worker, a value of a table that threads share. A timer
 * needs none: if it fires after the life is over, each call by its key returns YACHT_DIRECT_STALE.
 * Returns YACHT_DIRECT_DONE, YACHT_DIRECT_STALE, YACHT_DIRECT_TOO_MANY_USERS, or the phase in
 * which the life is instead of live. */
int yacht_direct_hold(yacht_direct *machine, uint64_t key);

/* Takes a user back, as yacht_direct_finish takes a request.
 * Returns YACHT_DIRECT_DONE; or YACHT_DIRECT_CLOSE, and writes the slot; or YACHT_DIRECT_STALE; or
 * the phase in which the life is, if it has no user. */
int yacht_direct_release(yacht_direct *machine, uint64_t key, uint32_t *slot);

/* Ends a life: from now on no request is started, and no user counted. What is in flight isn't
 * canceled: a shutdown of the socket, started before, makes its requests complete.
 * Returns YACHT_DIRECT_DONE if requests or users are left; or YACHT_DIRECT_CLOSE, and writes the
 * slot; or YACHT_DIRECT_STALE; or the phase in which the life is instead of live or chained. A
 * chain's life ends where the chain ends: YACHT_DIRECT_DONE. */
int yacht_direct_end(yacht_direct *machine, uint64_t key, uint32_t *slot);

/* Stops the machine, for a shutdown: no slot is reserved any more, and each life that becomes live,
 * also by yacht_direct_adopt, is ended at once. A life that is reserved goes on: its open is
 * submitted, or yacht_direct_opened takes a failure. The caller ends each live life: a walk by
 * yacht_direct_key_in. Once each call was completed and each user was released, yacht_direct_len
 * is 0. */
void yacht_direct_stop(yacht_direct *machine);

/* Takes the completion of a close after which the slot is empty: it succeeded, or its result is
 * -EBADF (the slot was empty) or -ENXIO (the ring has no table), since another emptied the slot in
 * spite of the premises. The life is over and the slot is free.
 * Returns YACHT_DIRECT_DONE, YACHT_DIRECT_STALE, or the phase in which the life is instead of
 * closing. */
int yacht_direct_closed(yacht_direct *machine, uint64_t key);

/* Takes the completion of a close that left the file at the slot, as a linked one that was
 * canceled. After -EBADF or -ENXIO call yacht_direct_closed: a close of an empty slot would be
 * asked for without end.
 * Returns YACHT_DIRECT_CLOSE, and writes the slot, which the caller closes again; or
 * YACHT_DIRECT_STALE; or the phase in which the life is instead of closing. */
int yacht_direct_close_failed(yacht_direct *machine, uint64_t key, uint32_t *slot);

/* Writes the numbers of requests in flight and of users of a life. In the phases opening and
 * closing both are 0. A chain's open and close are not among its requests.
 * Returns the phase, or YACHT_DIRECT_STALE. */
int yacht_direct_phase(yacht_direct *machine, uint64_t key, uint32_t *requests, uint32_t *users);

/* Returns the number of lives that have begun and are not over. */
uint32_t yacht_direct_len(yacht_direct *machine);

/* Returns the number of completions that the machine waits for: of opens, requests and closes. */
uint64_t yacht_direct_in_flight(yacht_direct *machine);

/* Writes the key of the life at a slot.
 * Returns YACHT_DIRECT_DONE, or YACHT_DIRECT_STALE if there is none, or no such slot. */
int yacht_direct_key_at(yacht_direct *machine, uint32_t slot, uint64_t *key);

/* Writes the key of the first life in a phase, YACHT_DIRECT_OPENING to YACHT_DIRECT_CHAINED, at
 * slot `from` or a later one. So a walk over these lives begins at slot 0 and goes on after the
 * slot of each key. The caller may end each life meanwhile. The time depends on the slots that are
 * passed.
 * Returns YACHT_DIRECT_DONE; or YACHT_DIRECT_STALE if there is none; or YACHT_DIRECT_BAD_ARGUMENT
 * at any other phase. */
int yacht_direct_key_in(yacht_direct *machine, int phase, uint32_t from, uint64_t *key);

/* A release that another thread asks for: part of a value of that thread. */
typedef struct yacht_direct_note {
    struct yacht_direct_note *next;
    struct yacht_direct_queue *queue;
    uint64_t key;
} yacht_direct_note;

/* The notes that a ring's thread hasn't collected. Any thread posts. The fields are the library's
 * own. */
typedef struct yacht_direct_queue {
    yacht_direct_note *first;
    void *slots;
} yacht_direct_queue;

/* Returns an empty queue of a machine. While that one is open, no other machine takes it. */
static inline yacht_direct_queue yacht_direct_queue_of(yacht_direct machine) {
    yacht_direct_queue queue = {NULL, machine.slots};
    return queue;
}

/* Counts a user as yacht_direct_hold, and writes the note by which its thread releases it.
 * Returns what yacht_direct_hold returns, or YACHT_DIRECT_OTHER_MACHINE. */
int yacht_direct_hold_by(yacht_direct *machine, uint64_t key, yacht_direct_queue *queue, yacht_direct_note *note);

/* Posts a note to its queue, which owns it until it is collected. It allocates nothing and never
 * waits for a thread that is stopped. This is not proved.
 * Returns 1 if the queue was empty: then the caller wakes the ring's thread. */
int yacht_direct_post(yacht_direct_note *note);

/* Empties the queue, in the ring's thread, which then calls yacht_direct_release for each note.
 * Writes the note that was posted last, or NULL. Each has the one before it in `next`.
 * Returns YACHT_DIRECT_DONE, or YACHT_DIRECT_OTHER_MACHINE. */
int yacht_direct_collect(yacht_direct *machine, yacht_direct_queue *queue, yacht_direct_note **notes);

/* Returns a number of this header in words, such as "no slot is free". The string is never freed.
 * Phases, slots and keys are no such numbers. */
const char *yacht_direct_strerror(int answer);

#ifdef __cplusplus
}
#endif
#endif
