/* A ring of liburing and its machine of lives (yachtdirect.h) in one: the code that each server
 * with direct descriptors needs around both. All of it is inline, over liburing 2.3 or later.
 * Programs that don't include this header need no liburing. C11 or C++17. Link with -lyachtdirect
 * -luring.
 * docs/use/DIRECT.md has programs over it.
 *
 * The caller prepares each entry by a function of liburing, with 0 in place of the file, and passes
 * it on. The layer sets the slot, IOSQE_FIXED_FILE and user_data, and counts the request until its
 * last completion, also that of a multishot request or of a zero-copy send. It submits a close that
 * was canceled again, keeps a number of accepts in flight, links chains, and shuts a connection
 * down before its close. The caller takes one event after another: yacht_uring_next.
 *
 * Three things are left to the caller. The memory of a request stays until its event with is_last,
 * and that of a life until YACHT_URING_OVER. A key goes to the ring that returned it, and one
 * thread at a time uses a ring. Nobody else writes the table's slots, or takes completions. */
#ifndef YACHTDIRECT_URING_H
#define YACHTDIRECT_URING_H
#include <errno.h>
#include <liburing.h>
#include <sys/socket.h>
#include <yachtdirect.h>

#ifndef IORING_CQE_F_NOTIF
#error "yachtdirect_uring.h needs liburing 2.3 or later"
#endif

/* The kinds 0 to YACHT_URING_MOST_KIND are the caller's. Those up to 15 are of the layer's own
 * requests, and the others are events without a kind of the caller's. */
enum {
    YACHT_URING_MOST_KIND = 11,
    YACHT_URING_SHUTDOWN = 12,
    YACHT_URING_CLOSE = 13,
    YACHT_URING_OPEN = 14,
    YACHT_URING_ACCEPT = 15,
    YACHT_URING_OPENED = 16,  /* an accept succeeded; or a chain's open was completed */
    YACHT_URING_OVER = 17,    /* the life is over, and nothing of it is in flight */
    YACHT_URING_STOPPED = 18, /* an accept failed: none is submitted until yacht_uring_accept */
    YACHT_URING_OTHER = 19,   /* a request of yacht_uring_push was completed */
    YACHT_URING_CANCEL = 0xffffff /* the data of the layer's own cancels */
};

/* What has happened. */
typedef struct yacht_uring_event {
    uint64_t key;   /* of the life; of YACHT_URING_OTHER the data of the request */
    uint32_t kind;  /* the caller's own, or one from YACHT_URING_OPENED to YACHT_URING_OTHER */
    int32_t result; /* the completion's, as the flags */
    uint32_t flags;
    int is_last;    /* 0 if another completion of the request follows */
} yacht_uring_event;

/* A ring and its machine. Of the fields the caller writes `ring` and `zero_copy`. */
typedef struct yacht_uring {
    struct io_uring ring;
    yacht_direct machine;
    uint32_t zero_copy; /* bit k is 1 if the requests of kind k are zero-copy sends */
    uint32_t slots, accepts, kept, accepting;
    int listener, error, is_ending;
    yacht_uring_event over; /* the next event, unless its kind is 0 */
} yacht_uring;

/* Registers a sparse table of 1 to YACHT_DIRECT_MOST_SLOTS slots with it->ring, which the caller
 * has opened by io_uring_queue_init, and opens the machine. Sets zero_copy to 0.
 * Returns 0; or a negative error number: then the caller closes the ring by io_uring_queue_exit,
 * and not by yacht_uring_close. */
static inline int yacht_uring_open(yacht_uring *it, uint32_t slots) {
    int answer, error = io_uring_register_files_sparse(&it->ring, slots);
    if (error < 0) return error;
    answer = yacht_direct_open(&it->machine, slots, 0, 0);
    it->zero_copy = it->accepts = it->kept = it->accepting = it->over.kind = 0;
    it->slots = slots, it->listener = -1, it->error = it->is_ending = 0;
    if (answer == YACHT_DIRECT_DONE) return 0;
    return answer == YACHT_DIRECT_NO_MEMORY ? -ENOMEM : -EINVAL;
}

/* Closes the ring, and with it what is open, and frees the machine. */
static inline void yacht_uring_close(yacht_uring *it) {
    io_uring_queue_exit(&it->ring);
    yacht_direct_free(it->machine);
}

/* Makes room for this number of entries. Returns 0 after a lasting error. */
static inline int yacht_uring_has_room(yacht_uring *it, uint32_t count) {
    while (!it->error && io_uring_sq_space_left(&it->ring) < count) {
        int error = io_uring_submit(&it->ring);
        if (error >= 0 && it->ring.flags & IORING_SETUP_SQPOLL)
            error = io_uring_sqring_wait(&it->ring);
        if (error < 0 && error != -EINTR && error != -EAGAIN && error != -EBUSY) it->error = error;
    }
    return !it->error;
}

/* Queues a request without a key, on a file of the process or on none. Its user_data is `data`,
 * below YACHT_URING_CANCEL. A link in its flags stays: the next entry, also one of the layer's, is
 * then of the chain. */
static inline void yacht_uring_push(yacht_uring *it, const struct io_uring_sqe *entry,
                                    uint64_t data) {
    struct io_uring_sqe *to;
    if (!yacht_uring_has_room(it, 1)) return;
    to = io_uring_get_sqe(&it->ring);
    *to = *entry;
    to->user_data = data;
    to->flags = (uint8_t)(to->flags & ~IOSQE_CQE_SKIP_SUCCESS);
}

/* Queues a request on the file of a key. */
static inline void yacht_uring_push_fixed(yacht_uring *it, const struct io_uring_sqe *entry,
                                          uint64_t key, uint32_t kind) {
    struct io_uring_sqe own = *entry;
    own.fd = (int32_t)yacht_direct_slot_of(key);
    own.flags = (uint8_t)(own.flags | IOSQE_FIXED_FILE);
    yacht_uring_push(it, &own, (key & ~15ull) | kind);
}

/* Queues the close of a key's slot, if the machine has answered YACHT_DIRECT_CLOSE. */
static inline void yacht_uring_settle(yacht_uring *it, int answer, uint64_t key) {
    struct io_uring_sqe entry;
    if (answer != YACHT_DIRECT_CLOSE) return;
    io_uring_prep_close_direct(&entry, yacht_direct_slot_of(key));
    yacht_uring_push(it, &entry, (key & ~15ull) | YACHT_URING_CLOSE);
}

/* Counts a request of a kind on the file of a key, and queues it, without a link.
 * Returns YACHT_DIRECT_DONE; or YACHT_DIRECT_BAD_ARGUMENT, at a kind of the layer's, or what
 * yacht_direct_start returns: then nothing is queued. */
static inline int yacht_uring_start(yacht_uring *it, uint64_t key, uint32_t kind,
                                    const struct io_uring_sqe *entry) {
    struct io_uring_sqe own = *entry;
    uint32_t slot;
    int answer = YACHT_DIRECT_BAD_ARGUMENT;
    if (kind <= YACHT_URING_MOST_KIND) answer = yacht_direct_start(&it->machine, key, &slot);
    own.flags = (uint8_t)(own.flags & ~(IOSQE_IO_LINK | IOSQE_IO_HARDLINK));
    if (answer == YACHT_DIRECT_DONE) yacht_uring_push_fixed(it, &own, key, kind);
    return answer;
}

/* Takes back a user that yacht_direct_hold has counted. */
static inline void yacht_uring_release(yacht_uring *it, uint64_t key) {
    uint32_t slot;
    yacht_uring_settle(it, yacht_direct_release(&it->machine, key, &slot), key);
}

/* Ends a life: a shutdown makes its requests complete, and then the slot is closed. The life of a
 * chain ends with it. */
static inline void yacht_uring_end(yacht_uring *it, uint64_t key) {
    struct io_uring_sqe entry;
    uint32_t slot;
    io_uring_prep_shutdown(&entry, 0, SHUT_RDWR);
    if (yacht_direct_start(&it->machine, key, &slot) == YACHT_DIRECT_DONE)
        yacht_uring_push_fixed(it, &entry, key, YACHT_URING_SHUTDOWN);
    yacht_uring_settle(it, yacht_direct_end(&it->machine, key, &slot), key);
}

/* Submits a chain under a new key, and writes the key: an open (openat, socket), requests on its
 * file, each with its kind as user_data, and if `closes` a close, which the layer adds. An entry
 * without a link gets one: an open a soft one, so that its failure cancels the rest, and a request
 * a hard one, so that the next one runs whatever its result is. Without `closes` the life goes on.
 * Returns YACHT_DIRECT_DONE; or YACHT_DIRECT_FULL; or YACHT_DIRECT_STOPPED, after yacht_uring_stop;
 * or YACHT_DIRECT_BAD_ARGUMENT, if there is no entry, or the submission queue is shorter than the
 * chain, or a kind is the layer's, or the ring has failed: then yacht_uring_next returns the
 * error. */
static inline int yacht_uring_chain(yacht_uring *it, const struct io_uring_sqe *entries,
                                    uint32_t count, int closes, uint64_t *key) {
    const uint32_t links = IOSQE_IO_LINK | IOSQE_IO_HARDLINK, most = it->ring.sq.ring_entries;
    const uint32_t members = count + !!closes;
    uint32_t i, slot;
    int answer;
    for (i = 1; i < count; i++)
        if (entries[i].user_data > YACHT_URING_MOST_KIND) return YACHT_DIRECT_BAD_ARGUMENT;
    if (!count || count > most || members > most || !yacht_uring_has_room(it, members))
        return YACHT_DIRECT_BAD_ARGUMENT;
    answer = yacht_direct_reserve(&it->machine, key, &slot);
    if (answer != YACHT_DIRECT_DONE) return answer;
    yacht_direct_chain(&it->machine, *key, count - 1, !!closes, &slot);
    for (i = 0; i < count; i++) {
        struct io_uring_sqe own = entries[i];
        uint32_t link = i ? IOSQE_IO_HARDLINK : IOSQE_IO_LINK;
        if (own.flags & links) link = own.flags & links;
        if (i + 1 == members) link = 0;
        own.flags = (uint8_t)((own.flags & ~links) | link);
        if (!i) own.file_index = slot + 1;
        if (!i) yacht_uring_push(it, &own, *key | YACHT_URING_OPEN);
        else yacht_uring_push_fixed(it, &own, *key, (uint32_t)own.user_data);
    }
    yacht_uring_settle(it, closes ? YACHT_DIRECT_CLOSE : YACHT_DIRECT_DONE, *key);
    return YACHT_DIRECT_DONE;
}

/* Keeps `accepts` accepts of a listening socket in flight, but leaves `kept` slots to chains. While
 * no other slot is free, clients wait in the socket's backlog. */
static inline void yacht_uring_accept(yacht_uring *it, int listener, uint32_t accepts,
                                      uint32_t kept) {
    it->listener = listener, it->accepts = accepts, it->kept = kept;
}

/* Queues the accepts that are missing. */
static inline void yacht_uring_accept_more(yacht_uring *it) {
    struct io_uring_sqe entry;
    uint64_t key;
    uint32_t slot;
    while (!it->error && it->accepting < it->accepts) {
        if (yacht_direct_len(&it->machine) + (uint64_t)it->kept >= it->slots) return;
        if (yacht_direct_reserve(&it->machine, &key, &slot) != YACHT_DIRECT_DONE) return;
        io_uring_prep_accept_direct(&entry, it->listener, NULL, NULL, 0, slot);
        yacht_uring_push(it, &entry, key | YACHT_URING_ACCEPT);
        it->accepting++;
    }
}

/* Ends the lives in a phase, and cancels the accepts among them. */
static inline void yacht_uring_end_all(yacht_uring *it, int phase) {
    struct io_uring_sqe entry;
    uint64_t key;
    uint32_t from = 0;
    for (; yacht_direct_key_in(&it->machine, phase, from, &key) == YACHT_DIRECT_DONE;
         from = yacht_direct_slot_of(key) + 1) {
        yacht_uring_end(it, key); /* of an accept, this is refused */
        if (phase != YACHT_DIRECT_OPENING) continue;
        io_uring_prep_cancel64(&entry, key | YACHT_URING_ACCEPT, 0);
        yacht_uring_push(it, &entry, YACHT_URING_CANCEL);
    }
}

/* Begins the end of all lives: no life begins any more, the accepts are canceled, and each life is
 * ended. Then the caller takes the events until yacht_uring_next returns 0. */
static inline void yacht_uring_stop(yacht_uring *it) {
    it->accepts = 0, it->is_ending = 1;
    yacht_direct_stop(&it->machine);
    yacht_uring_end_all(it, YACHT_DIRECT_OPENING);
    yacht_uring_end_all(it, YACHT_DIRECT_CHAINED);
    yacht_uring_end_all(it, YACHT_DIRECT_LIVE);
}

/* Checks whether no completion of a request follows this one. */
static inline int yacht_uring_is_last(const yacht_uring *it, uint32_t kind, int32_t result,
                                      uint32_t flags) {
    if (flags & IORING_CQE_F_MORE) return 0;
    if (flags & IORING_CQE_F_NOTIF || !(it->zero_copy >> kind & 1)) return 1;
    return result < 0 && result != -ECANCELED; /* a refused zero-copy send has no notification */
}

/* Checks whether another accept may succeed after this error. */
static inline int yacht_uring_passes(int32_t error) {
    return error == -ECONNABORTED || error == -EINTR || error == -ECANCELED ||
           error == -EPROTO || error == -ENETDOWN || error == -ENETUNREACH ||
           error == -EHOSTDOWN || error == -EHOSTUNREACH;
}

/* Takes the completion of an accept. Returns 1 if it is an event. */
static inline int yacht_uring_accepted(yacht_uring *it, yacht_uring_event *event) {
    const int32_t result = event->result;
    uint32_t slot;
    int answer = yacht_direct_opened(&it->machine, event->key, result, &slot);
    yacht_uring_settle(it, answer, event->key); /* after yacht_uring_stop its close is due */
    it->accepting--;
    event->kind = result < 0 ? YACHT_URING_STOPPED : YACHT_URING_OPENED;
    if (result >= 0) return 1;
    if (!it->accepts || yacht_uring_passes(result)) return 0;
    it->accepts = 0;
    return 1;
}

/* Takes the last completion of a request of this kind that has a key. */
static inline void yacht_uring_finished(yacht_uring *it, const yacht_uring_event *event,
                                        uint32_t kind) {
    uint32_t slot, requests, users, member = YACHT_DIRECT_REQUEST_OF_CHAIN;
    const uint64_t key = event->key;
    const int32_t result = event->result;
    int answer;
    if (yacht_direct_phase(&it->machine, key, &requests, &users) == YACHT_DIRECT_STALE) return;
    if (kind == YACHT_URING_OPEN) member = YACHT_DIRECT_OPEN_OF_CHAIN;
    if (kind == YACHT_URING_CLOSE) {
        member = YACHT_DIRECT_CLOSE_OF_CHAIN;
        /* the slot is empty; of a chain, whose open may have failed, this is refused */
        if (result == -EBADF || result == -ENXIO) yacht_direct_closed(&it->machine, key);
    }
    /* without a chain this is yacht_direct_finish, or yacht_direct_closed or .._close_failed */
    answer = yacht_direct_chained(&it->machine, key, member, result, &slot);
    yacht_uring_settle(it, answer, key);
    if (yacht_direct_phase(&it->machine, key, &requests, &users) != YACHT_DIRECT_STALE) return;
    it->over = *event;
    it->over.kind = YACHT_URING_OVER;
}

/* Takes a completion. Returns 1 if it is an event. */
static inline int yacht_uring_completed(yacht_uring *it, const struct io_uring_cqe *cqe,
                                        yacht_uring_event *event) {
    const uint32_t kind = yacht_direct_kind_of(cqe->user_data);
    const int has_key = cqe->user_data >> 24 != 0;
    event->key = has_key ? cqe->user_data & ~15ull : cqe->user_data;
    event->kind = kind, event->result = cqe->res, event->flags = cqe->flags;
    event->is_last = yacht_uring_is_last(it, kind, cqe->res, cqe->flags);
    if (!has_key) {
        event->kind = YACHT_URING_OTHER, event->is_last = !(cqe->flags & IORING_CQE_F_MORE);
        return event->key != YACHT_URING_CANCEL;
    }
    if (kind == YACHT_URING_ACCEPT) return yacht_uring_accepted(it, event);
    if (event->is_last) yacht_uring_finished(it, event, kind);
    if (kind == YACHT_URING_OPEN) event->kind = YACHT_URING_OPENED;
    return kind <= YACHT_URING_MOST_KIND || kind == YACHT_URING_OPEN;
}

/* Submits what is queued, waits for the next event, and writes it. Returns 1; or 0 after
 * yacht_uring_stop once each life is over, though requests of yacht_uring_push may be in flight; or
 * the negative error number of a lasting error. */
static inline int yacht_uring_next(yacht_uring *it, yacht_uring_event *event) {
    for (;;) {
        struct io_uring_cqe *cqe;
        if (it->over.kind) {
            *event = it->over, it->over.kind = 0;
            return 1;
        }
        if (!io_uring_peek_cqe(&it->ring, &cqe)) {
            int is_event = yacht_uring_completed(it, cqe, event);
            io_uring_cqe_seen(&it->ring, cqe);
            if (is_event) return 1;
            continue;
        }
        if (it->is_ending && !yacht_direct_len(&it->machine)) return 0;
        yacht_uring_accept_more(it);
        int error = it->error ? it->error : io_uring_submit_and_wait(&it->ring, 1);
        if (error < 0 && error != -EINTR && error != -EAGAIN && error != -EBUSY) it->error = error;
        if (it->error) return it->error;
    }
}
#endif
