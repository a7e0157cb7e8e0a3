/* Spoils requests of a server in C that is compiled with `-include tests/injector.h`: every 97th
 * close answers -125 and closes nothing, and every 97th send or receive is short, or answers -125
 * (unless ALWAYS_SHORT is defined). The program is ended at an open at a slot whose file is left,
 * and at a send without MSG_NOSIGNAL, as by the signal of an older kernel. It needs Linux 6.10. */
#define _GNU_SOURCE
#include <errno.h>
#include <liburing.h>
#include <signal.h>
#include <sys/socket.h>
#include <unistd.h>

#ifndef ALWAYS_SHORT
#define ALWAYS_SHORT 0
#endif
enum { EVERY = 97, INJECTS_RESULT = 1, MOST_SLOTS = 64 };

static inline void spoil_one(struct io_uring_sqe *it) {
    static unsigned counts[256], left[MOST_SLOTS + 1]; /* by slot, plus 1: its file is left */
    static int is_linked;                              /* to the entry before it */
    int was_linked = is_linked;
    int is_send = it->opcode == IORING_OP_SEND, is_close = it->opcode == IORING_OP_CLOSE;
    is_linked = it->flags & (IOSQE_IO_LINK | IOSQE_IO_HARDLINK);
    if (is_send && !(it->msg_flags & MSG_NOSIGNAL)) kill(getpid(), SIGPIPE);
    if (it->file_index && !is_close && left[it->file_index]) kill(getpid(), SIGABRT);
    if (is_close) left[it->file_index] = 0;
    if (!is_send && !is_close && it->opcode != IORING_OP_RECV) return;
    unsigned count = ++counts[it->opcode];
    if (count % EVERY) return;
    if (!is_close && (ALWAYS_SHORT || count / EVERY % 2)) {
        it->len = is_send ? (it->len + 1) / 2 : 1;
        it->msg_flags &= (unsigned)~MSG_WAITALL;
        return;
    }
    if (is_close) left[it->file_index] = !was_linked; /* the open of a chain may fail */
    it->opcode = IORING_OP_NOP, it->rw_flags = INJECTS_RESULT, it->len = (unsigned)-ECANCELED;
    it->fd = -1, it->file_index = 0;
    it->flags &= (unsigned char)~IOSQE_FIXED_FILE;
}

static inline void spoil(struct io_uring *ring) {
    for (unsigned at = ring->sq.sqe_head; at != ring->sq.sqe_tail; at++)
        spoil_one(&ring->sq.sqes[at & ring->sq.ring_mask]);
}

#define io_uring_submit(ring) (spoil(ring), io_uring_submit(ring))
#define io_uring_submit_and_wait(ring, count) (spoil(ring), io_uring_submit_and_wait(ring, count))
