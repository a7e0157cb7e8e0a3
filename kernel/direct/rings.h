/* A ring with a table of direct descriptors, requests on it, and peers of its sockets. A call that
 * must succeed ends the program with status 1 if it fails. */
#ifndef RINGS_H
#define RINGS_H

#include <arpa/inet.h>
#include <errno.h>
#include <liburing.h>
#include <netinet/in.h>
#include <poll.h>
#include <stdio.h>
#include <stdlib.h>
#include <string.h>
#include <sys/socket.h>
#include <unistd.h>

#include "../refused.h"

enum { BUFFER_BYTES = 64, NO_IO_URING = 77, ENTRIES = 16, BACKLOG = 64 };

/* How long, in milliseconds, a program waits for what must come, and for what must not come. */
enum { LONG = 5000, SHORT = 150 };

struct rig {
	struct io_uring ring;
	int listener;
	struct sockaddr_in address;
};

/* What a completion says. `is_there` is 0 if none came in time. */
struct answer {
	int is_there, res, has_more, is_notification;
	unsigned long long data;
};

/* Ends the program with status 1 unless `holds`. */
static inline void must(int holds, const char *what) {
	if (holds)
		return;
	fprintf(stderr, "traps: %s failed\n", what);
	exit(1);
}

/* Opens a ring with these set-up flags and a sparse table, and a listening socket of 127.0.0.1. */
static inline void open_rig(struct rig *rig, unsigned flags, unsigned slots) {
	socklen_t size = sizeof rig->address;
	memset(rig, 0, sizeof *rig);
	int error = io_uring_queue_init(ENTRIES, &rig->ring, flags);
	if (!error)
		error = io_uring_register_files_sparse(&rig->ring, slots);
	if (error) {
		print_refused("traps", -error);
		exit(NO_IO_URING);
	}
	rig->address.sin_family = AF_INET;
	rig->address.sin_addr.s_addr = htonl(INADDR_LOOPBACK);
	rig->listener = socket(AF_INET, SOCK_STREAM, 0);
	must(rig->listener >= 0, "socket");
	must(!bind(rig->listener, (void *)&rig->address, size), "bind");
	must(!listen(rig->listener, BACKLOG), "listen");
	must(!getsockname(rig->listener, (void *)&rig->address, &size), "getsockname");
}

static inline void close_rig(struct rig *rig) {
	io_uring_queue_exit(&rig->ring);
	close(rig->listener);
}

/* Connects a peer to the listening socket, and returns its descriptor. */
static inline int dial(const struct rig *rig) {
	int peer = socket(AF_INET, SOCK_STREAM, 0);
	must(peer >= 0 && !connect(peer, (const void *)&rig->address, sizeof rig->address), "connect");
	return peer;
}

/* Checks whether a peer reads the end of its connection within `milliseconds`. */
static inline int sees_the_end(int peer, int milliseconds) {
	struct pollfd polled = { peer, POLLIN, 0 };
	char byte;
	return poll(&polled, 1, milliseconds) > 0 && recv(peer, &byte, 1, MSG_DONTWAIT) <= 0;
}

static inline void submit(struct rig *rig, struct io_uring_sqe *sqe, unsigned long long data) {
	sqe->user_data = data;
	must(io_uring_submit(&rig->ring) == 1, "io_uring_submit");
}

/* Submits one request with this user data, which the statement prepares as `sqe`. */
#define REQUEST(rig, data, ...) \
	do { \
		struct io_uring_sqe *sqe = io_uring_get_sqe(&(rig)->ring); \
		__VA_ARGS__; \
		submit(rig, sqe, data); \
	} while (0)

/* A slot below 0 leaves the choice to the kernel. */
static inline void accept_at(struct rig *rig, int slot, unsigned long long data) {
	REQUEST(rig, data, io_uring_prep_accept(sqe, rig->listener, NULL, NULL, 0),
		sqe->file_index = slot < 0 ? IORING_FILE_INDEX_ALLOC : (unsigned)slot + 1);
}

static inline void accept_many(struct rig *rig, unsigned long long data) {
	REQUEST(rig, data, io_uring_prep_multishot_accept_direct(sqe, rig->listener, NULL, NULL, 0));
}

static inline void receive(struct rig *rig, int slot, char *buffer, unsigned long long data) {
	REQUEST(rig, data, io_uring_prep_recv(sqe, slot, buffer, BUFFER_BYTES, 0), sqe->flags |= IOSQE_FIXED_FILE);
}

static inline void shut_down(struct rig *rig, int slot, unsigned long long data) {
	REQUEST(rig, data, io_uring_prep_shutdown(sqe, slot, SHUT_RDWR), sqe->flags |= IOSQE_FIXED_FILE);
}

static inline void close_slot(struct rig *rig, int slot, unsigned long long data) {
	REQUEST(rig, data, io_uring_prep_close(sqe, 0), sqe->file_index = (unsigned)slot + 1);
}

static inline void cancel_at(struct rig *rig, int slot, unsigned long long data) {
	REQUEST(rig, data, io_uring_prep_cancel_fd(sqe, slot, IORING_ASYNC_CANCEL_FD_FIXED));
}

static inline void cancel_data(struct rig *rig, unsigned long long which, unsigned long long data) {
	REQUEST(rig, data, io_uring_prep_cancel64(sqe, which, 0));
}

/* Returns the next completion that comes within `milliseconds`. */
static inline struct answer next(struct rig *rig, int milliseconds) {
	struct __kernel_timespec time = { milliseconds / 1000, milliseconds % 1000 * 1000000L };
	struct io_uring_cqe *cqe;
	int error = io_uring_wait_cqe_timeout(&rig->ring, &cqe, &time);
	if (error == -ETIME)
		return (struct answer){ 0 };
	must(!error, "io_uring_wait_cqe_timeout");
	struct answer it = { 1, cqe->res, !!(cqe->flags & IORING_CQE_F_MORE), !!(cqe->flags & IORING_CQE_F_NOTIF), cqe->user_data };
	io_uring_cqe_seen(&rig->ring, cqe);
	return it;
}

/* Waits long for the completion with this user data, drops others, and returns its result. */
static inline int result_of(struct rig *rig, unsigned long long data) {
	struct answer it;
	do {
		it = next(rig, LONG);
		must(it.is_there, "waiting for a completion");
	} while (it.data != data);
	return it.res;
}

static inline struct io_uring_sqe *prepared_zero_copy(struct rig *rig, int slot, const char *text) {
	struct io_uring_sqe *sqe = io_uring_get_sqe(&rig->ring);
	io_uring_prep_send_zc(sqe, slot, text, strlen(text), MSG_WAITALL | MSG_NOSIGNAL, 0);
	sqe->flags |= IOSQE_FIXED_FILE;
	return sqe;
}

static inline void send_zero_copy(struct rig *rig, int slot, const char *text, unsigned more_flags, unsigned long long data) {
	struct io_uring_sqe *sqe = prepared_zero_copy(rig, slot, text);
	sqe->flags |= more_flags;
	submit(rig, sqe, data);
}

/* Submits a read at an empty slot, and a zero-copy send that is linked to it, which is canceled. */
static inline void cancel_zero_copy_by_link(struct rig *rig, int slot, const char *text, int empty_slot, unsigned long long data) {
	char byte;
	struct io_uring_sqe *sqe = io_uring_get_sqe(&rig->ring);
	io_uring_prep_read(sqe, empty_slot, &byte, 1, 0);
	sqe->flags |= IOSQE_FIXED_FILE | IOSQE_IO_LINK;
	sqe->user_data = data + 1;
	sqe = prepared_zero_copy(rig, slot, text);
	sqe->user_data = data;
	must(io_uring_submit(&rig->ring) == 2, "io_uring_submit");
	must(result_of(rig, data + 1) == -EBADF, "a read at an empty slot");
}

#endif
