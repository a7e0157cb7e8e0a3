/* Plays, on the io_uring of the running kernel, what the author of a server with direct descriptors
 * may not expect, and prints a line for each trap: `as on Linux 6.18`, or `differs`, with what was
 * seen. Each trap has a ring and sockets of its own. All are played twice: on a ring as it is set
 * up without flags, and on one with IORING_SETUP_SINGLE_ISSUER and IORING_SETUP_DEFER_TASKRUN.
 *
 * What must not come is waited for during 150 ms. So on a machine that is stopped for longer, a
 * line may say that nothing came where something comes. */
#include <fcntl.h>
#include <pthread.h>
#include <stdarg.h>

#include "rings.h"

#ifndef IORING_SETUP_DEFER_TASKRUN
#define IORING_SETUP_DEFER_TASKRUN (1U << 13)
#endif
#ifndef IORING_SETUP_SINGLE_ISSUER
#define IORING_SETUP_SINGLE_ISSUER (1U << 12)
#endif

enum { SEEN_BYTES = 256 };

/* The user data of the requests of a row: of the first connection, of the next one, and others. */
enum { FIRST = 1, NEXT, ACCEPTS, CLOSES, CANCELS, SHUTS };

static char seen[SEEN_BYTES];

static void saw(const char *format, ...) {
	size_t length = strlen(seen);
	va_list given;
	va_start(given, format);
	vsnprintf(seen + length, sizeof seen - length, format, given);
	va_end(given);
}

/* Accepts a connection at slot 0, and returns its peer. */
static int connection(struct rig *rig) {
	int peer = dial(rig);
	accept_at(rig, 0, ACCEPTS);
	must(result_of(rig, ACCEPTS) == 0, "accept");
	return peer;
}

/* Accepts a connection at slot 0, and closes the slot while a receive is in flight. */
static int closed_connection(struct rig *rig, char *buffer) {
	int peer = connection(rig);
	receive(rig, 0, buffer, FIRST);
	close_slot(rig, 0, CLOSES);
	must(result_of(rig, CLOSES) == 0, "close");
	return peer;
}

static void close_leaves_a_receive(struct rig *rig) {
	char buffer[BUFFER_BYTES];
	int peer = connection(rig);
	receive(rig, 0, buffer, FIRST);
	close_slot(rig, 0, CLOSES);
	saw("the close answers %d", result_of(rig, CLOSES));
	saw("; the peer sees %s", sees_the_end(peer, SHORT) ? "the end" : "no end");
	saw("; the receive %s", next(rig, SHORT).is_there ? "ends" : "waits");
	close(peer);
	result_of(rig, FIRST);
}

static void closed_slot_is_free_at_once(struct rig *rig) {
	char buffer[BUFFER_BYTES];
	int peer = closed_connection(rig, buffer), other = dial(rig);
	accept_at(rig, -1, ACCEPTS);
	int slot = result_of(rig, ACCEPTS);
	saw("with the receive in flight the next accept takes %s", slot == 0 ? "the same slot" : "no such slot");
	close(peer);
	close(other);
	result_of(rig, FIRST);
}

static void old_buffer_is_written_later(struct rig *rig) {
	char buffer[BUFFER_BYTES] = "";
	int peer = closed_connection(rig, buffer);
	must(write(peer, "late", 4) == 4, "write");
	saw("after the close the receive answers %d", result_of(rig, FIRST));
	saw(", and its buffer has \"%s\"", buffer);
	saw("; then the peer sees %s", sees_the_end(peer, LONG) ? "the end" : "no end");
	close(peer);
}

/* Two connections, one after the other, have had slot 0; a receive of each is in flight. Prints
 * which of them a cancel ends: by the slot, or by the user data of the first one. */
static void cancel_in_two_lives(struct rig *rig, int is_by_slot) {
	char buffers[2][BUFFER_BYTES];
	int first = closed_connection(rig, buffers[0]), last = connection(rig);
	struct answer it;
	receive(rig, 0, buffers[1], NEXT);
	if (is_by_slot)
		cancel_at(rig, 0, CANCELS);
	else
		cancel_data(rig, FIRST, CANCELS);
	while ((it = next(rig, SHORT)).is_there)
		if (it.data == CANCELS)
			saw("the cancel answers %d; ", it.res);
		else
			saw("the receive of the %s connection answers %d; ", it.data == FIRST ? "first" : "next", it.res);
	saw("%s", "nothing else comes");
	close(first);
	close(last);
}

static void cancel_by_slot_hits_the_next(struct rig *rig) { cancel_in_two_lives(rig, 1); }

static void cancel_by_user_data_is_exact(struct rig *rig) { cancel_in_two_lives(rig, 0); }

static void shutdown_then_close_ends_it(struct rig *rig) {
	char buffer[BUFFER_BYTES];
	int peer = connection(rig);
	receive(rig, 0, buffer, FIRST);
	shut_down(rig, 0, SHUTS);
	saw("the receive answers %d", result_of(rig, FIRST));
	close_slot(rig, 0, CLOSES);
	saw(", the close %d", result_of(rig, CLOSES));
	saw("; the peer sees %s", sees_the_end(peer, LONG) ? "the end" : "no end");
	close(peer);
}

static void multishot_accept_ends_at_a_full_table(struct rig *rig) {
	int peers[3];
	accept_many(rig, ACCEPTS);
	for (int at = 0; at < 3; at++) {
		peers[at] = dial(rig);
		struct answer it = next(rig, LONG);
		saw("%s%d, %s", at ? "; " : "", it.res, it.has_more ? "more" : "the last");
	}
	saw("; the third peer sees %s", sees_the_end(peers[2], LONG) ? "the end" : "no end");
	for (int at = 0; at < 3; at++)
		close(peers[at]);
}

static void *update_elsewhere(void *rig) {
	int none = -1;
	return (void *)(intptr_t)io_uring_register_files_update(&((struct rig *)rig)->ring, 0, &none, 1);
}

static void update_by_another_thread(struct rig *rig) {
	pthread_t thread;
	void *answer;
	int peer = connection(rig);
	must(!pthread_create(&thread, NULL, update_elsewhere, rig) && !pthread_join(thread, &answer), "pthread_create");
	saw("it answers %d", (int)(intptr_t)answer);
	saw("; the peer sees %s", sees_the_end(peer, SHORT) ? "the end" : "no end");
	close(peer);
}

static void accept_over_a_tag(struct rig *rig) {
	int file = open("/dev/null", O_RDONLY);
	__u64 tag = 777;
	must(file >= 0 && io_uring_register_files_update_tag(&rig->ring, 0, &file, &tag, 1) == 1, "io_uring_register_files_update_tag");
	int peer = dial(rig);
	accept_at(rig, 0, ACCEPTS);
	int has_tag = 0;
	for (struct answer it; (it = next(rig, SHORT)).is_there;)
		has_tag |= it.data == tag;
	saw("the old file's tag %s", has_tag ? "comes" : "doesn't come");
	close_slot(rig, 0, CLOSES);
	must(result_of(rig, CLOSES) == 0, "close");
	saw("; after the close of the accepted one %s", next(rig, SHORT).is_there ? "another comes" : "none comes");
	close(peer);
	close(file);
}

static void accept_at_a_full_slot(struct rig *rig) {
	int peer = connection(rig), other = dial(rig);
	accept_at(rig, 0, ACCEPTS);
	saw("it answers %d", result_of(rig, ACCEPTS));
	saw("; the first peer sees %s", sees_the_end(peer, LONG) ? "the end" : "no end");
	close(peer);
	close(other);
}

static void close_of_an_emptied_slot(struct rig *rig) {
	int none = -1, peer = connection(rig);
	must(io_uring_register_files_update(&rig->ring, 0, &none, 1) == 1, "io_uring_register_files_update");
	close_slot(rig, 0, CLOSES);
	saw("it answers %d", result_of(rig, CLOSES));
	close_slot(rig, 0, CLOSES);
	saw("; another close %d", result_of(rig, CLOSES));
	close(peer);
}

/* Prints the completions of a zero-copy send. */
static void saw_completions(struct rig *rig, const char *of) {
	struct answer it;
	int count = 0;
	saw("%s: ", of);
	for (; (it = next(rig, SHORT)).is_there; count++)
		if (it.is_notification)
			saw("%sthe notification", count ? ", " : "");
		else
			saw("%s%d %s", count ? ", " : "", it.res, it.has_more ? "with more" : "without more");
}

static void zero_copy_send_completes_twice(struct rig *rig) {
	int peer = connection(rig);
	send_zero_copy(rig, 0, "line", 0, FIRST);
	saw_completions(rig, "sent");
	shut_down(rig, 0, SHUTS);
	must(result_of(rig, SHUTS) == 0, "shutdown");
	send_zero_copy(rig, 0, "line", 0, FIRST);
	saw_completions(rig, "; after a shutdown");
	close(peer);
}

static void canceled_zero_copy_send_says_no_more(struct rig *rig) {
	int peer = connection(rig);
	cancel_zero_copy_by_link(rig, 0, "line", 1, FIRST);
	saw_completions(rig, "canceled by its link");
	send_zero_copy(rig, 0, "line", IOSQE_CQE_SKIP_SUCCESS, FIRST);
	saw_completions(rig, "; refused");
	close(peer);
}

/* Submits a chain at slot 0: an open of a path, a read and a close, all with this link. */
static void open_read_close(struct rig *rig, const char *path, char *buffer, unsigned char link) {
	struct io_uring_sqe *sqe = io_uring_get_sqe(&rig->ring);
	io_uring_prep_openat_direct(sqe, AT_FDCWD, path, O_RDONLY, 0, 0);
	sqe->flags |= link, sqe->user_data = FIRST;
	sqe = io_uring_get_sqe(&rig->ring);
	io_uring_prep_read(sqe, 0, buffer, BUFFER_BYTES, 0);
	sqe->flags |= IOSQE_FIXED_FILE | link, sqe->user_data = NEXT;
	sqe = io_uring_get_sqe(&rig->ring);
	io_uring_prep_close(sqe, 0);
	sqe->file_index = 1, sqe->user_data = CLOSES;
	must(io_uring_submit(&rig->ring) == 3, "io_uring_submit");
}

static void canceled_close_leaves_the_file(struct rig *rig) {
	char path[] = "/tmp/traps-XXXXXX", buffer[BUFFER_BYTES];
	int file = mkstemp(path);
	must(file >= 0 && write(file, "short", 5) == 5, "a file");
	open_read_close(rig, path, buffer, IOSQE_IO_LINK);
	saw("the open answers %d", result_of(rig, FIRST));
	saw(", the read %d", result_of(rig, NEXT));
	saw(", the close %d", result_of(rig, CLOSES));
	close_slot(rig, 0, CLOSES);
	saw("; another close %d", result_of(rig, CLOSES));
	close(file);
	unlink(path);
}

static void chain_runs_after_a_failed_open(struct rig *rig) {
	char buffer[BUFFER_BYTES];
	open_read_close(rig, "/no/such/file", buffer, IOSQE_IO_HARDLINK);
	saw("by hard links the open answers %d", result_of(rig, FIRST));
	saw(", the read %d", result_of(rig, NEXT));
	saw(", the close %d", result_of(rig, CLOSES));
	open_read_close(rig, "/no/such/file", buffer, IOSQE_IO_LINK);
	saw("; by soft links %d", result_of(rig, FIRST));
	saw(", %d", result_of(rig, NEXT));
	saw(", %d", result_of(rig, CLOSES));
}

/* An open that fails, a receive at slot 1 and a close, by hard links. Before the receive ends, a
 * connection is accepted at the slot of the open. */
static void close_of_a_chain_takes_the_next_file(struct rig *rig) {
	char buffer[BUFFER_BYTES];
	int other, waits = dial(rig);
	accept_at(rig, 1, ACCEPTS);
	must(result_of(rig, ACCEPTS) == 0, "accept");
	struct io_uring_sqe *sqe = io_uring_get_sqe(&rig->ring);
	io_uring_prep_openat_direct(sqe, AT_FDCWD, "/no/such/file", O_RDONLY, 0, 0);
	sqe->flags |= IOSQE_IO_HARDLINK, sqe->user_data = FIRST;
	sqe = io_uring_get_sqe(&rig->ring);
	io_uring_prep_recv(sqe, 1, buffer, BUFFER_BYTES, 0);
	sqe->flags |= IOSQE_FIXED_FILE | IOSQE_IO_HARDLINK, sqe->user_data = NEXT;
	sqe = io_uring_get_sqe(&rig->ring);
	io_uring_prep_close(sqe, 0);
	sqe->file_index = 1, sqe->user_data = CLOSES;
	must(io_uring_submit(&rig->ring) == 3, "io_uring_submit");
	saw("the open answers %d", result_of(rig, FIRST));
	other = connection(rig);
	must(write(waits, "end", 3) == 3, "write");
	saw(", the close %d", result_of(rig, CLOSES));
	saw("; the peer accepted at the slot sees %s", sees_the_end(other, LONG) ? "the end" : "no end");
	close(waits);
	close(other);
}

/* Sends the file at a slot to slot 0 of another ring. */
static void send_file(struct rig *rig, const struct rig *target, int slot, unsigned long long data) {
	enum { SENDS_FILE = 1 };
	REQUEST(rig, data, io_uring_prep_rw(IORING_OP_MSG_RING, sqe, target->ring.ring_fd, (void *)SENDS_FILE, 0, FIRST), sqe->addr3 = (unsigned)slot,
		sqe->file_index = 1);
}

static void message_with_a_file(struct rig *rig) {
	struct rig target;
	int peer = connection(rig);
	open_rig(&target, rig->ring.flags & (IORING_SETUP_SINGLE_ISSUER | IORING_SETUP_DEFER_TASKRUN), 2);
	send_file(rig, &target, 1, NEXT);
	saw("of an empty slot it answers %d", result_of(rig, NEXT));
	saw(", and the target hears %s", next(&target, SHORT).is_there ? "of it" : "nothing");
	REQUEST(rig, NEXT, io_uring_prep_msg_ring(sqe, target.ring.ring_fd, (unsigned)-EBADF, FIRST, 0));
	must(result_of(rig, NEXT) == 0, "a message");
	saw("; after a message with the error it hears %d", result_of(&target, FIRST));
	send_file(rig, &target, 0, NEXT);
	saw("; of a connection %d", result_of(rig, NEXT));
	saw(", and at the target %d", result_of(&target, FIRST));
	close_slot(rig, 0, CLOSES);
	saw("; the source's close %d", result_of(rig, CLOSES));
	saw(", and the peer sees %s", sees_the_end(peer, SHORT) ? "the end" : "no end");
	close_rig(&target);
	close(peer);
}

static void installed_descriptor_outlives_the_close(struct rig *rig) {
	enum { FIXED_FD_INSTALL = 54 };
	int peer = connection(rig);
	REQUEST(rig, NEXT, io_uring_prep_rw(FIXED_FD_INSTALL, sqe, 0, NULL, 0, 0), sqe->flags |= IOSQE_FIXED_FILE);
	int file = result_of(rig, NEXT);
	saw("it answers %s", file >= 0 ? "a descriptor" : "an error");
	close_slot(rig, 0, CLOSES);
	saw("; the close %d", result_of(rig, CLOSES));
	saw(", and the peer sees %s", sees_the_end(peer, SHORT) ? "the end" : "no end");
	close(file);
	close(peer);
}

static void update_as_an_open(struct rig *rig) {
	int file = open("/dev/null", O_RDONLY), none = 1 << 20;
	REQUEST(rig, FIRST, io_uring_prep_files_update(sqe, &file, 1, 0));
	saw("it answers %d", result_of(rig, FIRST));
	REQUEST(rig, FIRST, io_uring_prep_files_update(sqe, &none, 1, 1));
	saw("; of a descriptor that isn't open %d", result_of(rig, FIRST));
	close(file);
}

static void accept_after_a_shutdown(struct rig *rig) {
	fcntl(rig->listener, F_SETFL, O_NONBLOCK);
	accept_at(rig, 0, ACCEPTS);
	saw("an accept of a non-blocking socket %s", next(rig, SHORT).is_there ? "ends" : "waits");
	must(!shutdown(rig->listener, SHUT_RDWR), "shutdown");
	saw("; after its shutdown it answers %d", result_of(rig, ACCEPTS));
	accept_at(rig, 0, ACCEPTS);
	saw(", and another at once %d", result_of(rig, ACCEPTS));
}

/* A trap, and what Linux 6.18 shows: on a ring without flags, and on one with a single issuer if
 * that is something else. */
struct row {
	const char *name;
	void (*play)(struct rig *);
	const char *shown, *shown_to_single;
};

#define TRAP(name, shown, shown_to_single) { #name, name, shown, shown_to_single }

static const struct row rows[] = {
	TRAP(close_leaves_a_receive, "the close answers 0; the peer sees no end; the receive waits", NULL),
	TRAP(closed_slot_is_free_at_once, "with the receive in flight the next accept takes the same slot", NULL),
	TRAP(old_buffer_is_written_later, "after the close the receive answers 4, and its buffer has \"late\"; then the peer sees the end", NULL),
	TRAP(cancel_by_slot_hits_the_next, "the cancel answers 0; the receive of the next connection answers -125; nothing else comes", NULL),
	TRAP(cancel_by_user_data_is_exact, "the cancel answers 0; the receive of the first connection answers -125; nothing else comes", NULL),
	TRAP(shutdown_then_close_ends_it, "the receive answers 0, the close 0; the peer sees the end", NULL),
	TRAP(multishot_accept_ends_at_a_full_table, "0, more; 1, more; -23, the last; the third peer sees the end", NULL),
	TRAP(update_by_another_thread, "it answers 1; the peer sees the end", "it answers -17; the peer sees no end"),
	TRAP(accept_over_a_tag, "the old file's tag comes; after the close of the accepted one none comes", NULL),
	TRAP(accept_at_a_full_slot, "it answers 0; the first peer sees the end", NULL),
	TRAP(close_of_an_emptied_slot, "it answers -9; another close -9", NULL),
	TRAP(zero_copy_send_completes_twice, "sent: 4 with more, the notification; after a shutdown: -32 with more, the notification", NULL),
	TRAP(canceled_zero_copy_send_says_no_more, "canceled by its link: -125 without more, the notification; refused: -22 without more", NULL),
	TRAP(canceled_close_leaves_the_file, "the open answers 0, the read 5, the close -125; another close 0", NULL),
	TRAP(chain_runs_after_a_failed_open, "by hard links the open answers -2, the read -9, the close -9; by soft links -2, -125, -125", NULL),
	TRAP(close_of_a_chain_takes_the_next_file, "the open answers -2, the close 0; the peer accepted at the slot sees the end", NULL),
	TRAP(message_with_a_file, "of an empty slot it answers -9, and the target hears nothing; after a message with the error it hears -9; of a connection 0, and at the target 0; the source's close 0, and the peer sees no end", NULL),
	TRAP(installed_descriptor_outlives_the_close, "it answers a descriptor; the close 0, and the peer sees no end", NULL),
	TRAP(update_as_an_open, "it answers 1; of a descriptor that isn't open -9", NULL),
	TRAP(accept_after_a_shutdown, "an accept of a non-blocking socket waits; after its shutdown it answers -22, and another at once -22", NULL),
};

/* Plays a trap, prints its line, and returns whether it differs. */
static int differs(const struct row *row, unsigned flags) {
	const char *shown = flags && row->shown_to_single ? row->shown_to_single : row->shown;
	struct rig rig;
	*seen = 0;
	open_rig(&rig, flags, 2);
	row->play(&rig);
	close_rig(&rig);
	int is_other = strcmp(seen, shown);
	printf("%s%s: %s: %s\n", row->name, flags ? ", single issuer" : "", is_other ? "differs" : "as on Linux 6.18", seen);
	return !!is_other;
}

int main(void) {
	const unsigned flags[] = { 0, IORING_SETUP_SINGLE_ISSUER | IORING_SETUP_DEFER_TASKRUN };
	int played = 0, different = 0;
	for (int at = 0; at < 2; at++) {
		struct io_uring ring;
		int error = -io_uring_queue_init(2, &ring, flags[at]);
		if (error && !at) {
			print_refused("traps", error);
			return NO_IO_URING;
		}
		if (error) {
			printf("left out: this kernel has no IORING_SETUP_DEFER_TASKRUN\n");
			break;
		}
		io_uring_queue_exit(&ring);
		for (const struct row *row = rows; row < rows + sizeof rows / sizeof *rows; row++)
			played++, different += differs(row, flags[at]);
	}
	printf("traps: %d played, %d differ from Linux 6.18\n", played, different);
	return 0;
}
