/* Plays random chains on the io_uring of the running kernel without waiting for them, and writes a
 * log of docs/inside/FLIGHT.md.
 *
 *   record SEED [--chains N] [--pipes]
 *
 * One thread submits chains while at most three of them are in flight, reaps completions and reads
 * inotify(7) events. Each request has IOSQE_ASYNC. A second thread makes three calls of
 * io_uring_register_files_update_tag(3), some of them with tags. With --pipes the files are named
 * pipes, and each chain is one request: a read waits until the first thread feeds its pipe.
 *
 * At the end an update empties all slots. A `call` line is appended before its system call, and a
 * `done` line after its answer was seen. So a call whose answer was seen before another call began
 * has its line before that call's. */
#define _GNU_SOURCE
#include <errno.h>
#include <fcntl.h>
#include <liburing.h>
#include <pthread.h>
#include <stdio.h>
#include <stdlib.h>
#include <string.h>
#include <unistd.h>

#include "../events.h"
#include "../refused.h"
#include "../script.h"
#include "links.h"

enum { BAD_ARGUMENT = 2, NO_IO_URING = 77, ENTRIES = 256, MOST_OPEN = 3, UPDATES = 3, TURN_MICROSECONDS = 200, IDLE = 50 };
enum { SLOTS = 3, LONGEST_CHAIN = 3, LONGEST_LIST = SLOTS, LONGEST_READ = 3, LINE_BYTES = 1024, PLACE_BITS = 4 };

/* A completion's user data: the call and the member, or with this bit a tag: the call and the place
 * in its list. */
#define TAG_BIT (1ull << 62)

/* A list of an update: entries of the catalogue, -1 or -2, and descriptors of this process. */
struct list {
	int slot, count;
	int entries[LONGEST_LIST], descriptors[LONGEST_LIST];
};

struct member {
	struct member_name name;
	int is_read, is_update;
	unsigned char buffer[LONGEST_READ];
	char path[PATH_BYTES];	/* of an open */
	struct list list;	/* of an update */
};

struct chain {
	int count, left;
	struct member members[LONGEST_CHAIN];
};

static struct io_uring ring;
static struct { int chains, pipes; } options = { .chains = 6 };
static int last_call = 1;	/* 1 is the registration of the table */
static struct chain **chains;
static int in_flight, in_table;
static volatile int updater_has_ended;

static void open_entry(struct list *list, struct member_name of, int at) {
	char path[PATH_BYTES];
	make_link(path, of, at, list->entries[at]);
	list->descriptors[at] = open_link(path);
}

/* Makes a random list for a member, opens its files, and writes the words `SLOT LIST`. */
static void fill_list(struct list *list, struct member_name of, char *text) {
	list->count = 1 + (int)below(LONGEST_LIST);
	list->slot = (int)below(SLOTS - list->count + 1);
	int size = sprintf(text, "%d ", list->slot);
	for (int at = 0; at < list->count; at++) {
		int entry = (int)below(4) - 2;
		list->entries[at] = list->descriptors[at] = entry >= 0 ? pick_entry() : entry;
		if (list->entries[at] >= 0)
			open_entry(list, of, at);
		size += sprintf(text + size, "%s%d", at ? "," : "", list->entries[at]);
	}
}

static unsigned long long data_of(int call, int place) { return (unsigned long long)call << PLACE_BITS | (unsigned)place; }

static void close_list(struct list *list) {
	for (int at = 0; at < list->count; at++)
		if (list->descriptors[at] >= 0)
			close(list->descriptors[at]);
}

static void prepare_open(struct io_uring_sqe *sqe, struct member *it, int slot, char *text) {
	int entry = (int)below(FILES);
	make_link(it->path, it->name, 0, entry);
	io_uring_prep_openat(sqe, links_folder(), it->path, O_RDONLY, 0);
	sqe->file_index = slot < 0 ? IORING_FILE_INDEX_ALLOC : (unsigned)slot + 1;
	if (slot < 0)
		sprintf(text, "open %s any", name_of(entry));
	else
		sprintf(text, "open %s at %d", name_of(entry), slot);
}

static void prepare_read(struct io_uring_sqe *sqe, struct member *it, int slot, char *text) {
	unsigned size = options.pipes ? 1 : 1 + below(LONGEST_READ);
	it->is_read = 1;
	io_uring_prep_read(sqe, slot, it->buffer, size, options.pipes ? -1 : 0);
	sqe->flags |= IOSQE_FIXED_FILE;
	sprintf(text, "read %d 0 %u", slot, size);
}

static void prepare_update(struct io_uring_sqe *sqe, struct member *it, char *text) {
	it->is_update = 1;
	memcpy(text, "update ", 8);
	fill_list(&it->list, it->name, text + 7);
	io_uring_prep_files_update(sqe, it->list.descriptors, it->list.count, it->list.slot);
}

/* One slot in eight may be the one past the table's end. A pipe is opened for lists alone, since an
 * open of a pipe may wait. */
static void prepare(struct io_uring_sqe *sqe, struct member *it, char *text) {
	int slot = (int)below(SLOTS + !below(8));
	char kind = options.pipes ? "rrrucr"[below(6)] : "oorrruca"[below(8)];
	if (kind == 'r') {
		prepare_read(sqe, it, slot, text);
	} else if (kind == 'u') {
		prepare_update(sqe, it, text);
	} else if (kind == 'c') {
		io_uring_prep_close(sqe, 0);
		sqe->file_index = (unsigned)slot + 1;
		sprintf(text, "close %d", slot);
	} else {
		prepare_open(sqe, it, kind == 'a' ? -1 : slot, text);
	}
}

/* Prepares the requests of a random chain, or with --pipes one request, and writes its words. */
static struct chain *prepare_chain(int call, char *text) {
	struct chain *chain = memory_of(sizeof *chain);
	char words[LINE_BYTES];
	*text = 0;
	chain->count = chain->left = options.pipes ? 1 : 1 + (int)below(LONGEST_CHAIN);
	for (int at = 0; at < chain->count; at++) {
		struct io_uring_sqe *sqe = io_uring_get_sqe(&ring);
		struct member *it = &chain->members[at];
		it->name = (struct member_name){ call, at + 1 };
		prepare(sqe, it, words);
		strcat(text, words);
		if (at + 1 < chain->count) {
			int is_hard = !below(3);
			sqe->flags |= is_hard ? IOSQE_IO_HARDLINK : IOSQE_IO_LINK;
			strcat(text, is_hard ? " hardlink ; " : " link ; ");
		}
		sqe->flags |= IOSQE_ASYNC;
		sqe->user_data = data_of(call, at + 1);
	}
	return chain;
}

/* Appends the answer of a member, from 1 on. Returns 1 if it was the chain's last one, else 0. */
static int finish_member(struct chain *chain, unsigned member, int res) {
	struct member *it = &chain->members[member - 1];
	char bytes[2 * LONGEST_READ + 2] = "";
	for (int at = 0; it->is_read && at < res; at++)
		sprintf(bytes + 2 * at, "%02x", it->buffer[at]);
	if (res < 0)
		leave_out_closes(it->name);
	append("done %d.%d %d%s%s", it->name.call, it->name.member, res, *bytes ? " " : "", bytes);
	if (it->is_update)
		close_list(&it->list);
	return --chain->left == 0;
}

static int next_call(void) { return __atomic_add_fetch(&last_call, 1, __ATOMIC_SEQ_CST); }

/* Submits the chain of a call, which is prepared and has these words. */
static void submit(int call, const char *text) {
	append("call %d %s", call, text);
	int submitted = io_uring_submit(&ring);
	errno = submitted < 0 ? -submitted : 0;
	if (submitted != chains[call]->count)
		die("the kernel did not take a chain");
	in_flight++;
}

static void start_chain(void) {
	int call = next_call();
	char text[LINE_BYTES];
	chains[call] = prepare_chain(call, text);
	submit(call, text);
}

/* Reaps all completions that are there. */
static void reap(void) {
	struct io_uring_cqe *cqe;
	while (!io_uring_peek_cqe(&ring, &cqe)) {
		unsigned long long data = cqe->user_data;
		int res = cqe->res;
		io_uring_cqe_seen(&ring, cqe);
		if (data & TAG_BIT)
			append("tag %llu.1.%llu", (data & ~TAG_BIT) >> PLACE_BITS, data % (1 << PLACE_BITS));
		else
			in_flight -= finish_member(chains[data >> PLACE_BITS], data % (1 << PLACE_BITS), res);
	}
}

/* Makes an update of the ring with the words `SLOT LIST`, and appends its lines. `tags` may be
 * NULL. */
static void update(int call, const char *words, int slot, int count, const int *files, const __u64 *tags) {
	append("call %d regupdate %s", call, words);
	int res = tags ? io_uring_register_files_update_tag(&ring, slot, files, tags, count)
		: io_uring_register_files_update(&ring, slot, files, count);
	if (res < 0)
		leave_out_closes((struct member_name){ call, 1 });
	append("done %d.1 %d", call, res);
}

static void update_table(void) {
	char text[LINE_BYTES];
	__u64 tags[LONGEST_LIST] = { 0 };
	struct list list;
	struct member_name of = { next_call(), 1 };
	fill_list(&list, of, text);
	for (int at = 0; at < list.count; at++)
		if (list.entries[at] >= 0 && below(2))
			tags[at] = TAG_BIT | data_of(of.call, at);
	update(of.call, text, list.slot, list.count, list.descriptors, tags);
	close_list(&list);
}

static void *make_updates(void *seed) {
	seed_random(*(int *)seed * 77ull + 5);
	for (int at = 0; at < UPDATES; at++) {
		update_table();
		if (below(3))
			usleep(below(TURN_MICROSECONDS));
	}
	updater_has_ended = 1;
	return NULL;
}

static void count_file(const char *link) {
	(void)link;
	in_table++;
}

static int is_settled(int number) {
	read_closes(reap);
	in_table = 0;
	return read_table(number, count_file) && in_table == open_count();
}

/* Waits until each opened file is in the table or closed. No call is open. */
static void settle(void) {
	wait_until(is_settled, ring.ring_fd);
	read_closes(reap);
	append("settled");
}

static void play(void) {
	int left = options.chains, idle = 0;
	while (left || in_flight || !updater_has_ended) {
		int before = in_flight;
		read_closes(reap);
		idle = in_flight < before ? 0 : idle + 1;
		if (left && in_flight < MOST_OPEN && below(3)) {
			start_chain();
			left--;
		} else if (!below(4)) {
			usleep(below(TURN_MICROSECONDS / 2));
		}
		if (options.pipes && (!below(6) || idle > IDLE))
			feed_a_pipe();
	}
}

/* Empties all slots by an update of the ring. */
static void empty_table(void) {
	int none[SLOTS] = { -1, -1, -1 };
	update(next_call(), "0 -1,-1,-1", 0, SLOTS, none, NULL);
}

static void play_beside_updates(int *seed) {
	pthread_t updater;
	if (pthread_create(&updater, NULL, make_updates, seed))
		die_of("no thread");
	play();
	pthread_join(updater, NULL);
}

/* Reads the arguments and returns the seed. */
static int read_options(int count, char **words) {
	int at = 2;
	for (; at < count; at++) {
		if (!strcmp(words[at], "--pipes"))
			options.pipes = 1;
		else if (!strcmp(words[at], "--chains") && at + 1 < count)
			options.chains = atoi(words[++at]);
		else
			break;
	}
	if (count < 2 || at < count) {
		fprintf(stderr, "record: the arguments are SEED [--chains N] [--pipes]\n");
		exit(BAD_ARGUMENT);
	}
	return atoi(words[1]);
}

int main(int count, char **words) {
	int seed = read_options(count, words);
	seed_random(seed);
	chains = memory_of((options.chains + UPDATES + 3) * sizeof *chains);
	int error = -io_uring_queue_init(ENTRIES, &ring, IORING_SETUP_SUBMIT_ALL);
	if (error) {
		print_refused("record", error);
		return NO_IO_URING;
	}
	if (!make_catalogue(options.pipes)) {
		fprintf(stderr, "record: inotify is refused: %s\n", strerror(errno));
		return NO_IO_URING;
	}
	append("call 1 sparse %d", SLOTS);
	append("done 1.1 %d", io_uring_register_files_sparse(&ring, SLOTS));
	play_beside_updates(&seed);
	settle();
	empty_table();
	settle();
	write_catalogue();
	write_log();
	return 0;
}
