/* Plays a script of docs/use/SCRIPT.md on the io_uring of the running kernel, and writes the text
 * that fixfiles writes.
 *
 * Each line is the real call or request with its real flags, and all requests of a `submit` go to
 * the kernel by one io_uring_enter(2). By IORING_SETUP_SUBMIT_ALL a request that can't be submitted
 * doesn't end the submission. Nothing is counted or refused: the text has the kernel's answers.
 *
 * How closes are observed: a catalogue entry is a file in a new folder. For each installation (an
 * open, or a file in a list) the kernel gets a hard link of its own. inotify(7) watches the links'
 * folder, so an event IN_CLOSE says that the kernel has released the last use of that open file.
 * The kernel's list in /proc/self/fdinfo says which files are in the table. After each command the
 * program waits until every opened file is in that list or closed, and writes the closed lines.
 *
 * A file of a list is first a descriptor of this process, as io_uring_register(2) requires, and is
 * closed when the command or the submission has ended. It has a closed line only if the kernel's
 * result says that the kernel took it.
 *
 * How tags are observed: the kernel posts a completion for a tag. Once the closes are there, the
 * program waits at most a second for one for each closed file with a tag. It writes the tags in the
 * order of the closed files' marks, and then any others, which no text of the model has. So a tag
 * and the close that inotify saw are two witnesses. At the end the table is unregistered before the
 * ring is closed, since a closed ring can't post a tag. No tag of the script is the user data of a
 * request.
 *
 * With --async a thread of the kernel starts each request (IOSQE_ASYNC), so that chains run
 * concurrently. Without it a kernel runs the first requests of all chains in their order.
 *
 * What can't be observed: when within a command a file was closed, in which order, and by whom; who
 * holds it meanwhile; and whether an open was started that failed before it opened its file. A file
 * that is opened and closed without having been in the table has a closed line like any other,
 * since the kernel did close it. */
#include <errno.h>
#include <fcntl.h>
#include <limits.h>
#include <signal.h>
#include <stdio.h>
#include <stdlib.h>
#include <string.h>
#include <sys/resource.h>

#include "events.h"
#include "files.h"
#include "refused.h"

enum { BAD_SCRIPT = 3, NO_IO_URING = 77, UNSAID = 78, LEAST_ROOM = 256 };

struct play {
	struct io_uring ring;
	struct script script;
	const struct command **requests;	/* since the last submit */
	unsigned request_count;
	unsigned submissions, registrations;	/* the accepted ones */
};

/* A list of the script as descriptors of this process, opened for it. */
struct descriptors {
	int *numbers;
	size_t *installations;	/* of the entries that are files of the catalogue */
	const struct command *command;
};

/* A request, its place, and what it needs until it has completed. */
struct member {
	const struct command *request;
	unsigned chain, place;
	int res;
	unsigned char *buffer;		/* of a read */
	char path[NAME_BYTES];		/* of an open */
	struct descriptors list;	/* of an update */
};

/* Opens a list of the script. -1 and -2 mean the same to the kernel as in a script, and entries
 * below them are invalid in both. A number past the catalogue is replaced by one that is not a
 * descriptor of this process. `mark` is the first entry's. */
static struct descriptors open_list(const struct script *script, const struct command *command, struct mark mark) {
	struct descriptors list = { .command = command };
	unsigned *place = &mark.numbers[mark.is_registered ? 1 : 3];
	list.numbers = memory_of(command->length * sizeof(int));
	list.installations = memory_of(command->length * sizeof(size_t));
	for (unsigned at = 0; at < command->length; at++) {
		int entry = command->list[at];
		list.numbers[at] = entry < 0 ? entry : INT_MAX;
		*place = at;
		if (entry >= 0 && entry < (int)script->file_count) {
			list.installations[at] = add_installation(mark, entry, command->tags ? command->tags[at] : 0);
			list.numbers[at] = open_descriptor(list.installations[at]);
		}
	}
	return list;
}

/* Closes what `open_list` opened. The kernel took the first `taken` entries. */
static void close_list(struct descriptors *list, unsigned taken) {
	for (unsigned at = 0; at < list->command->length; at++)
		if (list->numbers[at] >= 0 && list->numbers[at] != INT_MAX)
			close_descriptor(list->installations[at], at < taken);
	free(list->numbers);
	free(list->installations);
}

static unsigned more_flags;	/* of each request */

static void prepare_open(struct io_uring_sqe *sqe, const struct script *script, struct member *it, unsigned submission) {
	struct mark mark = { .numbers = { submission, it->chain, it->place, 0 } };
	write_name(add_installation(mark, entry_of(script, it->request->name), 0), it->path);
	io_uring_prep_openat(sqe, links_folder(), it->path, O_RDONLY, 0);
	sqe->file_index = it->request->kind == OPEN ? it->request->numbers[0] + 1 : IORING_FILE_INDEX_ALLOC;
}

static void prepare_read(struct io_uring_sqe *sqe, struct member *it) {
	const unsigned *numbers = it->request->numbers;
	it->buffer = memory_of(numbers[2]);
	io_uring_prep_read(sqe, numbers[0], it->buffer, numbers[2], numbers[1]);
	sqe->flags |= IOSQE_FIXED_FILE;
}

static void prepare(struct io_uring *ring, const struct script *script, struct member *it, unsigned submission,
		    unsigned long long data) {
	struct io_uring_sqe *sqe = io_uring_get_sqe(ring);
	const struct command *request = it->request;
	if (request->kind == READ) {
		prepare_read(sqe, it);
	} else if (request->kind == CLOSE) {
		io_uring_prep_close(sqe, 0);
		sqe->file_index = request->numbers[0] + 1;
	} else if (request->kind == UPDATE) {
		struct mark mark = { .numbers = { submission, it->chain, it->place, 0 } };
		it->list = open_list(script, request, mark);
		io_uring_prep_files_update(sqe, it->list.numbers, request->length, request->numbers[0]);
	} else {
		prepare_open(sqe, script, it, submission);
	}
	if (request->link == SOFT_LINK)
		sqe->flags |= IOSQE_IO_LINK;
	else if (request->link == HARD_LINK)
		sqe->flags |= IOSQE_IO_HARDLINK;
	sqe->flags |= more_flags;
	sqe->user_data = data;
}

static void submit(struct io_uring *ring, unsigned count) {
	int submitted = count ? io_uring_submit(ring) : 0;
	errno = submitted < 0 ? -submitted : 0;
	if (errno)
		die("the submission");
	if (submitted != (int)count)
		die_of("the kernel took a part of the submission");
}

/* Waits for the completions of all requests. A completion with other user data has a tag. */
static void wait_for_all(struct io_uring *ring, struct member *members, unsigned count, unsigned long long first_data) {
	struct io_uring_cqe *cqe;
	for (unsigned left = count; left;) {
		errno = -io_uring_wait_cqe(ring, &cqe);
		if (errno)
			die("waiting for a completion");
		if (cqe->user_data - first_data < count) {
			members[cqe->user_data - first_data].res = cqe->res;
			left--;
		} else {
			keep_tag(cqe);
		}
		io_uring_cqe_seen(ring, cqe);
	}
}

static void write_member(struct member *it, unsigned submission) {
	printf("%u.%u.%u %d", submission, it->chain, it->place, it->res);
	if (it->request->kind == READ && it->res > 0) {
		putchar(' ');
		for (int at = 0; at < it->res; at++)
			printf("%02x", it->buffer[at]);
	}
	putchar('\n');
	free(it->buffer);
	if (it->request->kind == UPDATE)
		close_list(&it->list, it->res > 0 ? it->res : 0);
}

/* Submits the requests, waits for all of them, and writes their lines, with `number` as that of the
 * submission. */
static void play_submission(struct io_uring *ring, const struct script *script, const struct command **requests,
			    unsigned count, unsigned number) {
	struct member *members = memory_of(count * sizeof *members);
	unsigned chain = 1, place = 1;
	for (unsigned at = 0; at < count; at++) {
		members[at] = (struct member){ .request = requests[at], .chain = chain, .place = place };
		prepare(ring, script, &members[at], number, script->first_data + at);
		int is_last = requests[at]->link == NO_LINK;
		place = is_last ? 1 : place + 1;
		chain += is_last;
	}
	submit(ring, count);
	wait_for_all(ring, members, count, script->first_data);
	for (unsigned at = 0; at < count; at++)
		write_member(&members[at], number);
	free(members);
}

static unsigned largest_submission(const struct script *script) {
	unsigned largest = 1, requests = 0;
	for (size_t at = 0; at < script->command_count; at++) {
		enum kind kind = script->commands[at].kind;
		requests = kind == SUBMIT ? 0 : requests + (kind >= OPEN);
		largest = requests > largest ? requests : largest;
	}
	return largest;
}

/* Raises the limit of open files as far as it goes, since the kernel compares the size of a table
 * with it. */
static void raise_limit(void) {
	struct rlimit limit;
	if (getrlimit(RLIMIT_NOFILE, &limit))
		die("the limit of open files");
	limit.rlim_cur = limit.rlim_max;
	if (setrlimit(RLIMIT_NOFILE, &limit))
		die("the limit of open files");
}

static void open_ring(struct play *play) {
	unsigned entries = largest_submission(&play->script);
	if (entries > MOST_REQUESTS)
		die_of("a ring has at most 32,768 requests");
	/* room for the tags of a whole table */
	if (entries < LEAST_ROOM)
		entries = LEAST_ROOM;
	int error = -io_uring_queue_init(entries, &play->ring, IORING_SETUP_SUBMIT_ALL);
	if (error) {
		print_refused("play-on-kernel", error);
		exit(NO_IO_URING);
	}
	if (!open_files(&play->script)) {
		fprintf(stderr, "play-on-kernel: inotify is refused: %s\n", strerror(errno));
		exit(NO_IO_URING);
	}
}

static void write_answer(const char *word, int answer) { printf("%s %d\n", word, answer); }

static int play_call(struct play *play, const struct command *command, const int *list) {
	const __u64 *tags = (const __u64 *)command->tags;
	if (command->kind == REGISTER && tags)
		return io_uring_register_files_tags(&play->ring, list, tags, command->length);
	if (command->kind == REGISTER)
		return io_uring_register_files(&play->ring, list, command->length);
	if (tags)
		return io_uring_register_files_update_tag(&play->ring, command->numbers[0], list, tags, command->length);
	return io_uring_register_files_update(&play->ring, command->numbers[0], list, command->length);
}

/* Ends a play whose list and tags have different lengths: the kernel's call has one length for
 * both. */
static void end_unsaid(void) {
	fprintf(stderr, "play-on-kernel: the tags and the list have different lengths, and the kernel's call has one\n");
	exit(UNSAID);
}

/* Plays `register` or `regupdate`. */
static void play_list(struct play *play, const struct command *command, const char *word) {
	if (command->tags && command->tag_count != command->length)
		end_unsaid();
	struct mark mark = { .is_registered = 1, .numbers = { play->registrations + 1 } };
	struct descriptors list = open_list(&play->script, command, mark);
	int answer = play_call(play, command, list.numbers);
	play->registrations += answer >= 0;
	unsigned taken = command->kind == REGISTER ? command->length : (unsigned)answer;
	close_list(&list, answer < 0 ? 0 : taken);
	write_answer(word, answer);
}

static void play_requests(struct play *play) {
	play_submission(&play->ring, &play->script, play->requests, play->request_count, ++play->submissions);
	play->request_count = 0;
}

static void play_command(struct play *play, const struct command *command) {
	const unsigned *numbers = command->numbers;
	struct io_uring *ring = &play->ring;
	switch (command->kind) {
	case SPARSE: return write_answer("sparse", io_uring_register_files_sparse(ring, numbers[0]));
	case UNREGISTER: return write_answer("unregister", io_uring_unregister_files(ring));
	case RANGE: return write_answer("range", io_uring_register_file_alloc_range(ring, numbers[0], numbers[1]));
	case REGISTER: return play_list(play, command, "register");
	case REGUPDATE: return play_list(play, command, "regupdate");
	default: play_requests(play);
	}
}

static void play_script(struct play *play) {
	play->requests = memory_of(largest_submission(&play->script) * sizeof *play->requests);
	for (size_t at = 0; at < play->script.command_count; at++) {
		const struct command *command = &play->script.commands[at];
		if (command->kind >= OPEN) {
			play->requests[play->request_count++] = command;
			continue;
		}
		play_command(play, command);
		settle(play->ring.ring_fd);
		wait_for_tags(&play->ring, tags_to_come());
		write_closes(&play->script);
	}
	free(play->requests);
}

int main(int count, char **words) {
	static struct play play;
	for (int at = 1; at < count; at++)
		if (!strcmp(words[at], "--async"))
			more_flags = IOSQE_ASYNC;
	if (!read_script(&play.script)) {
		fprintf(stderr, "play-on-kernel: line %ld: not in the language\n", play.script.bad_line);
		return BAD_SCRIPT;
	}
	/* so that the folder is removed even if nobody reads the text any more */
	signal(SIGPIPE, SIG_IGN);
	raise_limit();
	open_ring(&play);
	play_script(&play);
	if (is_any_open())
		puts("teardown");
	/* a closed ring can't post a tag */
	io_uring_unregister_files(&play.ring);
	settle(play.ring.ring_fd);
	wait_for_tags(&play.ring, tags_to_come());
	write_closes(&play.script);
	io_uring_queue_exit(&play.ring);
	settle(-1);
	write_closes(&play.script);
	if (fflush(stdout))
		die("write failed");
	return 0;
}
