#define _GNU_SOURCE
#include "links.h"

#include <fcntl.h>
#include <pthread.h>
#include <stdarg.h>
#include <stdio.h>
#include <string.h>
#include <sys/ioctl.h>
#include <sys/stat.h>
#include <unistd.h>

#include "../events.h"
#include "../script.h"

enum { NAME_BYTES = 16, MOST_FED = 255 };

static int with_pipes;
static pthread_mutex_t lock = PTHREAD_MUTEX_INITIALIZER;	/* of the pipes */
static int pipe_count, pipes[MOST_PIPES];
static unsigned fed;
static int opened, closed;
static struct { char name[PATH_BYTES]; } *seen;	/* the links whose closes have no line yet */
static size_t seen_count, seen_room;
static const char *contents[FILES] = { "a", "bb", "ccc", "dddd" };
static _Thread_local unsigned long long state;

struct line {
	char *text;
	struct member_name of;	/* of a close; else the call is 0 */
};

static pthread_mutex_t lines_lock = PTHREAD_MUTEX_INITIALIZER;
static struct line *lines;
static size_t line_count, line_room;
static struct member_name *left_out;
static size_t left_out_count, left_out_room;

void append_close(struct member_name of, const char *format, ...) {
	char *text;
	va_list words;
	va_start(words, format);
	if (vasprintf(&text, format, words) < 0)
		die_of("out of memory");
	va_end(words);
	pthread_mutex_lock(&lines_lock);
	lines = with_room(lines, line_count, &line_room, sizeof *lines);
	lines[line_count++] = (struct line){ .text = text, .of = of };
	pthread_mutex_unlock(&lines_lock);
}

void leave_out_closes(struct member_name of) {
	pthread_mutex_lock(&lines_lock);
	left_out = with_room(left_out, left_out_count, &left_out_room, sizeof *left_out);
	left_out[left_out_count++] = of;
	pthread_mutex_unlock(&lines_lock);
}

static int is_left_out(struct member_name of) {
	for (size_t at = 0; of.call && at < left_out_count; at++)
		if (left_out[at].call == of.call && left_out[at].member == of.member)
			return 1;
	return 0;
}

void write_log(void) {
	for (size_t at = 0; at < line_count; at++)
		if (!is_left_out(lines[at].of))
			puts(lines[at].text);
}

void seed_random(unsigned long long seed) { state = seed * 2654435761u + 1; }

unsigned below(unsigned most) {
	state = state * 6364136223846793005u + 1442695040888963407u;
	return (unsigned)(state >> 33) % most;
}

const char *name_of(int entry) {
	static _Thread_local char name[NAME_BYTES];
	if (with_pipes)
		snprintf(name, sizeof name, "p%d", entry);
	else
		snprintf(name, sizeof name, "%c", 'a' + entry);
	return name;
}

int make_catalogue(int pipes) {
	with_pipes = pipes;
	if (!make_folders("record-in-flight"))
		return 0;
	for (int entry = 0; !pipes && entry < FILES; entry++)
		make_file(name_of(entry), contents[entry], strlen(contents[entry]));
	return 1;
}

/* Opens its pipe for reading too, so that no open and no write waits. */
static int new_pipe(void) {
	if (pipe_count == MOST_PIPES)
		return -1;
	const char *name = name_of(pipe_count);
	if (mkfifoat(catalogue_folder(), name, 0600))
		die("a pipe");
	pipes[pipe_count] = openat(catalogue_folder(), name, O_RDWR | O_CLOEXEC);
	if (pipes[pipe_count] < 0)
		die("a pipe");
	return pipe_count++;
}

int pick_entry(void) {
	if (!with_pipes)
		return (int)below(FILES);
	pthread_mutex_lock(&lock);
	int entry = new_pipe();
	pthread_mutex_unlock(&lock);
	return entry;
}

void make_link(char path[PATH_BYTES], struct member_name of, int in_list, int entry) {
	snprintf(path, PATH_BYTES, "%d.%d.%d_%s", of.call, of.member, in_list, name_of(entry));
	link_file(name_of(entry), path);
}

/* Keeps the name of a close until its line is appended. */
static void note_event(const struct inotify_event *event) {
	if (!strchr(event->name, '_'))
		return;
	opened += (event->mask & IN_OPEN) != 0;
	if (!(event->mask & IN_CLOSE))
		return;
	closed++;
	seen = with_room(seen, seen_count, &seen_room, sizeof *seen);
	snprintf(seen[seen_count++].name, PATH_BYTES, "%s", event->name);
}

void read_closes(void (*reap)(void)) {
	read_events(note_event);
	reap();
	for (size_t at = 0; at < seen_count; at++) {
		struct member_name of;
		const char *link = seen[at].name, *name = strchr(link, '_');
		if (sscanf(link, "%d.%d", &of.call, &of.member) != 2)
			die_of("a link that was not made here");
		append_close(of, "closed %.*s %s", (int)(name - link), link, name + 1);
		remove_link(link);
	}
	seen_count = 0;
}

int open_count(void) { return opened - closed; }

void feed_a_pipe(void) {
	pthread_mutex_lock(&lock);
	int entry = pipe_count ? (int)below(pipe_count) : 0, unread = 1;
	/* a byte that nobody has read yet is enough: so as many bytes are fed as are read, and one more
	 * for each pipe */
	if (pipe_count && ioctl(pipes[entry], FIONREAD, &unread))
		die("the size of a pipe");
	if (!unread) {
		unsigned char byte = (unsigned char)++fed;
		if (fed > MOST_FED)
			die_of("more than 255 bytes for pipes");
		append("fed %s %02x", name_of(entry), byte);
		if (write(pipes[entry], &byte, 1) != 1)
			die("a byte for a pipe");
	}
	pthread_mutex_unlock(&lock);
}

void write_catalogue(void) {
	for (int entry = 0; !with_pipes && entry < FILES; entry++) {
		printf("file %s ", name_of(entry));
		for (const char *at = contents[entry]; *at; at++)
			printf("%02x", *at);
		putchar('\n');
	}
	for (int entry = 0; entry < pipe_count; entry++)
		printf("pipe %s\n", name_of(entry));
}
