#include "files.h"

#include "events.h"

#include <stdio.h>
#include <stdlib.h>
#include <unistd.h>

struct installation {
	struct mark mark;
	int entry;
	unsigned long long tag;	/* 0 for none */
	int descriptor;		/* ours, or -1 */
	int is_installed;	/* also after an open: the events say whether the kernel keeps the file */
	int was_opened, was_closed;
	int is_in_table;
	int is_finished;	/* it is closed, and its line is written */
};

static struct installation *installations;
static size_t count, room;
static size_t first;		/* all before it are finished */

/* the tags that the kernel has posted, and that aren't written yet */
static unsigned long long *told;
static size_t told_count, told_room;

void keep_tag(const struct io_uring_cqe *cqe) {
	if (cqe->res || cqe->flags)
		die_of("the completion of a tag has a result or flags");
	told = with_room(told, told_count, &told_room, sizeof *told);
	told[told_count++] = cqe->user_data;
}

void wait_for_tags(struct io_uring *ring, unsigned wanted) {
	struct __kernel_timespec second = { .tv_sec = 1 };
	struct io_uring_cqe *cqe;
	while (!(told_count < wanted ? io_uring_wait_cqe_timeout(ring, &cqe, &second) : io_uring_peek_cqe(ring, &cqe))) {
		keep_tag(cqe);
		io_uring_cqe_seen(ring, cqe);
	}
}

/* Takes a kept tag. Returns 0 if it isn't there. */
static int take_tag(unsigned long long tag) {
	for (size_t at = 0; at < told_count; at++) {
		if (told[at] == tag) {
			told[at] = told[--told_count];
			return 1;
		}
	}
	return 0;
}

/* Writes the kept tags that were not taken, though no file of theirs was seen closed. */
static void write_other_tags(void) {
	while (told_count)
		printf("tag %llu\n", told[--told_count]);
}

void write_name(size_t number, char name[NAME_BYTES]) { snprintf(name, NAME_BYTES, "%zu", number); }

int open_files(const struct script *script) {
	char name[NAME_BYTES];
	if (!make_folders("play-on-kernel"))
		return 0;
	for (unsigned at = 0; at < script->file_count; at++) {
		write_name(at, name);
		make_file(name, script->files[at].bytes, script->files[at].size);
	}
	return 1;
}

size_t add_installation(struct mark mark, int entry, unsigned long long tag) {
	char file[NAME_BYTES], link[NAME_BYTES];
	installations = with_room(installations, count, &room, sizeof *installations);
	installations[count] = (struct installation){ .mark = mark, .entry = entry, .tag = tag, .descriptor = -1,
						      .is_installed = 1 };
	if (entry >= 0) {
		write_name(entry, file);
		write_name(count, link);
		link_file(file, link);
	}
	return count++;
}

int open_descriptor(size_t installation) {
	char name[NAME_BYTES];
	struct installation *it = &installations[installation];
	write_name(installation, name);
	it->descriptor = open_link(name);
	it->is_installed = 0;
	return it->descriptor;
}

void close_descriptor(size_t installation, int is_installed) {
	struct installation *it = &installations[installation];
	close(it->descriptor);
	it->descriptor = -1;
	it->is_installed = is_installed;
}

static void note_event(const struct inotify_event *event) {
	size_t installation = strtoul(event->name, NULL, 10);
	if (installation >= count)
		return;
	installations[installation].was_opened |= (event->mask & IN_OPEN) != 0;
	installations[installation].was_closed |= (event->mask & IN_CLOSE) != 0;
}

static void note_file(const char *link) {
	size_t installation = strtoul(link, NULL, 10);
	if (installation < count)
		installations[installation].is_in_table = 1;
}

static int is_open(const struct installation *it) { return it->was_opened && !it->was_closed; }

int is_any_open(void) {
	for (size_t at = first; at < count; at++)
		if (is_open(&installations[at]))
			return 1;
	return 0;
}

static int is_settled(int ring) {
	read_events(note_event);
	for (size_t at = first; at < count; at++)
		installations[at].is_in_table = 0;
	if (!is_any_open())
		return 1;
	if (ring >= 0 && !read_table(ring, note_file))
		return 0;
	for (size_t at = first; at < count; at++)
		if (is_open(&installations[at]) && !installations[at].is_in_table)
			return 0;
	return 1;
}

void settle(int ring) { wait_until(is_settled, ring); }

static void write_close(const struct script *script, struct installation *it) {
	const unsigned *n = it->mark.numbers;
	const char *name = script->files[it->entry].name;
	if (it->mark.is_registered)
		printf("closed r%u.%u %s\n", n[0], n[1], name);
	else
		printf("closed %u.%u.%u.%u %s\n", n[0], n[1], n[2], n[3], name);
}

static void finish(size_t installation) {
	char name[NAME_BYTES];
	struct installation *it = &installations[installation];
	write_name(installation, name);
	if (it->entry >= 0)
		remove_link(name);
	it->is_finished = 1;
}

static int is_close_to_tell(const struct installation *it) {
	return !it->is_finished && it->was_closed && it->is_installed;
}

unsigned tags_to_come(void) {
	unsigned tags = 0;
	for (size_t at = first; at < count; at++)
		tags += is_close_to_tell(&installations[at]) && installations[at].tag;
	return tags;
}

/* Writes the tags in the order of installations. That is the order of marks, since only
 * registrations give tags. */
static void write_tags(void) {
	for (size_t at = first; at < count; at++)
		if (is_close_to_tell(&installations[at]) && installations[at].tag && take_tag(installations[at].tag))
			printf("tag %llu\n", installations[at].tag);
	write_other_tags();
}

void write_closes(const struct script *script) {
	for (int is_registered = 1; is_registered >= 0; is_registered--)
		for (size_t at = first; at < count; at++)
			if (is_close_to_tell(&installations[at]) && installations[at].mark.is_registered == is_registered)
				write_close(script, &installations[at]);
	write_tags();
	for (size_t at = first; at < count; at++)
		if (!installations[at].is_finished && !is_open(&installations[at]))
			finish(at);
	while (first < count && installations[first].is_finished)
		first++;
}
