#define _GNU_SOURCE
#include "events.h"

#include <ctype.h>
#include <fcntl.h>
#include <ftw.h>
#include <limits.h>
#include <stdio.h>
#include <stdlib.h>
#include <string.h>
#include <sys/stat.h>
#include <unistd.h>

#include "script.h"

/* A close that takes more than ten seconds is an error. */
enum { TURNS = 50000, TURN_MICROSECONDS = 200 };

static char folder[PATH_MAX];
static int catalogue = -1, links = -1, events = -1;

static int remove_one(const char *path, const struct stat *status, int kind, struct FTW *place) {
	(void)status;
	(void)kind;
	(void)place;
	return remove(path);
}

static void remove_folders(void) { nftw(folder, remove_one, 4, FTW_DEPTH | FTW_PHYS); }

/* Makes a folder in that of the program, and opens it. */
static int new_folder(const char *name) {
	char path[PATH_MAX + 16];
	snprintf(path, sizeof path, "%s/%s", folder, name);
	if (mkdir(path, 0700))
		die(path);
	if (!strcmp(name, "links") && inotify_add_watch(events, path, IN_OPEN | IN_CLOSE | IN_ONLYDIR) < 0)
		die("no watch on the folder");
	int opened = open(path, O_PATH | O_DIRECTORY);
	if (opened < 0)
		die(path);
	return opened;
}

int make_folders(const char *program) {
	const char *where = getenv("TMPDIR");
	events = inotify_init1(IN_NONBLOCK | IN_CLOEXEC);
	if (events < 0)
		return 0;
	snprintf(folder, sizeof folder, "%s/%s-XXXXXX", where && *where ? where : "/tmp", program);
	if (!mkdtemp(folder))
		die(folder);
	atexit(remove_folders);
	catalogue = new_folder("catalogue");
	links = new_folder("links");
	return 1;
}

int catalogue_folder(void) { return catalogue; }

int links_folder(void) { return links; }

void make_file(const char *name, const void *bytes, size_t size) {
	int made = openat(catalogue, name, O_WRONLY | O_CREAT | O_EXCL, 0600);
	if (made < 0 || write(made, bytes, size) != (ssize_t)size || close(made))
		die("a file of the catalogue");
}

void link_file(const char *name, const char *link) {
	if (linkat(catalogue, name, links, link, 0))
		die("a link for an installation");
}

int open_link(const char *link) {
	int opened = openat(links, link, O_RDONLY | O_CLOEXEC);
	if (opened < 0)
		die("a descriptor for a list");
	return opened;
}

void remove_link(const char *link) { unlinkat(links, link, 0); }

void read_events(void (*note)(const struct inotify_event *event)) {
	char buffer[16384] __attribute__((aligned(__alignof__(struct inotify_event))));
	ssize_t size;
	while ((size = read(events, buffer, sizeof buffer)) > 0) {
		for (char *at = buffer; at < buffer + size;) {
			const struct inotify_event *event = (void *)at;
			at += sizeof *event + event->len;
			if (event->mask & IN_Q_OVERFLOW)
				die_of("more events than fs.inotify.max_queued_events");
			if (event->len && !(event->mask & IN_ISDIR))
				note(event);
		}
	}
}

/* Returns the link in a line of that list, or NULL. A line has a slot, a colon, and a path, or on
 * older kernels the path's last name, and for an empty slot `<none>`. A link begins with a
 * digit. */
static const char *link_of_line(const char *line) {
	const char *colon = strstr(line, ": ");
	if (!colon)
		return NULL;
	const char *slash = strrchr(colon, '/'), *name = slash ? slash + 1 : colon + 2;
	return isdigit((unsigned char)*name) ? name : NULL;
}

/* The list in /proc/self/fdinfo is between the lines `UserFiles:` and `UserBufs:`. */
int read_table(int ring, void (*note)(const char *link)) {
	char path[64], line[2 * PATH_MAX];
	int is_listed = 0;
	snprintf(path, sizeof path, "/proc/self/fdinfo/%d", ring);
	FILE *information = fopen(path, "r");
	if (!information)
		die(path);
	while (fgets(line, sizeof line, information) && strncmp(line, "UserBufs:", 9)) {
		const char *link = is_listed ? link_of_line(line) : NULL;
		if (link)
			note(link);
		is_listed |= !strncmp(line, "UserFiles:", 10);
	}
	fclose(information);
	return is_listed;
}

void wait_until(int (*is_settled)(int ring), int ring) {
	for (int turn = 0; turn < TURNS; turn++) {
		if (is_settled(ring))
			return;
		usleep(TURN_MICROSECONDS);
	}
	die_of("a file that isn't in the table stays open");
}
