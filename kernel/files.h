/* The installations that a script makes or tries to make. Each has a hard link of its own to its
 * catalogue file (events.h), so that an event has the name of a single installation. */
#ifndef FILES_H
#define FILES_H

#include <liburing.h>

#include "script.h"

enum { NAME_BYTES = 24 };

struct mark {
	int is_registered;
	unsigned numbers[4];	/* call and place, or submission, chain, member and place */
};

/* Makes the folder and a file for each entry of the catalogue. Returns 0 if this system has no
 * inotify. */
int open_files(const struct script *script);

/* Writes the name of an installation's link, or of an entry's file: its number. */
void write_name(size_t number, char name[NAME_BYTES]);

/* Adds an installation of an entry with its tag, or 0 for none, and returns its number. The entry
 * is -1 for a name that is not in the catalogue; then there is no link. */
size_t add_installation(struct mark mark, int entry, unsigned long long tag);

/* Opens an installation's file as a descriptor of this process, for a list. */
int open_descriptor(size_t installation);

/* Closes this process's descriptor, which the kernel has. `is_installed` says whether the kernel
 * took the file. */
void close_descriptor(size_t installation, int is_installed);

/* Waits until each opened file is in the table of the ring or is closed. `ring` is -1 after the
 * ring is closed. */
void settle(int ring);

/* Checks whether a file is open, after `settle`. */
int is_any_open(void);

/* Keeps the tag of a completion that belongs to no request. */
void keep_tag(const struct io_uring_cqe *cqe);

/* Waits at most a second until `count` tags are kept that weren't written, and then keeps all that
 * are there. */
void wait_for_tags(struct io_uring *ring, unsigned count);

/* Returns how many installed files with a tag were closed since the last closed lines. */
unsigned tags_to_come(void);

/* Writes a line for each installed file that was closed since the last time, in the order of marks,
 * and then one for each of their tags that the kernel has posted. */
void write_closes(const struct script *script);

#endif
