/* The catalogue as real files in a new folder, with a hard link in another one for each
 * installation, and what the kernel says of the links: the events of inotify(7), and the list of
 * the files in the table of a ring. A function that fails ends the program. */
#ifndef EVENTS_H
#define EVENTS_H

#include <stddef.h>
#include <sys/inotify.h>

/* Makes the folders of a program. The end of the program removes them. Returns 0 if this system has
 * no inotify. */
int make_folders(const char *program);

/* Return the descriptors of the folders. */
int catalogue_folder(void);
int links_folder(void);

/* Makes a file with these bytes in the catalogue. */
void make_file(const char *name, const void *bytes, size_t size);

/* Makes a link to a file of the catalogue; opens it as a descriptor of this process, for a
 * list; and removes it. */
void link_file(const char *name, const char *link);
int open_link(const char *link);
void remove_link(const char *link);

/* Calls `note` for each event that is there of a link. Ends the program if events were lost. */
void read_events(void (*note)(const struct inotify_event *event));

/* Calls `note` for the link of each file in the table of a ring. Returns 0 if there is no list,
 * since the kernel works on the ring. */
int read_table(int ring, void (*note)(const char *link));

/* Waits until each opened file is in the table of the ring or is closed, as `is_settled` says. */
void wait_until(int (*is_settled)(int ring), int ring);

#endif
