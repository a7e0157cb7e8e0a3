/* The catalogue as real files or named pipes (events.h), with a link for each installation, so that
 * a close names a single installation; and the log of calls in flight (docs/inside/FLIGHT.md): its
 * lines in the order of their appends. */
#ifndef LINKS_H
#define LINKS_H

enum { FILES = 4, MOST_PIPES = 64, PATH_BYTES = 64 };

/* A member of a chain: the number of the call, and the place in the chain, both from 1 on. */
struct member_name {
	int call, member;
};

/* Appends the line of a close of a file that this member installs or tried to install. Threads may
 * append at once; one lock orders their lines. */
void append_close(struct member_name of, const char *format, ...) __attribute__((format(printf, 2, 3)));

/* Appends another line. */
#define append(...) append_close((struct member_name){ 0, 0 }, __VA_ARGS__)

/* Leaves out the closes of this member's files. Linux opens and closes the file of a refused open,
 * and files of a refused update never were in the table. */
void leave_out_closes(struct member_name of);

/* Writes all lines to standard output. Call it once all threads that append have ended. */
void write_log(void);

/* Makes the folder, and the files of the catalogue, or with `pipes` none yet. Returns 0 if this
 * system has no inotify. */
int make_catalogue(int pipes);

/* Returns a random entry of the catalogue; of pipes a new one, or -1 if there are MOST_PIPES. */
int pick_entry(void);

/* Returns the name of an entry. The next call may overwrite it. */
const char *name_of(int entry);

/* Makes the link for entry `in_list` of what a member installs, and writes its path. */
void make_link(char path[PATH_BYTES], struct member_name of, int in_list, int entry);

/* Reads the closes that inotify has seen, then has `reap` append the answers that are there, and
 * then appends a line for each close: the kernel posts a completion before it releases the
 * request's file. */
void read_closes(void (*reap)(void));

/* Returns the number of files that were opened by links and are not closed. */
int open_count(void);

/* Writes a byte that no pipe before had to a random pipe, and appends its line first. */
void feed_a_pipe(void);

/* Appends the lines of the catalogue: they are written before all others. */
void write_catalogue(void);

/* Returns a random number below `most`. Each thread has its own sequence, from its seed on. */
unsigned below(unsigned most);
void seed_random(unsigned long long seed);

#endif
