/* A script of docs/use/SCRIPT.md, read and checked. */
#ifndef SCRIPT_H
#define SCRIPT_H

#include <stddef.h>

enum { MOST_FILES = 256, MOST_BYTES = 4096, MOST_NUMBERS = 3, MOST_REQUESTS = 32768 };

enum kind { SPARSE, REGISTER, UNREGISTER, RANGE, REGUPDATE, SUBMIT, OPEN, OPEN_ANY, READ, CLOSE, UPDATE };

/* The link from a request to the next one. */
enum link { NO_LINK, SOFT_LINK, HARD_LINK };

/* A command or a request: any line but `file`. */
struct command {
	enum kind kind;
	enum link link;
	const char *name;		/* of an open */
	unsigned numbers[MOST_NUMBERS];	/* the line's numbers, in order */
	int *list;			/* of a registration or an update */
	unsigned length;		/* of that list */
	unsigned long long *tags;	/* of a registration or an update with tags */
	unsigned tag_count;
};

struct entry {
	const char *name;
	unsigned char *bytes;
	size_t size;
};

struct script {
	struct entry files[MOST_FILES];
	unsigned file_count;
	struct command *commands;
	size_t command_count;
	size_t room;
	long bad_line;			/* the invalid line; 0 if the script is too long */
	long first_request;		/* the line of the first request since the last submit, or 0 */
	unsigned long long first_data;	/* none of the MOST_REQUESTS numbers from here on is a tag of the script */
};

/* Reads standard input. Returns 0 if it is not a script; then `bad_line` is the first invalid
 * line. */
int read_script(struct script *script);

/* Returns the entry with that name, or -1. */
int entry_of(const struct script *script, const char *name);

/* Returns memory of zeros, or ends the program if there is none. */
void *memory_of(size_t size);

/* Returns the items with room for one more than `count`: themselves, or moved. Ends the program if
 * there is no memory. */
void *with_room(void *items, size_t count, size_t *room, size_t size_of_one);

/* Print what happened and end the program with status 4. `die` adds the reason from errno. */
void die(const char *what) __attribute__((noreturn));
void die_of(const char *what) __attribute__((noreturn));

#endif
