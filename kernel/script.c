/* Reads a script by the rules of docs/use/SCRIPT.md. It says which line is invalid;
 * scripts/faults.py explains why. */
#define _GNU_SOURCE
#include "script.h"

#include <ctype.h>
#include <errno.h>
#include <stdio.h>
#include <stdlib.h>
#include <string.h>

enum { LONGEST_SCRIPT = 4194304, LONGEST_LINE = 10000, LONGEST_NAME = 32, MOST_WORDS = 6 };

void die(const char *what) {
	fprintf(stderr, "%s: %s: %s\n", program_invocation_short_name, what, strerror(errno));
	exit(4);
}

void die_of(const char *what) {
	fprintf(stderr, "%s: %s\n", program_invocation_short_name, what);
	exit(4);
}

void *memory_of(size_t size) {
	void *memory = calloc(1, size ? size : 1);
	if (!memory)
		die_of("out of memory");
	return memory;
}

void *with_room(void *items, size_t count, size_t *room, size_t size_of_one) {
	if (count < *room)
		return items;
	*room = *room ? 2 * *room : 256;
	items = realloc(items, *room * size_of_one);
	if (!items)
		die_of("out of memory");
	return items;
}

int entry_of(const struct script *script, const char *name) {
	for (unsigned at = 0; at < script->file_count; at++)
		if (!strcmp(script->files[at].name, name))
			return at;
	return -1;
}

/* Reads a number from 0 to 18,446,744,073,709,551,615 without a leading zero. */
static int tag_of(const char *word, unsigned long long *tag) {
	size_t digits = strspn(word, "0123456789");
	if (!digits || word[digits] || digits > 20 || (word[0] == '0' && digits > 1))
		return 0;
	errno = 0;
	*tag = strtoull(word, NULL, 10);
	return !errno;
}

/* Reads one from 0 to 2,147,483,647. */
static int number_of(const char *word, unsigned *number) {
	unsigned long long value = 0;
	int is_number = tag_of(word, &value) && value <= 2147483647;
	*number = value;
	return is_number;
}

static int list_of(char *word, struct command *command) {
	command->list = memory_of((strlen(word) + 1) * sizeof(int));
	for (char *entry; (entry = strsep(&word, ","));) {
		int is_negative = entry[0] == '-';
		unsigned number;
		if (!number_of(entry + is_negative, &number) || (is_negative && !number))
			return 0;
		command->list[command->length++] = is_negative ? -(int)number : (int)number;
	}
	return 1;
}

static int tags_of(char *word, struct command *command) {
	command->tags = memory_of((strlen(word) + 1) * sizeof *command->tags);
	for (char *tag; (tag = strsep(&word, ","));)
		if (!tag_of(tag, &command->tags[command->tag_count++]))
			return 0;
	return 1;
}

static int is_name(const char *word) {
	size_t size = strlen(word);
	for (size_t at = 0; at < size; at++)
		if (!isalnum((unsigned char)word[at]) && !strchr("._-", word[at]))
			return 0;
	return size >= 1 && size <= LONGEST_NAME;
}

static int bytes_of(const char *word, struct entry *file) {
	size_t digits = strlen(word);
	if (!strcmp(word, "-"))
		digits = 0;
	else if (digits == 0 || digits % 2 || strspn(word, "0123456789abcdefABCDEF") != digits)
		return 0;
	file->size = digits / 2;
	file->bytes = memory_of(file->size);
	for (size_t at = 0; at < file->size; at++) {
		char pair[3] = { word[2 * at], word[2 * at + 1], 0 };
		file->bytes[at] = strtoul(pair, NULL, 16);
	}
	return file->size <= MOST_BYTES;
}

static int take_file(struct script *script, char **words, int count) {
	struct entry file = { .name = words[1] };
	if (count != 3 || script->command_count || script->file_count == MOST_FILES || !bytes_of(words[2], &file))
		return 0;
	if (!is_name(file.name) || entry_of(script, file.name) >= 0)
		return 0;
	script->files[script->file_count++] = file;
	return 1;
}

/* The forms of lines, with a letter for each word: n is a number, l a list, t tags, f a name, a the
 * word `at`, y the word `any`. A request may also end in `link` or `hardlink`. */
static const struct form {
	const char *word, *kinds;
	enum kind kind;
	int is_request;
} forms[] = {
	{ "sparse", "n", SPARSE, 0 }, { "register", "l", REGISTER, 0 }, { "unregister", "", UNREGISTER, 0 },
	{ "register", "lt", REGISTER, 0 }, { "regupdate", "nlt", REGUPDATE, 0 },
	{ "range", "nn", RANGE, 0 }, { "regupdate", "nl", REGUPDATE, 0 }, { "submit", "", SUBMIT, 0 },
	{ "open", "fan", OPEN, 1 }, { "open", "fy", OPEN_ANY, 1 }, { "read", "nnn", READ, 1 },
	{ "close", "n", CLOSE, 1 }, { "update", "nl", UPDATE, 1 },
};

static int take_word(struct command *command, char kind, char *word, unsigned *numbers) {
	switch (kind) {
	case 'n': return number_of(word, &command->numbers[(*numbers)++]);
	case 'l': return list_of(word, command);
	case 't': return tags_of(word, command);
	case 'f': command->name = word; return is_name(word);
	case 'a': return !strcmp(word, "at");
	default: return !strcmp(word, "any");
	}
}

static enum link link_of(const char *word) {
	return !strcmp(word, "link") ? SOFT_LINK : !strcmp(word, "hardlink") ? HARD_LINK : NO_LINK;
}

static int take_form(struct command *command, const struct form *form, char **words, int count) {
	int wanted = strlen(form->kinds) + 1;
	unsigned numbers = 0;
	*command = (struct command){ .kind = form->kind };
	if (form->is_request && count == wanted + 1)
		command->link = link_of(words[wanted]);
	if (strcmp(words[0], form->word) || count != wanted + (command->link != NO_LINK))
		return 0;
	for (int at = 1; at < wanted; at++)
		if (!take_word(command, form->kinds[at - 1], words[at], &numbers))
			return 0;
	return 1;
}

static int take_command(struct script *script, char **words, int count, long line) {
	script->commands = with_room(script->commands, script->command_count, &script->room, sizeof(struct command));
	struct command *command = &script->commands[script->command_count];
	for (size_t at = 0; at < sizeof forms / sizeof forms[0]; at++) {
		if (!take_form(command, &forms[at], words, count))
			continue;
		if (!forms[at].is_request && command->kind == SUBMIT)
			script->first_request = 0;
		else if (forms[at].is_request && !script->first_request)
			script->first_request = line;
		script->command_count++;
		return 1;
	}
	return 0;
}

/* Splits a line at single spaces into words, which may be empty. Returns their number. */
static int words_of(char *line, char **words) {
	int count = 0;
	for (char *word; (word = strsep(&line, " ")); count++)
		if (count < MOST_WORDS)
			words[count] = word;
	return count;
}

static int take_line(struct script *script, char *line, size_t size, long number) {
	char *words[MOST_WORDS] = { "", "", "", "", "", "" };
	if (size > LONGEST_LINE)
		return 0;
	for (size_t at = 0; at < size; at++)
		if (line[at] < 32 || line[at] > 126)
			return 0;
	line[size] = 0;
	if (!size || line[0] == '#')
		return 1;
	int count = words_of(line, words);
	if (!strcmp(words[0], "file"))
		return take_file(script, words, count);
	return count <= MOST_WORDS && take_command(script, words, count, number);
}

static int has_tag_from(const struct script *script, unsigned long long first) {
	for (size_t at = 0; at < script->command_count; at++)
		for (unsigned nth = 0; nth < script->commands[at].tag_count; nth++)
			if (script->commands[at].tags[nth] - first < MOST_REQUESTS)
				return 1;
	return 0;
}

int read_script(struct script *script) {
	char *text = memory_of(LONGEST_SCRIPT + 2), *end;
	size_t size = fread(text, 1, LONGEST_SCRIPT + 1, stdin);
	if (ferror(stdin))
		die("read failed");
	if (size > LONGEST_SCRIPT)
		return 0;
	for (char *line = text; line < text + size; line = end + 1) {
		end = memchr(line, '\n', text + size - line);
		if (!end)
			end = text + size;
		script->bad_line++;
		if (!take_line(script, line, end - line, script->bad_line))
			return 0;
	}
	if (script->first_request)
		script->bad_line = script->first_request;
	while (has_tag_from(script, script->first_data))
		script->first_data += MOST_REQUESTS;
	return !script->first_request;
}
