/* The C part of libyachtjudge: reads the lines of a log of calls in flight (docs/inside/FLIGHT.md)
 * in one pass, for the verified judge. This part is not proved. It is tested against the module
 * yachtlines, which names the same faults in the same order and words. */
#include "yachtjudge.h"
#include <stdarg.h>
#include <stdbool.h>
#include <stdio.h>
#include <stdlib.h>
#include <string.h>

/* the limits of a read, an update, a chain and a catalogue (docs/use/LIMITS.md) */
enum { READ_BYTES = 4096, ENTRIES = 16, MEMBERS = 16, INSTALLS = 64, FILES = 256, FILE_BYTES = 4096, NAME_LENGTH = 32 };
enum { FIXED_FILE = 1, LINK = 4, HARDLINK = 8, EBADF = 9, ENOMEM = 12 };
/* the bytes of a word that a fault prints, and room for them and for a fault */
enum { SHOWN = 40, SHOWN_ROOM = 4 * SHOWN + 5, WHY_ROOM = 160 + SHOWN_ROOM };
#define LETTERS "abcdefghijklmnopqrstuvwxyzABCDEFGHIJKLMNOPQRSTUVWXYZ"
#define DIGITS "0123456789"

/* a part of a line, which a line feed follows */
typedef struct span {
    const char *at;
    size_t length;
} span;

typedef struct array {
    void *all;
    size_t length, room;
} array;

/* a call, whose number for the judge is its position: the first one is the registration, and after
 * the calls come the numbers that only files have */
typedef struct call {
    uint32_t name, first;                  /* its number in the text, and its first request */
    uint8_t count, next, is_look, is_held; /* its members, and the next one to be answered, from 1 */
} call;

typedef struct reader {
    array files, calls, events, requests, entries, bytes;
    uint32_t *table;           /* by the hash of a call's number, its position in `calls`, from 1 */
    size_t mask, open, judged; /* of the table; the open calls, and the events that are judged */
    size_t line, lacking;      /* the line that is read, and the first one with an answer -12, or 0 */
    uint32_t slots, number;    /* of the table, and what is returned */
    bool is_registered;
    char shown[SHOWN_ROOM], why[WHY_ROOM];
} reader;

__attribute__((format(printf, 2, 3))) static bool refuse(reader *it, const char *why, ...) {
    va_list words;
    va_start(words, why);
    vsnprintf(it->why, sizeof it->why, why, words);
    va_end(words);
    return it->number = YACHT_NOT_A_LOG, false;
}

/* Returns room for items of `size` bytes at the end of an array, or NULL. */
static void *more(reader *it, array *to, size_t size, size_t count) {
    size_t room = to->room ? to->room : 64;
    while (room - to->length < count) room *= 2;
    if (room > to->room) {
        void *all = realloc(to->all, room * size);
        if (!all) return it->number = YACHT_JUDGE_NO_MEMORY, NULL;
        to->all = all, to->room = room;
    }
    to->length += count;
    return (char *)to->all + (to->length - count) * size;
}

/* Returns a word as a fault prints it: in quotes, its first bytes, without control characters. */
static const char *shown(reader *it, span word) {
    size_t length = word.length > SHOWN ? SHOWN : word.length;
    char quote = memchr(word.at, '\'', length) && !memchr(word.at, '"', length) ? '"' : '\'', *to = it->shown;
    *to++ = quote;
    for (const char *from = word.at; from < word.at + length; from++) {
        unsigned char byte = (unsigned char)*from;
        if (byte == '\t' || byte == '\r') to += sprintf(to, "\\%c", byte == '\t' ? 't' : 'r');
        else if (byte < ' ' || byte > '~') to += sprintf(to, "\\x%02x", byte);
        else to += sprintf(to, "%s%c", byte == quote || byte == '\\' ? "\\" : "", byte);
    }
    sprintf(to, "%s%c", word.length > SHOWN ? ".." : "", quote);
    return it->shown;
}

static bool is(span it, const char *word) { return it.length == strlen(word) && !memcmp(it.at, word, it.length); }

/* Returns what a text has before its first mark, or all of it, and leaves what it has after. */
static span cut(span *text, char mark) {
    const char *end = memchr(text->at, mark, text->length);
    span part = {text->at, end ? (size_t)(end - text->at) : text->length};
    size_t gone = part.length + (end != NULL);
    text->at += gone, text->length -= gone;
    return part;
}

/* Splits a text at each mark. Returns the number of its parts, of which it writes the first. */
static size_t split(span text, char mark, span *parts, size_t most) {
    const char *end = text.at + text.length;
    for (size_t count = 1;; count++) {
        span part = cut(&text, mark);
        if (count <= most) parts[count - 1] = part;
        if (part.at + part.length == end) return count;
    }
}

static bool is_number(span word, int64_t least, int64_t most, int64_t *to) {
    bool is_negative = least < 0 && word.length && *word.at == '-';
    const char *at = word.at + is_negative, *end = word.at + word.length;
    if (at == end || end - at > 10 || (*at == '0' && word.length > 1)) return false;
    for (*to = 0; at < end && *at >= '0' && *at <= '9'; at++) *to = 10 * *to + (*at - '0');
    if (is_negative) *to = -*to;
    return at == end && *to >= least && *to <= most;
}

static bool integer(reader *it, span word, const char *what, int64_t least, int64_t most, int64_t *to) {
    return is_number(word, least, most, to) ||
           refuse(it, "%s is a number from %lld to %lld, not %s", what, (long long)least, (long long)most, shown(it, word));
}

static bool number(reader *it, span word, const char *what, uint32_t *to) {
    int64_t value;
    return integer(it, word, what, 0, UINT32_MAX, &value) && (*to = (uint32_t)value, true);
}

/* reads the call, the member and the entry that installed a file */
static bool mark(reader *it, span word, uint32_t *to) {
    static const char what[] = "each part of a file's name";
    span parts[3];
    if (split(word, '.', parts, 3) != 3) {
        return refuse(it, "a file is named by its call, member and entry, such as 2.1.0, not by %s", shown(it, word));
    }
    return number(it, parts[0], what, to) && number(it, parts[1], what, to + 1) && number(it, parts[2], what, to + 2);
}

static bool name(reader *it, span word) {
    bool holds = word.length && word.length <= NAME_LENGTH && strspn(word.at, LETTERS DIGITS "._-") >= word.length;
    return holds || refuse(it, "a name has 1 to %d letters, digits, `.`, `_` or `-`: %s", NAME_LENGTH, shown(it, word));
}

static bool are_digits(span it) { return it.length && it.length % 2 == 0 && strspn(it.at, DIGITS "abcdefABCDEF") >= it.length; }

/* Appends the bytes that hexadecimal digits say. */
static bool keep(reader *it, span digits, uint32_t *first, uint32_t *count) {
    *first = (uint32_t)it->bytes.length, *count = (uint32_t)(digits.length / 2);
    uint8_t *to = more(it, &it->bytes, 1, *count);
    for (size_t nth = 0; to && nth < digits.length; nth++) {
        char it = digits.at[nth];
        int digit = it <= '9' ? it - '0' : (it | 32) - 'a' + 10;
        to[nth / 2] = (uint8_t)(nth % 2 ? to[nth / 2] << 4 | digit : digit);
    }
    return to != NULL;
}

/* Returns the place in the table of the call with a number, or the empty one where it belongs. */
static uint32_t *place_of(const reader *it, uint32_t name) {
    size_t at = (name * 2654435769u >> 7) & it->mask;
    while (it->table[at] && ((call *)it->calls.all)[it->table[at] - 1].name != name) at = (at + 1) & it->mask;
    return &it->table[at];
}

static call *call_named(const reader *it, uint32_t name) {
    uint32_t at = it->table ? *place_of(it, name) : 0;
    return at ? (call *)it->calls.all + at - 1 : NULL;
}

static bool add_call(reader *it, call of) {
    if (!it->table || it->calls.length > it->mask / 2) {
        size_t room = it->table ? 2 * (it->mask + 1) : 64;
        uint32_t *table = calloc(room, sizeof *table);
        if (!table) return it->number = YACHT_JUDGE_NO_MEMORY, false;
        free(it->table);
        it->table = table, it->mask = room - 1;
        for (uint32_t nth = 0; nth < it->calls.length; nth++) *place_of(it, ((call *)it->calls.all)[nth].name) = nth + 1;
    }
    call *new = more(it, &it->calls, sizeof *new, 1);
    if (!new) return false;
    *place_of(it, of.name) = (uint32_t)it->calls.length;
    *new = of;
    return true;
}

static uint32_t number_of(const reader *it, const call *of) { return (uint32_t)(of - (call *)it->calls.all); }

/* Appends an event, for which read_text has found room. */
static bool add(reader *it, yacht_event event) {
    ((yacht_event *)it->events.all)[it->events.length++] = event;
    return true;
}

/* Returns the number of the file with a name, or -1. */
static int file_named(const reader *it, span name) {
    const yacht_file *files = it->files.all;
    for (size_t nth = 0; nth < it->files.length; nth++) {
        const char *its = (char *)it->bytes.all + files[nth].name;
        if (files[nth].name_length == name.length && !memcmp(its, name.at, name.length)) return (int)nth;
    }
    return -1;
}

/* Returns the number of the file that a request installs at an entry of its list, or -1. */
static int file_of(const reader *it, const uint32_t *mark) {
    const call *by = call_named(it, mark[0]);
    if (!by || by->is_look || !mark[1] || mark[1] > by->count) return -1;
    const yacht_request *request = (yacht_request *)it->requests.all + by->first + mark[1] - 1;
    if (request->kind == YACHT_REQUEST_OPEN || request->kind == YACHT_REQUEST_OPEN_ANY) return mark[2] ? -1 : request->file;
    if (request->kind != YACHT_REQUEST_UPDATE || mark[2] >= request->count) return -1;
    int32_t file = ((int32_t *)it->entries.all)[request->first + mark[2]];
    return file < (int64_t)it->files.length ? file : -1;
}

static bool read_file(reader *it, span rest) {
    span words[2];
    yacht_file file = {.name = (uint32_t)it->bytes.length}, *to;
    if (split(rest, ' ', words, 2) != 2 || !words[0].length) return refuse(it, "the line has the form `file NAME BYTES`");
    if (is(words[1], "-")) words[1].length = 0;
    else if (!are_digits(words[1])) return refuse(it, "the bytes of a file are pairs of hexadecimal digits, or -");
    if (it->calls.length) return refuse(it, "the files come before the first call");
    if (it->files.length == FILES) return refuse(it, "a catalogue has at most %d files", FILES);
    if (!name(it, words[0])) return false;
    if (file_named(it, words[0]) >= 0) return refuse(it, "two files have the name %.*s", (int)words[0].length, words[0].at);
    if (words[1].length > 2 * FILE_BYTES) return refuse(it, "a file has at most %d bytes, not %zu", FILE_BYTES, words[1].length / 2);
    char *its = more(it, &it->bytes, 1, file.name_length = (uint32_t)words[0].length);
    if (!its) return false;
    memcpy(its, words[0].at, file.name_length);
    if (!keep(it, words[1], &file.first, &file.count) || !(to = more(it, &it->files, sizeof *to, 1))) return false;
    *to = file;
    return true;
}

static bool read_open(reader *it, const span *words, bool is_at, yacht_request *request, size_t *installs) {
    if ((is_at && !number(it, words[3], "a slot", &request->slot)) || !name(it, words[1])) return false;
    int file = file_named(it, words[1]);
    request->kind = file < 0 ? YACHT_REQUEST_OPEN_MISSING : is_at ? YACHT_REQUEST_OPEN : YACHT_REQUEST_OPEN_ANY;
    request->file = (uint8_t)(file < 0 ? 0 : file);
    return ++*installs;
}

static bool read_update(reader *it, const span *words, yacht_request *request, size_t *installs) {
    span list = words[2], part;
    const char *end = list.at + list.length;
    request->kind = YACHT_REQUEST_UPDATE, request->first = (uint32_t)it->entries.length;
    do {
        int64_t entry;
        int32_t *to;
        part = cut(&list, ',');
        if (!integer(it, part, "an entry", INT32_MIN, INT32_MAX, &entry) || !(to = more(it, &it->entries, sizeof *to, 1))) return false;
        *to = (int32_t)entry, *installs += entry >= 0, request->count++;
    } while (part.at + part.length != end);
    if (request->count > ENTRIES) return refuse(it, "an update has at most %d entries, not %u", ENTRIES, request->count);
    return number(it, words[1], "a slot", &request->slot);
}

/* Returns whether a space is followed by another one, or by the end. */
static bool has_empty_word(span text) {
    const char *end = text.at + text.length, *at = text.at;
    while ((at = memchr(at, ' ', (size_t)(end - at))) && ++at < end && *at != ' ') {}
    return at != NULL;
}

/* Reads a request, or a look, which has no kind. */
static bool read_request(reader *it, span text, yacht_request *to, size_t *installs) {
    span words[5];
    size_t count = split(text, ' ', words, 5);
    *to = (yacht_request){0};
    if (count > 1 && count <= 5) to->flags = is(words[count - 1], "link") ? LINK : is(words[count - 1], "hardlink") ? HARDLINK : 0;
    count -= to->flags != 0;
    if (has_empty_word(text)) return refuse(it, "words are separated by one space: %s", shown(it, text));
    if (is(words[0], "open") && count == 3 && is(words[2], "any")) return read_open(it, words, false, to, installs);
    if (is(words[0], "open") && count == 4 && is(words[2], "at")) return read_open(it, words, true, to, installs);
    if (is(words[0], "update") && count == 3) return read_update(it, words, to, installs);
    if (is(words[0], "regupdate")) return it->number = YACHT_KERNEL_LOG, false;
    if (count == 2 && (is(words[0], "close") || is(words[0], "look"))) {
        to->kind = is(words[0], "close") ? YACHT_REQUEST_CLOSE : 0;
        return number(it, words[1], "a slot", &to->slot);
    }
    if (!is(words[0], "read") || count != 4) return refuse(it, "no request has the words %s", shown(it, text));
    to->kind = YACHT_REQUEST_READ, to->flags |= FIXED_FILE;
    return number(it, words[1], "a slot", &to->slot) && number(it, words[2], "an offset", &to->first) &&
           number(it, words[3], "a length", &to->count) &&
           (to->count <= READ_BYTES || refuse(it, "a read has at most %d bytes, not %u", READ_BYTES, to->count));
}

/* Reads the requests of a call: a look, or one chain. */
static bool read_chain(reader *it, span text, call *of, yacht_request *last) {
    size_t count = 0, installs = 0, unlinked = 0;
    for (const char *end = text.at + text.length, *at = text.at; at <= end; at++) {
        if (at < end && (*at != ';' || at == text.at || at[-1] != ' ' || at[1] != ' ')) continue;
        if (!read_request(it, (span){text.at, (size_t)((at < end ? at - 1 : end) - text.at)}, last, &installs)) return false;
        yacht_request *to = last->kind ? more(it, &it->requests, sizeof *to, 1) : last;
        if (!to) return false;
        *to = *last;
        count++, of->is_look |= !last->kind;
        if (!(last->flags & (LINK | HARDLINK)) && !unlinked) unlinked = count;
        text.at = at + 2, at += at < end;
    }
    of->count = (uint8_t)count;
    if (count > MEMBERS) return refuse(it, "a chain has at most %d requests, not %zu", MEMBERS, count);
    if (of->is_look && (count > 1 || last->flags)) return refuse(it, "a look is a call of its own, without a link");
    if (unlinked && unlinked < count) return refuse(it, "member %zu has no link, so the requests are not one chain", unlinked);
    return installs <= INSTALLS || refuse(it, "a chain installs at most %d files, not %zu", INSTALLS, installs);
}

static bool read_registration(reader *it, span what, uint32_t name) {
    span slots = what;
    int64_t count;
    if (!is(cut(&slots, ' '), "sparse")) return refuse(it, "the first call registers the table, as in `sparse 3`, not %s", shown(it, what));
    if (!is_number(slots, 1, YACHT_MOST_LOG_SLOTS, &count)) {
        return refuse(it, "a table has 1 to %d slots, not %s", YACHT_MOST_LOG_SLOTS, shown(it, slots));
    }
    it->slots = (uint32_t)count;
    return add_call(it, (call){.name = name});
}

static bool read_call(reader *it, span rest) {
    call of = {.first = (uint32_t)it->requests.length, .next = 1};
    yacht_request last;
    if (!number(it, cut(&rest, ' '), "a call", &of.name)) return false;
    if (call_named(it, of.name)) return refuse(it, "an earlier call has the number %u", of.name);
    if (!it->calls.length) return read_registration(it, rest, of.name);
    if (!it->is_registered) return refuse(it, "the registration of the table is not answered yet");
    if (!read_chain(it, rest, &of, &last) || !add_call(it, of)) return false;
    it->open++;
    uint32_t call = (uint32_t)it->calls.length - 1;
    return add(it, of.is_look ? (yacht_event){.kind = YACHT_EVENT_LOOK, .call = call, .slot = last.slot}
                              : (yacht_event){.kind = YACHT_EVENT_CALL, .call = call, .first = of.first, .count = of.count});
}

static bool read_found(reader *it, call *of, int64_t res, const span *more, size_t count) {
    yacht_event event = {.kind = count ? YACHT_EVENT_FOUND : YACHT_EVENT_EMPTY, .call = number_of(it, of)};
    uint32_t by[3] = {0};
    if (!(res == 0 && count == 1) && !(res == -EBADF && !count)) return refuse(it, "a look finds a file, as in 0 2.1.0, or answers -9");
    if (count && !it->files.length) return refuse(it, "a look finds a file, and the catalogue has none");
    if (count && !mark(it, *more, by)) return false;
    of->is_held = count != 0;
    event.by_call = by[0], event.by_member = by[1], event.by_entry = by[2]; /* find_files goes on */
    return add(it, event);
}

static bool read_done(reader *it, span rest) {
    span none = {rest.at + rest.length, 0}, words[3] = {none, none, none}, parts[2];
    yacht_event event = {.kind = YACHT_EVENT_DONE};
    int64_t res;
    size_t count = split(rest, ' ', words, 3);
    if (split(words[0], '.', parts, 2) != 2) {
        return refuse(it, "an answer is of a call and a member, such as 2.1, not of %s", shown(it, words[0]));
    }
    if (!number(it, parts[0], "a call", &event.call) || !number(it, parts[1], "a member", &event.member)) return false;
    call *of = call_named(it, event.call);
    if (!of) return refuse(it, "no call has the number %u", event.call);
    if (!integer(it, words[1], "a result", INT32_MIN, INT32_MAX, &res)) return false;
    if (of->next > of->count || (!of->count && it->is_registered)) return refuse(it, "call %u is answered already", of->name);
    if (!of->count) {
        it->is_registered = event.member == 1 && count == 2 && is(words[1], "0");
        return it->is_registered || refuse(it, "the first call did not register the table");
    }
    if (event.member != of->next) return refuse(it, "the next answer of call %u is that of member %u", of->name, of->next);
    it->open -= of->next++ == of->count;
    if (of->is_look) return read_found(it, of, res, words + 2, count - 2);
    if (count > 2 && (count > 3 || !are_digits(words[2]))) return refuse(it, "the bytes of an answer are pairs of hexadecimal digits");
    if (res == -ENOMEM && !it->lacking) it->lacking = it->line, it->judged = it->events.length;
    event.call = number_of(it, of), event.res = (int32_t)res;
    return keep(it, words[2], &event.first, &event.count) && add(it, event);
}

static bool read_free(reader *it, span rest) {
    uint32_t name;
    if (!number(it, rest, "a call", &name)) return false;
    call *of = call_named(it, name);
    if (!of || !of->is_held) return refuse(it, "call %u holds no file", name);
    of->is_held = false;
    return add(it, (yacht_event){.kind = YACHT_EVENT_FREE, .call = number_of(it, of)});
}

static bool read_closed(reader *it, span rest) {
    span words[2];
    uint32_t by[3];
    yacht_event event = {.kind = YACHT_EVENT_CLOSED}; /* of a file that no call installed */
    bool has_form = split(rest, ' ', words, 2) == 2 && words[0].length && words[1].length;
    if (!has_form) return refuse(it, "the line has the form `closed CALL.MEMBER.ENTRY NAME`");
    int file = file_named(it, words[1]);
    if (file < 0) return refuse(it, "no file has the name %s", shown(it, words[1]));
    if (!mark(it, words[0], by)) return false;
    if (file_of(it, by) != file) return add(it, event);
    event.by_call = number_of(it, call_named(it, by[0])), event.by_member = by[1], event.by_entry = by[2], event.file = (uint8_t)file;
    return add(it, event);
}

static bool read_settled(reader *it, span rest) {
    if (rest.length) return refuse(it, "nothing follows `settled`");
    uint32_t least = UINT32_MAX;
    const call *of = it->calls.all;
    for (size_t nth = 1; it->open && nth < it->calls.length; nth++) {
        if (of[nth].next <= of[nth].count && of[nth].name < least) least = of[nth].name;
    }
    if (it->open) return refuse(it, "call %u is not answered", least);
    return add(it, (yacht_event){.kind = YACHT_EVENT_SETTLED});
}

static bool read_line(reader *it, span line) {
    static const struct {
        const char *word;
        bool (*read)(reader *, span);
        bool may_be_first;
    } lines[] = {{"call", read_call, true}, {"done", read_done, true}, {"closed", read_closed, false}, {"free", read_free, false},
                 {"file", read_file, true}, {"settled", read_settled, false}, {"pipe", NULL, true}, {"tag", NULL, true}, {"fed", NULL, true}};
    char last = line.length ? line.at[line.length - 1] : 0;
    span word = cut(&line, ' ');
    if (last == ' ') return refuse(it, "the line ends with a space");
    if (last == '\r') return refuse(it, "the line ends with a carriage return; a line feed alone ends a line");
    for (size_t nth = 0; nth < sizeof lines / sizeof *lines; nth++) {
        if (!is(word, lines[nth].word)) continue;
        if (!lines[nth].read) return it->number = YACHT_KERNEL_LOG, false;
        return it->is_registered || lines[nth].may_be_first ? lines[nth].read(it, line) : refuse(it, "the table is not registered yet");
    }
    return refuse(it, "no line of a log begins with %s", shown(it, word));
}

static bool read_text(reader *it, span text) {
    for (it->line = 1; memchr(text.at, '\n', text.length); it->line++) {
        if (!more(it, &it->events, sizeof(yacht_event), 1)) return false;
        it->events.length--;
        if (!read_line(it, cut(&text, '\n'))) return false;
    }
    if (text.length) return refuse(it, "the last line has no end: %s", shown(it, text));
    if (!it->calls.length) return refuse(it, it->line > 1 ? "no call registers the table" : "the log is empty");
    if (!it->lacking) it->judged = it->events.length;
    return true;
}

/* Finds the files that looks found: a later call may have their number, or none. */
static bool find_files(reader *it) {
    for (yacht_event *event = it->events.all, *end = event + it->judged; event < end; event++) {
        if (event->kind != YACHT_EVENT_FOUND) continue;
        int file = file_of(it, (uint32_t[]){event->by_call, event->by_member, event->by_entry});
        if (!call_named(it, event->by_call) && !add_call(it, (call){.name = event->by_call})) return false;
        event->by_call = number_of(it, call_named(it, event->by_call)), event->file = (uint8_t)(file < 0 ? 0 : file);
    }
    return true;
}

/* names events by their lines, and a file by its call's number in the text */
static void to_text(const reader *it, size_t before, yacht_step *steps, size_t count) {
    for (yacht_step *step = steps; step < steps + count; step++) {
        step->first += before, step->second += before;
        for (yacht_point *point = &step->from; point; point = point == &step->from ? &step->to : NULL) {
            if (point->kind == YACHT_POINT_EVENT || point->kind == YACHT_POINT_ACCESS) point->at += before;
            else if (point->by_member && point->by_call < it->calls.length) point->by_call = ((call *)it->calls.all)[point->by_call].name;
        }
    }
}

uint32_t yacht_judge_log(const uint8_t *text, size_t text_length, uint32_t whole_updates, uint32_t states, uint32_t memory, uint64_t moves,
                         uint8_t *note, size_t note_length, yacht_step *steps, size_t steps_length, yacht_reading *reading) {
    static const uint64_t nothing;
    reader it = {0};
    yacht_judgement of;
    *reading = (yacht_reading){0};
    if (text_length > UINT32_MAX) return YACHT_LONG_LOG;
    if (read_text(&it, (span){(const char *)text, text_length}) && find_files(&it)) {
        free(it.table), it.table = NULL;
        const void *all[] = {it.files.all, it.requests.all, it.entries.all, it.bytes.all, it.events.all};
        for (int nth = 0; nth < 5; nth++) all[nth] = all[nth] ? all[nth] : &nothing;
        it.number = (whole_updates ? yacht_judge_whole_updates : yacht_judge_events)(
            all[0], it.files.length, it.slots, all[1], it.requests.length, all[2], it.entries.length, all[3], it.bytes.length, all[4],
            it.judged, states, memory, moves, steps, steps_length, &of);
    }
    /* after the files, the registration and its answer, each line is an event */
    size_t before = it.files.length + 3;
    if (it.number == YACHT_NOT_LEGAL) {
        reading->line = before + of.at, reading->steps = of.steps;
        to_text(&it, before, steps, of.steps < steps_length ? of.steps : steps_length);
    } else if (it.number == YACHT_NOT_A_LOG || it.number == YACHT_KERNEL_LOG) {
        reading->line = it.line, reading->note = strlen(it.why);
        memcpy(note, it.why, reading->note < note_length ? reading->note : note_length);
    } else if (it.lacking && it.number <= YACHT_UNDECIDED) {
        reading->line = it.lacking, it.number = YACHT_UNDECIDED;
    }
    void *all[] = {it.table, it.files.all, it.calls.all, it.events.all, it.requests.all, it.entries.all, it.bytes.all};
    for (size_t nth = 0; nth < sizeof all / sizeof *all; nth++) free(all[nth]);
    return it.number;
}
