/* The judge: decides whether the rules of io_uring's registered file table (docs/inside/MODEL.md)
 * let a script print a text, lists the texts that a script may print, and judges logs of calls in
 * flight (docs/inside/FLIGHT.md). The functions are verified. Their contracts say what YACHT_LEGAL,
 * YACHT_NOT_LEGAL, YACHT_BAD_SCRIPT, YACHT_ALL, YACHT_SOME, YACHT_FAULTY, YACHT_MALFORMED,
 * YACHT_TOO_MANY_SLOTS and YACHT_BAD_FILE mean (docs/inside/PROOFS.md). The other numbers, the note
 * and the steps of a reason are tested, and so is how yacht_judge_log reads a text.
 * C11 or C++17. Link with -lyachtjudge.
 *
 * The caller must ensure the following, which nothing checks:
 * - No pointer is NULL, not even with a length of 0. A length is below 2^63. A written argument
 *   overlaps no other argument.
 * - No function is called from a signal handler, or in the forked child of a process with threads.
 * - malloc, realloc and free are one allocator, whose blocks are aligned for any type, as C
 *   requires.
 * Threads may call the functions at the same time, each with arguments of its own. */
#ifndef YACHTJUDGE_H
#define YACHTJUDGE_H
#include <stddef.h>
#include <stdint.h>
#ifdef __cplusplus
extern "C" {
#endif

/* The version of this header. The shared library of the same major version has the name
 * libyachtjudge.so.MAJOR. */
#define YACHT_JUDGE_VERSION "6.0.0"
#define YACHT_JUDGE_VERSION_MAJOR 6
#define YACHT_JUDGE_VERSION_MINOR 0
#define YACHT_JUDGE_VERSION_PATCH 0

/* Returns the version of the library, as YACHT_JUDGE_VERSION is that of this header. The string is
 * never freed. */
const char *yacht_judge_version(void);

/* The library's names of the functions that take a struct have the major version. So a program that
 * was compiled with the header of another one doesn't link with the library. */
#define yacht_judge yacht_judge_6
#define yacht_outcomes yacht_outcomes_6
#define yacht_judge_events yacht_judge_events_6
#define yacht_judge_whole_updates yacht_judge_whole_updates_6
#define yacht_judge_log yacht_judge_log_6

/* What the functions return. */
enum {
    YACHT_LEGAL = 0,       /* a judge: the script may print the text, or the log has a flight */
    YACHT_NOT_LEGAL = 1,   /* a judge: the script doesn't print the text, or the log has no flight
                            * in which each request finds memory */
    YACHT_UNDECIDED = 2,   /* a judge: neither was shown within the limits */
    YACHT_BAD_SCRIPT = 3,  /* of a script: the bytes are not one */
    YACHT_JUDGE_NO_MEMORY = 4, /* all: an allocation failed */
    YACHT_FAULTY = 5,      /* a judge: an event can't follow those before it in a log */
    YACHT_MALFORMED = 6,   /* of a log: an event can't be read */
    YACHT_TOO_MANY_SLOTS = 7, /* of a log: the table has more than YACHT_MOST_LOG_SLOTS */
    YACHT_BAD_FILE = 8,    /* of a log: a file can't be one of the catalogue */
    YACHT_NOT_A_LOG = 9,   /* of a log's text: a line can't follow those before it in a log */
    YACHT_KERNEL_LOG = 10, /* of a log's text: a line that the kernel's recorder alone prints */
    YACHT_LONG_LOG = 11,   /* of a log's text: it has 2^32 bytes or more */
    YACHT_ALL = 0,         /* yacht_outcomes: all texts are listed */
    YACHT_SOME = 1,        /* yacht_outcomes: all listed texts are right, and there may be more */
    YACHT_NO_ROOM = 2      /* yacht_outcomes: there is no room for the texts */
};

/* The defaults of fixcheck: the largest number of states, and the largest number of MiB for
 * them. */
enum { YACHT_STATES = 1000000, YACHT_MEMORY = 1024 };

/* The number of moves of a judgement of a log that is no limit. */
#define YACHT_ANY_MOVES UINT64_MAX

/* The details of a verdict. A field is 0 unless its number is returned; after
 * YACHT_JUDGE_NO_MEMORY, `line` and `note` say nothing. */
typedef struct yacht_verdict {
    /* YACHT_NOT_LEGAL: the number of commands that may have printed the text before the break */
    uint64_t commands;
    /* YACHT_NOT_LEGAL: the number of bytes of the text before the break */
    uint64_t at;
    /* the number of bytes of the whole note */
    uint64_t note;
    /* YACHT_UNDECIDED: the accepted submission that was not decided, from 1 */
    uint32_t submission;
    /* YACHT_BAD_SCRIPT: the line of the first fault, from 1, or 0 if there are too many bytes */
    uint32_t line;
} yacht_verdict;

/* Decides whether a script may print a text. For each part of a submission that has slots of its
 * own, the search keeps at most `states` states and `memory` MiB of them.
 * The note is advice for a person. For a text that isn't legal it is what is expected at the break:
 * the likeliest text, or a line in words; or, if the text should end there or no order of a
 * submission's requests explains its lines, the reason that fixcheck prints, of one line or more,
 * without the last line's end. For bytes that aren't a script it is the name of the first fault,
 * such as `word-count`. Its first bytes are written, at most note_length, without a 0 at the end.
 * No contract speaks of it.
 * Returns YACHT_LEGAL, YACHT_NOT_LEGAL, YACHT_UNDECIDED, YACHT_BAD_SCRIPT or
 * YACHT_JUDGE_NO_MEMORY, and writes *verdict. */
uint32_t yacht_judge(const uint8_t *script, size_t script_length, const uint8_t *text,
                     size_t text_length, uint32_t states, uint32_t memory, uint8_t *note,
                     size_t note_length, yacht_verdict *verdict);

/* The details of a list of texts. A field is 0 unless its number is returned. */
typedef struct yacht_texts {
    uint64_t count; /* the number of texts that were found */
    uint64_t bytes; /* the number of bytes of all of them */
    uint32_t line;  /* YACHT_BAD_SCRIPT: as in a verdict */
} yacht_texts;

/* Lists the texts that a script may print if no allocation of the player fails, each once, by
 * searches of at most `states` states and `memory` MiB in all. The texts are written to `texts` one
 * after another, and the length of each to `lengths`.
 * Returns YACHT_ALL, YACHT_SOME, YACHT_BAD_SCRIPT, YACHT_NO_ROOM if found->bytes is more than
 * texts_length or found->count more than lengths_length, or YACHT_JUDGE_NO_MEMORY; and writes
 * *found. */
uint32_t yacht_outcomes(const uint8_t *script, size_t script_length, uint32_t states,
                        uint32_t memory, uint8_t *texts, size_t texts_length, uint64_t *lengths,
                        size_t lengths_length, yacht_texts *found);

/* A file of the catalogue of a log: a name of its own, of 1 to 32 letters, digits, `.`, `_` or `-`,
 * and at most 4,096 bytes. */
typedef struct yacht_file {
    uint32_t name;        /* the position of the first byte of its name in `bytes`, from 0 */
    uint32_t name_length; /* the number of bytes of its name */
    uint32_t first;       /* the position of its first byte in `bytes`, from 0 */
    uint32_t count;       /* the number of its bytes */
} yacht_file;

/* The kinds of the events of a log, and the fields that each uses beside `kind`
 * (docs/inside/FLIGHT.md, "Meaning of a log"). Calls are numbered from 1 in the order of their
 * events, chains and looks alike. */
enum {
    YACHT_EVENT_CALL = 1,   /* a chain is called: call; count requests from first on */
    YACHT_EVENT_DONE = 2,   /* a member is answered: call, member, res; count bytes from first on */
    YACHT_EVENT_LOOK = 3,   /* a look of a slot is called: call, slot */
    YACHT_EVENT_FOUND = 4,  /* a look found a file: call, and the file */
    YACHT_EVENT_EMPTY = 5,  /* a look found no file: call */
    YACHT_EVENT_FREE = 6,   /* the hold of the file that a look found begins to end: call */
    YACHT_EVENT_CLOSED = 7, /* a file was closed, at some time before: the file */
    YACHT_EVENT_SETTLED = 8 /* each call was answered, and each removed file was closed */
};

/* An event of a log. A field that its kind doesn't use says nothing. */
typedef struct yacht_event {
    uint32_t kind;     /* one of the kinds of events */
    uint32_t call;     /* the number of the call, from 1 */
    uint32_t member;   /* the number of the member in its chain, from 1 */
    int32_t res;       /* the result of that member: 0 or more, or a negated error number */
    uint32_t slot;     /* the slot, from 0 */
    uint32_t first;    /* the position of the first request, or of the first byte of a read */
    uint32_t count;    /* the number of requests, or of bytes */
    uint32_t by_call;   /* of the file that was found or closed: the call that installed it, */
    uint32_t by_member; /* that call's member, from 1, */
    uint32_t by_entry;  /* the position in the list of that member, from 0; 0 for an open, */
    uint8_t file;       /* and the number of the file in the catalogue, from 0 */
} yacht_event;

/* The kinds of requests, and the fields that each uses beside `kind` and `flags`. */
enum {
    YACHT_REQUEST_OPEN = 1,         /* an open at a slot: file, slot */
    YACHT_REQUEST_OPEN_ANY = 2,     /* an open at any empty slot: file */
    YACHT_REQUEST_OPEN_MISSING = 3, /* an open of a name that the catalogue doesn't have */
    YACHT_REQUEST_READ = 4,         /* slot; count bytes from first on */
    YACHT_REQUEST_CLOSE = 5,        /* slot */
    YACHT_REQUEST_UPDATE = 6        /* slot, the first one; count entries from first on */
};

/* A request of a chain. A field that its kind doesn't use says nothing. */
typedef struct yacht_request {
    uint32_t kind;  /* one of the kinds of requests */
    uint32_t slot;  /* the slot, from 0 */
    uint32_t first; /* the first byte, or the position of the first entry in `entries`, from 0 */
    uint32_t count; /* the number of bytes, or of entries */
    uint8_t flags;  /* io_uring's: 1 IOSQE_FIXED_FILE, 4 IOSQE_IO_LINK, 8 IOSQE_IO_HARDLINK */
    uint8_t file;   /* the number of the file in the catalogue, from 0 */
} yacht_request;

/* The faults of a log, by number. */
enum {
    YACHT_FAULT_WRONG_NUMBER = 1,   /* a call's number isn't that of the next call */
    YACHT_FAULT_NOT_ONE_CHAIN = 2,  /* the requests of a call have a fault, or aren't one chain */
    YACHT_FAULT_NOT_CALLED = 3,     /* an answer without its call */
    YACHT_FAULT_OUT_OF_TURN = 4,    /* an answer that isn't that of the chain's next member */
    YACHT_FAULT_ANSWERED_TWICE = 5, /* a further answer of a call that is answered */
    YACHT_FAULT_NOT_HELD = 6,       /* the end of a hold that isn't there */
    YACHT_FAULT_STILL_OPEN = 7      /* YACHT_EVENT_SETTLED while a call isn't answered */
};

/* The flaws of an event that can't be read, by number. */
enum {
    YACHT_FLAW_EVENT = 1,   /* the event's kind is unknown */
    YACHT_FLAW_REQUEST = 2, /* the kind of one of its requests is unknown */
    YACHT_FLAW_FLAGS = 3,   /* a flag of one of its requests is unknown */
    YACHT_FLAW_FILE = 4,    /* the catalogue doesn't have a file that it names */
    YACHT_FLAW_RANGE = 5    /* requests, entries or bytes that it names are past their array */
};

/* The largest number of slots of a log's table. */
enum { YACHT_MOST_LOG_SLOTS = 1048576 };

/* The kinds of the points in time of a flight, and the fields that each uses beside `kind`. */
enum {
    YACHT_POINT_EVENT = 1,  /* the event at a position: at */
    YACHT_POINT_ACCESS = 2, /* an access of what the event at a position answers: at, access */
    YACHT_POINT_PUT = 3,    /* the file is installed; the end of the flight if it never is */
    YACHT_POINT_GONE = 4    /* the last time at which the file is at the slot: slot, the file; the
                             * end of the flight if it stays, the start if it is never there */
};

/* A point in time of a flight. A field that its kind doesn't use is 0. */
typedef struct yacht_point {
    uint32_t kind;      /* one of the kinds of points */
    uint32_t slot;      /* the slot, from 0 */
    uint64_t at;        /* the position of the event or of the answer, from 0 */
    uint64_t access;    /* the number of the access among those of its member, from 0 */
    uint32_t by_call;   /* of the file: the call that installed it, */
    uint32_t by_member; /* that call's member, from 1, */
    uint32_t by_entry;  /* the position in the list of that member, from 0; 0 for an open, */
    uint8_t file;       /* and the number of the file in the catalogue, from 0 */
} yacht_point;

/* The rules of the steps of a reason, and the fields that each uses beside those of every step:
 * `first` and `second` are positions of events, mostly of a call and its answer, and `premise` and
 * `other` are numbers of earlier steps. */
enum {
    YACHT_RULE_EVENTS = 1,    /* an event comes before a later one: first, second */
    YACHT_RULE_BEGINS = 2,    /* a call comes before its accesses: first, second, access */
    YACHT_RULE_ENDS = 3,      /* an access comes before its answer: first, second, access */
    YACHT_RULE_CALLS = 4,     /* a call comes before it installs a file: first */
    YACHT_RULE_INSTALLS = 5,  /* an answered member has installed its file: first, second, access */
    YACHT_RULE_PLACES = 6,    /* the file was then at its slot: first, second, access */
    YACHT_RULE_FOLLOWS = 7,   /* a file was installed before a look found it: first, second */
    YACHT_RULE_FINDS = 8,     /* a look found a file before it left its slot: first, second */
    YACHT_RULE_CLOSES = 9,    /* a file left its slot before it was closed: first */
    YACHT_RULE_SETTLES = 10,  /* a file that was installed (premise), at a slot (other) and not
                               * closed when all was settled was still there: first */
    YACHT_RULE_EMPTIES = 11,  /* an access leaves a slot without a file that was installed before
                               * (premise): the file left it by then: first, second, access */
    YACHT_RULE_PRECEDES = 12, /* an access leaves a slot without a file that is there later
                               * (premise): it was installed after that: first, second, access */
    YACHT_RULE_DISPLACES = 13, /* a file left its slot when another one was installed there:
                                * premise, other */
    YACHT_RULE_OUTLIVES = 14, /* a file that is at a slot after another one was installed there was
                               * installed after that one: premise, other */
    YACHT_RULE_THEN = 15,     /* the orders of two steps make one: premise, other */
    YACHT_RULE_FINDS_CLOSED = 16, /* a look found a file that was closed before: first, second */
    YACHT_RULE_CLOSES_TWICE = 17, /* a file was closed twice: first, second */
    YACHT_RULE_CLOSES_HELD = 18,  /* a file was closed while a look held it: first, second */
    YACHT_RULE_CANT_ANSWER = 19,  /* a request can't have its answer: first, second */
    YACHT_RULE_HOLDS = 20,        /* an access finds a file at a slot, and each other file isn't
                                   * there by earlier steps and by the log, or has other bytes than
                                   * the read answered: first, second, access, slot */
    YACHT_RULE_DIFFERS = 21,      /* accesses of different calls aren't at the same time (premise):
                                   * the calls first and second */
    YACHT_RULE_STAYS = 22,        /* a file that isn't gone at some event (premise) is at its slot
                                   * until the event first: no call before that took it, by earlier
                                   * steps and by the log */
    YACHT_RULE_TAKES = 23,        /* a file that isn't gone at some event (premise), and is gone
                                   * before another one (other), was at its slot until the only
                                   * access that may have taken it */
    YACHT_RULE_TAKEN_BY = 24,     /* that file was gone after that access: premise, other */
    YACHT_RULE_LANDS = 25,        /* a file that was installed (premise) was then at the only slot at
                                   * which a request may install it */
    YACHT_RULE_MISSES = 26,       /* a file that was installed (premise) was never at a slot at which
                                   * no request may install it */
    YACHT_RULE_EXISTED = 27,      /* a file was installed before it was closed: first */
    YACHT_RULE_FAILS = 28,        /* the file of a member that failed is never installed, so not
                                   * before an event: first, and the member's answer second */
    YACHT_RULE_UNKNOWN = 29,      /* a file was installed (premise), and no call before that may
                                   * install it */
    YACHT_RULE_CUT = 30,          /* a member is canceled although the answer of the member before it
                                   * severs nothing, or isn't although it does: first, second */
    YACHT_RULE_SUPPOSE = 31,      /* an order is supposed: the steps from here on speak of flights
                                   * that keep it */
    YACHT_RULE_OTHERWISE = 32     /* the step before has a point before itself, so the order that was
                                   * supposed is wrong, and this one is the opposite one: numbers of
                                   * the steps since then are numbers of it, too */
};

/* A step of a reason: by its rule, the point `from` comes before the point `to` in each flight, or
 * in each that keeps the order that is supposed. The last step of a reason has a point before
 * itself, and no order is supposed there. */
typedef struct yacht_step {
    uint32_t rule;      /* one of the rules */
    uint32_t is_strict; /* 1: at another time; 0: perhaps at the same time */
    uint64_t first;     /* the position of the first event of the rule, from 0 */
    uint64_t second;    /* the position of the second event of the rule, from 0 */
    uint64_t access;    /* the number of the access among those of its member, from 0 */
    uint64_t premise;   /* the number of an earlier step, from 0 */
    uint64_t other;     /* the number of another earlier step, from 0 */
    uint64_t slot;      /* the slot at which a file is found, from 0 */
    yacht_point from;   /* the earlier point */
    yacht_point to;     /* the later point */
} yacht_step;

/* The details of a verdict on a log. A field is 0 unless its number is returned. */
typedef struct yacht_judgement {
    /* YACHT_NOT_LEGAL: the position of the event, from 0, up to and with which the log has no
     * flight in which each request finds memory, or none by whole updates; YACHT_FAULTY,
     * YACHT_MALFORMED: of the first event with a fault or a flaw; YACHT_BAD_FILE: of the first file
     * that is past `bytes`, or that the catalogue of the files before it refuses */
    uint64_t at;
    uint64_t steps; /* YACHT_NOT_LEGAL: the number of steps of the reason; 0 if none is found */
    uint32_t fault; /* YACHT_FAULTY, YACHT_MALFORMED: the number of the fault or of the flaw */
} yacht_judgement;

/* Judges a log of calls in flight. `files` are the catalogue, at most 256 of them, numbered from 0:
 * a read is judged by their bytes. The table has `slots` slots, all of them empty at first and in
 * the allocation range. The events name ranges of the other arrays: the requests of chains, the
 * entries of updates (-1 empties a slot, -2 leaves it as it is, any other number is a file), and
 * the bytes that reads returned, which stand in `bytes` beside the names and the bytes of files.
 * Each search of states keeps at most `states` states and `memory` MiB of them. All searches
 * together make at most `moves` moves: states that a search tries or follows, the same one perhaps
 * more than once. If they need more, the log is undecided, and else the verdict is that of a
 * judgement without this limit. With 0 moves, a log that needs a search is undecided;
 * YACHT_ANY_MOVES is no limit. The search for the reason makes no move. A log with an answer -12 is
 * undecided.
 * For a log that isn't legal, it looks for the reason why the log has no flight up to and with the
 * event judgement->at. The first steps of the reason are written to `steps`, at most steps_length.
 * Each follows from the log and from steps before it.
 * Returns YACHT_LEGAL, YACHT_NOT_LEGAL, YACHT_UNDECIDED, YACHT_JUDGE_NO_MEMORY, YACHT_FAULTY,
 * YACHT_MALFORMED, YACHT_TOO_MANY_SLOTS or YACHT_BAD_FILE, and writes *judgement. */
uint32_t yacht_judge_events(const yacht_file *files, size_t files_length, uint32_t slots,
                            const yacht_request *requests, size_t requests_length,
                            const int32_t *entries, size_t entries_length, const uint8_t *bytes,
                            size_t bytes_length, const yacht_event *events, size_t events_length,
                            uint32_t states, uint32_t memory, uint64_t moves, yacht_step *steps,
                            size_t steps_length, yacht_judgement *judgement);

/* Judges a log as yacht_judge_events does, by whole updates: each update is one step, as on Linux,
 * not one for each entry. A log that is legal by whole updates is legal. A reason is found only if
 * the log is not legal by the entries of updates, either. */
uint32_t yacht_judge_whole_updates(const yacht_file *files, size_t files_length, uint32_t slots,
                                   const yacht_request *requests, size_t requests_length,
                                   const int32_t *entries, size_t entries_length,
                                   const uint8_t *bytes, size_t bytes_length,
                                   const yacht_event *events, size_t events_length, uint32_t states,
                                   uint32_t memory, uint64_t moves, yacht_step *steps,
                                   size_t steps_length, yacht_judgement *judgement);

/* The details of a verdict on the text of a log. Lines are numbered from 1. A field is 0 unless its
 * number is returned. */
typedef struct yacht_reading {
    /* YACHT_NOT_LEGAL: the line up to and with which the log has no flight in which each request
     * finds memory, or none by whole updates; YACHT_NOT_A_LOG, YACHT_KERNEL_LOG: the first such
     * line; YACHT_UNDECIDED: the line of the first answer -12, or 0 */
    uint64_t line;
    uint64_t steps; /* YACHT_NOT_LEGAL: the number of steps of the reason; 0 if none is found */
    uint64_t note;  /* YACHT_NOT_A_LOG: the number of bytes of the whole note */
} yacht_reading;

/* Judges the text of a log of calls in flight (docs/inside/FLIGHT.md), as yacht_judge_events judges
 * its events, or by whole updates unless `whole_updates` is 0. The text is read once. That it is
 * read rightly is tested, not proved. Of a log with an answer -12, the events before it are judged.
 * In the steps of a reason an event is named by its line in place of its position, and the call
 * that installed a file by its number in the text.
 * For a text that isn't a log, the note is the fault of the line, in words. Its first bytes are
 * written, at most note_length, without a 0 at the end.
 * A log with a line `tag`, `pipe` or `fed`, or with a request `regupdate`, is not judged: the
 * Python module yachtlog judges it.
 * Returns YACHT_LEGAL, YACHT_NOT_LEGAL, YACHT_UNDECIDED, YACHT_JUDGE_NO_MEMORY, YACHT_NOT_A_LOG,
 * YACHT_KERNEL_LOG or YACHT_LONG_LOG, and writes *reading. */
uint32_t yacht_judge_log(const uint8_t *text, size_t text_length, uint32_t whole_updates,
                         uint32_t states, uint32_t memory, uint64_t moves, uint8_t *note,
                         size_t note_length, yacht_step *steps, size_t steps_length,
                         yacht_reading *reading);

#ifdef __cplusplus
}
#endif
#endif
