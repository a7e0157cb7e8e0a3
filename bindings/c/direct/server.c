/* An example: a TCP server on io_uring whose connections and files are direct descriptors, over
 * yachtdirect_uring.h. A line is answered with the same line, by one of two worker threads; `get N`
 * with the first line of file N, which is opened, read and closed by one submission.
 *
 * Each connection and each file has a slot of the ring's table. While no slot is free, no accept is
 * submitted, and clients wait in the listening socket's backlog. A connection is also a value of a
 * table that threads share (yachtbanyan): workers hold it by the table's key. For the machine the
 * value is one user. Its drop, in whichever thread used it last, posts the machine's key to a
 * queue, and the ring's thread releases it.
 *
 * server FOLDER: serves the files of a folder. It prints its port, and serves until its standard
 * input ends. Then it prints what was counted, and ends with status 1 if anything is wrong, or with
 * 77 if io_uring is refused. */
#define _GNU_SOURCE
#include "jobs.h"
#include <arpa/inet.h>
#include <fcntl.h>
#include <pthread.h>
#include <stdatomic.h>
#include <stdio.h>
#include <stdlib.h>
#include <string.h>
#include <sys/eventfd.h>
#include <unistd.h>
#include <yachtbanyan.h>
#include <yachtdirect_uring.h>

enum { SLOTS = 64, KEPT_FOR_FILES = 8, ACCEPTS = 4, WORKERS = 2, BACKLOG = 512, ENTRIES = 256 };
enum { ENDS = 50 }; /* the server ends the connection of each such line, as if it had reasons */
enum { NO_IO_URING = 77 };
enum { RECEIVE, SEND, READ }; /* the kinds of requests with a key */
enum { WAKE = 1, INPUT };     /* the data of those without one */

/* a connection: of the ring's thread, but for what workers use */
struct connection {
    yacht_direct_note note; /* with the machine's key; the drop posts it */
    yacht_key name;         /* of the table */
    int is_ended, is_answering, is_receiving;
    size_t begin, used;  /* of what was received and not yet answered */
    size_t sent, length; /* of the answer */
    char in[4 * LINE], out[LINE];
    atomic_uint answers; /* of workers */
};

/* a file that is read for a connection, whose key it has */
struct file {
    uint64_t reader;
    int error; /* of its open */
    char path[LINE], bytes[LINE];
};

static yacht_uring ring;
static yacht_table *table;
static yacht_handle *handle;
static struct connection *connections[SLOTS]; /* by slot, as the files; one of both is NULL */
static struct file *files[SLOTS];
static int event, folder;
static uint64_t count_of_event;
static yacht_direct_queue released;
static struct jobs asked, answered; /* of workers */
static unsigned opened, closed, lines, ended, waits, late, wrong;
static atomic_uint stale, elsewhere, held_wrongly;
static pthread_t ring_thread;

static void must(int holds, const char *what) {
    if (holds) return;
    perror(what);
    exit(2);
}

static void *allocated(size_t size) {
    void *it = calloc(1, size);
    must(!!it, "calloc");
    return it;
}

/* counts an answer of the machine that it may not give here */
static void expect(int answer, int right) {
    if (answer == right) return;
    if (!wrong++) fprintf(stderr, "server: %s\n", yacht_direct_strerror(answer));
}

static void wake(void) {
    uint64_t one = 1;
    must(write(event, &one, sizeof one) == sizeof one, "write");
}

/* the drop of the table: nobody holds the connection any more */
static void drop(void *value, void *with) {
    struct connection *it = value;
    (void)with;
    elsewhere += !pthread_equal(pthread_self(), ring_thread);
    if (yacht_direct_post(&it->note)) wake();
}

/* returns the connection of a key, or NULL if its life was ended: its slot may have another one */
static struct connection *connection_of(uint64_t key) {
    uint32_t requests, users;
    int phase = yacht_direct_phase(&ring.machine, key, &requests, &users);
    return phase == YACHT_DIRECT_LIVE ? connections[yacht_direct_slot_of(key)] : NULL;
}

static void receive(uint64_t key, struct connection *it) {
    struct io_uring_sqe entry;
    if (it->is_receiving || it->is_ended) return;
    /* no request has the buffer */
    memmove(it->in, it->in + it->begin, it->used -= it->begin);
    it->begin = 0;
    if (it->used == sizeof it->in) return;
    io_uring_prep_recv(&entry, 0, it->in + it->used, sizeof it->in - it->used, 0);
    expect(yacht_uring_start(&ring, key, RECEIVE, &entry), YACHT_DIRECT_DONE);
    it->is_receiving = 1;
}

static void send_rest(uint64_t key, struct connection *it) {
    struct io_uring_sqe entry;
    io_uring_prep_send(&entry, 0, it->out + it->sent, it->length - it->sent, MSG_WAITALL | MSG_NOSIGNAL);
    expect(yacht_uring_start(&ring, key, SEND, &entry), YACHT_DIRECT_DONE);
}

/* sends an answer, unless its connection has ended meanwhile: then it goes to nobody */
static void answer(uint64_t key, const char *line) {
    struct connection *it = connection_of(key);
    if (!it) {
        late++;
        return;
    }
    it->sent = 0, it->length = strlen(strcpy(it->out, line));
    send_rest(key, it);
}

/* ends a connection. Workers find it no more; what is in flight completes by the shutdown */
static void end_connection(uint64_t key, struct connection *it) {
    if (it->is_ended) return;
    it->is_ended = 1;
    yacht_uring_end(&ring, key);
    if (yacht_remove(handle, it->name) < 0) wrong++;
}

/* opens, reads and closes a file by one submission */
static void read_file(uint64_t reader, const char *name) {
    struct io_uring_sqe chain[2];
    struct file *it = allocated(sizeof *it);
    uint64_t key;
    it->reader = reader;
    snprintf(it->path, LINE, "%s", name);
    io_uring_prep_openat(&chain[0], folder, it->path, O_RDONLY, 0);
    io_uring_prep_read(&chain[1], 0, it->bytes, LINE - 1, 0);
    chain[1].user_data = READ;
    if (yacht_uring_chain(&ring, chain, 2, 1, &key) == YACHT_DIRECT_DONE) {
        files[yacht_direct_slot_of(key)] = it;
        return;
    }
    free(it);
    answer(reader, "busy\n");
}

/* answers with the first line of a file */
static void file_was_read(struct file *it, int result) {
    it->bytes[result < 0 ? 0 : result] = 0;
    it->bytes[strcspn(it->bytes, "\n")] = 0;
    strcat(it->bytes, "\n");
    answer(it->reader, it->error == -ENOENT ? "no such file\n" : it->bytes);
}

static void ask_worker(uint64_t key, struct connection *it, const char *line) {
    struct job *job = allocated(sizeof *job);
    job->name = it->name, job->key = key;
    strcpy(job->line, line);
    push_job(&asked, job);
}

/* a path of several names would lead out of the folder */
static int is_number(const char *name) { return *name && !name[strspn(name, "0123456789")]; }

/* takes the next line of a connection, unless one is being answered */
static void next_line(uint64_t key, struct connection *it) {
    char line[LINE], *begin = it->in + it->begin, *newline = memchr(begin, '\n', it->used - it->begin);
    size_t length = newline ? (size_t)(newline + 1 - begin) : it->used - it->begin;
    if (it->is_answering || it->is_ended) return;
    if (length >= LINE) { /* a line that doesn't fit: no more is received of it */
        end_connection(key, it);
        return;
    }
    if (!newline) return;
    memcpy(line, begin, length), line[length] = 0;
    it->begin += length;
    it->is_answering = 1;
    if (!strncmp(line, "get ", 4)) {
        line[length - 1] = 0;
        if (is_number(line + 4)) read_file(key, line + 4);
        else answer(key, "no such file\n");
    } else {
        ask_worker(key, it, line);
    }
    if (++lines % ENDS == 0) ended++, end_connection(key, it);
}

static void accepted(uint64_t key) {
    struct connection *it = connections[yacht_direct_slot_of(key)] = allocated(sizeof *it);
    it->note.key = key;
    waits += yacht_direct_len(&ring.machine) + KEPT_FOR_FILES >= SLOTS;
    /* the server may have been stopped before this event */
    it->is_ended = yacht_direct_hold_by(&ring.machine, key, &released, &it->note) != YACHT_DIRECT_DONE;
    if (!it->is_ended && yacht_insert_key(handle, it, &it->name) < 0) wrong++;
    receive(key, it);
}

static void go_on(uint64_t key, struct connection *it, int result) {
    if (result <= 0) end_connection(key, it);
    next_line(key, it);
    receive(key, it);
}

static void received(uint64_t key, struct connection *it, int result) {
    it->is_receiving = 0;
    if (result > 0) it->used += (size_t)result;
    go_on(key, it, result);
}

static void sent(uint64_t key, struct connection *it, int result) {
    if (result > 0) it->sent += (size_t)result;
    if (result > 0 && it->sent < it->length && !it->is_ended) {
        send_rest(key, it);
        return;
    }
    it->is_answering = 0;
    go_on(key, it, result);
}

/* frees the memory of a life that is over */
static void over(uint32_t slot) {
    closed += !files[slot] || !files[slot]->error;
    free(connections[slot]), free(files[slot]);
    connections[slot] = NULL, files[slot] = NULL;
}

static void listen_for_wakes(void) {
    struct io_uring_sqe entry;
    io_uring_prep_read(&entry, event, &count_of_event, sizeof count_of_event, 0);
    yacht_uring_push(&ring, &entry, WAKE);
}

/* what other threads left for the ring's */
static void woken(void) {
    yacht_direct_note *note;
    must(yacht_direct_collect(&ring.machine, &released, &note) == YACHT_DIRECT_DONE, "yacht_direct_collect");
    for (yacht_direct_note *next; note; note = next) {
        next = note->next; /* the release may end the note's life */
        yacht_uring_release(&ring, note->key);
    }
    for (struct job *next, *job = take_jobs(&answered); job; job = next) {
        next = job->next;
        answer(job->key, job->line);
        free(job);
    }
    listen_for_wakes();
}

/* the orderly end: each connection is ended, and no accept is left */
static void stop(void) {
    for (uint32_t slot = 0; slot < SLOTS; slot++)
        if (connections[slot]) end_connection(connections[slot]->note.key, connections[slot]);
    yacht_uring_stop(&ring);
}

static void take(const yacht_uring_event *it) {
    uint32_t slot = yacht_direct_slot_of(it->key);
    switch (it->kind) {
    case YACHT_URING_OTHER: it->key == WAKE ? woken() : stop(); break;
    case YACHT_URING_STOPPED: fprintf(stderr, "server: accept: %s\n", strerror(-it->result)), wrong++; break;
    case YACHT_URING_OPENED:
        opened += it->result >= 0;
        if (files[slot]) files[slot]->error = it->result < 0 ? it->result : 0;
        else accepted(it->key);
        break;
    case YACHT_URING_OVER: over(slot); break;
    case RECEIVE: received(it->key, connections[slot], it->result); break;
    case SEND: sent(it->key, connections[slot], it->result); break;
    case READ: file_was_read(files[slot], it->result); break;
    }
}

/* answers lines, and holds the connection of each meanwhile */
static void *work(void *with) {
    yacht_handle *reader = with;
    unsigned seed = 1;
    for (struct job *job; (job = wait_for_job(&asked));) {
        void *value;
        if (yacht_get(reader, job->name, &value) == YACHT_DONE) {
            struct connection *it = value;
            if (rand_r(&seed) % 64 == 0) usleep(300); /* an answer that takes longer */
            held_wrongly += it->note.key != job->key;
            it->answers++;
            yacht_release(reader);
            push_job(&answered, job);
            wake();
        } else {
            stale++;
            free(job);
        }
    }
    return NULL;
}

/* opens the ring, in the thread that uses it */
static void open_ring(void) {
    int error = io_uring_queue_init(ENTRIES, &ring.ring, IORING_SETUP_SINGLE_ISSUER | IORING_SETUP_DEFER_TASKRUN);
    if (error) error = io_uring_queue_init(ENTRIES, &ring.ring, 0);
    if (!error) error = yacht_uring_open(&ring, SLOTS);
    if (error) {
        fprintf(stderr, "server: io_uring is refused: %s\n", strerror(-error));
        exit(NO_IO_URING);
    }
    released = yacht_direct_queue_of(ring.machine);
    ring_thread = pthread_self();
}

/* listens, prints the port, and serves until the standard input ends */
static void serve(void) {
    struct sockaddr_in address = {.sin_family = AF_INET, .sin_addr.s_addr = htonl(INADDR_LOOPBACK)};
    socklen_t size = sizeof address;
    struct io_uring_sqe entry;
    yacht_uring_event next;
    char byte;
    int more, listener = socket(AF_INET, SOCK_STREAM, 0);
    must(listener >= 0 && !bind(listener, (void *)&address, size), "bind");
    must(!listen(listener, BACKLOG) && !getsockname(listener, (void *)&address, &size), "listen");
    printf("%d\n", ntohs(address.sin_port));
    fflush(stdout);
    io_uring_prep_read(&entry, STDIN_FILENO, &byte, 1, 0);
    yacht_uring_push(&ring, &entry, INPUT);
    listen_for_wakes();
    yacht_uring_accept(&ring, listener, ACCEPTS, KEPT_FOR_FILES);
    while ((more = yacht_uring_next(&ring, &next)) > 0) take(&next);
    errno = -more;
    must(!more, "io_uring");
}

int main(int count, char **words) {
    pthread_t workers[WORKERS];
    must(count == 2 && (folder = open(words[1], O_RDONLY | O_DIRECTORY)) >= 0, "server FOLDER");
    begin_jobs(&asked), begin_jobs(&answered);
    open_ring();
    must((event = eventfd(0, 0)) >= 0, "eventfd");
    must(yacht_open(&table, SLOTS, 1, WORKERS, drop, NULL) == YACHT_DONE, "yacht_open");
    handle = yacht_handle_of(table, 0);
    for (uint32_t i = 0; i < WORKERS; i++)
        must(!pthread_create(&workers[i], NULL, work, yacht_reader_of(table, i)), "pthread_create");
    serve();
    end_jobs(&asked);
    for (int i = 0; i < WORKERS; i++) pthread_join(workers[i], NULL);
    end_jobs(&answered);
    if (yacht_direct_in_flight(&ring.machine)) wrong++;
    yacht_free(table);
    yacht_uring_close(&ring);
    printf("%u opened, %u closed; %u times the backlog waited; %u ended by the server\n", opened, closed, waits, ended);
    printf("%u answers were late, %u keys stale, %u last users elsewhere; %u wrong\n", late, (unsigned)stale,
           (unsigned)elsewhere, wrong + held_wrongly);
    return wrong || held_wrongly || opened != closed;
}
