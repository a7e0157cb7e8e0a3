/* An example: four threads serve requests over one table of open files. A request reads, replaces
 * or closes the file at a slot, or opens a file at any free slot. Each thread has the key of the
 * file that it opened last, and reads, replaces or closes that file by the key, unless the slot has
 * another file by now: then the key is stale. The last user of a file closes it, once; the program
 * ends with 1 if not, or if a key finds another file.
 * server [ROUNDS]: the requests of each thread, 40,000 by default. */
#include <pthread.h>
#include <stdatomic.h>
#include <stdint.h>
#include <stdio.h>
#include <stdlib.h>
#include <string.h>
#include <yachtbanyan.h>

enum { THREADS = 4, SLOTS = 8 };

struct file {
    unsigned number;
    int is_open;
    char name[24];
};

static atomic_uint opened, closed, wrong, reads, refused, stale;

/* a thread, and the key and the number of the file that it opened last */
struct job {
    yacht_handle *handle;
    uint32_t seed, rounds;
    yacht_key key;
    unsigned number;
};

static struct file *open_file(unsigned number) {
    struct file *file = malloc(sizeof *file);
    if (!file) exit(2);
    file->number = number, file->is_open = 1;
    snprintf(file->name, sizeof file->name, "file-%u", number);
    opened++;
    return file;
}

static void close_file(void *value, void *with) {
    struct file *file = value;
    if (!file->is_open) wrong++;
    file->is_open = 0;
    *(atomic_uint *)with += 1;
    free(file);
}

/* a call by a key returned this answer */
static void note(int answer) {
    if (answer == YACHT_STALE || answer == YACHT_EMPTY)
        stale++;
    else if (answer < 0)
        wrong++;
}

static void read_own(struct job *job) {
    void *value;
    int answer = yacht_get(job->handle, job->key, &value);
    note(answer);
    if (answer != YACHT_DONE) return;
    if (((struct file *)value)->number != job->number) wrong++;
    yacht_release(job->handle);
}

static void replace_own(struct job *job, unsigned number) {
    struct file *file = open_file(number);
    int answer = yacht_replace(job->handle, &job->key, file);
    note(answer);
    if (answer < 0)
        close_file(file, &closed);
    else
        job->number = number;
}

static void read_file(yacht_handle *handle, uint32_t slot) {
    void *value;
    int answer = yacht_get_at(handle, slot, &value);
    if (answer == YACHT_EMPTY) return;
    struct file *file = value;
    char name[24];
    snprintf(name, sizeof name, "file-%u", file->number);
    if (answer != YACHT_DONE || !file->is_open || strcmp(name, file->name)) wrong++;
    reads++;
    if (yacht_release(handle) != YACHT_DONE) wrong++;
}

static void open_anywhere(struct job *job, unsigned number) {
    struct file *file = open_file(number);
    if (yacht_insert_key(job->handle, file, &job->key) >= 0) {
        job->number = number;
        return;
    }
    refused++;
    close_file(file, &closed);
}

static void *serve(void *with) {
    struct job *job = with;
    uint32_t random = job->seed;
    for (uint32_t round = 0; round < job->rounds; round++) {
        random = random * 1664525u + 1013904223u;
        uint32_t slot = (random >> 8) % SLOTS, what = (random >> 20) % 32;
        unsigned number = round * 64 + job->seed;
        if (what < 16)
            read_file(job->handle, slot);
        else if (what < 20)
            read_own(job);
        else if (what < 24)
            wrong += yacht_replace_at(job->handle, slot, open_file(number)) < 0;
        else if (what < 26)
            replace_own(job, number);
        else if (what < 29)
            open_anywhere(job, number);
        else if (what < 31)
            note(yacht_remove(job->handle, job->key));
        else
            yacht_remove_at(job->handle, slot);
    }
    return NULL;
}

int main(int count, char **words) {
    uint32_t rounds = count > 1 ? (uint32_t)strtoul(words[1], NULL, 10) : 40000;
    yacht_table *table;
    if (yacht_open(&table, SLOTS, THREADS, 0, close_file, &closed) != YACHT_DONE) return 2;
    pthread_t threads[THREADS];
    struct job jobs[THREADS];
    for (uint32_t i = 0; i < THREADS; i++) {
        jobs[i] = (struct job){yacht_handle_of(table, i), 17 * i + 1, rounds, {0, 0}, 0};
        if (pthread_create(&threads[i], NULL, serve, &jobs[i])) return 2;
    }
    for (int i = 0; i < THREADS; i++) pthread_join(threads[i], NULL);
    yacht_free(table);
    printf("%u reads; %u files opened, %u closed, %u of them refused; %u stale keys; %u wrong\n",
           reads, opened, closed, refused, stale, wrong);
    return opened != closed || wrong;
}
