/* Lines for workers, and their answers: lists that threads share under a lock. */
#ifndef DIRECT_JOBS_H
#define DIRECT_JOBS_H
#include <pthread.h>
#include <stdint.h>
#include <yachtbanyan.h>

enum { LINE = 64 }; /* the longest line, with its newline and a NUL */

/* A line of a connection, which has a name in the table that threads share, and a key of the
 * machine. */
struct job {
    struct job *next;
    yacht_key name;
    uint64_t key;
    char line[LINE];
};

struct jobs {
    pthread_mutex_t lock;
    pthread_cond_t some;
    struct job *first, **last;
    int has_ended;
};

void begin_jobs(struct jobs *jobs);
void push_job(struct jobs *jobs, struct job *job);

/* Waits for a job, and takes it. Returns NULL if none is left and end_jobs was called. */
struct job *wait_for_job(struct jobs *jobs);

/* Takes all jobs, without waiting. */
struct job *take_jobs(struct jobs *jobs);
void end_jobs(struct jobs *jobs);

#endif
