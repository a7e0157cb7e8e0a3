/* Lines for workers, and their answers. */
#include "jobs.h"
#include <stdlib.h>

void begin_jobs(struct jobs *jobs) {
    pthread_mutex_init(&jobs->lock, NULL);
    pthread_cond_init(&jobs->some, NULL);
    jobs->first = NULL, jobs->last = &jobs->first;
    jobs->has_ended = 0;
}

void push_job(struct jobs *jobs, struct job *job) {
    job->next = NULL;
    pthread_mutex_lock(&jobs->lock);
    *jobs->last = job, jobs->last = &job->next;
    pthread_cond_signal(&jobs->some);
    pthread_mutex_unlock(&jobs->lock);
}

struct job *wait_for_job(struct jobs *jobs) {
    pthread_mutex_lock(&jobs->lock);
    while (!jobs->first && !jobs->has_ended) pthread_cond_wait(&jobs->some, &jobs->lock);
    struct job *job = jobs->first;
    if (job && !(jobs->first = job->next)) jobs->last = &jobs->first;
    pthread_mutex_unlock(&jobs->lock);
    return job;
}

struct job *take_jobs(struct jobs *jobs) {
    pthread_mutex_lock(&jobs->lock);
    struct job *first = jobs->first;
    jobs->first = NULL, jobs->last = &jobs->first;
    pthread_mutex_unlock(&jobs->lock);
    return first;
}

void end_jobs(struct jobs *jobs) {
    pthread_mutex_lock(&jobs->lock);
    jobs->has_ended = 1;
    pthread_cond_broadcast(&jobs->some);
    pthread_mutex_unlock(&jobs->lock);
    for (struct job *next, *job = take_jobs(jobs); job; job = next) next = job->next, free(job);
}
