/* The C part of libyachtdirect: the queue of releases that other threads ask for, and the numbers
 * of the header in words. All else is the verified machine (crates/fx_direct_c). */
#include "yachtdirect.h"

/* The library is not compiled for ThreadSanitizer. If a program has the sanitizer's runtime, these
 * calls report to it what the queue orders. */
void __tsan_acquire(void *) __attribute__((weak));
void __tsan_release(void *) __attribute__((weak));

/* The note belongs to the ring's thread from the exchange on, so what its thread wrote to the value
 * before is seen by who collects it. A note that is collected and posted again meanwhile makes an
 * exchange succeed that should fail only if the list is the same again: then `next` is right. */
int yacht_direct_post(yacht_direct_note *note) {
    yacht_direct_queue *queue = note->queue;
    yacht_direct_note *first = __atomic_load_n(&queue->first, __ATOMIC_RELAXED);
    if (__tsan_release) __tsan_release(queue);
    do {
        note->next = first;
    } while (!__atomic_compare_exchange_n(&queue->first, &first, note, 1, __ATOMIC_RELEASE, __ATOMIC_RELAXED));
    return !first;
}

int yacht_direct_collect(yacht_direct *machine, yacht_direct_queue *queue, yacht_direct_note **notes) {
    if (queue->slots != machine->slots) return YACHT_DIRECT_OTHER_MACHINE;
    *notes = __atomic_exchange_n(&queue->first, NULL, __ATOMIC_ACQUIRE);
    if (__tsan_acquire) __tsan_acquire(queue);
    return YACHT_DIRECT_DONE;
}

int yacht_direct_hold_by(yacht_direct *machine, uint64_t key, yacht_direct_queue *queue, yacht_direct_note *note) {
    if (queue->slots != machine->slots) return YACHT_DIRECT_OTHER_MACHINE;
    int answer = yacht_direct_hold(machine, key);
    if (answer == YACHT_DIRECT_DONE) note->queue = queue, note->key = key;
    return answer;
}

const char *yacht_direct_strerror(int answer) {
    switch (answer) {
    case YACHT_DIRECT_DONE: return "done";
    case YACHT_DIRECT_CLOSE: return "the slot is to be closed";
    case YACHT_DIRECT_FULL: return "no slot is free";
    case YACHT_DIRECT_BAD_ARGUMENT: return "an argument is out of its range";
    case YACHT_DIRECT_NO_MEMORY: return "an allocation failed";
    case YACHT_DIRECT_STALE: return "the life of the key is over";
    case YACHT_DIRECT_IS_OPENING: return "the open is not completed";
    case YACHT_DIRECT_IS_LIVE: return "the file is open";
    case YACHT_DIRECT_IS_ENDING: return "the life was ended";
    case YACHT_DIRECT_IS_CLOSING: return "the close is not completed";
    case YACHT_DIRECT_TOO_MANY_REQUESTS: return "too many requests are in flight";
    case YACHT_DIRECT_TOO_MANY_USERS: return "there are too many users";
    case YACHT_DIRECT_IS_CHAINED: return "the chain is not over";
    case YACHT_DIRECT_STOPPED: return "the machine was stopped";
    case YACHT_DIRECT_NOT_FREE: return "the slot has a life with a file";
    case YACHT_DIRECT_OTHER_MACHINE: return "the queue is that of another machine";
    default: return "not a number of yachtdirect.h";
    }
}
