/* Preloaded into a program, counts what it requests, and makes its allocations, reads and writes
 * fail or transfer less than requested, as these variables say, if they are set:
 *
 *   COUNTS               the file that keeps the counts, as numbers of 8 bytes: the threads that
 *                        the program starts, the bytes of memory that it requests, its allocations,
 *                        its writes to standard output, and the size of each of the first 64
 *   FAILING_ALLOCATION   the number of the allocation that fails, from 1 on
 *   READ_BYTES           the most bytes that a read from standard input returns
 *   FAILING_READ         the number of the read that fails, from 1 on, once
 *   READ_ERROR           the errno with which it fails
 *   WRITE_BYTES          the most bytes that a write to standard output takes
 *   ROOM                 the bytes that all writes take; one without room fails with ENOSPC, as on
 *                        a full disk
 *
 * Allocations are those from the start of main to its end. The counts are there however the program
 * ends: tests/counts.py reads them, and tests/check-examples has the streams fail. */
#define _GNU_SOURCE
#include <dlfcn.h>
#include <errno.h>
#include <fcntl.h>
#include <pthread.h>
#include <stdatomic.h>
#include <stdbool.h>
#include <stddef.h>
#include <stdint.h>
#include <stdlib.h>
#include <sys/mman.h>
#include <sys/syscall.h>
#include <unistd.h>

enum { KEPT = 64 };

typedef int Main(int, char **, char **);
typedef int Start(Main *, int, char **, void (*)(void), void (*)(void), void (*)(void), void *);
typedef int Create(pthread_t *, const pthread_attr_t *, void *(*)(void *), void *);

/* the C library's own, under names that nobody else defines */
extern void *__libc_malloc(size_t);
extern void *__libc_calloc(size_t, size_t);
extern void *__libc_realloc(void *, size_t);
extern void *__libc_memalign(size_t, size_t);

struct counts {
    _Atomic uint64_t threads, bytes, allocations, writes, given[KEPT];
};

static struct counts none, *counts = &none;
static Main *main_of_the_program;
static _Atomic bool is_in_main;
static uint64_t failing, reads, read_bytes, failing_read, read_error, write_bytes, room;

/* What a variable has, or the other number where there is none. */
static uint64_t number(const char *variable, uint64_t other) {
    const char *text = getenv(variable);
    return text == NULL ? other : strtoull(text, NULL, 10);
}

__attribute__((constructor)) static void begin(void) {
    failing = number("FAILING_ALLOCATION", 0);
    read_bytes = number("READ_BYTES", UINT64_MAX);
    failing_read = number("FAILING_READ", 0);
    read_error = number("READ_ERROR", EIO);
    write_bytes = number("WRITE_BYTES", UINT64_MAX);
    room = number("ROOM", UINT64_MAX);
    if (getenv("COUNTS") == NULL)
        return;
    int file = open(getenv("COUNTS"), O_RDWR);
    counts = mmap(NULL, sizeof *counts, PROT_READ | PROT_WRITE, MAP_SHARED, file, 0);
    if (file < 0 || counts == MAP_FAILED)
        _exit(77);
    close(file);
}

static bool fails(size_t size) {
    atomic_fetch_add(&counts->bytes, size);
    if (!atomic_load(&is_in_main) || atomic_fetch_add(&counts->allocations, 1) + 1 != failing)
        return false;
    errno = ENOMEM;
    return true;
}

void *malloc(size_t size) { return fails(size) ? NULL : __libc_malloc(size); }

void *calloc(size_t count, size_t size) {
    return fails(count * size) ? NULL : __libc_calloc(count, size);
}

void *realloc(void *old, size_t size) { return fails(size) ? NULL : __libc_realloc(old, size); }

void *aligned_alloc(size_t alignment, size_t size) {
    return fails(size) ? NULL : __libc_memalign(alignment, size);
}

int posix_memalign(void **made, size_t alignment, size_t size) {
    void *memory = fails(size) ? NULL : __libc_memalign(alignment, size);
    if (memory == NULL)
        return ENOMEM;
    *made = memory;
    return 0;
}

ssize_t read(int file, void *bytes, size_t size) {
    if (file == STDIN_FILENO && ++reads == failing_read) {
        errno = (int)read_error;
        return -1;
    }
    return syscall(SYS_read, file, bytes, file == STDIN_FILENO && size > read_bytes ? read_bytes : size);
}

ssize_t write(int file, const void *bytes, size_t size) {
    if (file == STDOUT_FILENO) {
        uint64_t nth = atomic_fetch_add(&counts->writes, 1);
        if (nth < KEPT)
            atomic_store(&counts->given[nth], size);
        size = size > write_bytes ? write_bytes : size;
        if (size > room) {
            errno = ENOSPC;
            return -1;
        }
        room -= size;
    }
    return syscall(SYS_write, file, bytes, size);
}

int pthread_create(pthread_t *thread, const pthread_attr_t *how, void *(*start)(void *), void *with) {
    Create *create = (Create *)dlsym(RTLD_NEXT, "pthread_create");
    atomic_fetch_add(&counts->threads, 1);
    return create(thread, how, start, with);
}

static int counted_main(int count, char **words, char **variables) {
    atomic_store(&is_in_main, true);
    int status = main_of_the_program(count, words, variables);
    atomic_store(&is_in_main, false);
    return status;
}

int __libc_start_main(Main *main, int count, char **words, void (*begin)(void), void (*end)(void),
                      void (*end_of_loader)(void), void *stack) {
    Start *start = (Start *)dlsym(RTLD_NEXT, "__libc_start_main");
    main_of_the_program = main;
    return start(counted_main, count, words, begin, end, end_of_loader, stack);
}
