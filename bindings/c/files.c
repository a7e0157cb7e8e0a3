/* An example: prints the first bytes of the files with the given paths, each read by one
 * submission: an open at a slot, two reads and a close, linked. No file has a descriptor of the
 * process. It ends with status 1 if a file can't be read, and with 77 if io_uring is refused. */
#define _GNU_SOURCE
#include <fcntl.h>
#include <stdio.h>
#include <stdlib.h>
#include <string.h>
#include <yachtdirect_uring.h>

enum { SLOTS = 4, PARTS = 2, BYTES = 2048, ENTRIES = 16, NO_IO_URING = 77 };
/* the kind of a read is the number of the part that it fills */
struct file { const char *path; int error, lengths[PARTS]; char parts[PARTS][BYTES]; };
static int begin(yacht_uring *ring, struct file **files, const char *path) {
    struct io_uring_sqe chain[1 + PARTS];
    struct file *file = calloc(1, sizeof *file);
    uint64_t key;
    io_uring_prep_openat(&chain[0], AT_FDCWD, path, O_RDONLY, 0);
    for (unsigned part = 0; part < PARTS; part++) {
        io_uring_prep_read(&chain[1 + part], 0, file->parts[part], BYTES, part * BYTES);
        chain[1 + part].user_data = part;
    }
    file->path = path;
    if (yacht_uring_chain(ring, chain, 1 + PARTS, 1, &key) != YACHT_DIRECT_DONE) return free(file), 0; /* no slot */
    files[yacht_direct_slot_of(key)] = file;
    return 1;
}
int main(int count, char **words) {
    static yacht_uring ring;
    struct file *files[SLOTS] = {0};
    yacht_uring_event event;
    int next = 1, left = count - 1, status = 0, error = io_uring_queue_init(ENTRIES, &ring.ring, 0);
    if (!error) error = yacht_uring_open(&ring, SLOTS);
    if (error) return fprintf(stderr, "files: io_uring is refused: %s\n", strerror(-error)), NO_IO_URING;
    while (left) {
        while (next < count && begin(&ring, files, words[next])) next++;
        if ((error = yacht_uring_next(&ring, &event)) < 0) return fprintf(stderr, "files: %s\n", strerror(-error)), 1;
        struct file *file = files[yacht_direct_slot_of(event.key)];
        if (event.kind != YACHT_URING_OVER) {
            if (event.result < 0 && !file->error) file->error = -event.result;
            if (event.kind < PARTS && event.result > 0) file->lengths[event.kind] = event.result;
            continue;
        }
        left--;
        if (file->error) status = 1, fprintf(stderr, "files: %s: %s\n", file->path, strerror(file->error));
        for (int part = 0; part < PARTS; part++) fwrite(file->parts[part], 1, (size_t)file->lengths[part], stdout);
        free(file); /* the kernel has it no more */
    }
    yacht_uring_close(&ring);
    return status;
}
