/* An update with a bad entry empties the slot of the bad entry. It is built with -luring. */
#include <fcntl.h>
#include <liburing.h>
#include <stdio.h>
#include <string.h>

int main(void) {
    struct io_uring ring;
    struct io_uring_cqe *cqe;
    char byte;
    int files[2] = {open("/etc/passwd", O_RDONLY), open("/etc/passwd", O_RDONLY)};
    int update[2] = {files[0], 999}; /* no open file */
    int error = io_uring_queue_init(2, &ring, 0);
    if (!error) error = io_uring_register_files(&ring, files, 2);
    if (error) {
        fprintf(stderr, "io_uring is refused: %s\n", strerror(-error));
        return 1;
    }
    printf("update: %d\n", io_uring_register_files_update(&ring, 0, update, 2));
    struct io_uring_sqe *sqe = io_uring_get_sqe(&ring);
    io_uring_prep_read(sqe, 1, &byte, 1, 0);
    sqe->flags |= IOSQE_FIXED_FILE;
    if (io_uring_submit(&ring) != 1 || io_uring_wait_cqe(&ring, &cqe)) return 1;
    printf("read at slot 1: %d\n", cqe->res);
}
