/* An example: an echo server on io_uring whose connections are direct descriptors. It prints the
 * port of 127.0.0.1 at which it listens, and serves until its standard input ends. Then it ends
 * each connection, and prints how many it opened and closed. It ends with status 77 if io_uring is
 * refused. */
#define _GNU_SOURCE
#include <arpa/inet.h>
#include <stdio.h>
#include <string.h>
#include <yachtdirect_uring.h>

enum { SLOTS = 64, BYTES = 256, ENTRIES = 128, ACCEPTS = 4, BACKLOG = 512, NO_IO_URING = 77 };
enum { RECEIVE, SEND }; /* the kinds of requests on a connection */
enum { INPUT = 1 };     /* the data of a request without a key */
static struct { unsigned begin, end; char bytes[BYTES]; } lines[SLOTS]; /* begin: of what isn't sent */
static yacht_uring ring;
static void receive(uint64_t key) {
    struct io_uring_sqe entry;
    io_uring_prep_recv(&entry, 0, lines[yacht_direct_slot_of(key)].bytes, BYTES, 0);
    yacht_uring_start(&ring, key, RECEIVE, &entry);
}
static void send_rest(uint64_t key, unsigned begin, unsigned end) {
    struct io_uring_sqe entry;
    uint32_t slot = yacht_direct_slot_of(key);
    lines[slot].begin = begin, lines[slot].end = end;
    io_uring_prep_send(&entry, 0, lines[slot].bytes + begin, end - begin, MSG_WAITALL | MSG_NOSIGNAL);
    yacht_uring_start(&ring, key, SEND, &entry);
}
static void completed(uint64_t key, uint32_t kind, int result) {
    unsigned sent = lines[yacht_direct_slot_of(key)].begin + result, end = lines[yacht_direct_slot_of(key)].end;
    if (result <= 0) yacht_uring_end(&ring, key); /* the peer's end, or an error */
    else if (kind == RECEIVE) send_rest(key, 0, result);
    else if (sent < end) send_rest(key, sent, end);
    else receive(key);
}
int main(void) {
    struct sockaddr_in address = {.sin_family = AF_INET, .sin_addr.s_addr = htonl(INADDR_LOOPBACK)};
    socklen_t size = sizeof address;
    struct io_uring_sqe entry;
    yacht_uring_event event;
    unsigned opened = 0, closed = 0;
    char byte;
    int listener = socket(AF_INET, SOCK_STREAM, 0), error = io_uring_queue_init(ENTRIES, &ring.ring, 0);
    if (!error) error = yacht_uring_open(&ring, SLOTS);
    if (error) return fprintf(stderr, "echo: io_uring is refused: %s\n", strerror(-error)), NO_IO_URING;
    if (bind(listener, (void *)&address, size) || listen(listener, BACKLOG) || getsockname(listener, (void *)&address, &size))
        return perror("echo"), 2;
    printf("%d\n", ntohs(address.sin_port));
    fflush(stdout);
    io_uring_prep_read(&entry, STDIN_FILENO, &byte, 1, 0);
    yacht_uring_push(&ring, &entry, INPUT);
    yacht_uring_accept(&ring, listener, ACCEPTS, 0);
    while ((error = yacht_uring_next(&ring, &event)) > 0) {
        if (event.kind == YACHT_URING_OTHER) yacht_uring_stop(&ring); /* the input has ended */
        else if (event.kind == YACHT_URING_OPENED) opened++, receive(event.key);
        else if (event.kind == YACHT_URING_OVER) closed++;
        else if (event.kind == YACHT_URING_STOPPED) return fprintf(stderr, "echo: accept: %s\n", strerror(-event.result)), 1;
        else completed(event.key, event.kind, event.result);
    }
    yacht_uring_close(&ring);
    printf("%u opened, %u closed\n", opened, closed);
    return error ? fprintf(stderr, "echo: %s\n", strerror(-error)), 1 : 0;
}
