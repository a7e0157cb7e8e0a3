/* clients lines|echo CONNECTIONS LASTING MILLISECONDS COMMAND..: starts a server by COMMAND and a
 * folder of files: one of lines and files (bindings/c/direct, the example `direct` of the Rust
 * crate), or one that echoes all (the programs of docs/use/DIRECT.md). It prints its port, and
 * serves until its standard input ends. The clients are 200 at a time. Each connection has a
 * number, and its lines have it too, so that an answer to another connection is noticed. Some
 * reset, close one half, or send and read a byte at a time; some send a line that is too long; some
 * leave while a file is read that has no bytes yet. The server is stopped and continued meanwhile.
 * Then its table must have no file. At its end LASTING connections see theirs, and a few that it
 * hasn't seen.
 *
 * It prints what was counted, and the server's lines. It ends with status 1 if anything is wrong,
 * or if a client waits for longer than MILLISECONDS, and with 77 if the server does. */
#define _GNU_SOURCE
#include <arpa/inet.h>
#include <dirent.h>
#include <errno.h>
#include <fcntl.h>
#include <poll.h>
#include <signal.h>
#include <stdio.h>
#include <stdlib.h>
#include <string.h>
#include <sys/socket.h>
#include <sys/stat.h>
#include <sys/wait.h>
#include <unistd.h>

/* the longest line, the lines of a connection, those before their answers; the files, of which a
 * third are shorter than the server's buffer; the name of the pipe */
enum { LINE = 64, LINES = 30, AHEAD = 4, FILES = 6, PIPE = 6, AT_A_TIME = 200, LATE = 3, LONG_LINE = 2000 };
enum mode { PLAIN, LEAVES, RESETS, CLOSES_HALF, IS_SLOW, TOO_LONG, LEAVES_FILE };

struct client {
    int socket;
    enum mode mode;
    unsigned number, sent, answered, turns;
    size_t part, used; /* bytes that are sent of the next line; bytes of the next answer */
    char in[2 * LINE];
};

static struct client clients[AT_A_TIME];
static struct sockaddr_in address = {.sin_family = AF_INET};
static char folder[] = "/tmp/clients.XXXXXX";
static int echoes, patience, pipe_of_file, input, output;
static unsigned connections, lasting, made, lines, files, busy, to_another, wrong, ended, left, owed;
static pid_t server;

static void must(int holds, const char *what) {
    if (holds) return;
    fprintf(stderr, "clients: %s: %s\n", what, strerror(errno));
    exit(2);
}

/* Writes the first line of a file. The server's buffer has LINE - 1 bytes. */
static void line_of_file(unsigned file, char *line) {
    int width = file % 3 || file == PIPE ? LINE - 2 : 14; /* a read of the pipe takes one line */
    snprintf(line, LINE, "this is file %-*u", width - 13, file);
    strcat(line, "\n");
}

static void make_files(void) {
    char path[64], line[LINE];
    must(!!mkdtemp(folder), "mkdtemp");
    for (unsigned i = 0; i < FILES; i++) {
        snprintf(path, sizeof path, "%s/%u", folder, i);
        FILE *file = fopen(path, "w");
        line_of_file(i, line);
        must(file && fputs(line, file) >= 0 && (i % 3 == 0 || fputs("another line\n", file) >= 0) && !fclose(file), path);
    }
    snprintf(path, sizeof path, "%s/%u", folder, PIPE);
    must(!mkfifo(path, 0600) && (pipe_of_file = open(path, O_RDWR | O_NONBLOCK)) >= 0, path);
}

static void remove_files(void) {
    char path[64];
    for (unsigned i = 0; i <= PIPE; i++) snprintf(path, sizeof path, "%s/%u", folder, i), unlink(path);
    rmdir(folder);
}

/* Starts the server, and reads its port. */
static void start_server(int count, char **words) {
    int to[2], from[2], status;
    char *all[16] = {0}, port[16] = "";
    must(count < 15 && !pipe2(to, O_CLOEXEC) && !pipe2(from, O_CLOEXEC), "pipe2");
    memcpy(all, words, (size_t)count * sizeof *words), all[count] = folder;
    if (!(server = fork())) {
        dup2(to[0], 0), dup2(from[1], 1);
        execv(all[0], all);
        _exit(126);
    }
    close(to[0]), close(from[1]);
    input = to[1], output = from[0];
    for (char *it = port; it < port + 15 && read(output, it, 1) == 1 && *it != '\n'; it++) continue;
    if (!*port) {
        remove_files();
        must(waitpid(server, &status, 0) == server, "waitpid");
        exit(WIFEXITED(status) && WEXITSTATUS(status) == 77 ? 77 : 1);
    }
    address.sin_addr.s_addr = htonl(INADDR_LOOPBACK), address.sin_port = htons((uint16_t)atoi(port));
}

/* Writes the nth line of a connection, and the right answer to it. */
static void line_of(const struct client *it, unsigned nth, char *line, char *answer) {
    unsigned file = (it->number + nth / 8) % (FILES + 2);
    if (it->mode == LEAVES_FILE && nth) file = PIPE;
    else if (file >= PIPE) file++; /* there is no such file */
    strcpy(answer, "no such file\n");
    if (echoes || (nth % 8 != 5 && !(it->mode == LEAVES_FILE && nth))) {
        snprintf(line, LINE, "%u %u\n", it->number, nth);
        strcpy(answer, line);
    } else if (file > PIPE + 1) {
        strcpy(line, "get ../../etc/passwd\n");
    } else {
        snprintf(line, LINE, "get %u\n", file);
        if (file <= PIPE) line_of_file(file, answer);
    }
}

static int dial(struct client *it) {
    memset(it, 0, sizeof *it);
    it->socket = socket(AF_INET, SOCK_STREAM | SOCK_CLOEXEC, 0);
    if (it->socket < 0 || connect(it->socket, (void *)&address, sizeof address)) return 0;
    fcntl(it->socket, F_SETFL, O_NONBLOCK);
    it->number = ++made;
    it->mode = it->number % 8 == 3 ? LEAVES : it->number % 8 == 5 ? RESETS : it->number % 16 == 9 ? CLOSES_HALF :
        it->number % 64 == 1 ? IS_SLOW : PLAIN;
    if (!echoes && it->number % 64 == 7) it->mode = TOO_LONG;
    if (!echoes && connections > 500 && it->number % 50 == 25) it->mode = LEAVES_FILE;
    return 1;
}

/* Sends lines, up to AHEAD before their answers. Returns 0 if the connection has ended. */
static int send_lines(struct client *it) {
    char line[LINE], answer[LINE], too_long[LONG_LINE];
    unsigned last = it->mode == LEAVES_FILE ? 2 : it->mode == IS_SLOW ? 3 : LINES;
    if (it->mode == TOO_LONG) {
        memset(too_long, 'x', sizeof too_long), too_long[LONG_LINE / 8] = '\n';
        return it->sent++ || send(it->socket, too_long, it->number % 2 ? LONG_LINE / 8 + 1 : LONG_LINE / 8, MSG_NOSIGNAL) >= 0;
    }
    while (it->sent < last && it->sent < it->answered + AHEAD) {
        line_of(it, it->sent, line, answer);
        size_t length = strlen(line + it->part);
        if (it->mode == IS_SLOW) length = 1;
        if (send(it->socket, line + it->part, length, MSG_NOSIGNAL) < 0) return errno == EAGAIN;
        it->part += length;
        if (line[it->part]) return 1;
        it->part = 0, it->sent++;
    }
    if (it->mode == CLOSES_HALF && it->sent == LINES) shutdown(it->socket, SHUT_WR);
    return 1;
}

static void judge(struct client *it, const char *answer) {
    char line[LINE], right[LINE];
    unsigned number, nth;
    line_of(it, it->answered++, line, right);
    int is_busy = !strncmp(line, "get", 3) && !strcmp(answer, "busy\n");
    if (it->mode != TOO_LONG && (is_busy || !strcmp(answer, right)))
        lines++, busy += is_busy, files += !strncmp(answer, "this", 4);
    else if ((sscanf(answer, "%u %u", &number, &nth) == 2 && number != it->number) || !strncmp(answer, "this is file 6", 14))
        to_another++;
    else if (!wrong++)
        fprintf(stderr, "clients: connection %u got %.70s for %.70s", it->number, answer, line);
}

/* Reads answers. Returns 0 if the connection has ended. */
static int read_answers(struct client *it) {
    ssize_t count = recv(it->socket, it->in + it->used, it->mode == IS_SLOW ? 1 : sizeof it->in - 1 - it->used, 0);
    if (count <= 0) return count < 0 && errno == EAGAIN;
    it->used += (size_t)count;
    it->in[it->used] = 0;
    for (char *end; (end = strchr(it->in, '\n'));) {
        char answer[2 * LINE];
        size_t length = (size_t)(end + 1 - it->in);
        memcpy(answer, it->in, length), answer[length] = 0;
        judge(it, answer);
        memmove(it->in, end + 1, it->used - length + 1), it->used -= length;
    }
    wrong += it->used == sizeof it->in - 1;
    return it->used < sizeof it->in - 1;
}

/* Lets a client go on. Returns 0 if its connection is over. */
static int goes_on(struct client *it) {
    struct linger reset = {1, 0};
    unsigned last = it->mode == LEAVES_FILE ? 1 : it->mode == IS_SLOW ? 3 :
        it->mode == LEAVES || it->mode == RESETS ? 1 + it->number % LINES : LINES;
    if (!read_answers(it) || !send_lines(it)) return ended++, wrong += echoes, 0;
    if (it->answered < last) return 1;
    if (it->mode == LEAVES_FILE && it->turns++ < 3) return 1; /* the server reads the pipe now */
    left += last < LINES;
    if (it->mode == RESETS || it->mode == LEAVES_FILE) setsockopt(it->socket, SOL_SOCKET, SO_LINGER, &reset, sizeof reset);
    return 0;
}

/* Lets the reads of the pipe end whose clients have left. */
static void feed_pipe(void) {
    char line[LINE];
    line_of_file(PIPE, line);
    for (; owed; owed--) must(write(pipe_of_file, line, strlen(line)) > 0, "write");
}

/* Waits for what any of the clients may read. Returns 0 if nothing has come for too long. */
static int wait_for(unsigned count, struct pollfd *polled) {
    static int waited;
    int milliseconds = patience;
    for (unsigned i = 0; i < count; i++) {
        polled[i] = (struct pollfd){clients[i].socket, POLLIN, 0};
        if (clients[i].mode == IS_SLOW || clients[i].turns) milliseconds = 2;
    }
    waited = poll(polled, count, milliseconds) > 0 ? 0 : waited + milliseconds;
    return waited < patience;
}

static void run_clients(void) {
    static struct pollfd polled[AT_A_TIME];
    unsigned count = 0;
    do {
        while (count < AT_A_TIME && made < connections) {
            wrong += !dial(&clients[count]);
            send_lines(&clients[count++]); /* if the server has ended it, the next read sees that */
            if (made % 50 == 0) feed_pipe();
            if (made % 500 == 0) kill(server, SIGSTOP), usleep(10000), kill(server, SIGCONT);
        }
        if (count && !wait_for(count, polled)) break;
        for (unsigned i = count; i-- > 0;) {
            if ((!polled[i].revents && clients[i].mode != IS_SLOW && !clients[i].turns) || goes_on(&clients[i])) continue;
            owed += clients[i].mode == LEAVES_FILE && clients[i].sent > 1;
            close(clients[i].socket);
            clients[i] = clients[--count];
        }
    } while (count);
    for (unsigned i = 0; i < count; i++) close(clients[i].socket); /* no progress */
    wrong += count;
    feed_pipe();
}

/* Returns the number of files in the table of the server's ring. */
static int files_in_table(void) {
    char path[300], line[300];
    int count = 0, is_in_table = 0;
    snprintf(path, sizeof path, "/proc/%d/fdinfo", server);
    DIR *all = opendir(path);
    for (struct dirent *it; all && (it = readdir(all));) {
        snprintf(path, sizeof path, "/proc/%d/fdinfo/%.20s", server, it->d_name);
        FILE *file = fopen(path, "r");
        for (is_in_table = 0; file && fgets(line, sizeof line, file);) {
            if (*line != ' ') is_in_table = !strncmp(line, "UserFiles:", 10);
            else count += is_in_table && !strstr(line, "<none>");
        }
        if (file) fclose(file);
    }
    if (all) closedir(all);
    return count;
}

/* Opens connections, each of which gets one answer, and then ends the server. As that goes on after
 * it was stopped, it finds the end of its input, and connections that it hasn't seen. */
static unsigned end_server(char *text, size_t size) {
    struct pollfd polled[AT_A_TIME];
    unsigned count = 0, saw_the_end = 0;
    int status, leaks;
    for (int i = 0; (leaks = files_in_table()) && i < patience; i += 10) usleep(10000);
    if (leaks) fprintf(stderr, "clients: %d files are left in the table\n", leaks), wrong++;
    for (; count < lasting && dial(&clients[count]); count++)
        clients[count].mode = PLAIN, send_lines(&clients[count]);
    for (unsigned i = 0; i < count; i++)
        while (!clients[i].answered && poll(&(struct pollfd){clients[i].socket, POLLIN, 0}, 1, patience) > 0 && read_answers(&clients[i])) continue;
    kill(server, SIGSTOP), close(input);
    for (int i = 0; i < LATE && dial(&clients[count]); i++) count++;
    kill(server, SIGCONT);
    for (unsigned i = 0; i < count; i++) {
        int is_open = 1;
        polled[i] = (struct pollfd){clients[i].socket, POLLIN, 0};
        while (is_open && poll(&polled[i], 1, patience) > 0) is_open = read_answers(&clients[i]);
        saw_the_end += !is_open;
        close(clients[i].socket);
    }
    polled[0] = (struct pollfd){output, POLLIN, 0};
    if (poll(polled, 1, patience) <= 0) fputs("clients: the server doesn't end\n", stderr), wrong++, kill(server, SIGKILL);
    for (ssize_t got; size > 1 && (got = read(output, text, size - 1)) > 0; text += got, size -= (size_t)got) text[got] = 0;
    must(waitpid(server, &status, 0) == server, "waitpid");
    if (status) fprintf(stderr, "clients: the server ends by %d, with status %d\n", WTERMSIG(status), WEXITSTATUS(status)), wrong++;
    return saw_the_end;
}

int main(int count, char **words) {
    char text[4096] = "";
    unsigned opened = 0, closed = 1;
    must(count > 5 && atoi(words[3]) + LATE <= AT_A_TIME, "lines|echo CONNECTIONS LASTING MILLISECONDS COMMAND");
    echoes = !strcmp(words[1], "echo"), connections = (unsigned)atoi(words[2]), lasting = (unsigned)atoi(words[3]), patience = atoi(words[4]);
    make_files();
    start_server(count - 5, words + 5);
    run_clients();
    unsigned last = end_server(text, sizeof text);
    remove_files();
    sscanf(text, "%u opened, %u closed", &opened, &closed);
    printf("%u connections, %u lines, %u of files, %u without a slot; %u to another connection, %u wrong\n", made, lines, files, busy, to_another, wrong);
    printf("%u ended by the server, %u by the client, %u of %u at the end\n%s", ended, left, last, lasting + LATE, text);
    return to_another || wrong || opened != closed || last != lasting + LATE;
}
