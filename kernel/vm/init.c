/* The first process of the virtual machine of kernel/in-vm. It plays scripts, several at a time, by
 * the programs in its file system, and speaks to kernel/in-vm through the second serial port.
 *
 * At the start it writes `ready RELEASE`. A play comes as the line `NUMBER FILES SIZE PROGRAM
 * WORD..` and SIZE bytes, the standard input of PROGRAM, which may open FILES files. They come in
 * parts of PART bytes. After each full part it writes `more`, and no byte comes before that, since
 * the port has no flow control. When PROGRAM has ended it writes `NUMBER STATUS SIZE SIZE`, the
 * standard output and the standard error. It has no end: kernel/in-vm ends the machine. */
#define _GNU_SOURCE
#include <errno.h>
#include <fcntl.h>
#include <signal.h>
#include <stdio.h>
#include <stdlib.h>
#include <string.h>
#include <sys/mount.h>
#include <sys/reboot.h>
#include <sys/resource.h>
#include <sys/stat.h>
#include <sys/utsname.h>
#include <sys/wait.h>
#include <termios.h>
#include <unistd.h>

enum { PART = 2048, LINE_BYTES = 512, MOST_WORDS = 16, MOST_SECONDS = 1000, MOST_TEXT = 1 << 26 };

struct order {
	unsigned number, files;
	size_t size;
	char line[LINE_BYTES], *words[MOST_WORDS + 1];
	char *bytes;
};

static int port;
static int turn[2];	/* a pipe with one byte: who has read it may write to the port */

static void __attribute__((noreturn)) stop(const char *what) {
	fprintf(stderr, "init: %s: %s\n", what, strerror(errno));
	reboot(RB_AUTOBOOT);
	_exit(1);
}

static void send_all(const char *bytes, size_t size) {
	while (size) {
		ssize_t sent = write(port, bytes, size);
		if (sent < 0)
			stop("the port");
		bytes += sent;
		size -= sent;
	}
}

static void receive_all(char *bytes, size_t size) {
	while (size) {
		ssize_t received = read(port, bytes, size);
		if (received <= 0)
			stop("the port");
		bytes += received;
		size -= received;
	}
}

static void take_turn(void) {
	char byte;
	if (read(turn[0], &byte, 1) != 1)
		stop("a turn");
}

static void end_turn(void) {
	if (write(turn[1], "", 1) != 1)
		stop("a turn");
}

static void receive_line(char line[LINE_BYTES]) {
	size_t size = 0;
	do {
		if (size == LINE_BYTES - 1)
			stop("a line is too long");
		receive_all(&line[size], 1);
	} while (line[size++] != '\n');
	line[size - 1] = 0;
}

static struct order *receive_order(void) {
	struct order *it = calloc(1, sizeof *it);
	int at = 0, count = 0;
	receive_line(it->line);
	if (sscanf(it->line, "%u %u %zu %n", &it->number, &it->files, &it->size, &at) != 3)
		stop(it->line);
	for (char *rest = it->line + at; count < MOST_WORDS && (it->words[count] = strsep(&rest, " ")); count++)
		;
	it->bytes = malloc(it->size + 1);
	if (!it->bytes)
		stop("a script");
	for (size_t done = 0; done < it->size; done += PART) {
		size_t part = it->size - done < PART ? it->size - done : PART;
		receive_all(it->bytes + done, part);
		if (part < PART)
			break;
		take_turn();
		send_all("more\n", 5);
		end_turn();
	}
	return it;
}

/* Opens a new file that has no name. */
static int new_file(void) {
	char path[] = "/tmp/XXXXXX";
	int opened = mkstemp(path);
	if (opened < 0 || unlink(path))
		stop(path);
	return opened;
}

static void run_program(const struct order *it, const int files[3]) {
	struct rlimit open_files = { it->files, it->files }, text = { MOST_TEXT, MOST_TEXT };
	for (int at = 0; at < 3; at++)
		if (dup2(files[at], at) < 0)
			stop("a descriptor");
	close_range(3, ~0U, 0);
	if (setrlimit(RLIMIT_NOFILE, &open_files) || setrlimit(RLIMIT_FSIZE, &text))
		fprintf(stderr, "init: the limits: %s\n", strerror(errno));
	alarm(MOST_SECONDS);
	execv(it->words[0], it->words);
	fprintf(stderr, "init: %s: %s\n", it->words[0], strerror(errno));
	_exit(127);
}

static void send_file(int file, size_t size) {
	char bytes[4096];
	for (size_t done = 0; done < size;) {
		ssize_t part = pread(file, bytes, sizeof bytes, done);
		if (part <= 0)
			stop("a text");
		send_all(bytes, part);
		done += part;
	}
}

/* Runs the program of an order, and writes what it printed. */
static void __attribute__((noreturn)) play(const struct order *it) {
	int files[3], status;
	struct stat text, message;
	signal(SIGCHLD, SIG_DFL);
	for (int at = 0; at < 3; at++)
		files[at] = new_file();
	if (write(files[0], it->bytes, it->size) != (ssize_t)it->size || lseek(files[0], 0, SEEK_SET))
		stop("a script");
	pid_t child = fork();
	if (!child)
		run_program(it, files);
	if (child < 0 || waitpid(child, &status, 0) != child || fstat(files[1], &text) || fstat(files[2], &message))
		stop("a play");
	status = WIFEXITED(status) ? WEXITSTATUS(status) : 128 + WTERMSIG(status);
	take_turn();
	dprintf(port, "%u %d %zu %zu\n", it->number, status, (size_t)text.st_size, (size_t)message.st_size);
	send_file(files[1], text.st_size);
	send_file(files[2], message.st_size);
	end_turn();
	_exit(0);
}

static void open_port(void) {
	struct termios setting;
	port = open("/dev/ttyS1", O_RDWR | O_NOCTTY);
	if (port < 0 || tcgetattr(port, &setting))
		stop("/dev/ttyS1");
	cfmakeraw(&setting);
	cfsetspeed(&setting, B115200);
	if (tcsetattr(port, TCSANOW, &setting))
		stop("/dev/ttyS1");
}

int main(void) {
	struct utsname system;
	mkdir("/proc", 0755);
	mkdir("/dev", 0755);
	mkdir("/tmp", 0777);
	mount("proc", "/proc", "proc", 0, NULL);
	mount("dev", "/dev", "devtmpfs", 0, NULL);
	if (open("/dev/console", O_RDWR) < 0 || dup2(0, 1) < 0 || dup2(0, 2) < 0 || pipe(turn))
		stop("/dev/console");
	open_port();
	signal(SIGCHLD, SIG_IGN);
	end_turn();
	uname(&system);
	dprintf(port, "ready %s\n", system.release);
	for (;;) {
		struct order *it = receive_order();
		pid_t child = fork();
		if (!child)
			play(it);
		if (child < 0)
			stop("a play");
		free(it->bytes);
		free(it);
	}
}
