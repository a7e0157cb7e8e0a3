/* Replaces a program by a wrong one: it runs the program that the variable SPOILED names, with its
 * own arguments and standard input, and passes its output on, with the change that the variable
 * SPOIL names:
 *
 *   nothing   no change
 *   byte      the last byte before the last line end of the text is changed
 *   line      the last line of the text is left out
 *   status    another exit status: 1 for 0, and 0 for any other
 *   message   the last byte before the line end of the message on standard error is changed
 *   end       it never ends
 *   memory    it needs twice as much memory: it gets half of what is there, if that is limited
 *   words     it gets none of its arguments
 *
 * If there is no text, byte and line change the message, and if there is neither, an empty line is
 * written. It is linked statically, so that what is preloaded into the program isn't into this. */
#define _GNU_SOURCE
#include <stdio.h>
#include <stdlib.h>
#include <string.h>
#include <sys/resource.h>
#include <sys/wait.h>
#include <unistd.h>

static const char *how;

static int is(const char *change) { return !strcmp(how, change); }

static void must(int holds, const char *what) {
    if (holds) return;
    perror(what);
    exit(99);
}

static void halve_memory(void) {
    struct rlimit limit;
    must(!getrlimit(RLIMIT_AS, &limit), "spoil: limit");
    if (limit.rlim_cur != RLIM_INFINITY) limit.rlim_cur /= 2;
    must(!setrlimit(RLIMIT_AS, &limit), "spoil: limit");
}

/* Writes what a file has, changed or not. */
static void pass_on(FILE *from, FILE *to, int is_changed) {
    size_t size = ftell(from), end;
    char *bytes = malloc(size + 1);
    rewind(from);
    must(bytes && fread(bytes, 1, size, from) == size, "spoil: read");
    bytes[size] = '\n';
    end = size - (size && bytes[size - 1] == '\n');
    if (is_changed && !size)
        size = 1;
    else if (is_changed && is("line"))
        for (size--; size && bytes[size - 1] != '\n';) size--;
    else if (is_changed)
        end ? (void)(bytes[end - 1] ^= 1) : (void)(size = 0);
    fwrite(bytes, 1, size, to);
}

int main(int count, char **words) {
    FILE *out = tmpfile(), *error = tmpfile();
    int status;
    (void)count;
    how = getenv("SPOIL"), words[0] = getenv("SPOILED");
    must(words[0] && how && out && error, "spoil: SPOILED and SPOIL");
    pid_t child = fork();
    if (child == 0) {
        dup2(fileno(out), STDOUT_FILENO);
        dup2(fileno(error), STDERR_FILENO);
        if (is("words")) words[1] = NULL;
        if (is("memory")) halve_memory();
        execvp(words[0], words);
        must(0, "spoil: exec");
    }
    must(child > 0 && waitpid(child, &status, 0) > 0, "spoil: fork");
    status = WIFEXITED(status) ? WEXITSTATUS(status) : 128 + WTERMSIG(status);
    while (is("end")) pause();
    must(!fseek(out, 0, SEEK_END) && !fseek(error, 0, SEEK_END), "spoil: seek");
    int in_text = (is("byte") || is("line")) && ftell(out), in_message = is("message") || ((is("byte") || is("line")) && !in_text);
    pass_on(out, stdout, in_text);
    pass_on(error, stderr, in_message);
    return is("status") ? status == 0 : status;
}
