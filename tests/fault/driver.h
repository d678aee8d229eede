/* What tests/fault/crash-driver.c and tests/fault/memory-driver.c share: files as texts, and a run of the program whose
 * standard output and standard error are the files `out` and `err`. Standard input is empty. */
#include <fcntl.h>
#include <stdio.h>
#include <stdlib.h>
#include <string.h>
#include <sys/stat.h>
#include <sys/wait.h>
#include <unistd.h>

/* A file's bytes, ended by a byte 0 that isn't counted. */
struct text { char *bytes; size_t length; int is_there; };

static void fail(const char *what) { perror(what); exit(2); }

static struct text text_of(const char *path) {
    struct text text = {0};
    int file = open(path, O_RDONLY);
    if (file < 0) return text;
    struct stat found;
    if (fstat(file, &found)) fail(path);
    text.is_there = 1;
    text.length = found.st_size;
    text.bytes = malloc(text.length + 1);
    if (!text.bytes || read(file, text.bytes, text.length) != (ssize_t)text.length) fail(path);
    text.bytes[text.length] = 0;
    close(file);
    return text;
}

static int is_same(struct text a, struct text b) {
    return a.is_there == b.is_there && a.length == b.length && (a.length == 0 || !memcmp(a.bytes, b.bytes, a.length));
}

/* Writes a new file. */
static void make_file(const char *path, const char *bytes, size_t length, mode_t mode) {
    int file = open(path, O_WRONLY | O_CREAT | O_EXCL, 0600);
    if (file < 0 || write(file, bytes, length) != (ssize_t)length || fchmod(file, mode)) fail(path);
    close(file);
}

/* In a child: opens its three streams. */
static void open_streams(void) {
    int in = open("/dev/null", O_RDONLY);
    int out = open("out", O_WRONLY | O_CREAT | O_TRUNC, 0600), err = open("err", O_WRONLY | O_CREAT | O_TRUNC, 0600);
    if (dup2(in, 0) < 0 || dup2(out, 1) < 0 || dup2(err, 2) < 0) _exit(126);
    if (in > 2) close(in);
    if (out > 2) close(out);
    if (err > 2) close(err);
}

/* How a child ends. A status above 255 is a signal's. */
static int status_of(pid_t child) {
    int status;
    if (waitpid(child, &status, 0) != child) fail("waitpid");
    return WIFEXITED(status) ? WEXITSTATUS(status) : 256 + WTERMSIG(status);
}
