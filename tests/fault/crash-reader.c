/* Readers of a database while others replace it. See tests/fault/crash.
 *
 *   crash-reader keep DATABASE STOP             maps the database, shared and private, and opens it, and reads it through
 *                 all three ways again and again, until the file STOP is there: each time it has the bytes that it had
 *   crash-reader again DATABASE ONE TWO STOP    opens and maps it anew each time: it is the file ONE or the file TWO
 *
 * It prints how often it read it, and its status is 0; where it found other bytes it says so, with status 1. The map of
 * a file that is cut shorter ends it with SIGBUS. */
#define _GNU_SOURCE
#include <fcntl.h>
#include <stdio.h>
#include <stdlib.h>
#include <string.h>
#include <sys/mman.h>
#include <sys/stat.h>
#include <unistd.h>

struct view { const char *bytes; size_t length; int file; };

static void fail(const char *what) { perror(what); exit(2); }

static struct view view_of(const char *path, int sharing) {
    struct stat found;
    struct view view = {.file = open(path, O_RDONLY)};
    if (view.file < 0 || fstat(view.file, &found)) fail(path);
    view.length = found.st_size;
    if (view.length == 0) return view;
    view.bytes = mmap(0, view.length, PROT_READ, sharing, view.file, 0);
    if (view.bytes == MAP_FAILED) fail(path);
    return view;
}

static int is_same(struct view a, struct view b) { return a.length == b.length && !memcmp(a.bytes, b.bytes, a.length); }

/* The bytes, in memory of our own. */
static struct view copy_of(struct view view) {
    char *bytes = malloc(view.length + 1);
    if (!bytes) fail("malloc");
    memcpy(bytes, view.bytes, view.length);
    return (struct view){bytes, view.length, -1};
}

static int is_there(const char *path) { return access(path, F_OK) == 0; }

static int keep(const char *path, const char *stop) {
    struct view shared = view_of(path, MAP_SHARED), private = view_of(path, MAP_PRIVATE), first = copy_of(shared);
    struct view read_again = copy_of(shared);
    unsigned long rounds = 0;
    do {
        ssize_t length = pread(shared.file, (char *)read_again.bytes, first.length + 1, 0);
        if (!is_same(shared, first) || !is_same(private, first)) return printf("the mapped bytes changed\n"), 1;
        if (length != (ssize_t)first.length || !is_same(read_again, first)) return printf("the open file's bytes changed\n"), 1;
        rounds++;
    } while (!is_there(stop));
    printf("%lu\n", rounds);
    return 0;
}

static int again(const char *path, const char *one_path, const char *two_path, const char *stop) {
    struct view one = view_of(one_path, MAP_PRIVATE), two = view_of(two_path, MAP_PRIVATE);
    unsigned long rounds = 0;
    do {
        struct view now = view_of(path, MAP_SHARED);
        if (!is_same(now, one) && !is_same(now, two)) return printf("bytes of neither database\n"), 1;
        munmap((void *)now.bytes, now.length);
        close(now.file);
        rounds++;
    } while (!is_there(stop));
    printf("%lu\n", rounds);
    return 0;
}

int main(int count, char **words) {
    if (count == 4 && !strcmp(words[1], "keep")) return keep(words[2], words[3]);
    if (count == 6 && !strcmp(words[1], "again")) return again(words[2], words[3], words[4], words[5]);
    return fprintf(stderr, "usage: see the source\n"), 2;
}
