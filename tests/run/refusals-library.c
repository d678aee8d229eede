/* Preloaded by tests/run/refusals: lets file calls of the program fail.
 *
 * FAILS=CALL:END:ERRNO[,..]   each call of this name whose path ends so fails with this error, a number. A call without a
 *                             path, as write, has an empty END, and fails where its descriptor is above 2. Reading fails at
 *                             the end of a file alone. */
#define _GNU_SOURCE
#include <dlfcn.h>
#include <errno.h>
#include <stdio.h>
#include <stdlib.h>
#include <string.h>
#include <sys/stat.h>
#include <unistd.h>

/* Whether the call fails; errno says why. */
static int fails(const char *call, const char *path) {
    const char *rule = getenv("FAILS");
    char name[32], end[512];
    int error, length;
    while (rule && sscanf(rule, "%31[^:]:%511[^:]:%d%n", name, end, &error, &length) == 3) {
        size_t tail = strlen(end), whole = strlen(path);
        if (!strcmp(name, call) && (!strcmp(end, "*") || (whole >= tail && !strcmp(path + whole - tail, end)))) {
            errno = error;
            return 1;
        }
        rule += length;
        if (*rule != ',') break;
        rule++;
    }
    return 0;
}

int statx(int folder, const char *restrict path, int flags, unsigned mask, struct statx *restrict found) {
    if (fails("statx", path)) return -1;
    return ((int (*)(int, const char *, int, unsigned, struct statx *))dlsym(RTLD_NEXT, "statx"))(folder, path, flags, mask, found);
}

ssize_t write(int file, const void *bytes, size_t count) {
    if (file > 2 && fails("write", "")) return -1;
    return ((ssize_t (*)(int, const void *, size_t))dlsym(RTLD_NEXT, "write"))(file, bytes, count);
}

/* In place of a file's end. */
ssize_t read(int file, void *bytes, size_t count) {
    ssize_t got = ((ssize_t (*)(int, void *, size_t))dlsym(RTLD_NEXT, "read"))(file, bytes, count);
    if (got == 0 && file > 2 && fails("read", "")) return -1;
    return got;
}

int fsync(int file) {
    if (fails("fsync", "")) return -1;
    return ((int (*)(int))dlsym(RTLD_NEXT, "fsync"))(file);
}

int rename(const char *from, const char *to) {
    if (fails("rename", to)) return -1;
    return ((int (*)(const char *, const char *))dlsym(RTLD_NEXT, "rename"))(from, to);
}

int unlink(const char *path) {
    if (fails("unlink", path)) return -1;
    return ((int (*)(const char *))dlsym(RTLD_NEXT, "unlink"))(path);
}
