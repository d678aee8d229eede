/* How many bytes of a database a lookup reads, for tests/c/library: linked so that its reads come by here.
 *
 *   reads DATABASE DEVICE KEY     what sd_hwdb_get answers, and how many bytes were read
 */
#define _GNU_SOURCE
#include <stdio.h>
#include <unistd.h>

#include "hwdb.h"

ssize_t __real_pread(int file, void *bytes, size_t most, off_t at);
ssize_t __wrap_pread(int file, void *bytes, size_t most, off_t at);

static size_t count;

ssize_t __wrap_pread(int file, void *bytes, size_t most, off_t at) {
    ssize_t n = __real_pread(file, bytes, most, at);
    if (n > 0)
        count += (size_t)n;
    return n;
}

int main(int argc, char **argv) {
    sd_hwdb *hwdb;
    const char *value;

    if (argc != 4 || sd_hwdb_new_from_path(argv[1], &hwdb) < 0)
        return 2;
    int r = sd_hwdb_get(hwdb, argv[2], argv[3], &value);
    printf("%d %zu\n", r, count);
    sd_hwdb_unref(hwdb);
    return 0;
}
