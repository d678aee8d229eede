/* A client of sd-hwdb's calls, for tests/peer/clients: the same source over libhwdb and, with SYSTEMD, over libsystemd. For each device,
 * a line of standard input, a line `DEVICE KEY=VALUE` for each property by sd_hwdb_enumerate, and what sd_hwdb_get gives for it. */
#define _GNU_SOURCE
#include <stdio.h>
#include <stdlib.h>
#include <string.h>
#include <sys/types.h>

#ifdef SYSTEMD
#include <systemd/sd-hwdb.h>
#else
#include <hwdb.h>
#endif

int main(void) {
    const char *key, *value, *got;
    sd_hwdb *hwdb = NULL, *other = NULL;
    char *line = NULL;
    size_t room = 0;

    int r = sd_hwdb_new(&hwdb);
    if (r >= 0)
        r = sd_hwdb_new(&other);
    if (r < 0) {
        fprintf(stderr, "sd_hwdb_new: %s\n", strerror(-r));
        return 1;
    }
    while (getline(&line, &room, stdin) > 0) {
        line[strcspn(line, "\n")] = 0;
        SD_HWDB_FOREACH_PROPERTY(hwdb, line, key, value) {
            r = sd_hwdb_get(other, line, key, &got);
            printf("%s %s=%s (%s)\n", line, key, value, r < 0 ? strerror(-r) : got);
        }
        r = sd_hwdb_get(other, line, "NO_SUCH_KEY", &got);
        printf("%s: %s\n", line, r < 0 ? strerror(-r) : got);
    }
    free(line);
    sd_hwdb_unref(other);
    sd_hwdb_unref(hwdb);
    return 0;
}
