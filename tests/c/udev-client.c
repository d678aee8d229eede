/* A client of libudev's calls on the hardware database, for tests/c/library and tests/peer/clients.
 *
 *   client devices     for each device, a line of standard input: `> DEVICE`, and its properties, by udev_list_entry_get_next
 *   client calls       what each call answers, over a database that gives device `a` the properties E= and K=2, and `b` none
 *   client others      (WITH_LIBUDEV) the names of a list of libudev's own: the devices of the subsystem mem */
#define _GNU_SOURCE
#include <errno.h>
#include <stdio.h>
#include <stdlib.h>
#include <string.h>
#include <sys/types.h>

#include "library-expect.h"

static struct udev_hwdb *opened(void) {
    struct udev_hwdb *hwdb = udev_hwdb_new(NULL);
    if (!hwdb) {
        perror("udev_hwdb_new");
        exit(1);
    }
    return hwdb;
}

static void devices(void) {
    struct udev_hwdb *hwdb = opened();
    for (char *line; (line = next_line());) {
        struct udev_list_entry *first, *entry;
        printf("> %s\n", line);
        errno = 0;
        first = udev_hwdb_get_properties_list_entry(hwdb, line, 0);
        EXPECT(first || errno == ENODATA);
        udev_list_entry_foreach(entry, first) {
            const char *name = udev_list_entry_get_name(entry);
            printf("%s=%s\n", name, udev_list_entry_get_value(entry));
            EXPECT(udev_list_entry_get_by_name(first, name) == entry);
        }
    }
    udev_hwdb_unref(hwdb);
}

static void calls(void) {
    struct udev_hwdb *hwdb = opened();
    struct udev_list_entry *entry;

    entry = udev_hwdb_get_properties_list_entry(hwdb, "a", 0);
    EXPECT(entry && !strcmp(udev_list_entry_get_name(entry), "E") && !strcmp(udev_list_entry_get_value(entry), ""));
    EXPECT(!udev_list_entry_get_by_name(entry, "L"));
    entry = udev_list_entry_get_next(entry);
    EXPECT(entry && !strcmp(udev_list_entry_get_name(entry), "K") && !strcmp(udev_list_entry_get_value(entry), "2"));
    EXPECT(!udev_list_entry_get_next(entry));
    errno = 0;
    EXPECT(!udev_hwdb_get_properties_list_entry(hwdb, "b", 0) && errno == ENODATA);
    errno = 0;
    EXPECT(!udev_hwdb_get_properties_list_entry(hwdb, NULL, 0) && errno == EINVAL);
    errno = 0;
    EXPECT(!udev_hwdb_get_properties_list_entry(NULL, "a", 0) && errno == EINVAL);
    EXPECT(!udev_list_entry_get_next(NULL) && !udev_list_entry_get_by_name(NULL, "K"));
    EXPECT(!udev_list_entry_get_name(NULL) && !udev_list_entry_get_value(NULL));
    EXPECT(udev_hwdb_ref(hwdb) == hwdb);
    EXPECT(!udev_hwdb_unref(hwdb));
    EXPECT(udev_hwdb_get_properties_list_entry(hwdb, "a", 0));
    EXPECT(!udev_hwdb_unref(hwdb));
    EXPECT(!udev_hwdb_ref(NULL) && !udev_hwdb_unref(NULL));
}

#ifdef WITH_LIBUDEV
static void others(void) {
    struct udev *udev = udev_new();
    struct udev_enumerate *found = udev_enumerate_new(udev);
    struct udev_list_entry *entry;

    udev_enumerate_add_match_subsystem(found, "mem");
    udev_enumerate_scan_devices(found);
    udev_list_entry_foreach(entry, udev_enumerate_get_list_entry(found)) {
        const char *value = udev_list_entry_get_value(entry);
        struct udev_list_entry *same = udev_list_entry_get_by_name(entry, udev_list_entry_get_name(entry));
        printf("%s %s %d\n", udev_list_entry_get_name(entry), value ? value : "-", same == entry);
    }
    udev_enumerate_unref(found);
    udev_unref(udev);
}
#endif

int main(int argc, char **argv) {
    const char *what = argc == 2 ? argv[1] : "";

    if (!strcmp(what, "devices"))
        devices();
    else if (!strcmp(what, "calls"))
        calls();
#ifdef WITH_LIBUDEV
    else if (!strcmp(what, "others"))
        others();
#endif
    else
        return 2;
    return failed ? 1 : 0;
}
