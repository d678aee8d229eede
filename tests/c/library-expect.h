/* What the C clients of tests/c/library and tests/peer/clients share: rows that are shown and counted where they fail, lines of standard
 * input, and libudev's calls on the hardware database, where its own header isn't taken. */
#ifndef LIBRARY_EXPECT_H
#define LIBRARY_EXPECT_H
#include <stdio.h>
#include <stdlib.h>
#include <string.h>
#include <sys/types.h>

static int failed;

#define EXPECT(what)                                          \
    do {                                                      \
        if (!(what)) {                                        \
            printf("FAILED: line %d: %s\n", __LINE__, #what); \
            failed++;                                         \
        }                                                     \
    } while (0)

/* A line of standard input without its newline, or NULL. */
static inline char *next_line(void) {
    static char *line;
    static size_t room;

    ssize_t n = getline(&line, &room, stdin);
    if (n < 0) {
        free(line);
        line = NULL;
        room = 0;
        return NULL;
    }
    if (n > 0 && line[n - 1] == '\n')
        line[n - 1] = 0;
    return line;
}

#ifdef WITH_LIBUDEV
#include <libudev.h>
#else
struct udev;
struct udev_hwdb;
struct udev_list_entry;
struct udev_hwdb *udev_hwdb_new(struct udev *udev);
struct udev_hwdb *udev_hwdb_ref(struct udev_hwdb *hwdb);
struct udev_hwdb *udev_hwdb_unref(struct udev_hwdb *hwdb);
struct udev_list_entry *udev_hwdb_get_properties_list_entry(struct udev_hwdb *hwdb, const char *modalias, unsigned flags);
struct udev_list_entry *udev_list_entry_get_next(struct udev_list_entry *entry);
struct udev_list_entry *udev_list_entry_get_by_name(struct udev_list_entry *entry, const char *name);
const char *udev_list_entry_get_name(struct udev_list_entry *entry);
const char *udev_list_entry_get_value(struct udev_list_entry *entry);
#define udev_list_entry_foreach(entry, first) for (entry = first; entry; entry = udev_list_entry_get_next(entry))
#endif
#endif
