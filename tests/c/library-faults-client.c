/* A client of libhwdb, or with UDEV of libhwdb-udev, over the C library of tests/c/library-libc.c, for tests/c/library.
 *
 *   client place           what the library finds below `root`: `KEY=VALUE` of device `a`, or the errno of the refusal
 *   client faults          calls that fail, and files that change meanwhile: what is answered, and what is held then
 *
 * `faults` is run in a folder with `root` and these files: `good` (device `a` has K=2, device `many` forty keys), `bad`,
 * `middle` (a database of 13 MB), `largest` (of 256 MiB), `larger` (of a byte more), and `scattered`, whose nodes are a block apart. */
#define _GNU_SOURCE
#include <errno.h>
#include <fcntl.h>
#include <stdio.h>
#include <stdlib.h>
#include <string.h>
#include <sys/stat.h>
#include <unistd.h>

#include "hwdb.h"
#include "library-expect.h"
#include "library-libc.h"

#define ETC "root/etc/udev/hwdb.bin"
#define USR "root/usr/lib/udev/hwdb.bin"
/* More requests for memory than any call here makes. */
#define MANY 2000

/* Copies a file, by calls that libc_* don't count. */
static void copy(const char *from, const char *to) {
    char command[512];
    snprintf(command, sizeof command, "cp %s %s", from, to);
    EXPECT(system(command) == 0);
}

#ifdef UDEV

static void place(void) {
    struct udev_hwdb *hwdb = udev_hwdb_new(NULL);
    if (!hwdb) {
        printf("%s\n", strerrorname_np(errno));
        return;
    }
    for (struct udev_list_entry *entry = udev_hwdb_get_properties_list_entry(hwdb, "a", 0); entry;
         entry = udev_list_entry_get_next(entry))
        printf("%s=%s\n", udev_list_entry_get_name(entry), udev_list_entry_get_value(entry));
    udev_hwdb_unref(hwdb);
}

/* How many properties a list has. */
static int count(struct udev_list_entry *entry) {
    int number = 0;
    for (; entry; entry = udev_list_entry_get_next(entry))
        number++;
    return number;
}

/* Each request for memory refused in turn: no handle then, or no list, and never a part of one. */
static void refused(void) {
    long before = libc_held;
    int refusals = 0;

    for (long number = 1; number < MANY; number++) {
        libc_refuse = number;
        libc_was_refused = 0;
        errno = 0;
        struct udev_hwdb *hwdb = udev_hwdb_new(NULL);
        if (hwdb) {
            struct udev_list_entry *list = udev_hwdb_get_properties_list_entry(hwdb, "many", 0);
            EXPECT(list ? count(list) == 40 && !libc_was_refused : libc_was_refused && errno == ENOMEM);
            libc_refuse = 0;
            EXPECT(count(udev_hwdb_get_properties_list_entry(hwdb, "many", 0)) == 40);
            EXPECT(count(udev_hwdb_get_properties_list_entry(hwdb, "a", 0)) == 1);
            udev_hwdb_unref(hwdb);
        } else
            EXPECT(libc_was_refused && errno == ENOMEM);
        libc_refuse = 0;
        EXPECT(libc_held == before);
        if (!libc_was_refused)
            break;
        refusals++;
    }
    EXPECT(refusals > 100);
}

static void faults(void) {
    libc_root = "root";
    errno = 0;
    EXPECT(!udev_hwdb_new(NULL) && errno == ENOENT);
    copy("bad", ETC);
    errno = 0;
    EXPECT(!udev_hwdb_new(NULL) && errno == EUCLEAN);
    copy("good", ETC);
    /* libudev doesn't look at the flags. */
    struct udev_hwdb *hwdb = udev_hwdb_new(NULL);
    EXPECT(count(udev_hwdb_get_properties_list_entry(hwdb, "many", 1)) == 40);
    EXPECT(count(udev_hwdb_get_properties_list_entry(hwdb, "many", ~0u)) == 40);
    udev_hwdb_unref(hwdb);
    refused();
    EXPECT(libc_open == 0);
}

#else

static void place(void) {
    const char *key, *value;
    sd_hwdb *hwdb = NULL;

    libc_root = "root";
    int r = sd_hwdb_new(&hwdb);
    if (r < 0)
        printf("%s\n", strerrorname_np(-r));
    else
        SD_HWDB_FOREACH_PROPERTY(hwdb, "a", key, value)
            printf("%s=%s\n", key, value);
    sd_hwdb_unref(hwdb);
}

/* What opening a path answers, and checking the whole file after it; a refusal leaves nothing open, nothing held and no handle. */
static void opens(const char *path, int wanted) {
    long before = libc_held;
    sd_hwdb *hwdb = NULL;

    libc_flags = 0;
    int r = path ? sd_hwdb_new_from_path(path, &hwdb) : sd_hwdb_new(&hwdb);
    if (r != wanted || (r < 0) != !hwdb) {
        printf("FAILED: %s: %d in place of %d\n", path ? path : "sd_hwdb_new", r, wanted);
        failed++;
    }
    EXPECT(libc_flags == (O_RDONLY | O_CLOEXEC | O_NOCTTY | O_NONBLOCK));
    EXPECT(libc_open == (r == 0));
    EXPECT(r < 0 || hwdb_check(hwdb) == 0);
    sd_hwdb_unref(hwdb);
    EXPECT(libc_open == 0);
    EXPECT(libc_held == before);
}

/* How many pages of the process are in memory. */
static long resident(void) {
    long size = 0, pages = 0;
    FILE *file = fopen("/proc/self/statm", "re");
    EXPECT(file && fscanf(file, "%ld %ld", &size, &pages) == 2);
    fclose(file);
    return pages;
}

/* What a handle took goes back to the system with it: malloc(3) would keep it from the second one on. */
static void given_back(void) {
    opens("middle", 0);
    long before = resident();
    for (int i = 0; i < 3; i++)
        opens("middle", 0);
    EXPECT((resident() - before) * sysconf(_SC_PAGESIZE) < 4 << 20);
}

static void descriptors(void) {
    opens("good", 0);
    opens("bad", -EUCLEAN);
    opens("nowhere", -ENOENT);
    opens("good/nowhere", -ENOTDIR);
    opens("root", -EISDIR);
    opens("/dev/null", -EINVAL);
    opens("larger", -EFBIG);
    opens("largest", 0);
}

/* A file that changes before its first block is read, and after its size was taken. */
static void grow(void) {
    libc_before_read = NULL;
    EXPECT(truncate("changed", 1 << 20) == 0);
}

static void shrink(void) {
    libc_before_read = NULL;
    EXPECT(truncate("changed", 90) == 0);
}

/* A file that is overwritten, cut or replaced while a handle is over it; calls that read fail, and once more don't. */
static void later(void) {
    const char *value;
    sd_hwdb *hwdb = NULL;

    EXPECT(sd_hwdb_new_from_path("good", &hwdb) == 0);
    libc_read_error = EIO;
    EXPECT(hwdb_check(hwdb) == -EIO);
    libc_read_error = 0;
    EXPECT(hwdb_check(hwdb) == 0 && hwdb_check(NULL) == -EINVAL);
    sd_hwdb_unref(hwdb);
    /* The old file is read on, which has no name. */
    copy("good", "changed");
    EXPECT(sd_hwdb_new_from_path("changed", &hwdb) == 0);
    copy("middle", "another");
    EXPECT(rename("another", "changed") == 0);
    EXPECT(sd_hwdb_get(hwdb, "a", "K", &value) == 0 && !strcmp(value, "2"));
    EXPECT(hwdb_check(hwdb) == 0);
    sd_hwdb_unref(hwdb);
    copy("good", "changed");
    EXPECT(sd_hwdb_new_from_path("changed", &hwdb) == 0);
    EXPECT(truncate("changed", 90) == 0);
    EXPECT(hwdb_check(hwdb) == -EUCLEAN);
    EXPECT(sd_hwdb_seek(hwdb, "many") <= 0);
    sd_hwdb_unref(hwdb);
    copy("good", "changed");
    EXPECT(sd_hwdb_new_from_path("changed", &hwdb) == 0);
    EXPECT(truncate("changed", 0) == 0 && truncate("changed", 1 << 20) == 0);
    EXPECT(hwdb_check(hwdb) == -EUCLEAN);
    sd_hwdb_unref(hwdb);
    EXPECT(libc_open == 0);
}

static void reads(void) {
    libc_interrupts = 3;
    opens("good", 0);
    EXPECT(libc_interrupts == 0);
    libc_read_error = EIO;
    opens("good", -EIO);
    libc_read_error = 0;
    copy("good", "changed");
    /* What was added is none of the database. */
    libc_before_read = grow;
    opens("changed", 0);
    copy("good", "changed");
    libc_before_read = shrink;
    opens("changed", -EUCLEAN);
    later();
}

/* How many reads there were. */
static int counted;

static void count(void) {
    counted++;
}

/* A file of a thousand blocks: each node that a lookup enters is in the block before that of the last one. One read for each block would
 * begin the lookup a thousand times. */
static void scattered(void) {
    sd_hwdb *hwdb = NULL;

    libc_before_read = count;
    EXPECT(sd_hwdb_new_from_path("scattered", &hwdb) == 0);
    EXPECT(sd_hwdb_seek(hwdb, "abcdefghijklmnopqrstuvwxyzABCDEabcdefghijklmnopqrstuvwxyzABCDE") == 0);
    libc_before_read = NULL;
    EXPECT(counted > 100 && counted < 400);
    sd_hwdb_unref(hwdb);
}

/* What is made before a name is looked at that couldn't be opened; and its end before it is opened once more. */
static void make(void) {
    EXPECT(link("good", ETC) == 0);
}

static void make_link_to_nothing(void) {
    libc_before_lstat = NULL;
    EXPECT(symlink("nothing", ETC) == 0);
}

/* Once it goes and comes again, and then it goes for good. */
static int times;

static void take_away(void) {
    if (unlink(ETC) == 0 && times++ > 0)
        libc_before_lstat = NULL;
}

static void take_away_each_time(void) {
    unlink(ETC);
}

static void take_away_once(void) {
    if (unlink(ETC) == 0)
        libc_before_open = NULL;
}

/* A database that comes between open and lstat is opened; one that goes again leaves the next place's; a link to nothing stays. */
static void between(void) {
    libc_root = "root";
    libc_before_lstat = make;
    opens(NULL, 0);
    EXPECT(unlink(ETC) == 0);
    libc_before_lstat = make_link_to_nothing;
    opens(NULL, -ENOENT);
    copy("good", USR);
    opens(NULL, -ENOENT);
    EXPECT(unlink(ETC) == 0);
    libc_before_lstat = make;
    libc_before_open = take_away;
    opens(NULL, 0);
    EXPECT(libc_before_lstat == NULL);
    libc_before_lstat = make;
    libc_before_open = take_away_each_time;
    opens(NULL, 0);
    EXPECT(unlink(USR) == 0 && (unlink(ETC) == 0 || errno == ENOENT));
    libc_before_open = take_away_once;
    opens(NULL, 0);
    EXPECT(libc_before_open == NULL && unlink(ETC) == 0);
    libc_before_lstat = NULL;
    libc_root = "";
}

/* Each request for memory refused in turn. The same call once more has what it would have had, and all is given back. */
static void refused(void) {
    const char *key, *value;
    long before = libc_held;
    int refusals = 0;

    for (long number = 1; number < MANY; number++) {
        sd_hwdb *hwdb = NULL;
        int r, seen = 0;

        libc_refuse = number;
        libc_was_refused = 0;
        r = sd_hwdb_new_from_path("good", &hwdb);
        EXPECT(r == (libc_was_refused ? -ENOMEM : 0) && (r == 0) == (hwdb != NULL));
        EXPECT(libc_open == (r == 0));
        if (r < 0 && sd_hwdb_new_from_path("good", &hwdb) < 0)
            exit(1);
        while ((r = sd_hwdb_get(hwdb, "a", "K", &value)) == -ENOMEM)
            EXPECT(libc_was_refused);
        EXPECT(r == 0 && !strcmp(value, "2"));
        while ((r = sd_hwdb_seek(hwdb, "many")) == -ENOMEM)
            EXPECT(sd_hwdb_enumerate(hwdb, &key, &value) == -EAGAIN);
        while ((r = sd_hwdb_enumerate(hwdb, &key, &value)) != 0) {
            EXPECT(r == 1 || (r == -ENOMEM && libc_was_refused));
            seen += r == 1;
        }
        EXPECT(seen == 40);
        sd_hwdb_unref(hwdb);
        EXPECT(libc_held == before);
        libc_refuse = 0;
        if (!libc_was_refused)
            break;
        refusals++;
    }
    EXPECT(refusals > 150);
}

static void faults(void) {
    given_back();
    descriptors();
    reads();
    scattered();
    between();
    refused();
}

#endif

int main(int argc, char **argv) {
    static char buffer[4096];
    const char *what = argc == 2 ? argv[1] : "";

    /* A buffer of stdio's own would count as held. */
    setvbuf(stdout, buffer, _IOLBF, sizeof buffer);
    if (!strcmp(what, "place")) {
        libc_root = "root";
        place();
    } else if (!strcmp(what, "faults"))
        faults();
    else
        return 2;
    return failed ? 1 : 0;
}
