/* A client of libhwdb, for tests/c/library.
 *
 *   client devices DATABASE         for each device, a line of standard input: `> DEVICE`, and its properties
 *   client seeks DATABASE           the same by seek and enumerate, and by get, which have to give the same strings
 *   client damaged                  for each line `PATH DEVICE` of standard input: a lookup, and then hwdb_check: `refused` with
 *                                   the fault, or how many bytes the device's properties have as text, and this text
 *   client calls DATABASE OTHER     what each call answers, where no other test says it
 *
 * WITH_FAULTS: linked with the proved calls too, it says which fault a refused file has; and what the library maps is a block
 * of memory of just that length. */
#define _GNU_SOURCE
#include <errno.h>
#include <stdint.h>
#include <stdio.h>
#include <stdlib.h>
#include <string.h>
#include <sys/mman.h>
#include <sys/stat.h>
#include <unistd.h>

#include "hwdb.h"
#include "library-expect.h"

/* An errno by its name, where the tests meet it. */
static const char *named(int r) {
    switch (-r) {
    case 0: return "ok";
    case ENOENT: return "ENOENT";
    case EUCLEAN: return "EUCLEAN";
    case EISDIR: return "EISDIR";
    case EINVAL: return "EINVAL";
    case EFBIG: return "EFBIG";
    case ENOMEM: return "ENOMEM";
    case ENOTDIR: return "ENOTDIR";
    case ELOOP: return "ELOOP";
    default: return strerror(-r);
    }
}

static sd_hwdb *opened(const char *path) {
    sd_hwdb *hwdb = NULL;
    int r = sd_hwdb_new_from_path(path, &hwdb);
    if (r < 0) {
        printf("%s: %s\n", path, named(r));
        exit(1);
    }
    return hwdb;
}

static void print_properties(FILE *out, sd_hwdb *hwdb, const char *device) {
    const char *key, *value;

    SD_HWDB_FOREACH_PROPERTY(hwdb, device, key, value)
        fprintf(out, "%s=%s\n", key, value);
}

static void devices(const char *path) {
    sd_hwdb *hwdb = opened(path);
    for (char *device; (device = next_line());) {
        printf("> %s\n", device);
        print_properties(stdout, hwdb, device);
    }
    sd_hwdb_unref(hwdb);
}

static void seeks(const char *path) {
    sd_hwdb *hwdb = opened(path);
    sd_hwdb *other = opened(path);
    for (char *device; (device = next_line());) {
        const char *key, *value, *got;
        int r;

        printf("> %s\n", device);
        EXPECT(sd_hwdb_seek(hwdb, device) == 0);
        while ((r = sd_hwdb_enumerate(hwdb, &key, &value)) > 0) {
            printf("%s=%s\n", key, value);
            EXPECT(r == 1);
            EXPECT(sd_hwdb_get(other, device, key, &got) == 0);
            EXPECT(strcmp(got, value) == 0);
        }
        EXPECT(r == 0);
    }
    sd_hwdb_unref(other);
    sd_hwdb_unref(hwdb);
}

#ifdef WITH_FAULTS
#include "library-pass.h"

void *__wrap_mmap(void *at, size_t length, int protection, int flags, int fd, off_t offset);
int __wrap_munmap(void *at, size_t length);

void *__wrap_mmap(void *at, size_t length, int protection, int flags, int fd, off_t offset) {
    (void)at, (void)protection, (void)flags, (void)fd, (void)offset;
    void *block = calloc(1, length);
    return block ? block : MAP_FAILED;
}

int __wrap_munmap(void *at, size_t length) {
    (void)length;
    free(at);
    return 0;
}

/* A file's bytes. */
static uint8_t *bytes_of(const char *path, size_t *length) {
    struct stat status;
    FILE *file = fopen(path, "re");

    if (!file || fstat(fileno(file), &status) < 0)
        exit(1);
    *length = (size_t)status.st_size;
    uint8_t *bytes = malloc(*length + 1);
    if (!bytes || fread(bytes, 1, *length, file) != *length)
        exit(1);
    fclose(file);
    return bytes;
}

/* A pass over a file in small pieces accepts it if it is a database, and only then. */
static void expect_pass(const char *path, int is_database) {
    size_t length;
    uint8_t *bytes = bytes_of(path, &length);

    EXPECT(is_passed(bytes, length, 8192, PASS_ROWS) == is_database);
    free(bytes);
}

/* The fault of a file, as the program prints it. */
static void print_fault(const char *path) {
    size_t length;
    uint64_t place = 77;
    uint8_t *bytes = bytes_of(path, &length);

    uint32_t number = hwdb_c_check(bytes, length, &place);
    free(bytes);
    expect_pass(path, 0);
    EXPECT(1 <= number && number <= 11);
    if (number > 5)
        printf("refused: B%u at %llu\n", number, (unsigned long long)place);
    else {
        printf("refused: B%u\n", number);
        EXPECT(place == 0);
    }
}
#else
static void expect_pass(const char *path, int is_database) {
    (void)path, (void)is_database;
}

static void print_fault(const char *path) {
    (void)path;
    printf("refused\n");
}
#endif

static void damaged(void) {
    for (char *line; (line = next_line());) {
        char *device = strchr(line, ' ');
        sd_hwdb *hwdb = NULL;

        if (!device)
            exit(1);
        *device++ = 0;
        int r = sd_hwdb_new_from_path(line, &hwdb);
        if (r == -EUCLEAN) {
            EXPECT(hwdb == NULL);
            print_fault(line);
            continue;
        }
        if (r < 0) {
            printf("refused: %s\n", named(r));
            continue;
        }
        char *text = NULL;
        size_t size = 0;
        FILE *out = open_memstream(&text, &size);
        if (!out)
            exit(1);
        print_properties(out, hwdb, device);
        fclose(out);
        /* A lookup may answer in a file that is no database: it checks what it enters alone. */
        r = hwdb_check(hwdb);
        if (r == 0) {
            EXPECT(sd_hwdb_seek(hwdb, device) == 0);
            expect_pass(line, 1);
            printf("%zu\n", size);
            fwrite(text, 1, size, stdout);
        } else if (r == -EUCLEAN)
            print_fault(line);
        else
            printf("refused: %s\n", named(r));
        free(text);
        sd_hwdb_unref(hwdb);
    }
}

/* What opening a path answers; nothing is handed out then. */
static void refuses(const char *path, int r) {
    sd_hwdb *hwdb = NULL;
    int seen = sd_hwdb_new_from_path(path, &hwdb);
    if (seen != r || hwdb) {
        printf("FAILED: %s: %s in place of %s\n", path ? path : "NULL", named(seen), named(r));
        failed++;
    }
}

static void calls(const char *path, const char *other) {
    const char *key = "left", *value = "left", *first, *again;
    sd_hwdb *hwdb = NULL, *second;

    refuses(NULL, -EINVAL);
    refuses("", -EINVAL);
    refuses("nowhere", -ENOENT);
    refuses("nowhere/hwdb.bin", -ENOENT);
    refuses("empty/hwdb.bin", -ENOTDIR);
    refuses("folder", -EISDIR);
    refuses("fifo", -EINVAL);
    refuses("/dev/null", -EINVAL);
    refuses("empty", -EUCLEAN);
    refuses("text", -EUCLEAN);
    refuses("huge", -EFBIG);
    refuses("loop", -ELOOP);
    EXPECT(sd_hwdb_new_from_path(path, NULL) == -EINVAL);
    EXPECT(sd_hwdb_new(NULL) == -EINVAL);

    EXPECT(sd_hwdb_new_from_path(path, &hwdb) == 0);
    /* Before any seek there is nothing. */
    EXPECT(sd_hwdb_enumerate(hwdb, &key, &value) == 0);
    EXPECT(strcmp(key, "left") == 0 && strcmp(value, "left") == 0);
    EXPECT(sd_hwdb_seek(NULL, "a") == -EINVAL);
    EXPECT(sd_hwdb_seek(hwdb, NULL) == -EINVAL);
    EXPECT(sd_hwdb_get(NULL, "a", "K", &value) == -EINVAL);
    EXPECT(sd_hwdb_get(hwdb, NULL, "K", &value) == -EINVAL);
    EXPECT(sd_hwdb_get(hwdb, "a", NULL, &value) == -EINVAL);
    EXPECT(sd_hwdb_get(hwdb, "a", "K", NULL) == -EINVAL);
    EXPECT(sd_hwdb_enumerate(NULL, &key, &value) == -EINVAL);
    EXPECT(sd_hwdb_enumerate(hwdb, NULL, &value) == -EINVAL);
    EXPECT(sd_hwdb_enumerate(hwdb, &key, NULL) == -EINVAL);

    /* The last assignment counts; an empty value is one; no part of a key is one. */
    EXPECT(sd_hwdb_get(hwdb, "a", "K", &first) == 0 && strcmp(first, "2") == 0);
    EXPECT(sd_hwdb_get(hwdb, "a", "E", &value) == 0 && strcmp(value, "") == 0);
    value = "left";
    EXPECT(sd_hwdb_get(hwdb, "a", "k", &value) == -ENOENT);
    EXPECT(sd_hwdb_get(hwdb, "a", "K2", &value) == -ENOENT);
    EXPECT(sd_hwdb_get(hwdb, "a", "", &value) == -ENOENT);
    EXPECT(sd_hwdb_get(hwdb, "z", "K", &value) == -ENOENT);
    EXPECT(sd_hwdb_get(hwdb, "", "K", &value) == -ENOENT);
    EXPECT(strcmp(value, "left") == 0);

    /* A get after a seek ends the enumeration, and a seek begins one. */
    EXPECT(sd_hwdb_enumerate(hwdb, &key, &value) == -EAGAIN);
    EXPECT(sd_hwdb_seek(hwdb, "a") == 0);
    EXPECT(sd_hwdb_enumerate(hwdb, &key, &value) == 1 && strcmp(key, "E") == 0 && strcmp(value, "") == 0);
    EXPECT(sd_hwdb_enumerate(hwdb, &key, &value) == 1 && strcmp(key, "K") == 0 && strcmp(value, "2") == 0);
    EXPECT(sd_hwdb_enumerate(hwdb, &key, &value) == 0);
    EXPECT(sd_hwdb_enumerate(hwdb, &key, &value) == 0);
    EXPECT(strcmp(key, "K") == 0 && strcmp(value, "2") == 0);
    EXPECT(sd_hwdb_seek(hwdb, "a") == 0);
    EXPECT(sd_hwdb_enumerate(hwdb, &key, &value) == 1 && strcmp(key, "E") == 0);
    EXPECT(sd_hwdb_get(hwdb, "a", "E", &value) == 0);
    EXPECT(sd_hwdb_enumerate(hwdb, &key, &value) == -EAGAIN);
    EXPECT(sd_hwdb_seek(hwdb, "a") == 0);
    EXPECT(sd_hwdb_seek(hwdb, "z") == 0);
    EXPECT(sd_hwdb_enumerate(hwdb, &key, &value) == 0);
    EXPECT(sd_hwdb_seek(hwdb, NULL) == -EINVAL);
    EXPECT(sd_hwdb_seek(hwdb, "a") == 0);
    EXPECT(sd_hwdb_enumerate(hwdb, &key, &value) == 1 && strcmp(key, "E") == 0);

    /* Two at once, each with its own place. */
    EXPECT(sd_hwdb_new_from_path(other, &second) == 0);
    EXPECT(sd_hwdb_seek(second, "a") == 0);
    EXPECT(sd_hwdb_enumerate(hwdb, &key, &value) == 1 && strcmp(key, "K") == 0 && strcmp(value, "2") == 0);
    EXPECT(sd_hwdb_enumerate(second, &key, &value) == 1 && strcmp(key, "OTHER") == 0 && strcmp(value, "o") == 0);
    EXPECT(sd_hwdb_enumerate(hwdb, &key, &value) == 0);
    EXPECT(sd_hwdb_enumerate(second, &key, &value) == 0);
    EXPECT(sd_hwdb_get(second, "a", "K", &value) == -ENOENT);

    /* The handle lives while a reference does, and its strings with it: one string is one pointer. */
    EXPECT(sd_hwdb_ref(NULL) == NULL);
    EXPECT(sd_hwdb_unref(NULL) == NULL);
    EXPECT(sd_hwdb_ref(hwdb) == hwdb);
    EXPECT(sd_hwdb_ref(hwdb) == hwdb);
    EXPECT(sd_hwdb_unref(hwdb) == NULL);
    EXPECT(sd_hwdb_unref(hwdb) == NULL);
    for (int i = 0; i < 1000; i++) {
        char device[16];
        snprintf(device, sizeof device, "many%d", i);
        EXPECT(sd_hwdb_get(hwdb, device, "MANY", &again) == (i < 300 ? 0 : -ENOENT));
    }
    EXPECT(strcmp(first, "2") == 0);
    EXPECT(sd_hwdb_get(hwdb, "a", "K", &again) == 0 && again == first);
    EXPECT(sd_hwdb_unref(second) == NULL);
    EXPECT(strcmp(first, "2") == 0);
    {
        __attribute__((cleanup(sd_hwdb_unrefp))) sd_hwdb *last = hwdb;
        EXPECT(sd_hwdb_seek(last, "a") == 0);
    }

    /* A lookup checks what it enters, and no more: the value of `a` has no priority, or a path that is no string. */
    for (int i = 0; i < 2; i++) {
        hwdb = opened(i ? "string" : "priority");
        EXPECT(sd_hwdb_get(hwdb, "many1", "MANY", &value) == 0);
        EXPECT(sd_hwdb_get(hwdb, "a", "K", &value) == -EUCLEAN);
        sd_hwdb_unref(hwdb);
    }

    /* What was read isn't read again, and a file that was overwritten or cut is a database or is refused. */
    hwdb = opened("changed");
    FILE *file = fopen("changed", "r+e");
    EXPECT(file && fputs("nothing at all, and no database", file) >= 0 && fclose(file) == 0 && truncate("changed", 9) == 0);
    int r = sd_hwdb_get(hwdb, "a", "K", &value);
    EXPECT(r == -EUCLEAN || (r == 0 && strcmp(value, "2") == 0));
    EXPECT(hwdb_check(hwdb) == -EUCLEAN && hwdb_check(NULL) == -EINVAL);
    sd_hwdb_unref(hwdb);
    refuses("changed", -EUCLEAN);
}

int main(int argc, char **argv) {
    const char *what = argc > 1 ? argv[1] : "";

    if (!strcmp(what, "devices") && argc == 3)
        devices(argv[2]);
    else if (!strcmp(what, "seeks") && argc == 3)
        seeks(argv[2]);
    else if (!strcmp(what, "damaged") && argc == 2)
        damaged();
    else if (!strcmp(what, "calls") && argc == 4)
        calls(argv[2], argv[3]);
    else
        return 2;
    return failed ? 1 : 0;
}
