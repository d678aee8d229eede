/* The calls of hwdb.h over the proved calls of crates/hwdb_c. The code of this file isn't proved, and does little: it opens the
 * file, reads its blocks, counts references, and keeps strings. Tests call it (tests/c/library).
 *
 * A lookup says which block of the file it needs, and is called again when that was read. A file isn't mapped: a mapping shows
 * what others write to the file, and ends the process if the file is cut. A lookup gives the strings of all properties of a
 * device at once: `get` looks for its key among them. */
#define _GNU_SOURCE
#include "exports.h"
#include "hwdb.h"

#include <errno.h>
#include <fcntl.h>
#include <search.h>
#include <stdbool.h>
#include <stdlib.h>
#include <string.h>
#include <sys/mman.h>
#include <sys/stat.h>
#include <unistd.h>

/* Where sd_hwdb_new looks, in this order: first as `hwdb query`, and then as systemd's library. Tests set others. */
#ifndef HWDB_PATHS
#define HWDB_PATHS                                                                                       \
    "/etc/udev/hwdb.bin", "/usr/lib/udev/hwdb.bin", "/etc/systemd/hwdb/hwdb.bin", "/usr/lib/systemd/hwdb/hwdb.bin"
#endif

/* How often a name is opened that isn't there at first, but is there at the look after that. */
#define TRIES 3

/* The most bytes that a file may have, as in the program. */
#define MAX_BYTES (256 << 20)

/* The room, in bytes, that there is at first for the strings of one lookup. */
#define FIRST_ROOM 1024

/* A handle reads one block at once for each so many that it has read. So who asks much reads in larger pieces, of which few bytes
 * are for nothing. Whatever a file's bytes are, some hundred reads are enough for all of it. */
#define FEW_BLOCKS 64

/* How many bytes of the nodes are read at once by hwdb_check, and how many nodes may wait for their parents there. In Debian's
 * database 76 do, and no record has more than 1,784 bytes. */
#define PIECE (64 << 10)
#define ROWS 8192

/* A file, of which some blocks were read. */
struct database {
    int fd;
    /* which file the descriptor is of: a program may close it, and another file may get its number */
    dev_t device;
    ino_t inode;
    /* as many bytes as the file has; zeros in each block that wasn't read, which take no memory */
    uint8_t *bytes;
    size_t length;
    /* 1 for each block that was read. They are after the bytes, in the same mapping. */
    uint8_t *present;
    size_t blocks;
    /* how many were read */
    size_t read;
};

struct sd_hwdb {
    size_t references;
    struct database database;
    /* the last lookup: key, byte 0, value, byte 0 for each property, `used` bytes in all */
    char *strings;
    size_t room;
    size_t used;
    /* the place of the next property in it */
    size_t next;
    /* no property may be enumerated: `get` came after the last `seek`, or that one failed */
    bool is_spent;
    /* every string that was given so far, each once: a tree of tsearch(3). Their number is at most the database's. */
    void *given;
};

static int compare(const void *a, const void *b) {
    return strcmp(a, b);
}

/* Room for a file's bytes. If the answer is 0, the caller has to release it. The descriptor stays the caller's. */
static int reserve(int fd, struct database *file) {
    struct stat status;

    if (fstat(fd, &status) < 0)
        return -errno;
    if (S_ISDIR(status.st_mode))
        return -EISDIR;
    if (!S_ISREG(status.st_mode))
        return -EINVAL;
    if (status.st_size > MAX_BYTES)
        return -EFBIG;
    size_t length = (size_t)status.st_size;
    size_t blocks = (length + BLOCK - 1) / BLOCK;
    /* One byte more, since there is no mapping of 0 bytes. */
    void *bytes = mmap(NULL, length + blocks + 1, PROT_READ | PROT_WRITE, MAP_PRIVATE | MAP_ANONYMOUS | MAP_NORESERVE, -1, 0);
    if (bytes == MAP_FAILED)
        return -ENOMEM;
    *file = (struct database){fd, status.st_dev, status.st_ino, bytes, length, (uint8_t *)bytes + length, blocks, 0};
    return 0;
}

static void release(struct database *file) {
    munmap(file->bytes, file->length + file->blocks + 1);
}

/* Reads the file's part from `at` to `end`, and says how far that went. If it stopped, `last` is what the last read answered. */
static size_t read_part(const struct database *file, uint8_t *part, size_t at, size_t end, ssize_t *last) {
    ssize_t n = 1;

    for (size_t first = at; at < end && (n > 0 || (n < 0 && errno == EINTR)); at += n > 0 ? (size_t)n : 0)
        n = pread(file->fd, part + (at - first), end - at, (off_t)at);
    *last = n;
    return at;
}

/* Reads blocks that weren't read, from the first on. If that one can't be read, the answer says why. A file that was cut before the
 * block's end is no database. */
static int read_run(struct database *file, size_t first, size_t after) {
    size_t begin = first * BLOCK, end = after < file->blocks ? after * BLOCK : file->length;
    ssize_t n;
    size_t at = read_part(file, file->bytes + begin, begin, end, &n);
    size_t whole = at < end ? at / BLOCK : after;
    memset(file->present + first, 1, whole - first);
    file->read += whole - first;
    return whole > first ? 0 : n == 0 ? -EUCLEAN : -errno;
}

/* Reads a block, and others around it that weren't read: at most `most` in all, or what FEW_BLOCKS says. */
static int read_blocks(struct database *file, size_t block, size_t most) {
    struct stat status;

    if (fstat(file->fd, &status) < 0)
        return -errno;
    if (status.st_dev != file->device || status.st_ino != file->inode)
        return -EBADF;
    size_t first = block, after = block + 1;
    if (most < file->read / FEW_BLOCKS)
        most = file->read / FEW_BLOCKS;
    while (after < file->blocks && after - block < most && !file->present[after])
        after++;
    while (first > 0 && after - first < most && !file->present[first - 1])
        first--;
    read_run(file, first, after);
    /* Another one may be unreadable: only who needs it is told. */
    return file->present[block] ? 0 : read_run(file, block, block + 1);
}

/* Reads all of the file, and checks it. */
static int check_whole(struct database *file) {
    uint64_t place;

    for (size_t block = 0; block < file->blocks; block++) {
        int r = file->present[block] ? 0 : read_blocks(file, block, file->blocks);
        if (r < 0)
            return r;
    }
    return hwdb_c_check(file->bytes, file->length, &place) == 0 ? 0 : -EUCLEAN;
}

/* The same of the whole file, which is checked first: some pattern that may match is too long for the other way. */
static int ask_whole(sd_hwdb *hwdb, const char *modalias, size_t *needed) {
    int r = check_whole(&hwdb->database);
    if (r < 0)
        return r;
    uint32_t answer = hwdb_c_properties(hwdb->database.bytes, hwdb->database.length, (const uint8_t *)modalias, strlen(modalias),
                                        (uint8_t *)hwdb->strings, hwdb->room, needed);
    return answer == NO_MEMORY ? -ENOMEM : (int)answer;
}

/* Asks for the properties of a device, with the room that there is. Reads the blocks that it needs. Each is one that wasn't read
 * (the clause `missing` of hwdb_c_lookup), and is read then: so it is called at most once more than the file has blocks. */
static int ask(sd_hwdb *hwdb, const char *modalias, size_t *needed) {
    struct database *file = &hwdb->database;

    for (;;) {
        uint32_t answer = hwdb_c_lookup(file->bytes, file->length, file->present, file->blocks, (const uint8_t *)modalias,
                                        strlen(modalias), (uint8_t *)hwdb->strings, hwdb->room, needed);
        if (answer == FAULT)
            return -EUCLEAN;
        if (answer == LONG_PATH)
            return ask_whole(hwdb, modalias, needed);
        if (answer != MISSING)
            return answer == NO_MEMORY ? -ENOMEM : (int)answer;
        int r = read_blocks(file, *needed, 1);
        if (r < 0)
            return r;
    }
}

/* Makes the properties of a device the last lookup. */
static int look_up(sd_hwdb *hwdb, const char *modalias) {
    size_t needed = 0;

    hwdb->is_spent = true;
    hwdb->used = 0;
    hwdb->next = 0;
    int answer = ask(hwdb, modalias, &needed);
    if (answer == TOO_SHORT) {
        char *larger = malloc(needed);
        if (!larger)
            return -ENOMEM;
        free(hwdb->strings);
        hwdb->strings = larger;
        hwdb->room = needed;
        answer = ask(hwdb, modalias, &needed);
    }
    if (answer < 0)
        return answer;
    hwdb->used = needed;
    return 0;
}

static void end(sd_hwdb *hwdb) {
    tdestroy(hwdb->given, free);
    free(hwdb->strings);
    release(&hwdb->database);
    free(hwdb);
}

/* A handle over a file's blocks. If the answer is 0, the handle owns the descriptor. The header and the root are checked: a
 * lookup of the empty device reads them. */
static int new_from_file(int fd, sd_hwdb **ret) {
    sd_hwdb *hwdb = calloc(1, sizeof *hwdb);
    if (!hwdb)
        return -ENOMEM;
    int r = reserve(fd, &hwdb->database);
    if (r < 0) {
        free(hwdb);
        return r;
    }
    hwdb->strings = malloc(FIRST_ROOM);
    hwdb->room = FIRST_ROOM;
    hwdb->references = 1;
    r = hwdb->strings ? look_up(hwdb, "") : -ENOMEM;
    if (r < 0) {
        end(hwdb);
        return r;
    }
    hwdb->is_spent = false;
    *ret = hwdb;
    return 0;
}

int sd_hwdb_new_from_path(const char *path, sd_hwdb **ret) {
    if (!path || !*path || !ret)
        return -EINVAL;
    int fd = open(path, O_RDONLY | O_CLOEXEC | O_NOCTTY | O_NONBLOCK);
    if (fd < 0)
        return -errno;
    int r = new_from_file(fd, ret);
    if (r < 0)
        close(fd);
    return r;
}

/* As sd_hwdb_new_from_path, and whether the name is there: a link to nothing is. A name that comes after it was looked for is
 * opened. If it goes again each time, it isn't there. */
static int new_from_place(const char *path, sd_hwdb **ret, bool *is_there) {
    struct stat status;
    int r;

    *is_there = true;
    for (int tries = 0; tries < TRIES; tries++) {
        r = sd_hwdb_new_from_path(path, ret);
        if (r != -ENOENT)
            return r;
        if (lstat(path, &status) < 0) {
            *is_there = errno != ENOENT;
            return -errno;
        }
    }
    *is_there = S_ISLNK(status.st_mode);
    return r;
}

int sd_hwdb_new(sd_hwdb **ret) {
    static const char *const paths[] = {HWDB_PATHS};

    for (size_t i = 0; i < sizeof paths / sizeof *paths; i++) {
        bool is_there;
        int r = new_from_place(paths[i], ret, &is_there);
        /* If a name is there, no other database takes its place. */
        if (is_there)
            return r;
    }
    return -ENOENT;
}

sd_hwdb *sd_hwdb_ref(sd_hwdb *hwdb) {
    if (hwdb)
        hwdb->references++;
    return hwdb;
}

sd_hwdb *sd_hwdb_unref(sd_hwdb *hwdb) {
    if (!hwdb || --hwdb->references > 0)
        return NULL;
    close(hwdb->database.fd);
    end(hwdb);
    return NULL;
}

/* A copy of the file's part from `at` to `end`. What was read before is copied from there, since lookups go on with it. */
static bool copy_part(const struct database *file, uint8_t *part, size_t at, size_t end) {
    ssize_t last;

    if (read_part(file, part, at, end, &last) < end)
        return false;
    for (size_t block = at / BLOCK; block * BLOCK < end; block++) {
        size_t first = block * BLOCK < at ? at : block * BLOCK, after = (block + 1) * BLOCK < end ? (block + 1) * BLOCK : end;
        if (file->present[block])
            memcpy(part + (first - at), file->bytes + first, after - first);
    }
    return true;
}

/* What a pass over a file keeps: its header, a piece of its nodes, the nodes that wait for their parents, and its strings. */
struct pass {
    size_t done;
    size_t offsets[ROWS];
    uint16_t heights[ROWS];
    uint8_t header[HEADER];
    uint8_t piece[PIECE];
    uint8_t strings[];
};

/* Whether the file is a database, as a pass over its nodes says. A node that is cut at a piece's end begins the next one. */
static bool pass_over(const struct database *file, struct pass *pass, size_t at, size_t end) {
    size_t size = file->length, used = 1;

    while (at < end && used > 0) {
        size_t length = end - at < PIECE ? end - at : PIECE;
        if (!copy_part(file, pass->piece, at, at + length))
            return false;
        used = hwdb_c_feed(pass->header, HEADER, size, pass->strings, size - end, pass->piece, length, at, pass->offsets, ROWS,
                           pass->heights, ROWS, &pass->done);
        at += used;
    }
    return hwdb_c_is_whole(pass->header, HEADER, size, pass->strings, size - end, at, pass->offsets, ROWS, pass->heights, ROWS,
                           pass->done);
}

/* Whether the file is a database, without all of it in memory. If that can't be said, the answer is no. */
static bool is_accepted(const struct database *file) {
    uint8_t header[HEADER];
    struct stat status;
    size_t nodes, end;

    if (fstat(file->fd, &status) < 0 || status.st_dev != file->device || status.st_ino != file->inode || file->length < HEADER ||
        !copy_part(file, header, 0, HEADER) || !hwdb_c_sections(header, HEADER, file->length, &nodes, &end))
        return false;
    /* Not malloc(3)'s, which would keep it. */
    size_t room = sizeof(struct pass) + (file->length - end);
    struct pass *pass = mmap(NULL, room, PROT_READ | PROT_WRITE, MAP_PRIVATE | MAP_ANONYMOUS, -1, 0);
    if (pass == MAP_FAILED)
        return false;
    memcpy(pass->header, header, HEADER);
    bool accepted = copy_part(file, pass->strings, end, file->length) && pass_over(file, pass, nodes, end);
    munmap(pass, room);
    return accepted;
}

int hwdb_check(sd_hwdb *hwdb) {
    if (!hwdb)
        return -EINVAL;
    /* Without a pass if all is in memory, or if the pass doesn't accept it. */
    struct database *file = &hwdb->database;
    return file->read < file->blocks && is_accepted(file) ? 0 : check_whole(file);
}

/* The handle's own copy of a string, which stays as long as the handle; NULL if an allocation fails. */
static const char *keep(sd_hwdb *hwdb, const char *string) {
    char **found = tfind(string, &hwdb->given, compare);
    if (found)
        return *found;
    char *copy = strdup(string);
    if (copy && !tsearch(copy, &hwdb->given, compare)) {
        free(copy);
        return NULL;
    }
    return copy;
}

/* The property at a place of the last lookup, and the place after it. */
static size_t property_at(const sd_hwdb *hwdb, size_t place, const char **key, const char **value) {
    *key = hwdb->strings + place;
    *value = *key + strlen(*key) + 1;
    return place + (size_t)(*value - *key) + strlen(*value) + 1;
}

int sd_hwdb_get(sd_hwdb *hwdb, const char *modalias, const char *key, const char **value) {
    const char *this_key, *this_value;

    if (!hwdb || !modalias || !key || !value)
        return -EINVAL;
    int r = look_up(hwdb, modalias);
    if (r < 0)
        return r;
    for (size_t place = 0; place < hwdb->used;) {
        place = property_at(hwdb, place, &this_key, &this_value);
        if (strcmp(this_key, key) == 0) {
            const char *kept = keep(hwdb, this_value);
            if (!kept)
                return -ENOMEM;
            *value = kept;
            return 0;
        }
    }
    return -ENOENT;
}

int sd_hwdb_seek(sd_hwdb *hwdb, const char *modalias) {
    if (!hwdb || !modalias)
        return -EINVAL;
    int r = look_up(hwdb, modalias);
    if (r < 0)
        return r;
    hwdb->is_spent = false;
    return 0;
}

int sd_hwdb_enumerate(sd_hwdb *hwdb, const char **key, const char **value) {
    const char *this_key, *this_value;

    if (!hwdb || !key || !value)
        return -EINVAL;
    if (hwdb->is_spent)
        return -EAGAIN;
    if (hwdb->next >= hwdb->used)
        return 0;
    size_t behind = property_at(hwdb, hwdb->next, &this_key, &this_value);
    const char *kept_key = keep(hwdb, this_key);
    const char *kept_value = keep(hwdb, this_value);
    if (!kept_key || !kept_value)
        return -ENOMEM;
    *key = kept_key;
    *value = kept_value;
    hwdb->next = behind;
    return 1;
}
