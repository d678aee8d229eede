/* Files that may be no database, and devices, given to the C library's calls: the fuzzer of tests/hostile/fuzz, over c/hwdb.c and the
 * proved calls of crates/hwdb_c.
 *
 * An input is a line, the device, and the bytes of a file. What is looked at for each:
 *   - each call answers what libhwdb(3) says, and leaves no handle if it fails;
 *   - a file that is a database gives each device what a lookup in the whole of it gives, whatever was read of it;
 *   - a file that a lookup refuses is no database;
 *   - each block that a lookup asks for is one that wasn't read, so that it ends;
 *   - a file that a pass accepts, in pieces of some size, is a database.
 *
 * With libFuzzer (clang -fsanitize=fuzzer) that one makes the inputs. With PLAIN there is a loop instead of it:
 *   fuzz SECONDS SEED FILE..     changes the files' bytes for so long. An input that fails is left in `failed` */
#define _GNU_SOURCE
#include <errno.h>
#include <stdint.h>
#include <stdio.h>
#include <stdlib.h>
#include <string.h>
#include <sys/mman.h>
#include <sys/time.h>
#include <time.h>
#include <unistd.h>

#include "../c/library-pass.h"
#include "hwdb.h"

/* An input's most bytes, a device's, and what a block holds that wasn't read. */
enum { MOST = 1 << 16, MOST_DEVICE = 255, UNREAD = 0xa5 };

int LLVMFuzzerTestOneInput(const uint8_t *data, size_t size);
size_t LLVMFuzzerCustomMutator(uint8_t *data, size_t size, size_t most, unsigned seed);

#define WANT(what)                                                    \
    do {                                                              \
        if (!(what)) {                                                \
            fprintf(stderr, "FAILED: line %d: %s\n", __LINE__, #what); \
            abort();                                                  \
        }                                                             \
    } while (0)

/* The proved calls tell libFuzzer nothing of their ways: these counters do, by what the calls answer. */
__attribute__((used, section("__libfuzzer_extra_counters"))) static uint8_t seen[1 << 12];

static void note(uint64_t kind, uint64_t value) {
    seen[(kind * 256 + value % 256) % sizeof seen]++;
}

/* A copy whose last byte is the last one of a page, with a page after it that can't be read: also what isn't compiled with a sanitizer
 * can't read on. */
static uint8_t *guarded(const void *bytes, size_t length, uint8_t **begin, size_t *pages) {
    size_t whole = (length + 4095) / 4096 * 4096;
    *pages = whole + 4096;
    *begin = mmap(NULL, *pages, PROT_READ | PROT_WRITE, MAP_PRIVATE | MAP_ANONYMOUS, -1, 0);
    WANT(*begin != MAP_FAILED && mprotect(*begin + whole, 4096, PROT_NONE) == 0);
    uint8_t *at = *begin + (whole - length);
    if (bytes)
        memcpy(at, bytes, length);
    return at;
}

/* A device's properties: key, byte 0, value, byte 0 for each. REFUSED: the file is no database; UNOPENED: no handle came of it. */
enum { REFUSED = -1, UNOPENED = -2 };
struct answer {
    long length;
    char text[MOST * 4];
};
static struct answer of_handle, of_blocks, of_whole;

/* By the calls of hwdb.h, over a file. */
static void ask_handle(int fd, const char *device, struct answer *answer, int *check) {
    char path[64];
    const char *key, *value, *again, *last = NULL;
    sd_hwdb *hwdb = NULL;

    answer->length = UNOPENED;
    *check = -EUCLEAN;
    snprintf(path, sizeof path, "/proc/self/fd/%d", fd);
    int r = sd_hwdb_new_from_path(path, &hwdb);
    WANT(r == 0 || r == -EUCLEAN);
    WANT((r == 0) == (hwdb != NULL));
    if (r < 0)
        return;
    WANT(sd_hwdb_ref(hwdb) == hwdb && !sd_hwdb_unref(hwdb));
    r = sd_hwdb_seek(hwdb, device);
    WANT(r == 0 || r == -EUCLEAN);
    answer->length = r == 0 ? 0 : REFUSED;
    if (r == 0) {
        while ((r = sd_hwdb_enumerate(hwdb, &key, &value)) == 1) {
            WANT(!last || strcmp(last, key) < 0);
            last = key;
            size_t more = strlen(key) + strlen(value) + 2;
            WANT(answer->length + more <= sizeof answer->text);
            strcpy(answer->text + answer->length, key);
            strcpy(answer->text + answer->length + strlen(key) + 1, value);
            answer->length += (long)more;
        }
        WANT(r == 0);
    } else
        WANT(sd_hwdb_enumerate(hwdb, &key, &value) == -EAGAIN);
    r = sd_hwdb_get(hwdb, device, last ? last : "NO_SUCH_KEY", &again);
    WANT(r == (answer->length < 0 ? -EUCLEAN : last ? 0 : -ENOENT));
    WANT(r < 0 || again == value);
    *check = hwdb_check(hwdb);
    WANT(*check == 0 || *check == -EUCLEAN);
    WANT(!sd_hwdb_unref(hwdb));
}

/* By the proved lookup, block by block. What isn't read is no zero. */
static void ask_blocks(const uint8_t *file, size_t length, const char *device, struct answer *answer) {
    size_t blocks = (length + BLOCK - 1) / BLOCK, needed = 0, pages[4], reads = 0, size = strlen(device), room = 0;
    uint8_t *begin[4], *out;
    uint8_t *bytes = guarded(NULL, length, &begin[0], &pages[0]);
    uint8_t *present = guarded(NULL, blocks, &begin[1], &pages[1]);
    uint8_t *name = guarded(device, size, &begin[2], &pages[2]);
    uint32_t r;

    memset(bytes, UNREAD, length);
    for (;;) {
        out = guarded(NULL, room, &begin[3], &pages[3]);
        memset(out, UNREAD, room);
        r = hwdb_c_lookup(bytes, length, present, blocks, name, size, out, room, &needed);
        WANT(r == WRITTEN || r == TOO_SHORT || r == MISSING || r == FAULT);
        for (size_t i = 0; r != WRITTEN && i < room; i++)
            WANT(out[i] == UNREAD);
        if (r == WRITTEN || r == FAULT)
            break;
        munmap(begin[3], pages[3]);
        if (r == TOO_SHORT) {
            WANT(needed > room && needed <= sizeof answer->text);
            room = needed;
            continue;
        }
        WANT(needed < blocks && !present[needed] && ++reads <= blocks);
        size_t at = needed * BLOCK;
        memcpy(bytes + at, file + at, length - at < BLOCK ? length - at : BLOCK);
        present[needed] = 1;
    }
    note(1, reads);
    note(2, needed);
    answer->length = r == FAULT ? REFUSED : (long)needed;
    if (r == WRITTEN)
        memcpy(answer->text, out, needed);
    for (int i = 0; i < 4; i++)
        munmap(begin[i], pages[i]);
}

/* By the check of the whole file, and the lookup that comes after it. */
static void ask_whole(const uint8_t *file, size_t length, const char *device, struct answer *answer) {
    size_t pages, needed = 0;
    uint64_t place = 0;
    uint8_t *begin, *bytes = guarded(file, length, &begin, &pages);

    uint32_t fault = hwdb_c_check(bytes, length, &place);
    WANT(fault <= 11);
    note(3 + fault, place);
    WANT(fault == 0 || !is_passed(bytes, length, length, PASS_ROWS));
    WANT(fault == 0 || !is_passed(bytes, length, 1 << (6 + length % 6), 1 + length % 7));
    answer->length = REFUSED;
    if (fault == 0) {
        WANT(hwdb_c_properties(bytes, length, (const uint8_t *)device, strlen(device), (uint8_t *)answer->text,
                               sizeof answer->text, &needed) == WRITTEN);
        answer->length = (long)needed;
    }
    munmap(begin, pages);
}

static int are_same(const struct answer *a, const struct answer *b) {
    return a->length == b->length && (a->length < 0 || memcmp(a->text, b->text, (size_t)a->length) == 0);
}

int LLVMFuzzerTestOneInput(const uint8_t *data, size_t size) {
    static int fd = -1;
    const uint8_t *end = memchr(data, '\n', size < MOST_DEVICE ? size : MOST_DEVICE);
    char device[MOST_DEVICE + 1] = "";
    int check;

    if (!end || size > MOST)
        return -1;
    memcpy(device, data, (size_t)(end - data));
    size -= (size_t)(end + 1 - data);
    data = end + 1;
    if (fd < 0)
        fd = memfd_create("fuzz", MFD_CLOEXEC);
    WANT(fd >= 0 && ftruncate(fd, 0) == 0 && pwrite(fd, data, size, 0) == (ssize_t)size);
    ask_handle(fd, device, &of_handle, &check);
    ask_blocks(data, size, device, &of_blocks);
    ask_whole(data, size, device, &of_whole);
    /* An open also looks the empty device up, which may enter other values. */
    WANT(of_handle.length == UNOPENED || are_same(&of_handle, &of_blocks));
    WANT(of_handle.length != UNOPENED || of_whole.length == REFUSED);
    WANT((check == 0) == (of_whole.length >= 0));
    WANT(of_whole.length < 0 || are_same(&of_blocks, &of_whole));
    return 0;
}

static unsigned below(unsigned *seed, size_t most) {
    *seed = *seed * 1664525 + 1013904223;
    return most ? (unsigned)((*seed >> 8) % most) : 0;
}

/* One field of eight bytes is another one, or a place near one; or a byte is another one. So many parts of a file lead to each other. */
static void change(uint8_t *data, size_t size, unsigned *seed) {
    static const uint8_t some[] = {0, 1, 2, 8, 24, 32, '?', '*', '[', ']', '!', '-', 'a', 'K', 'L'};
    size_t first = (size_t)((uint8_t *)memchr(data, '\n', size) - data) + 1, fields = (size - first) / 8;
    if (fields > 0 && below(seed, 2)) {
        uint64_t number;
        uint8_t *to = data + first + 8 * below(seed, fields), *from = data + first + 8 * below(seed, fields);
        memcpy(&number, from, 8);
        number += below(seed, 4) ? 0 : 8 * below(seed, 9) - 32;
        memcpy(to, &number, 8);
    } else if (size > first)
        data[first + below(seed, size - first)] = below(seed, 2) ? some[below(seed, sizeof some)] : (uint8_t)below(seed, 256);
}

#ifdef PLAIN

int main(int count, char **words) {
    static uint8_t data[MOST], input[MOST];
    unsigned seed = count > 3 ? (unsigned)atoi(words[2]) : 0;
    unsigned long inputs = 0;
    time_t end = time(NULL) + atoi(words[1]);
    /* So many seconds of the processor for one input: a signal ends it then. */
    struct itimerval longest = {{0, 0}, {30, 0}};

    while (time(NULL) < end) {
        FILE *file = fopen(words[3 + below(&seed, (size_t)count - 3)], "re");
        size_t size = file ? fread(data, 1, sizeof data, file) : 0;
        WANT(file && fclose(file) == 0);
        for (int i = 0; i < 50; i++, inputs++) {
            memcpy(input, data, size);
            for (unsigned changes = below(&seed, 4); changes > 0; changes--)
                change(input, size, &seed);
            size_t left = below(&seed, 8) ? size : size - below(&seed, size / 2);
            file = fopen("failed", "we");
            WANT(file && fwrite(input, 1, left, file) == left && fclose(file) == 0);
            WANT(setitimer(ITIMER_PROF, &longest, NULL) == 0);
            LLVMFuzzerTestOneInput(input, left);
        }
    }
    unlink("failed");
    printf("%lu inputs\n", inputs);
    return 0;
}

#else

size_t LLVMFuzzerMutate(uint8_t *data, size_t size, size_t most);

size_t LLVMFuzzerCustomMutator(uint8_t *data, size_t size, size_t most, unsigned seed) {
    if (below(&seed, 2) || !memchr(data, '\n', size))
        return LLVMFuzzerMutate(data, size, most);
    change(data, size, &seed);
    return size;
}

#endif
