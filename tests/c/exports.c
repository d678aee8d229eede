/* What the calls of crates/hwdb_c answer for two small databases, with any room, and for damages of the empty one. C alone
 * sees how much room is given: the calls of the library give enough. Says what is wrong, and ends with the number of rows.
 * What is expected comes from the description of the format (hwdb-internal.h) and of the calls. */
#include <stdint.h>
#include <stdio.h>
#include <string.h>

#include "library-pass.h"

static const char EMPTY[] =
    "4b534c50484852480100000000000000690000000000000050000000000000001800000000000000100000000000000020000000000000"
    "0050000000000000001800000000000000010000000000000068000000000000000000000000000000000000000000000000";

/* `a` with `L=1` and `K=2`, `a*` with `L=3` on a later line. */
static const char LATER_KEY[] =
    "4b534c504848524801000000000000003d0100000000000050000000000000001800000000000000100000000000000020000000000000"
    "00f000000000000000c80000000000000025000000000000001801000000000000000000000000000001000000000000001c0100000000"
    "00003b010000000000001f0100000000000006000000010000001801000000000000010000000000000002000000000000002a00000000"
    "0000005000000000000000190100000000000039010000000000001f0100000000000003000000010000001c0100000000000037010000"
    "000000001f0100000000000002000000010000001801000000000000010000000000000000000000000000006100000000000000880000"
    "000000000000204b00204c002f6574632f756465762f687764622e642f312e6877646200310032003300";

static int failed;

static void judge(int holds, const char *what, size_t row) {
    if (!holds) {
        printf("FAILED: %s, row %zu\n", what, row);
        failed = 1;
    }
}

/* The bytes of a hexadecimal text, and how many they are. */
static size_t bytes_of(const char *hex, uint8_t *bytes) {
    size_t length = strlen(hex) / 2;
    for (size_t i = 0; i < length; i++) {
        unsigned byte = 0;
        sscanf(hex + 2 * i, "%2x", &byte);
        bytes[i] = (uint8_t)byte;
    }
    return length;
}

/* A database, a device and how much room there is; the answer, what it needs, and the buffer, which was full of `.`. */
struct lookup {
    const char *hex, *device;
    size_t room;
    uint32_t answer;
    size_t needed;
    const char *out;
};

static const struct lookup LOOKUPS[] = {
    {EMPTY, "a", 3, 0, 0, "..."},          {LATER_KEY, "a", 9, 0, 8, "K\0002\0L\0003\0."},
    {LATER_KEY, "a", 8, 0, 8, "K\0002\0L\0003\0"}, {LATER_KEY, "a", 7, 1, 8, "......."},
    {LATER_KEY, "a", 0, 1, 8, ""},         {LATER_KEY, "", 2, 0, 0, ".."},
    {LATER_KEY, "", 0, 0, 0, ""},
};

static uint8_t bytes[4096], out[16];

/* Looks a row's device up in the bytes: `present` says whether their one block was read. */
static uint32_t look_up(const struct lookup *row, size_t length, uint8_t present, uint8_t *to, size_t *needed) {
    return hwdb_c_lookup(bytes, length, &present, 1, (const uint8_t *)row->device, strlen(row->device), to, row->room, needed);
}

/* A database is accepted in pieces of any size in which its largest record is whole, and with as many rows as nodes wait for their
 * parents: one in each of the two. Not with less. */
static void pass_over(size_t length, size_t record, size_t row) {
    for (size_t most = record - 1; most <= length; most++)
        judge(is_passed(bytes, length, most, 1) == (most >= record), "a pass", row);
    judge(!is_passed(bytes, length, length, 0), "a pass without rows", row);
}

/* The byte at a place becomes another: the number of the fault, and its offset. */
struct damage {
    size_t at;
    uint8_t byte;
    uint32_t number;
    uint64_t offset;
};

static const struct damage DAMAGES[] = {
    {0, 'k', 2, 0}, {24, 0, 3, 0}, {16, 0, 4, 0}, {56, 81, 6, 81}, {80, 0, 9, 80},
};

int main(void) {
    uint64_t place = 7;
    size_t lookups = sizeof LOOKUPS / sizeof *LOOKUPS, damages = sizeof DAMAGES / sizeof *DAMAGES;
    judge(hwdb_c_check(bytes, 0, &place) == 1 && place == 0, "no bytes", 0);
    for (size_t i = 0; i < lookups; i++) {
        const struct lookup *row = &LOOKUPS[i];
        size_t length = bytes_of(row->hex, bytes), needed = 0;
        memset(out, '.', sizeof out);
        judge(hwdb_c_check(bytes, length, &place) == 0, "a database", i);
        pass_over(length, row->hex == EMPTY ? 24 : 104, i);
        uint32_t answer = look_up(row, length, 1, out, &needed);
        judge(answer == row->answer && needed == row->needed, "an answer", i);
        judge(memcmp(out, row->out, row->room) == 0 && out[row->room] == '.', "what is written", i);
        memset(out, '.', sizeof out);
        needed = 0;
        answer = hwdb_c_properties(bytes, length, (const uint8_t *)row->device, strlen(row->device), out, row->room, &needed);
        judge(answer == row->answer && needed == row->needed, "an answer from the whole", i);
        judge(memcmp(out, row->out, row->room) == 0 && out[row->room] == '.', "what is written from the whole", i);
        /* None of its blocks was read: the first is asked for, and nothing is written. */
        memset(out, '.', sizeof out);
        answer = look_up(row, length, 0, out, &needed);
        judge(answer == 3 && needed == 0 && out[0] == '.', "a block that wasn't read", i);
    }
    for (size_t i = 0; i < damages; i++) {
        size_t length = bytes_of(EMPTY, bytes);
        bytes[DAMAGES[i].at] = DAMAGES[i].byte;
        judge(hwdb_c_check(bytes, length, &place) == DAMAGES[i].number && place == DAMAGES[i].offset, "a fault", i);
        judge(!is_passed(bytes, length, length, 1), "a pass over it", i);
        /* Each of these is on the way of every lookup. */
        size_t needed = 0;
        struct lookup row = {EMPTY, "a", 3, 4, 0, "..."};
        judge(look_up(&row, length, 1, out, &needed) == 4, "a lookup over it", i);
    }
    printf("%zu rows\n", 1 + lookups + damages);
    return failed;
}
