/* A pass over a file in memory, by the calls of crates/hwdb_c: for exports.c, library-client.c and tests/hostile/fuzz.c. */
#ifndef LIBRARY_PASS_H
#define LIBRARY_PASS_H

#include <stdint.h>
#include <stdlib.h>
#include <string.h>

#include "exports.h"

/* The most nodes that may wait for their parents. */
enum { PASS_ROWS = 8192 };

/* Whether a pass in pieces of so many bytes accepts them, with so many rows. Each piece is a block of malloc's, whose end is known. */
static int is_passed(const uint8_t *bytes, size_t size, size_t most, size_t rows) {
    static size_t offsets[PASS_ROWS];
    static uint16_t heights[PASS_ROWS];
    size_t at = 0, end = 0, used = 1, done = 0;

    if (size < HEADER || !hwdb_c_sections(bytes, HEADER, size, &at, &end) || at > end || end > size)
        return 0;
    while (at < end && used > 0) {
        size_t length = end - at < most ? end - at : most;
        uint8_t *piece = malloc(length);
        if (!piece)
            abort();
        memcpy(piece, bytes + at, length);
        used = hwdb_c_feed(bytes, HEADER, size, bytes + end, size - end, piece, length, at, offsets, rows, heights, rows, &done);
        free(piece);
        if (used > length || done > rows)
            abort();
        at += used;
    }
    return hwdb_c_is_whole(bytes, HEADER, size, bytes + end, size - end, at, offsets, rows, heights, rows, done) == 1;
}

#endif
