/* The proved calls of crates/hwdb_c, as C sees them: for hwdb.c and for tests. This header isn't installed. All but hwdb_c_properties
 * are for any bytes; that one is for bytes for which hwdb_c_check answered 0. No pointer that is handed to them is NULL.
 * crates/hwdb_c/src/lib.rt says what each takes and answers. */
#ifndef HWDB_EXPORTS_H
#define HWDB_EXPORTS_H

#include <stddef.h>
#include <stdint.h>

/* What hwdb_c_lookup and hwdb_c_properties answer. */
enum { WRITTEN = 0, TOO_SHORT = 1, NO_MEMORY = 2, MISSING = 3, FAULT = 4, LONG_PATH = 5 };
/* How many bytes of a header are known, and how many a block has, as in crates/hwdb_lookup. */
enum { HEADER = 80, BLOCK = 4096 };
uint32_t hwdb_c_check(const uint8_t *bytes, size_t length, uint64_t *place);
uint32_t hwdb_c_sections(const uint8_t *header, size_t header_length, size_t size, size_t *nodes, size_t *strings);
size_t hwdb_c_feed(const uint8_t *header, size_t header_length, size_t size, const uint8_t *strings, size_t strings_length,
                   const uint8_t *piece, size_t length, size_t at, size_t *offsets, size_t offset_rows, uint16_t *heights,
                   size_t height_rows, size_t *done);
uint32_t hwdb_c_is_whole(const uint8_t *header, size_t header_length, size_t size, const uint8_t *strings, size_t strings_length,
                         size_t at, const size_t *offsets, size_t offset_rows, const uint16_t *heights, size_t height_rows,
                         size_t done);
uint32_t hwdb_c_lookup(const uint8_t *bytes, size_t length, const uint8_t *present, size_t blocks, const uint8_t *device,
                       size_t device_length, uint8_t *out, size_t room, size_t *needed);
uint32_t hwdb_c_properties(const uint8_t *bytes, size_t length, const uint8_t *device, size_t device_length, uint8_t *out,
                           size_t room, size_t *needed);
#endif
