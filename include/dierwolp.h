/* Dierwolp for C: plays Windows metafiles on pictures in the caller's memory.
 *
 * Link with the static library of the crate `capi_c` (`tools/build capi` writes target/staticlib/libcapi.a). Nothing allocates, and
 * nothing is asked of a caller but that each pointer has the length that comes with it; a length of 0 may have a null pointer. */
#ifndef DIERWOLP_H
#define DIERWOLP_H

#include <stddef.h>
#include <stdint.h>

#ifdef __cplusplus
extern "C" {
#endif

/* A refusal: its number from 1 to 14, or 0 for none (docs/refusals.md has the table); the layer, DIERWOLP_NO_LAYER, _FILE or _RECORD;
 * and the byte of the file where it lies. */
struct dierwolp_fault {
    uint32_t number;
    uint32_t layer;
    uint64_t place;
};

enum { DIERWOLP_NO_LAYER = 0, DIERWOLP_FILE = 1, DIERWOLP_RECORD = 2 };

/* What a call tells: the fault that kept it from playing or stopped it, the first record that was refused (and passed by), and how
 * many records were taken, refused and passed over. */
struct dierwolp_report {
    struct dierwolp_fault stop;
    struct dierwolp_fault first;
    uint64_t taken;
    uint64_t refused;
    uint64_t passed_over;
};

/* Checks a file: 0 where it may be played, else 3 (its length) or 4 (its header). */
uint32_t dierwolp_check(const uint8_t *file, size_t file_length, struct dierwolp_report *report);

/* Plays a file to its end on a picture of width x height cells in the caller's memory, and draws over what it shows. Answers 0 where
 * the run ended, 1 or 2 where width, height or the memory's length is refused, 3 or 4 where the file is, and 5 where no record lies
 * before the stated end; with 1 to 4 the memory is as it was. Padding bits and memory behind the picture never change.
 *
 * packed: a bit a cell, rows of (width + 7) / 8 bytes, the highest bit leftmost.
 * bytes:  a byte a cell, rows of width bytes.
 * planes: four packed pictures one after another, bit 0 of the cells' words first. */
uint32_t dierwolp_play_packed(const uint8_t *file, size_t file_length, uint8_t *memory, size_t memory_length, uint32_t width,
                              uint32_t height, struct dierwolp_report *report);
uint32_t dierwolp_play_bytes(const uint8_t *file, size_t file_length, uint8_t *memory, size_t memory_length, uint32_t width,
                             uint32_t height, struct dierwolp_report *report);
uint32_t dierwolp_play_planes(const uint8_t *file, size_t file_length, uint8_t *memory, size_t memory_length, uint32_t width,
                              uint32_t height, struct dierwolp_report *report);

#ifdef __cplusplus
}
#endif

#endif
