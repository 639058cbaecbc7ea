/* What the two sides say to each other. A request is a head, a note on each slice and the bytes of each slice; the
   reply is the call's answer and the bytes of each slice as they are after the call. */
#ifndef TAUTBERRY_WIRE_H
#define TAUTBERRY_WIRE_H

#include <stdint.h>

enum call {
    SKIP_SECTOR,
    SKIP_BLOCK,
    JOB_START,
    JOB_CHECK,
    JOB_STEP,
    SHAPE_SECTOR,
    SHAPE_ADDRESS,
    SKIPPED_ADDRESS,
    SKIPPED_BLOCK,
    PAGE_READ,
    PAGE_WRITE,
    FORMAT,
    SPARE_SECTOR,
    SPARE_ADDRESS,
    SPARE_SHIFT,
    SPARE_BLOCK,
    SPARE_BLOCK_AT,
    SPARE_REPLACE,
    SPARE_CENSUS,
    SPARE_FIRST,
    IMAGE_WRITE,
    IMAGE_HEADER,
    IMAGE_JUDGE,
    MODE,
    READ_TRACKS,
    READ_JUDGE,
    READ_DATA
};

/* The most numbers are those of SPARE_BLOCK_AT: a shape is six, r is one, a place three. The most slices are FORMAT's. */
enum { NUMBERS_MOST = 10, SLICES_MOST = 5 };

struct head {
    uint32_t call;
    uint32_t slices;
    uint32_t numbers[NUMBERS_MOST];
};

struct note {
    uint64_t bytes;
    uint64_t is_null;
};

#endif
