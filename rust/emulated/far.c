/* The far side: an x86-64 program with the proved library in it, run under the kit's emulator. It makes each call that
   it is asked for, on memory of its own that stands between guards. It is compiled without the C library's headers,
   which are another processor's here; what it uses of the library is declared below. */
#include <stdbool.h>
#include <stddef.h>
#include <stdint.h>

#include "tautberry.h"
#include "wire.h"

long read(int file, void *bytes, size_t count);
long write(int file, const void *bytes, size_t count);
void *malloc(size_t bytes);
void free(void *memory);
void *memset(void *bytes, int byte, size_t count);
size_t strlen(const char *text);
void _exit(int status);

enum { GUARD = 64, GUARD_BYTE = 0x5A };

struct slice {
    uint8_t *memory;
    size_t bytes;
    bool is_null;
};

static void fail(const char *message)
{
    if (write(2, message, strlen(message)) < 0) _exit(2);
    _exit(1);
}

/* Fills all bytes; ends the program where the near side has gone. */
static void receive(void *bytes, size_t count)
{
    uint8_t *to = bytes;
    while (count > 0) {
        long got = read(0, to, count);
        if (got <= 0) _exit(0);
        to += got;
        count -= (size_t)got;
    }
}

static void reply(const void *bytes, size_t count)
{
    const uint8_t *from = bytes;
    while (count > 0) {
        long put = write(1, from, count);
        if (put <= 0) _exit(0);
        from += put;
        count -= (size_t)put;
    }
}

static struct slice received(struct note note)
{
    struct slice slice = {malloc(note.bytes + 2 * GUARD), note.bytes, note.is_null != 0};
    if (!slice.memory) fail("far side: no memory\n");
    memset(slice.memory, GUARD_BYTE, note.bytes + 2 * GUARD);
    receive(slice.memory + GUARD, note.bytes);
    return slice;
}

static void check_guards(struct slice slice)
{
    for (size_t at = 0; at < GUARD; at++) {
        if (slice.memory[at] != GUARD_BYTE) fail("far side: written before a slice\n");
        if (slice.memory[GUARD + slice.bytes + at] != GUARD_BYTE) fail("far side: written past a slice\n");
    }
}

static void *at(struct slice slice)
{
    return slice.is_null ? NULL : slice.memory + GUARD;
}

/* A slice as its two parameters. */
#define WORDS(i) at(s[i]), s[i].bytes / sizeof(uint32_t)
#define BYTES(i) at(s[i]), s[i].bytes

/* Makes a call and replies with its answer. */
#define CASE(name, type, call)         \
    case name: {                       \
        type answer = call;            \
        reply(&answer, sizeof answer); \
        break;                         \
    }

static void make(uint32_t call, const uint32_t *n, const struct slice *s)
{
    tb_shape shape = {n[0], n[1], n[2], n[3], n[4], n[5]};
    const uint32_t *m = n + sizeof shape / sizeof *n; /* the numbers after a shape */
    tb_cursor cursor = {n[0], n[1]};
    switch (call) {
        CASE(SKIP_SECTOR, tb_placed, tb_skip_sector(n[0], WORDS(0), n[1]))
        CASE(SKIP_BLOCK, tb_named, tb_skip_block(n[0], WORDS(0), n[1]))
        CASE(JOB_START, tb_job, tb_job_start(n[0], WORDS(0), n[1]))
        CASE(JOB_CHECK, tb_job, tb_job_check(cursor, n[2], WORDS(0)))
        CASE(JOB_STEP, tb_job, tb_job_step(cursor, n[2], WORDS(0)))
        CASE(SHAPE_SECTOR, tb_placed, tb_shape_sector(shape, m[0], m[1], m[2]))
        CASE(SHAPE_ADDRESS, tb_located, tb_shape_address(shape, m[0]))
        CASE(SKIPPED_ADDRESS, tb_located, tb_skipped_address(shape, WORDS(0), m[0]))
        CASE(SKIPPED_BLOCK, tb_named, tb_skipped_block(shape, WORDS(0), m[0], m[1], m[2]))
        CASE(PAGE_READ, tb_paged, tb_page_read(BYTES(0), WORDS(1)))
        CASE(PAGE_WRITE, tb_written, tb_page_write(n[0], n[1], WORDS(0), BYTES(1)))
        CASE(FORMAT, tb_formatted, tb_format(n[0], WORDS(0), WORDS(1), n[1], n[2], WORDS(2), WORDS(3), WORDS(4)))
        CASE(SPARE_SECTOR, tb_placed, tb_spare_sector(shape, m[0], WORDS(0), WORDS(1), m[1]))
        CASE(SPARE_ADDRESS, tb_located, tb_spare_address(shape, m[0], WORDS(0), WORDS(1), m[1]))
        CASE(SPARE_SHIFT, tb_shifted, tb_spare_shift(shape, m[0], WORDS(0), WORDS(1), m[1]))
        CASE(SPARE_BLOCK, tb_named, tb_spare_block(shape, m[0], WORDS(0), WORDS(1), m[1]))
        CASE(SPARE_BLOCK_AT, tb_named, tb_spare_block_at(shape, m[0], WORDS(0), WORDS(1), m[1], m[2], m[3]))
        CASE(SPARE_REPLACE, tb_replaced, tb_spare_replace(shape, m[0], WORDS(0), WORDS(1), m[1]))
        CASE(SPARE_CENSUS, tb_counted, tb_spare_census(shape, m[0], WORDS(0), WORDS(1)))
        CASE(SPARE_FIRST, tb_written, tb_spare_first(shape, m[0], WORDS(0), WORDS(1)))
        CASE(IMAGE_WRITE, tb_written, tb_image_write(n[0], n[1], n[2], BYTES(0), n[3] != 0, BYTES(1)))
        CASE(IMAGE_HEADER, tb_headed, tb_image_header(n[0], BYTES(0)))
        CASE(IMAGE_JUDGE, tb_judged, tb_image_judge(n[0], BYTES(0), n[1], n[2]))
        CASE(MODE, tb_sized, tb_mode(BYTES(0), n[0]))
        CASE(READ_TRACKS, tb_tracks, tb_read_tracks(shape, m[0], WORDS(0), WORDS(1), m[1]))
        CASE(READ_JUDGE, tb_judged, tb_read_judge(m[2], shape, m[0], WORDS(0), WORDS(1), m[1], BYTES(2), BYTES(3)))
        CASE(READ_DATA, tb_spotted, tb_read_data(m[2], shape, m[0], WORDS(0), WORDS(1), m[1], BYTES(2), BYTES(3)))
    default: fail("far side: no such call\n");
    }
}

int main(void)
{
    for (;;) {
        struct head head;
        struct note notes[SLICES_MOST];
        struct slice slices[SLICES_MOST];
        receive(&head, sizeof head);
        if (head.slices > SLICES_MOST) fail("far side: too many slices\n");
        receive(notes, head.slices * sizeof notes[0]);
        for (uint32_t i = 0; i < head.slices; i++) slices[i] = received(notes[i]);
        make(head.call, head.numbers, slices);
        for (uint32_t i = 0; i < head.slices; i++) {
            check_guards(slices[i]);
            reply(slices[i].memory + GUARD, slices[i].bytes);
            free(slices[i].memory);
        }
    }
}
