/* The near side: the calls of tautberry.h on a machine that is no x86-64, each handed to the far side, where the proved
   library runs under the kit's emulator. What starts the far side is found when the first call is made: the program that
   the environment variable TAUTBERRY_FAR names, or else emulated/far of the folder that the caller runs in. Cargo runs
   tests in the crate's folder, so a tree always tests its own library, wherever it was copied to. */
#define _POSIX_C_SOURCE 200809L
#include <pthread.h>
#include <spawn.h>
#include <stdbool.h>
#include <stdint.h>
#include <stdio.h>
#include <stdlib.h>
#include <string.h>
#include <unistd.h>

#include "tautberry.h"
#include "wire.h"

extern char **environ;

/* A lent slice; `room` is null where it is lent to be read. Scratch is lent as a room is. */
struct slice {
    const void *lent;
    void *room;
    size_t bytes;
};

static pthread_mutex_t one_at_a_time = PTHREAD_MUTEX_INITIALIZER;
static FILE *to_far, *from_far;

static void fail(const char *message)
{
    fprintf(stderr, "emulated library: %s\n", message);
    abort();
}

static void start(void)
{
    int requests[2], replies[2];
    if (pipe(requests) || pipe(replies)) fail("no pipe");
    int ends[] = {requests[0], requests[1], replies[0], replies[1]};
    posix_spawn_file_actions_t actions;
    posix_spawn_file_actions_init(&actions);
    posix_spawn_file_actions_adddup2(&actions, requests[0], 0);
    posix_spawn_file_actions_adddup2(&actions, replies[1], 1);
    for (size_t i = 0; i < 4; i++) posix_spawn_file_actions_addclose(&actions, ends[i]);
    char *named = getenv("TAUTBERRY_FAR");
    char *words[] = {named ? named : "emulated/far", NULL};
    pid_t far;
    if (posix_spawn(&far, words[0], &actions, NULL, words, environ)) fail("cannot start the far side, emulated/far or what TAUTBERRY_FAR names");
    posix_spawn_file_actions_destroy(&actions);
    close(requests[0]);
    close(replies[1]);
    to_far = fdopen(requests[1], "w");
    from_far = fdopen(replies[0], "r");
    if (!to_far || !from_far) fail("no stream");
}

static void hand_over(const void *bytes, size_t count)
{
    if (count > 0 && fwrite(bytes, 1, count, to_far) != count) fail("the far side has gone");
}

static void receive(void *bytes, size_t count)
{
    if (count > 0 && fread(bytes, 1, count, from_far) != count) fail("the far side has gone");
}

/* Takes back a slice: a room as it is now; anything else must be as it was. */
static void take_back(struct slice slice)
{
    if (slice.room) {
        receive(slice.room, slice.bytes);
        return;
    }
    void *now = malloc(slice.bytes + 1);
    if (!now) fail("no memory");
    receive(now, slice.bytes);
    if (slice.bytes > 0 && memcmp(now, slice.lent, slice.bytes)) fail("what was lent to be read has changed");
    free(now);
}

static void ask(enum call call, const uint32_t *numbers, size_t number_count, const struct slice *slices,
                size_t slice_count, void *answer, size_t answer_bytes)
{
    struct head head = {call, (uint32_t)slice_count, {0}};
    if (number_count > NUMBERS_MOST || slice_count > SLICES_MOST) fail("a request has no place for so many numbers or slices");
    memcpy(head.numbers, numbers, number_count * sizeof *numbers);
    pthread_mutex_lock(&one_at_a_time);
    if (!to_far) start();
    hand_over(&head, sizeof head);
    for (size_t i = 0; i < slice_count; i++) {
        struct note note = {slices[i].bytes, slices[i].lent == NULL};
        hand_over(&note, sizeof note);
    }
    for (size_t i = 0; i < slice_count; i++) hand_over(slices[i].lent, slices[i].bytes);
    if (fflush(to_far)) fail("the far side has gone");
    receive(answer, answer_bytes);
    for (size_t i = 0; i < slice_count; i++) take_back(slices[i]);
    pthread_mutex_unlock(&one_at_a_time);
}

#define COUNT(row) (sizeof(row) / sizeof(row)[0])
#define READ(part, length) {part, NULL, (length) * sizeof *(part)}
#define ROOM(part, length) {part, part, (length) * sizeof *(part)}
#define NONE {NULL, NULL, 0}
#define SHAPE shape.cylinders, shape.heads, shape.sectors, shape.groups, shape.tracks, shape.offset

/* Asks with the numbers and slices of the surrounding function, and returns the answer. */
#define RETURN(type, call)                                                                 \
    do {                                                                                   \
        type answer;                                                                       \
        ask(call, numbers, COUNT(numbers), slices, COUNT(slices), &answer, sizeof answer); \
        return answer;                                                                     \
    } while (0)

tb_placed tb_skip_sector(uint32_t n, const uint32_t *list, size_t list_length, uint32_t block)
{
    uint32_t numbers[] = {n, block};
    struct slice slices[] = {READ(list, list_length)};
    RETURN(tb_placed, SKIP_SECTOR);
}

tb_named tb_skip_block(uint32_t n, const uint32_t *list, size_t list_length, uint32_t sector)
{
    uint32_t numbers[] = {n, sector};
    struct slice slices[] = {READ(list, list_length)};
    RETURN(tb_named, SKIP_BLOCK);
}

tb_job tb_job_start(uint32_t n, const uint32_t *list, size_t list_length, uint32_t block)
{
    uint32_t numbers[] = {n, block};
    struct slice slices[] = {READ(list, list_length)};
    RETURN(tb_job, JOB_START);
}

tb_job tb_job_check(tb_cursor cursor, uint32_t n, const uint32_t *list, size_t list_length)
{
    uint32_t numbers[] = {cursor.block, cursor.skipped, n};
    struct slice slices[] = {READ(list, list_length)};
    RETURN(tb_job, JOB_CHECK);
}

tb_job tb_job_step(tb_cursor cursor, uint32_t n, const uint32_t *list, size_t list_length)
{
    uint32_t numbers[] = {cursor.block, cursor.skipped, n};
    struct slice slices[] = {READ(list, list_length)};
    RETURN(tb_job, JOB_STEP);
}

tb_placed tb_shape_sector(tb_shape shape, uint32_t cylinder, uint32_t head, uint32_t sector)
{
    uint32_t numbers[] = {SHAPE, cylinder, head, sector};
    struct slice slices[] = {NONE};
    RETURN(tb_placed, SHAPE_SECTOR);
}

tb_located tb_shape_address(tb_shape shape, uint32_t sector)
{
    uint32_t numbers[] = {SHAPE, sector};
    struct slice slices[] = {NONE};
    RETURN(tb_located, SHAPE_ADDRESS);
}

tb_located tb_skipped_address(tb_shape shape, const uint32_t *list, size_t list_length, uint32_t block)
{
    uint32_t numbers[] = {SHAPE, block};
    struct slice slices[] = {READ(list, list_length)};
    RETURN(tb_located, SKIPPED_ADDRESS);
}

tb_named tb_skipped_block(tb_shape shape, const uint32_t *list, size_t list_length, uint32_t cylinder,
                          uint32_t head, uint32_t sector)
{
    uint32_t numbers[] = {SHAPE, cylinder, head, sector};
    struct slice slices[] = {READ(list, list_length)};
    RETURN(tb_named, SKIPPED_BLOCK);
}

tb_paged tb_page_read(const uint8_t *page, size_t page_length, uint32_t *room, size_t room_length)
{
    uint32_t numbers[] = {0};
    struct slice slices[] = {READ(page, page_length), ROOM(room, room_length)};
    RETURN(tb_paged, PAGE_READ);
}

tb_written tb_page_write(uint32_t n, uint32_t kind, const uint32_t *list, size_t list_length, uint8_t *room,
                         size_t room_length)
{
    uint32_t numbers[] = {n, kind};
    struct slice slices[] = {READ(list, list_length), ROOM(room, room_length)};
    RETURN(tb_written, PAGE_WRITE);
}

tb_formatted tb_format(uint32_t n, const uint32_t *p, size_t p_length, const uint32_t *g, size_t g_length,
                       uint32_t space, uint32_t option, const uint32_t *d, size_t d_length, uint32_t *grown,
                       size_t grown_length, uint32_t *list, size_t list_length)
{
    uint32_t numbers[] = {n, space, option};
    struct slice slices[] = {READ(p, p_length), READ(g, g_length), READ(d, d_length), ROOM(grown, grown_length), ROOM(list, list_length)};
    RETURN(tb_formatted, FORMAT);
}

tb_placed tb_spare_sector(tb_shape shape, uint32_t r, const uint32_t *table, size_t table_length,
                          uint32_t *scratch, size_t scratch_length, uint32_t block)
{
    uint32_t numbers[] = {SHAPE, r, block};
    struct slice slices[] = {READ(table, table_length), ROOM(scratch, scratch_length)};
    RETURN(tb_placed, SPARE_SECTOR);
}

tb_located tb_spare_address(tb_shape shape, uint32_t r, const uint32_t *table, size_t table_length,
                            uint32_t *scratch, size_t scratch_length, uint32_t block)
{
    uint32_t numbers[] = {SHAPE, r, block};
    struct slice slices[] = {READ(table, table_length), ROOM(scratch, scratch_length)};
    RETURN(tb_located, SPARE_ADDRESS);
}

tb_shifted tb_spare_shift(tb_shape shape, uint32_t r, const uint32_t *table, size_t table_length,
                          uint32_t *scratch, size_t scratch_length, uint32_t block)
{
    uint32_t numbers[] = {SHAPE, r, block};
    struct slice slices[] = {READ(table, table_length), ROOM(scratch, scratch_length)};
    RETURN(tb_shifted, SPARE_SHIFT);
}

tb_named tb_spare_block(tb_shape shape, uint32_t r, const uint32_t *table, size_t table_length,
                        uint32_t *scratch, size_t scratch_length, uint32_t sector)
{
    uint32_t numbers[] = {SHAPE, r, sector};
    struct slice slices[] = {READ(table, table_length), ROOM(scratch, scratch_length)};
    RETURN(tb_named, SPARE_BLOCK);
}

tb_named tb_spare_block_at(tb_shape shape, uint32_t r, const uint32_t *table, size_t table_length,
                           uint32_t *scratch, size_t scratch_length, uint32_t cylinder, uint32_t head,
                           uint32_t sector)
{
    uint32_t numbers[] = {SHAPE, r, cylinder, head, sector};
    struct slice slices[] = {READ(table, table_length), ROOM(scratch, scratch_length)};
    RETURN(tb_named, SPARE_BLOCK_AT);
}

tb_replaced tb_spare_replace(tb_shape shape, uint32_t r, uint32_t *table, size_t table_length,
                             uint32_t *scratch, size_t scratch_length, uint32_t block)
{
    uint32_t numbers[] = {SHAPE, r, block};
    struct slice slices[] = {ROOM(table, table_length), ROOM(scratch, scratch_length)};
    RETURN(tb_replaced, SPARE_REPLACE);
}

tb_counted tb_spare_census(tb_shape shape, uint32_t r, const uint32_t *table, size_t table_length,
                           uint32_t *scratch, size_t scratch_length)
{
    uint32_t numbers[] = {SHAPE, r};
    struct slice slices[] = {READ(table, table_length), ROOM(scratch, scratch_length)};
    RETURN(tb_counted, SPARE_CENSUS);
}

tb_written tb_spare_first(tb_shape shape, uint32_t r, const uint32_t *list, size_t list_length, uint32_t
                          *room, size_t room_length)
{
    uint32_t numbers[] = {SHAPE, r};
    struct slice slices[] = {READ(list, list_length), ROOM(room, room_length)};
    RETURN(tb_written, SPARE_FIRST);
}

tb_written tb_image_write(uint32_t size, uint32_t block, uint32_t code, const uint8_t *data, size_t data_length,
                          bool forced, uint8_t *room, size_t room_length)
{
    uint32_t numbers[] = {size, block, code, forced};
    struct slice slices[] = {READ(data, data_length), ROOM(room, room_length)};
    RETURN(tb_written, IMAGE_WRITE);
}

tb_headed tb_image_header(uint32_t size, const uint8_t *image, size_t image_length)
{
    uint32_t numbers[] = {size};
    struct slice slices[] = {READ(image, image_length)};
    RETURN(tb_headed, IMAGE_HEADER);
}

tb_judged tb_image_judge(uint32_t size, const uint8_t *image, size_t image_length, uint32_t block, uint32_t code)
{
    uint32_t numbers[] = {size, block, code};
    struct slice slices[] = {READ(image, image_length)};
    RETURN(tb_judged, IMAGE_JUDGE);
}

tb_sized tb_mode(const uint8_t *images, size_t images_length, uint32_t apart)
{
    uint32_t numbers[] = {apart};
    struct slice slices[] = {READ(images, images_length)};
    RETURN(tb_sized, MODE);
}

tb_tracks tb_read_tracks(tb_shape shape, uint32_t r, const uint32_t *table, size_t table_length,
                         uint32_t *scratch, size_t scratch_length, uint32_t block)
{
    uint32_t numbers[] = {SHAPE, r, block};
    struct slice slices[] = {READ(table, table_length), ROOM(scratch, scratch_length)};
    RETURN(tb_tracks, READ_TRACKS);
}

/* The size goes last, since the far side takes the shape from the first numbers. */
tb_judged tb_read_judge(uint32_t size, tb_shape shape, uint32_t r, const uint32_t *table, size_t table_length,
                        uint32_t *scratch, size_t scratch_length, uint32_t block, const uint8_t *home,
                        size_t home_length, const uint8_t *spare, size_t spare_length)
{
    uint32_t numbers[] = {SHAPE, r, block, size};
    struct slice slices[] = {READ(table, table_length), ROOM(scratch, scratch_length), READ(home, home_length), READ(spare, spare_length)};
    RETURN(tb_judged, READ_JUDGE);
}

tb_spotted tb_read_data(uint32_t size, tb_shape shape, uint32_t r, const uint32_t *table, size_t table_length,
                        uint32_t *scratch, size_t scratch_length, uint32_t block, const uint8_t *home,
                        size_t home_length, const uint8_t *spare, size_t spare_length)
{
    uint32_t numbers[] = {SHAPE, r, block, size};
    struct slice slices[] = {READ(table, table_length), ROOM(scratch, scratch_length), READ(home, home_length), READ(spare, spare_length)};
    RETURN(tb_spotted, READ_DATA);
}
