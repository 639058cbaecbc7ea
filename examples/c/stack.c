/* Measures how much stack each call of the C face takes. A thread makes the call on painted memory, and the lowest byte that is not as it was
 * painted tells how deep the call went. Each call is made in each of the situations below, so that it is accepted at least once, and refused at
 * least once by each number that the header names for it. Lists, tables, pages and track images are full, and most faults lie in their last place.
 * It prints the most that each call took, accepted and refused, and returns 1 if a call gave other numbers than the header names. */
#define _POSIX_C_SOURCE 200809L

#include <inttypes.h>
#include <pthread.h>
#include <stdio.h>
#include <stdlib.h>
#include <string.h>

#include "tautberry.h"

/* A drive with as many spares as there may be, one to a track, as many cylinders, and as many sectors to a track. */
enum { CYLINDERS = TB_CYLINDERS_MOST, HEADS = TB_SPARES_MOST / TB_CYLINDERS_MOST, TRACKS = CYLINDERS * HEADS };
enum { SECTORS = TB_SECTORS_MOST, HOMES = SECTORS - 1 };

/* A block on the last spare. Each spare but one has a block of its own track. */
enum { ON_SPARE = HOMES * (TRACKS - 1) + 1 };

/* A block at home, whose search order begins in the second table block and ends at the last place of the first, where the free spare is. So its
 * look-up and the search for its spare go through every table block. The block after it lies on the spare of their track, and has the same
 * order. */
enum { AT_HOME = HOMES * TB_TABLE_BLOCK, FREE_PLACE = TB_TABLE_BLOCK - 1 };

/* The last place in the search order of the last track. The free place comes before it. */
enum { LAST_PLACE = TRACKS - TB_TABLE_BLOCK - 1 };

/* What is lent. */
static uint32_t list[TB_LIST_MOST + 1], bad[TB_LIST_MOST + 1], p[TB_LIST_MOST + 1], g[TB_LIST_MOST + 1], d[TB_LIST_MOST + 1];
static uint32_t table[TRACKS];
static uint8_t page[TB_PAGE_MOST], data[TB_WIDE_SIZE], home[TB_TRACK_LENGTH(TB_WIDE_SIZE, SECTORS)], spare[TB_TRACK_LENGTH(TB_WIDE_SIZE, SECTORS)];
static size_t list_length, bad_length, p_length, g_length, d_length, table_length, page_length, data_length, home_length, spare_length;

/* The image of the block on the last spare, in its track. */
static uint8_t *image;
static size_t image_length;

/* The XBN area, with copies of the format table that lie some sectors apart. */
enum { COPIES = 5, APART = 3, AREA = (COPIES - 1) * APART + 1 };
static uint8_t area[AREA * TB_IMAGE_LENGTH(TB_DATA_SIZE)];
static size_t area_length;

/* The rooms. */
static uint32_t entries[TB_LIST_MOST], grown[TB_LIST_MOST], merged[TB_LIST_MOST], first[TRACKS];
static uint8_t page_written[TB_PAGE_MOST], image_written[TB_IMAGE_LENGTH(TB_WIDE_SIZE)];
static size_t entries_room, grown_room, merged_room, first_room, page_room, image_room;

/* The scratch, which is lent like the rest and so takes none of the stack. */
static uint32_t scratch[TRACKS];
static size_t scratch_length;

/* The numbers that go with it. `unit` and `unit_block` are asked for on a drive of n sectors. */
static uint32_t n, unit, unit_block, skipped_block, r, block, code, replaced, cylinder, head, in_track, sector, kind, space, option, size, apart;
static tb_shape shape;
static tb_cursor cursor;
static bool forced;

/* Writes the image of a block's data, good or forced, where the block on the last spare lies. */
static void lay_image(uint32_t its_block, uint32_t its_code, bool is_forced)
{
    tb_image_write(size, its_block, its_code, data, size, is_forced, image, TB_IMAGE_LENGTH(size));
}

/* Lays what depends on the size of a sector: a block at home and the one on the last spare, and how long all is that is lent with them. */
static void lay_size(uint32_t its_size)
{
    size = its_size;
    data_length = size, image_length = image_room = TB_IMAGE_LENGTH(size), home_length = spare_length = TB_TRACK_LENGTH(size, SECTORS);
    image = spare + HOMES * TB_IMAGE_LENGTH(size);
    tb_image_write(size, AT_HOME, TB_AT_HOME, data, size, false, home, TB_IMAGE_LENGTH(size));
    lay_image(ON_SPARE, TB_AT_PRIMARY, false);
}

/* Lays the XBN area: of its copies of the format table so many are damaged in their last byte, and the rest are good. */
static void lay_area(uint32_t damaged)
{
    uint8_t mode[TB_DATA_SIZE] = {TB_WIDE_SIZE / 256, TB_WIDE_SIZE % 256};
    apart = APART, area_length = sizeof area;
    for (uint32_t copy = 0; copy < COPIES; copy++) {
        uint8_t *const first = area + copy * APART * TB_IMAGE_LENGTH(TB_DATA_SIZE);
        tb_image_write(TB_DATA_SIZE, copy * APART, TB_AT_HOME, mode, sizeof mode, false, first, TB_IMAGE_LENGTH(TB_DATA_SIZE));
        first[TB_IMAGE_LENGTH(TB_DATA_SIZE) - 1] ^= copy < damaged;
    }
}

/* Lays the situation with a number, and says whether there is one. */
static bool lay(unsigned situation)
{
    n = TB_UNITS_MOST, unit = n - 1, unit_block = n - TB_LIST_MOST - 1;
    shape.cylinders = CYLINDERS, shape.heads = shape.tracks = HEADS, shape.groups = 1, shape.sectors = SECTORS, shape.offset = 0, r = 1;
    cylinder = CYLINDERS - 1, head = HEADS - 1, in_track = 0, sector = SECTORS * (TRACKS - 1), skipped_block = TRACKS * SECTORS - TB_LIST_MOST - 1;
    block = ON_SPARE, code = TB_AT_PRIMARY, replaced = AT_HOME, kind = 1, space = 3, option = 1, forced = false;
    cursor.block = unit_block, cursor.skipped = TB_LIST_MOST;
    /* Two homes of the first track are bad, and one of each track after it but the last. So each bad home but the first takes the spare of the
     * track after its own, and at the end of a table block its search goes on in the next one. */
    for (uint32_t i = 0; i <= TB_LIST_MOST; i++) {
        list[i] = 2 * i, bad[i] = i < 2 ? i : SECTORS * (i - 1), p[i] = 4 * i, g[i] = 4 * i + 1, d[i] = i;
    }
    list_length = bad_length = TB_LIST_MOST;
    p_length = g_length = TB_LIST_MOST / 4, d_length = TB_LIST_MOST / 2;
    for (uint32_t place = 0; place < TRACKS; place++) {
        table[place] = place == FREE_PLACE ? 0 : 0x20000000u + HOMES * place + 1;
    }
    table_length = scratch_length = TRACKS, page_length = sizeof page;
    entries_room = grown_room = merged_room = TB_LIST_MOST, first_room = TRACKS, page_room = sizeof page_written;
    tb_page_write(n, kind, list, list_length, page, sizeof page);
    lay_size(TB_DATA_SIZE);
    lay_area(0);
    uint8_t *const last_entry = page + TB_PAGE_MOST - 2 * TB_ENTRY_SIZE;
    switch (situation) {
    case 0: return true; /* all is well */
    case 1: /* and otherwise, with groups */
        shape.groups = HEADS, shape.tracks = 1, shape.offset = SECTORS - 1;
        block = AT_HOME, code = TB_AT_HOME, sector += HOMES, in_track = HOMES, forced = true, kind = 0, option = 6, d_length = 0; return true;
    case 2: n = 0, shape.sectors = TB_SECTORS_LEAST - 1; return true;
    case 3: n = TB_UNITS_MOST + 1, shape.cylinders = 1986, shape.heads = shape.tracks = 33; return true; /* a drive with two spares too many */
    case 4: r = SECTORS; return true;
    case 5: list_length = bad_length = p_length = TB_LIST_MOST + 1; return true;
    case 6: p_length = g_length = TB_LIST_MOST / 2 + 1; return true;      /* the list in use is too long */
    case 7: d_length = TB_LIST_MOST + 1; return true;
    case 8: g_length = TB_LIST_MOST / 2 + 1; return true;                 /* the new grown list is too long */
    case 9: p_length++; return true;                                      /* the new list is too long */
    case 10: list[list_length - 1] = list[list_length - 2], bad[bad_length - 1] = bad[bad_length - 2], p[p_length - 1] = p[p_length - 2]; return true;
    case 11: g[g_length - 1] = g[g_length - 2], memcpy(last_entry, last_entry - TB_ENTRY_SIZE, TB_ENTRY_SIZE); return true;
    case 12: d[d_length - 1] = d[d_length - 2]; return true;
    case 13: list[list_length - 1] = bad[bad_length - 1] = p[p_length - 1] = n; return true;
    case 14: g[g_length - 1] = n, memset(last_entry, 0xFF, TB_ENTRY_SIZE); return true;
    case 15: d[d_length - 1] = n; return true;
    case 16: unit++, unit_block++, skipped_block++, cylinder++, sector = TRACKS * SECTORS, block = replaced = TRACKS * HOMES; return true;
    case 17: head++; return true;
    case 18: in_track = SECTORS; return true;
    case 19: cursor.block++; return true; /* the end of the job */
    case 20: cursor.block += 2; return true;
    case 21: cursor.skipped++; return true;
    case 22: cursor.skipped--; return true;
    case 23: kind = TB_KIND_MOST + 1, page[5] = (uint8_t)kind; return true;
    case 24: memset(page + 6, 0, 4); return true; /* the page's n */
    case 25: page[page_length - 1] = 0; return true;
    case 26: page_length--; return true;
    case 27: option = TB_OPTION_MOST + 1; return true;
    case 28: space = TB_SPACE_MOST + 1; return true;
    case 29: option = 0; return true; /* and a list comes with it */
    case 30: entries_room--, page_room--, first_room--, image_room--, scratch_length--, grown_room = g_length + d_length - 1; return true;
    case 31: merged_room--; return true;
    case 32: table_length--; return true;
    case 33: table[table_length - 1] = 0x30000000u + HOMES * (TRACKS - 2) + 1; return true; /* a block that occurs twice */
    case 34: replaced = AT_HOME + 1; return true; /* a block that lies on a spare */
    case 35: table[FREE_PLACE] = 0x20000000u + HOMES * FREE_PLACE + 1; return true; /* no spare is left */
    case 36: data_length--, image_length--, home_length--; return true;
    case 37: spare_length--; return true;
    case 38: image[TB_HEADER_SIZE - 1]++, image[TB_HEADER_SIZE - 5]++; return true; /* two copies against two */
    case 39: lay_image(AT_HOME, code, false); return true;
    case 40: lay_image(ON_SPARE, code, true); return true;
    case 41: image[image_length - 1]++; return true;
    case 42: shape.groups = 0; return true;
    case 43: shape.tracks = TB_HEADS_MOST + 1; return true;
    case 44: shape.groups++; return true; /* more tracks than heads */
    case 45: shape.offset = SECTORS; return true;
    case 46: table[FREE_PLACE] = 0x40000000u, replaced = AT_HOME + 1; return true; /* no spare is left for a block that lies on one */
    case 47: shape.cylinders--, memcpy(bad, list, sizeof bad); return true; /* more bad homes than spares */
    case 48: table[LAST_PLACE] = 0x30000000u + ON_SPARE + 1; return true; /* a free place before a block */
    case 49: /* a block that lies at the last place of its search order */
        table[FREE_PLACE] = 0x30000000u + AT_HOME, block = AT_HOME, code = TB_ELSEWHERE;
        lay_image(AT_HOME, code, false); return true;
    case 50: /* the home of that block */
        table[FREE_PLACE] = 0x30000000u + AT_HOME, sector = SECTORS * TB_TABLE_BLOCK;
        cylinder = TB_TABLE_BLOCK / HEADS, head = TB_TABLE_BLOCK % HEADS; return true;
    case 51: code = TB_ELSEWHERE + 1; return true; /* a code that no header may have, to write and to expect */
    case 52: block = TB_CODE_UNIT; return true;    /* a block that no header can say */
    case 53: lay_image(ON_SPARE, TB_AT_HOME, false); return true; /* another code */
    case 54: image[0] ^= 0x40, image[4] ^= 0x40, image[8] ^= 0x40, image[12] ^= 0x40; return true; /* a code in the header that it may not have */
    case 55: size = 0; return true;
    case 56: size = TB_WIDE_SIZE; return true; /* all that is lent has the other size */
    case 57: lay_size(TB_WIDE_SIZE); return true;
    case 58: lay_size(TB_WIDE_SIZE), block = AT_HOME, code = TB_AT_HOME, forced = true; return true;
    case 59: lay_size(TB_WIDE_SIZE), lay_image(ON_SPARE, code, true); return true;
    case 60: lay_size(TB_WIDE_SIZE), image[image_length - 1]++; return true;
    case 61: lay_size(TB_WIDE_SIZE), image_room--, spare_length--; return true;
    case 62: apart = 0; return true;
    case 63: lay_area(COPIES - 1); return true; /* only the last copy says a size */
    case 64: lay_area(COPIES); return true;
    case 65: lay_area(COPIES - 1), area_length--; return true; /* and it is cut short */
    case 66: area[TB_HEADER_SIZE] ^= 1, apart = UINT32_MAX; return true; /* the only copy is damaged */
    case 67: apart = UINT32_MAX; return true;
    default: return false;
    }
}

static uint32_t refusal;

static void nothing(void) { refusal = TB_ACCEPTED; }
static void skip_sector(void) { refusal = tb_skip_sector(n, list, list_length, unit_block).refusal; }
static void skip_block(void) { refusal = tb_skip_block(n, list, list_length, unit).refusal; }
static void job_start(void) { refusal = tb_job_start(n, list, list_length, unit_block).refusal; }
static void job_check(void) { refusal = tb_job_check(cursor, n, list, list_length).refusal; }
static void job_step(void) { refusal = tb_job_step(cursor, n, list, list_length).refusal; }
static void shape_sector(void) { refusal = tb_shape_sector(shape, cylinder, head, in_track).refusal; }
static void shape_address(void) { refusal = tb_shape_address(shape, sector).refusal; }
static void skipped_address(void) { refusal = tb_skipped_address(shape, list, list_length, skipped_block).refusal; }
static void skipped_block_at(void) { refusal = tb_skipped_block(shape, list, list_length, cylinder, head, in_track).refusal; }
static void page_read(void) { refusal = tb_page_read(page, page_length, entries, entries_room).refusal; }
static void page_write(void) { refusal = tb_page_write(n, kind, list, list_length, page_written, page_room).refusal; }
static void format(void) { refusal = tb_format(n, p, p_length, g, g_length, space, option, d, d_length, grown, grown_room, merged, merged_room).refusal; }
static void spare_sector(void) { refusal = tb_spare_sector(shape, r, table, table_length, scratch, scratch_length, block).refusal; }
static void spare_address(void) { refusal = tb_spare_address(shape, r, table, table_length, scratch, scratch_length, block).refusal; }
static void spare_shift(void) { refusal = tb_spare_shift(shape, r, table, table_length, scratch, scratch_length, block).refusal; }
static void spare_block(void) { refusal = tb_spare_block(shape, r, table, table_length, scratch, scratch_length, sector).refusal; }
static void spare_block_at(void) { refusal = tb_spare_block_at(shape, r, table, table_length, scratch, scratch_length, cylinder, head, in_track).refusal; }
static void spare_replace(void) { refusal = tb_spare_replace(shape, r, table, table_length, scratch, scratch_length, replaced).refusal; }
static void spare_census(void) { refusal = tb_spare_census(shape, r, table, table_length, scratch, scratch_length).refusal; }
static void spare_first(void) { refusal = tb_spare_first(shape, r, bad, bad_length, first, first_room).refusal; }
static void image_write(void) { refusal = tb_image_write(size, block, code, data, data_length, forced, image_written, image_room).refusal; }
static void image_header(void) { refusal = tb_image_header(size, image, image_length).refusal; }
static void image_judge(void) { refusal = tb_image_judge(size, image, image_length, block, code).refusal; }
static void mode(void) { refusal = tb_mode(area, area_length, apart).refusal; }
static void read_tracks(void) { refusal = tb_read_tracks(shape, r, table, table_length, scratch, scratch_length, block).refusal; }
static void read_judge(void) { refusal = tb_read_judge(size, shape, r, table, table_length, scratch, scratch_length, block, home, home_length, spare, spare_length).refusal; }
static void read_data(void) { refusal = tb_read_data(size, shape, r, table, table_length, scratch, scratch_length, block, home, home_length, spare, spare_length).refusal; }

/* Each call, and the refusals that the header names for it. */
#define NO(name) (1u << TB_##name)
#define NO_LIST (NO(TOO_LONG) | NO(NOT_RISING) | NO(OUTSIDE))
#define NO_TABLE (NO(OUT_OF_RANGE) | NO(NO_ROOM) | NO(BAD_TABLE))
#define NO_HEADER (NO(OUT_OF_RANGE) | NO(WRONG_LENGTH) | NO(NO_ADDRESS) | NO(OTHER_BLOCK))
#define NO_DATA (NO_HEADER | NO(FORCED_ERROR) | NO(BAD_CODE))

static const struct {
    const char *name;
    void (*make)(void);
    uint32_t refusals;
} calls[] = {
    {"tb_skip_sector", skip_sector, NO(OUT_OF_RANGE) | NO_LIST | NO(NO_SUCH_BLOCK)},
    {"tb_skip_block", skip_block, NO(OUT_OF_RANGE) | NO_LIST | NO(NO_SUCH_SECTOR)},
    {"tb_job_start", job_start, NO(OUT_OF_RANGE) | NO_LIST | NO(NO_SUCH_BLOCK)},
    {"tb_job_check", job_check, NO(OUT_OF_RANGE) | NO_LIST | NO(STRAY_CURSOR)},
    {"tb_job_step", job_step, NO(OUT_OF_RANGE) | NO_LIST | NO(STRAY_CURSOR) | NO(NO_SUCH_BLOCK)},
    {"tb_shape_sector", shape_sector, NO(OUT_OF_RANGE) | NO(NO_SUCH_SECTOR)},
    {"tb_shape_address", shape_address, NO(OUT_OF_RANGE) | NO(NO_SUCH_SECTOR)},
    {"tb_skipped_address", skipped_address, NO(OUT_OF_RANGE) | NO_LIST | NO(NO_SUCH_BLOCK)},
    {"tb_skipped_block", skipped_block_at, NO(OUT_OF_RANGE) | NO_LIST | NO(NO_SUCH_SECTOR)},
    {"tb_page_read", page_read, NO(BAD_PAGE) | NO(NOT_RISING) | NO(OUTSIDE) | NO(NO_ROOM)},
    {"tb_page_write", page_write, NO(OUT_OF_RANGE) | NO(BAD_PAGE) | NO_LIST | NO(NO_ROOM)},
    {"tb_format", format, NO(OUT_OF_RANGE) | NO_LIST | NO(BAD_OPTION) | NO(NO_ROOM)},
    {"tb_spare_sector", spare_sector, NO_TABLE | NO(NO_SUCH_BLOCK)},
    {"tb_spare_address", spare_address, NO_TABLE | NO(NO_SUCH_BLOCK)},
    {"tb_spare_shift", spare_shift, NO_TABLE | NO(NO_SUCH_BLOCK)},
    {"tb_spare_block", spare_block, NO_TABLE | NO(NO_SUCH_SECTOR)},
    {"tb_spare_block_at", spare_block_at, NO_TABLE | NO(NO_SUCH_SECTOR)},
    {"tb_spare_replace", spare_replace, NO_TABLE | NO(NO_SUCH_BLOCK) | NO(NO_SPARE)},
    {"tb_spare_census", spare_census, NO_TABLE},
    {"tb_spare_first", spare_first, NO(OUT_OF_RANGE) | NO_LIST | NO(NO_ROOM) | NO(NO_SPARE)},
    {"tb_image_write", image_write, NO(OUT_OF_RANGE) | NO(WRONG_LENGTH) | NO(NO_SUCH_BLOCK) | NO(UNKNOWN_CODE) | NO(NO_ROOM)},
    {"tb_image_header", image_header, NO_HEADER},
    {"tb_image_judge", image_judge, NO_DATA},
    {"tb_mode", mode, NO(OUT_OF_RANGE) | NO(NO_MODE)},
    {"tb_read_tracks", read_tracks, NO_TABLE | NO(NO_SUCH_BLOCK)},
    {"tb_read_judge", read_judge, NO_TABLE | NO(NO_SUCH_BLOCK) | NO_DATA},
    {"tb_read_data", read_data, NO_TABLE | NO(NO_SUCH_BLOCK) | NO_DATA},
};

enum { STACK = 1 << 17, PAD = 1 << 14 };

static uint8_t stack[STACK] __attribute__((aligned(64)));
static void (*volatile current)(void);

/* Makes the call below a pad that is deeper than what starting and ending a thread touches. The pad is written and read as a whole, so that
 * the compiler keeps it. */
static void *below_pad(void *unused)
{
    volatile uint8_t pad[PAD];
    uint32_t sum = 0;
    for (size_t i = 0; i < sizeof pad; i++) {
        pad[i] = 0;
    }
    current();
    for (size_t i = 0; i < sizeof pad; i++) {
        sum += pad[i];
    }
    return sum == 0 ? unused : NULL;
}

/* How far below the top of the stack a call reaches in a situation, for one paint. */
static size_t depth(void (*make)(void), unsigned situation, int paint)
{
    pthread_attr_t attributes;
    pthread_t thread;
    size_t lowest = 0;
    lay(situation);
    memset(stack, paint, sizeof stack);
    current = make;
    if (pthread_attr_init(&attributes) != 0 || pthread_attr_setstack(&attributes, stack, sizeof stack) != 0
        || pthread_create(&thread, &attributes, below_pad, NULL) != 0 || pthread_join(thread, NULL) != 0) {
        puts("no thread could be started");
        exit(1);
    }
    while (lowest < sizeof stack && stack[lowest] == (uint8_t)paint) {
        lowest++;
    }
    return sizeof stack - lowest;
}

/* The same with either paint, so that no byte that the call stores passes for paint. */
static size_t deeper(void (*make)(void), unsigned situation)
{
    const size_t one = depth(make, situation, 0xA5);
    const size_t other = depth(make, situation, 0x5A);
    return one < other ? other : one;
}

int main(void)
{
    int off = 0;
    size_t deepest = 0;
    const size_t base = deeper(nothing, 0);
    printf("%-20s %8s %8s  bytes of stack\n", "", "accepted", "refused");
    for (size_t i = 0; i < sizeof calls / sizeof calls[0]; i++) {
        uint32_t seen = 0;
        size_t most[2] = {0, 0};
        for (unsigned situation = 0; lay(situation); situation++) {
            const size_t bytes = deeper(calls[i].make, situation) - base;
            size_t *const so_far = &most[refusal != TB_ACCEPTED];
            seen |= 1u << refusal;
            *so_far = *so_far < bytes ? bytes : *so_far;
            deepest = deepest < bytes ? bytes : deepest;
        }
        printf("%-20s %8zu %8zu\n", calls[i].name, most[0], most[1]);
        for (uint32_t number = 0; number < 32; number++) {
            if ((seen ^ (calls[i].refusals | NO(ACCEPTED))) >> number & 1) {
                printf("OFF: %s %s %" PRIu32 "\n", calls[i].name, seen >> number & 1 ? "gave" : "did not give", number);
                off = 1;
            }
        }
    }
    printf("%-20s %8zu\n", "the deepest", deepest);
    return off;
}
