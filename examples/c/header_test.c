/* Holds include/tautberry.h to libboard.a by what the calls do: the size and the fields of each struct, the angle of a sector, each limit at its
 * last number and one beyond, large drives, bad groups in each call that takes a shape, scratch in each call that takes it, blocks replaced until
 * no spare is left, free places before a block and after it, the tracks of a read, the codes and blocks of headers, sectors of both sizes and
 * numbers that are no size, the mode sector, each refusal number, and NULL for each slice of length 0. It is compiled as C and as C++. It returns 1
 * if anything differs. */
#include <inttypes.h>
#include <stdio.h>
#include <string.h>

#include "tautberry.h"

static uint32_t facts = 0;
static uint32_t wrong = 0;

static void same(const char *what, uint32_t got, uint32_t expected)
{
    facts++;
    if (got != expected) {
        wrong++;
        printf("%s: %" PRIu32 ", and not %" PRIu32 "\n", what, got, expected);
    }
}

/* One entry more than a list may have, each entry its own place. */
static uint32_t places[TB_LIST_MOST + 1];

/* Room for any list, page, table or track that is tried. */
static uint32_t words[TB_LIST_MOST + 1];
static uint32_t more_words[TB_LIST_MOST + 1];
static uint8_t page[TB_PAGE_MOST + TB_ENTRY_SIZE];
static uint8_t home[TB_TRACK_LENGTH(TB_WIDE_SIZE, 5) + 1];
static uint8_t spare[TB_TRACK_LENGTH(TB_WIDE_SIZE, 5) + 1];
static uint8_t data[TB_WIDE_SIZE + 1];
static uint8_t image[TB_IMAGE_LENGTH(TB_WIDE_SIZE) + 1];

/* The two sizes of a sector. */
static const uint32_t both[2] = {TB_DATA_SIZE, TB_WIDE_SIZE};

static uint32_t other_size(uint32_t size)
{
    return TB_DATA_SIZE + TB_WIDE_SIZE - size;
}

/* Scratch for any table that is tried, and three numbers more. */
static uint32_t scratch[TB_SPARES_MOST + 3];

/* The spares of the drives of 2 cylinders, 2 heads and r 2: so many numbers of scratch they need. */
#define SPARES 8u

static tb_shape grouped(uint32_t cylinders, uint32_t heads, uint32_t sectors, uint32_t groups, uint32_t tracks, uint32_t offset)
{
    tb_shape shape;
    shape.cylinders = cylinders;
    shape.heads = heads;
    shape.sectors = sectors;
    shape.groups = groups;
    shape.tracks = tracks;
    shape.offset = offset;
    return shape;
}

/* A shape without groups. */
static tb_shape shaped(uint32_t cylinders, uint32_t heads, uint32_t sectors)
{
    return grouped(cylinders, heads, sectors, 1, heads, 0);
}

/* A drive with TB_SPARES_MOST + 2 spares, where r is 1. One fewer is a prime number, so that no drive has so many. */
static tb_shape too_many_spares(void)
{
    return shaped(1986, 33, 2);
}

static tb_cursor cursor_at(uint32_t block, uint32_t skipped)
{
    tb_cursor cursor;
    cursor.block = block;
    cursor.skipped = skipped;
    return cursor;
}

static uint32_t format(uint32_t space, uint32_t option, size_t d_length)
{
    return tb_format(20, places, 2, places, 1, space, option, places, d_length, words, 9, more_words, 9).refusal;
}

static void sizes(void)
{
    same("sizeof (tb_shape)", sizeof(tb_shape), 24);
    same("sizeof (tb_address)", sizeof(tb_address), 16);
    same("sizeof (tb_cursor)", sizeof(tb_cursor), 8);
    same("sizeof (tb_placed)", sizeof(tb_placed), 8);
    same("sizeof (tb_named)", sizeof(tb_named), 12);
    same("sizeof (tb_job)", sizeof(tb_job), 16);
    same("sizeof (tb_located)", sizeof(tb_located), 20);
    same("sizeof (tb_paged)", sizeof(tb_paged), 16);
    same("sizeof (tb_written)", sizeof(tb_written), 8);
    same("sizeof (tb_formatted)", sizeof(tb_formatted), 16);
    same("sizeof (tb_shifted)", sizeof(tb_shifted), 8);
    same("sizeof (tb_replaced)", sizeof(tb_replaced), 8);
    same("sizeof (tb_counted)", sizeof(tb_counted), 24);
    same("sizeof (tb_headed)", sizeof(tb_headed), 12);
    same("sizeof (tb_judged)", sizeof(tb_judged), 4);
    same("sizeof (tb_sized)", sizeof(tb_sized), 8);
    same("sizeof (tb_tracks)", sizeof(tb_tracks), 24);
    same("sizeof (tb_spotted)", sizeof(tb_spotted), 12);

    same("offsetof (tb_shape, cylinders)", offsetof(tb_shape, cylinders), 0);
    same("offsetof (tb_shape, heads)", offsetof(tb_shape, heads), 4);
    same("offsetof (tb_shape, sectors)", offsetof(tb_shape, sectors), 8);
    same("offsetof (tb_shape, groups)", offsetof(tb_shape, groups), 12);
    same("offsetof (tb_shape, tracks)", offsetof(tb_shape, tracks), 16);
    same("offsetof (tb_shape, offset)", offsetof(tb_shape, offset), 20);
    same("offsetof (tb_address, cylinder)", offsetof(tb_address, cylinder), 0);
    same("offsetof (tb_address, head)", offsetof(tb_address, head), 4);
    same("offsetof (tb_address, sector)", offsetof(tb_address, sector), 8);
    same("offsetof (tb_address, angle)", offsetof(tb_address, angle), 12);
    same("offsetof (tb_located, refusal)", offsetof(tb_located, refusal), 0);
    same("offsetof (tb_located, address)", offsetof(tb_located, address), 4);
    same("offsetof (tb_headed, refusal)", offsetof(tb_headed, refusal), 0);
    same("offsetof (tb_headed, code)", offsetof(tb_headed, code), 4);
    same("offsetof (tb_headed, block)", offsetof(tb_headed, block), 8);
    same("offsetof (tb_sized, refusal)", offsetof(tb_sized, refusal), 0);
    same("offsetof (tb_sized, size)", offsetof(tb_sized, size), 4);
    same("offsetof (tb_tracks, refusal)", offsetof(tb_tracks, refusal), 0);
    same("offsetof (tb_tracks, home_cylinder)", offsetof(tb_tracks, home_cylinder), 4);
    same("offsetof (tb_tracks, home_head)", offsetof(tb_tracks, home_head), 8);
    same("offsetof (tb_tracks, cylinder)", offsetof(tb_tracks, cylinder), 12);
    same("offsetof (tb_tracks, head)", offsetof(tb_tracks, head), 16);
    same("offsetof (tb_tracks, shift)", offsetof(tb_tracks, shift), 20);
}

/* Each field of each struct, by an answer in which no two numbers are alike. */
static void fields(void)
{
    const uint32_t list[4] = {3, 7, 60, 61};
    const tb_shape shape = grouped(2, 2, 5, 2, 1, 3);
    const tb_shape larger = grouped(9, 8, 5, 4, 2, 3);

    tb_placed placed = tb_skip_sector(848, list, 4, 58);
    same("tb_skip_sector refusal", placed.refusal, TB_ACCEPTED);
    same("tb_skip_sector sector", placed.sector, 62);
    tb_named named = tb_skip_block(848, list, 4, 62);
    same("tb_skip_block refusal", named.refusal, TB_ACCEPTED);
    same("tb_skip_block found", named.found, 1);
    same("tb_skip_block block", named.block, 58);
    named = tb_skip_block(848, list, 4, 61);
    same("tb_skip_block refusal, no block", named.refusal, TB_ACCEPTED);
    same("tb_skip_block found, no block", named.found, 0);
    same("tb_skip_block block, no block", named.block, 0);

    tb_job job = tb_job_start(848, list, 4, 58);
    same("tb_job_start refusal", job.refusal, TB_ACCEPTED);
    same("tb_job_start sector", job.sector, 0);
    same("tb_job_start next.block", job.next.block, 58);
    same("tb_job_start next.skipped", job.next.skipped, 2);
    job = tb_job_check(job.next, 848, list, 4);
    same("tb_job_check refusal", job.refusal, TB_ACCEPTED);
    same("tb_job_check sector", job.sector, 0);
    same("tb_job_check next.block", job.next.block, 58);
    same("tb_job_check next.skipped", job.next.skipped, 2);
    job = tb_job_step(job.next, 848, list, 4);
    same("tb_job_step refusal", job.refusal, TB_ACCEPTED);
    same("tb_job_step sector", job.sector, 62);
    same("tb_job_step next.block", job.next.block, 59);
    same("tb_job_step next.skipped", job.next.skipped, 4);
    job = tb_job_step(cursor_at(58, 3), 848, list, 4);
    same("tb_job_step refused", job.refusal, TB_STRAY_CURSOR);
    same("tb_job_step sector, refused", job.sector, 0);
    same("tb_job_step next.block, refused", job.next.block, 58);
    same("tb_job_step next.skipped, refused", job.next.skipped, 3);
    job = tb_job_check(cursor_at(58, 3), 848, list, 4);
    same("tb_job_check refused", job.refusal, TB_STRAY_CURSOR);
    same("tb_job_check next.block, refused", job.next.block, 0);
    same("tb_job_check next.skipped, refused", job.next.skipped, 0);

    same("tb_shape_sector", tb_shape_sector(larger, 8, 6, 4).sector, (8 * 8 + 6) * 5 + 4);
    tb_located located = tb_shape_address(larger, (8 * 8 + 6) * 5 + 4);
    same("tb_shape_address refusal", located.refusal, TB_ACCEPTED);
    same("tb_shape_address cylinder", located.address.cylinder, 8);
    same("tb_shape_address head", located.address.head, 6);
    same("tb_shape_address sector", located.address.sector, 4);
    same("tb_shape_address angle", located.address.angle, 3);
    located = tb_skipped_address(larger, list, 4, 350);
    same("tb_skipped_address refusal", located.refusal, TB_ACCEPTED);
    same("tb_skipped_address cylinder", located.address.cylinder, 8);
    same("tb_skipped_address head", located.address.head, 6);
    same("tb_skipped_address sector", located.address.sector, 4);
    same("tb_skipped_address angle", located.address.angle, 3);
    named = tb_skipped_block(larger, list, 4, 8, 6, 4);
    same("tb_skipped_block found", named.found, 1);
    same("tb_skipped_block block", named.block, 350);

    tb_written written = tb_page_write(20, 1, list, 2, page, sizeof page);
    same("tb_page_write refusal", written.refusal, TB_ACCEPTED);
    same("tb_page_write length", written.length, 22);
    tb_paged paged = tb_page_read(page, 22, words, 2);
    same("tb_page_read refusal", paged.refusal, TB_ACCEPTED);
    same("tb_page_read kind", paged.kind, 1);
    same("tb_page_read n", paged.n, 20);
    same("tb_page_read entries", paged.entries, 2);
    same("tb_page_read first entry", words[0], 3);
    same("tb_page_read second entry", words[1], 7);

    const uint32_t scan[2] = {3, 16};
    tb_formatted formatted = tb_format(20, list, 2, NULL, 0, 3, 1, scan, 2, words, 2, more_words, 4);
    same("tb_format refusal", formatted.refusal, TB_ACCEPTED);
    same("tb_format grown", formatted.grown, 2);
    same("tb_format list", formatted.list, 4);
    same("tb_format space", formatted.space, 3);
    same("tb_format first grown", words[0], 4);
    same("tb_format last grown", words[1], 18);
    same("tb_format first of the list", more_words[0], 3);
    same("tb_format last of the list", more_words[3], 18);

    /* Sectors 3 and 8 are spares; blocks 7, 8 and 6 are replaced on top of them. */
    const uint32_t bad[2] = {3, 8};
    written = tb_spare_first(shape, 2, bad, 2, words, 128);
    same("tb_spare_first refusal", written.refusal, TB_ACCEPTED);
    same("tb_spare_first length", written.length, 128);
    tb_replaced replaced = tb_spare_replace(shape, 2, words, 128, scratch, SPARES, 7);
    same("tb_spare_replace refusal", replaced.refusal, TB_ACCEPTED);
    same("tb_spare_replace place", replaced.place, 4);
    same("tb_spare_replace descriptor", words[4], 0x20000007);
    same("tb_spare_replace elsewhere", tb_spare_replace(shape, 2, words, 128, scratch, SPARES, 8).place, 5);
    same("tb_spare_replace farther", tb_spare_replace(shape, 2, words, 128, scratch, SPARES, 6).place, 3);
    same("tb_spare_replace last", tb_spare_replace(shape, 2, words, 128, scratch, SPARES, 0).place, 1);
    tb_counted counted = tb_spare_census(shape, 2, words, 128, scratch, SPARES);
    same("tb_spare_census refusal", counted.refusal, TB_ACCEPTED);
    same("tb_spare_census free", counted.free, 2);
    same("tb_spare_census primary", counted.primary, 1);
    same("tb_spare_census elsewhere", counted.elsewhere, 3);
    same("tb_spare_census unusable", counted.unusable, 2);
    same("tb_spare_census null", counted.null, 120);
    tb_shifted shifted = tb_spare_shift(shape, 2, words, 128, scratch, SPARES, 6);
    same("tb_spare_shift refusal", shifted.refusal, TB_ACCEPTED);
    same("tb_spare_shift is negative", shifted.shift < 0, 1);
    same("tb_spare_shift is by one", shifted.shift + 1 == 0, 1);
    same("tb_spare_sector", tb_spare_sector(shape, 2, words, 128, scratch, SPARES, 6).sector, 9);
    located = tb_spare_address(shape, 2, words, 128, scratch, SPARES, 6);
    same("tb_spare_address cylinder", located.address.cylinder, 0);
    same("tb_spare_address head", located.address.head, 1);
    same("tb_spare_address sector", located.address.sector, 4);
    same("tb_spare_address angle", located.address.angle, 2);
    named = tb_spare_block(shape, 2, words, 128, scratch, SPARES, 9);
    same("tb_spare_block found", named.found, 1);
    same("tb_spare_block block", named.block, 6);
    named = tb_spare_block_at(shape, 2, words, 128, scratch, SPARES, 0, 1, 4);
    same("tb_spare_block_at found", named.found, 1);
    same("tb_spare_block_at block", named.block, 6);
    tb_tracks tracks = tb_read_tracks(shape, 2, words, 128, scratch, SPARES, 6);
    same("tb_read_tracks refusal", tracks.refusal, TB_ACCEPTED);
    same("tb_read_tracks home_cylinder", tracks.home_cylinder, 1);
    same("tb_read_tracks home_head", tracks.home_head, 0);
    same("tb_read_tracks cylinder", tracks.cylinder, 0);
    same("tb_read_tracks head", tracks.head, 1);
    same("tb_read_tracks shift is negative", tracks.shift < 0, 1);
    same("tb_read_tracks shift is by one", tracks.shift + 1 == 0, 1);
    /* One spare to a track, and all of them unusable but two: block 281 of track 70 lies on that of track 26, and block 41 of track 10 on that of
     * track 60. */
    for (uint32_t place = 0; place < 128; place++) {
        more_words[place] = place >= 72 ? 0x80000000 : place == 26 ? 0x30000000 + 281 : place == 60 ? 0x30000000 + 41 : 0x40000000;
    }
    tracks = tb_read_tracks(larger, 1, more_words, 128, scratch, 72, 281);
    same("tb_read_tracks refusal, toward cylinder 0", tracks.refusal, TB_ACCEPTED);
    same("tb_read_tracks home_cylinder, toward cylinder 0", tracks.home_cylinder, 8);
    same("tb_read_tracks home_head, toward cylinder 0", tracks.home_head, 6);
    same("tb_read_tracks cylinder, toward cylinder 0", tracks.cylinder, 3);
    same("tb_read_tracks head, toward cylinder 0", tracks.head, 2);
    same("tb_read_tracks shift, toward cylinder 0", tracks.shift == -5, 1);
    tracks = tb_read_tracks(larger, 1, more_words, 128, scratch, 72, 41);
    same("tb_read_tracks refusal, away from cylinder 0", tracks.refusal, TB_ACCEPTED);
    same("tb_read_tracks home_cylinder, away from cylinder 0", tracks.home_cylinder, 1);
    same("tb_read_tracks home_head, away from cylinder 0", tracks.home_head, 2);
    same("tb_read_tracks cylinder, away from cylinder 0", tracks.cylinder, 7);
    same("tb_read_tracks head, away from cylinder 0", tracks.head, 4);
    same("tb_read_tracks shift, away from cylinder 0", tracks.shift == 6, 1);

    data[0] = 1;
    for (size_t i = 0; i < 2; i++) {
        const uint32_t size = both[i];
        const size_t length = size + 18;
        uint8_t *const lying = spare + 4 * length;
        written = tb_image_write(size, 6, TB_CODE_OF(words[3]), data, size, false, lying, length);
        same("tb_image_write refusal", written.refusal, TB_ACCEPTED);
        same("tb_image_write length", written.length, i == 0 ? 530 : 594);
        tb_headed headed = tb_image_header(size, lying, length);
        same("tb_image_header refusal", headed.refusal, TB_ACCEPTED);
        same("tb_image_header code", headed.code, TB_ELSEWHERE);
        same("tb_image_header block", headed.block, 6);
        same("tb_image_judge refusal", tb_image_judge(size, lying, length, 6, TB_ELSEWHERE).refusal, TB_ACCEPTED);
        tb_judged judged = tb_read_judge(size, shape, 2, words, 128, scratch, SPARES, 6, home, 5 * length, spare, 5 * length);
        same("tb_read_judge refusal", judged.refusal, TB_ACCEPTED);
        tb_spotted spotted = tb_read_data(size, shape, 2, words, 128, scratch, SPARES, 6, home, 5 * length, spare, 5 * length);
        same("tb_read_data refusal", spotted.refusal, TB_ACCEPTED);
        same("tb_read_data image", spotted.image, 1);
        same("tb_read_data offset", spotted.offset, i == 0 ? 2136 : 2392);
    }
    /* The mode sector of a drive with sectors of 576. */
    data[0] = 2, data[1] = 0x40;
    same("a mode sector", tb_image_write(TB_DATA_SIZE, 0, TB_AT_HOME, data, TB_DATA_SIZE, false, image, sizeof image).length, 530);
    tb_sized sized = tb_mode(image, 530, 1);
    same("tb_mode refusal", sized.refusal, TB_ACCEPTED);
    same("tb_mode size", sized.size, 576);
    memset(data, 0, sizeof data);
}

/* A sector number has this address and this angle, and the address leads back to it. */
static void located_at(tb_shape shape, uint32_t number, uint32_t cylinder, uint32_t head, uint32_t sector, uint32_t angle)
{
    const tb_located located = tb_shape_address(shape, number);
    same("refusal of an address", located.refusal, TB_ACCEPTED);
    same("cylinder of an address", located.address.cylinder, cylinder);
    same("head of an address", located.address.head, head);
    same("sector of an address", located.address.sector, sector);
    same("angle of an address", located.address.angle, angle);
    same("sector number of an address", tb_shape_sector(shape, cylinder, head, sector).sector, number);
}

/* Angles in each group, at the largest product of offset and group, and with one group. */
static void angles(void)
{
    const tb_shape shape = grouped(2, 4, 5, 2, 2, 3);
    const tb_shape largest = grouped(TB_CYLINDERS_MOST, TB_HEADS_MOST, TB_SECTORS_MOST, TB_HEADS_MOST, 1, TB_SECTORS_MOST - 1);

    located_at(shape, 0, 0, 0, 0, 0);
    located_at(shape, 9, 0, 1, 4, 4);
    located_at(shape, 10, 0, 2, 0, 3);
    located_at(shape, 13, 0, 2, 3, 1);
    located_at(shape, 19, 0, 3, 4, 2);
    located_at(shape, 20, 1, 0, 0, 0);
    located_at(shape, 39, 1, 3, 4, 2);
    located_at(largest, TB_UNITS_MOST - 1, 4095, 63, 63, 0);
    located_at(largest, TB_UNITS_MOST - 64, 4095, 63, 0, 1);
    for (uint32_t offset = 0; offset < 5; offset++) {
        located_at(grouped(2, 4, 5, 1, 4, offset), 39, 1, 3, 4, 4);
    }
}

/* Each limit: its last number accepted, and the one beyond refused. */
static void limits(void)
{
    same("N 0", tb_skip_block(0, NULL, 0, 0).refusal, TB_OUT_OF_RANGE);
    same("N 1", tb_skip_block(1, NULL, 0, 0).refusal, TB_ACCEPTED);
    same("TB_UNITS_MOST", tb_skip_block(TB_UNITS_MOST, NULL, 0, TB_UNITS_MOST - 1).refusal, TB_ACCEPTED);
    same("TB_UNITS_MOST + 1", tb_skip_block(TB_UNITS_MOST + 1, NULL, 0, 0).refusal, TB_OUT_OF_RANGE);
    same("cylinders 0", tb_shape_sector(shaped(0, 1, 2), 0, 0, 0).refusal, TB_OUT_OF_RANGE);
    same("TB_CYLINDERS_MOST", tb_shape_sector(shaped(TB_CYLINDERS_MOST, 1, 2), 0, 0, 0).refusal, TB_ACCEPTED);
    same("TB_CYLINDERS_MOST + 1", tb_shape_sector(shaped(TB_CYLINDERS_MOST + 1, 1, 2), 0, 0, 0).refusal, TB_OUT_OF_RANGE);
    same("heads 0", tb_shape_sector(shaped(1, 0, 2), 0, 0, 0).refusal, TB_OUT_OF_RANGE);
    same("TB_HEADS_MOST", tb_shape_sector(shaped(1, TB_HEADS_MOST, 2), 0, 0, 0).refusal, TB_ACCEPTED);
    /* 65 heads are 5 groups of 13, so that only the heads are at fault. */
    same("TB_HEADS_MOST + 1", tb_shape_sector(grouped(1, TB_HEADS_MOST + 1, 2, 5, 13, 0), 0, 0, 0).refusal, TB_OUT_OF_RANGE);
    same("TB_HEADS_MOST groups", tb_shape_sector(grouped(1, TB_HEADS_MOST, 2, TB_HEADS_MOST, 1, 0), 0, 0, 0).refusal, TB_ACCEPTED);
    same("TB_HEADS_MOST + 1 groups", tb_shape_sector(grouped(1, TB_HEADS_MOST, 2, TB_HEADS_MOST + 1, 1, 0), 0, 0, 0).refusal, TB_OUT_OF_RANGE);
    same("TB_HEADS_MOST tracks", tb_shape_sector(grouped(1, TB_HEADS_MOST, 2, 1, TB_HEADS_MOST, 0), 0, 0, 0).refusal, TB_ACCEPTED);
    same("TB_HEADS_MOST + 1 tracks", tb_shape_sector(grouped(1, TB_HEADS_MOST, 2, 1, TB_HEADS_MOST + 1, 0), 0, 0, 0).refusal, TB_OUT_OF_RANGE);
    same("TB_SECTORS_LEAST - 1", tb_shape_sector(shaped(1, 1, TB_SECTORS_LEAST - 1), 0, 0, 0).refusal, TB_OUT_OF_RANGE);
    same("TB_SECTORS_LEAST", tb_shape_sector(shaped(1, 1, TB_SECTORS_LEAST), 0, 0, 0).refusal, TB_ACCEPTED);
    same("TB_SECTORS_MOST", tb_shape_sector(shaped(1, 1, TB_SECTORS_MOST), 0, 0, 0).refusal, TB_ACCEPTED);
    same("TB_SECTORS_MOST + 1", tb_shape_sector(shaped(1, 1, TB_SECTORS_MOST + 1), 0, 0, 0).refusal, TB_OUT_OF_RANGE);
    const tb_shape largest = shaped(TB_CYLINDERS_MOST, TB_HEADS_MOST, TB_SECTORS_MOST);
    same("the last sector of the largest shape", tb_shape_address(largest, TB_UNITS_MOST - 1).refusal, TB_ACCEPTED);
    same("the sector after it", tb_shape_address(largest, TB_UNITS_MOST).refusal, TB_NO_SUCH_SECTOR);

    same("r 0", tb_spare_first(shaped(2, 2, 5), 0, NULL, 0, words, 128).refusal, TB_OUT_OF_RANGE);
    same("r 1", tb_spare_first(shaped(2, 2, 5), 1, NULL, 0, words, 128).refusal, TB_ACCEPTED);
    same("r one below sectors", tb_spare_first(shaped(2, 2, 5), 4, NULL, 0, words, 128).refusal, TB_ACCEPTED);
    same("r as many as sectors", tb_spare_first(shaped(2, 2, 5), 5, NULL, 0, words, 128).refusal, TB_OUT_OF_RANGE);
    same("TB_SPARES_MOST", tb_spare_first(shaped(TB_CYLINDERS_MOST, 16, 2), 1, NULL, 0, words, TB_SPARES_MOST).length, TB_SPARES_MOST);
    same("TB_SPARES_MOST, 16 to a track", tb_spare_first(shaped(TB_CYLINDERS_MOST, 1, 17), 16, NULL, 0, words, TB_SPARES_MOST).length, TB_SPARES_MOST);
    same("TB_SPARES_MOST + 2", tb_spare_first(too_many_spares(), 1, NULL, 0, words, TB_LIST_MOST).refusal, TB_OUT_OF_RANGE);
    same("TB_TABLE_BLOCK spares", tb_spare_first(shaped(TB_TABLE_BLOCK, 1, 2), 1, NULL, 0, words, TB_LIST_MOST).length, TB_TABLE_BLOCK);
    same("one spare more", tb_spare_first(shaped(TB_TABLE_BLOCK + 1, 1, 2), 1, NULL, 0, words, TB_LIST_MOST).length, 2 * TB_TABLE_BLOCK);
    same("TB_TABLE_LENGTH", tb_spare_first(shaped(300, 1, 2), 1, NULL, 0, words, TB_TABLE_LENGTH(300)).length, TB_TABLE_LENGTH(300));
    same("TB_TABLE_LENGTH - 1", tb_spare_first(shaped(300, 1, 2), 1, NULL, 0, words, TB_TABLE_LENGTH(300) - 1).refusal, TB_NO_ROOM);

    same("TB_PAGE_FRAME", tb_page_write(20, 0, NULL, 0, page, sizeof page).length, TB_PAGE_FRAME);
    same("TB_PAGE_FRAME read", tb_page_read(page, TB_PAGE_FRAME, NULL, 0).refusal, TB_ACCEPTED);
    same("TB_PAGE_FRAME - 1", tb_page_read(page, TB_PAGE_FRAME - 1, NULL, 0).refusal, TB_BAD_PAGE);
    same("TB_ENTRY_SIZE", tb_page_write(20, 0, places, 1, page, sizeof page).length, TB_PAGE_FRAME + TB_ENTRY_SIZE);
    same("TB_PAGE_LENGTH", tb_page_write(20, 0, places, 9, page, TB_PAGE_LENGTH(9)).length, TB_PAGE_LENGTH(9));
    same("TB_PAGE_LENGTH - 1", tb_page_write(20, 0, places, 9, page, TB_PAGE_LENGTH(9) - 1).refusal, TB_NO_ROOM);
    same("TB_KIND_MOST", tb_page_write(20, TB_KIND_MOST, NULL, 0, page, sizeof page).refusal, TB_ACCEPTED);
    same("TB_KIND_MOST + 1", tb_page_write(20, TB_KIND_MOST + 1, NULL, 0, page, sizeof page).refusal, TB_BAD_PAGE);
    same("TB_PAGE_MOST", tb_page_write(TB_UNITS_MOST, 0, places, TB_LIST_MOST, page, sizeof page).length, TB_PAGE_MOST);
    same("TB_PAGE_MOST read", tb_page_read(page, TB_PAGE_MOST, words, TB_LIST_MOST).entries, TB_LIST_MOST);
    /* The same page with one entry more: its length field and its end are those of a page of that length. */
    memmove(page + TB_PAGE_FRAME, page + TB_PAGE_FRAME - TB_ENTRY_SIZE, TB_PAGE_MOST - TB_PAGE_FRAME + TB_ENTRY_SIZE);
    page[1] = (uint8_t)((TB_PAGE_MOST + TB_ENTRY_SIZE) / 65536);
    page[2] = (uint8_t)((TB_PAGE_MOST + TB_ENTRY_SIZE) / 256);
    page[3] = (uint8_t)((TB_PAGE_MOST + TB_ENTRY_SIZE) % 256);
    same("TB_PAGE_MOST + TB_ENTRY_SIZE", tb_page_read(page, TB_PAGE_MOST + TB_ENTRY_SIZE, words, TB_LIST_MOST + 1).refusal, TB_BAD_PAGE);

    same("TB_OPTION_MOST", format(0, TB_OPTION_MOST, 0), TB_ACCEPTED);
    same("TB_OPTION_MOST + 1", format(0, TB_OPTION_MOST + 1, 0), TB_BAD_OPTION);
    same("TB_SPACE_MOST", format(TB_SPACE_MOST, 0, 0), TB_ACCEPTED);
    same("TB_SPACE_MOST + 1", format(TB_SPACE_MOST + 1, 0, 0), TB_BAD_OPTION);
}

/* The lengths of what goes with a size, each as it must be, one less and one more. */
static void lengths(uint32_t size)
{
    const size_t image_length = TB_IMAGE_LENGTH(size);
    const size_t track_length = TB_TRACK_LENGTH(size, 5);
    const tb_shape shape = shaped(2, 2, 5);

    memset(data, 0, sizeof data);
    same("data of the size", tb_image_write(size, 7, TB_AT_HOME, data, size, false, image, image_length).refusal, TB_ACCEPTED);
    same("a byte less", tb_image_write(size, 7, TB_AT_HOME, data, size - 1, false, image, image_length).refusal, TB_WRONG_LENGTH);
    same("a byte more", tb_image_write(size, 7, TB_AT_HOME, data, size + 1, false, image, image_length).refusal, TB_WRONG_LENGTH);
    same("TB_IMAGE_LENGTH - 1 as room", tb_image_write(size, 7, TB_AT_HOME, data, size, false, image, image_length - 1).refusal, TB_NO_ROOM);
    same("TB_IMAGE_LENGTH", tb_image_judge(size, image, image_length, 7, TB_AT_HOME).refusal, TB_ACCEPTED);
    same("TB_IMAGE_LENGTH - 1", tb_image_judge(size, image, image_length - 1, 7, TB_AT_HOME).refusal, TB_WRONG_LENGTH);
    same("TB_IMAGE_LENGTH + 1", tb_image_judge(size, image, image_length + 1, 7, TB_AT_HOME).refusal, TB_WRONG_LENGTH);
    same("TB_START_CODE", (uint32_t)image[image_length - 2] * 256 + image[image_length - 1], TB_START_CODE);
    same("the byte before TB_HEADER_SIZE", image[TB_HEADER_SIZE - 1], 7);
    same("the byte at TB_HEADER_SIZE", image[TB_HEADER_SIZE], 0);
    same("a table for block 0", tb_spare_first(shape, 2, NULL, 0, words, 128).refusal, TB_ACCEPTED);
    same("an image of block 0", tb_image_write(size, 0, TB_AT_HOME, data, size, false, home, image_length).refusal, TB_ACCEPTED);
    for (uint32_t more = 0; more < 3; more++) {
        for (uint32_t other = 0; other < 3; other++) {
            same("TB_TRACK_LENGTH, one less and one more, of either image",
                 tb_read_judge(size, shape, 2, words, 128, scratch, SPARES, 0, home, track_length - 1 + more, spare, track_length - 1 + other).refusal,
                 more == 1 && other == 1 ? TB_ACCEPTED : TB_WRONG_LENGTH);
        }
    }
}

/* The macros of lengths, with any arguments, and where a constant is asked for. */
static void macros_of_lengths(void)
{
    static const uint32_t images[2] = {TB_IMAGE_LENGTH(TB_DATA_SIZE), TB_IMAGE_LENGTH(TB_WIDE_SIZE)};
    static const uint32_t tracks[2] = {TB_TRACK_LENGTH(TB_DATA_SIZE, TB_SECTORS_MOST), TB_TRACK_LENGTH(TB_WIDE_SIZE, TB_SECTORS_MOST)};
    const uint16_t narrow = 576;
    const uint8_t sectors = 64;

    same("TB_IMAGE_EXTRA", TB_IMAGE_EXTRA, TB_HEADER_SIZE + 2);
    same("TB_DATA_SIZE", TB_DATA_SIZE, 512);
    same("TB_WIDE_SIZE", TB_WIDE_SIZE, 576);
    for (size_t i = 0; i < 2; i++) {
        same("TB_IMAGE_LENGTH of a constant", images[i], i == 0 ? 530 : 594);
        same("TB_TRACK_LENGTH of constants", tracks[i], i == 0 ? 33920 : 38016);
        same("TB_IMAGE_LENGTH of a choice", TB_IMAGE_LENGTH(i == 0 ? TB_DATA_SIZE : TB_WIDE_SIZE), images[i]);
        same("TB_TRACK_LENGTH of choices", TB_TRACK_LENGTH(i == 0 ? TB_DATA_SIZE : TB_WIDE_SIZE, i == 0 ? 2u : 3u), i == 0 ? 1060 : 1782);
    }
    same("TB_IMAGE_LENGTH of a signed number", TB_IMAGE_LENGTH(512), 530);
    same("TB_IMAGE_LENGTH of a sum", TB_IMAGE_LENGTH(500u + 12u), 530);
    same("TB_IMAGE_LENGTH, a part of a product", 2u * TB_IMAGE_LENGTH(512u), 1060);
    same("TB_IMAGE_LENGTH, a part of a quotient", 1188u / TB_IMAGE_LENGTH(576u), 2);
    same("TB_TRACK_LENGTH of sums", TB_TRACK_LENGTH(500u + 12u, 1u + 1u), 1060);
    same("TB_TRACK_LENGTH, a part of a quotient", 2120u / TB_TRACK_LENGTH(512u, 2u), 2);
    same("TB_TRACK_LENGTH of small types", TB_TRACK_LENGTH(narrow, sectors), 38016);
}

/* The refusal of a Format of the largest drive. */
static uint32_t format_largest(
    const uint32_t *p, size_t p_length, const uint32_t *g, size_t g_length, uint32_t space, uint32_t option, const uint32_t *d, size_t d_length)
{
    return tb_format(TB_UNITS_MOST, p, p_length, g, g_length, space, option, d, d_length, words, TB_LIST_MOST, more_words, TB_LIST_MOST).refusal;
}

/* A list at its limit, and one entry beyond it, in each call that takes a list, and where Format makes one. */
static void lists(void)
{
    const tb_shape largest = shaped(TB_CYLINDERS_MOST, TB_HEADS_MOST, TB_SECTORS_MOST);
    const tb_shape spared = shaped(TB_CYLINDERS_MOST, 16, 2);

    for (uint32_t more = 0; more < 2; more++) {
        const size_t length = TB_LIST_MOST + more;
        const uint32_t expected = more == 0 ? TB_ACCEPTED : TB_TOO_LONG;
        same("a long list of tb_skip_sector", tb_skip_sector(TB_UNITS_MOST, places, length, 0).refusal, expected);
        same("a long list of tb_skip_block", tb_skip_block(TB_UNITS_MOST, places, length, 0).refusal, expected);
        same("a long list of tb_job_start", tb_job_start(TB_UNITS_MOST, places, length, 0).refusal, expected);
        same("a long list of tb_job_check", tb_job_check(cursor_at(0, 0), TB_UNITS_MOST, places, length).refusal, expected);
        same("a long list of tb_job_step", tb_job_step(cursor_at(0, 0), TB_UNITS_MOST, places, length).refusal, expected);
        same("a long list of tb_skipped_address", tb_skipped_address(largest, places, length, 0).refusal, expected);
        same("a long list of tb_skipped_block", tb_skipped_block(largest, places, length, 0, 0, 0).refusal, expected);
        same("a long list of tb_page_write", tb_page_write(TB_UNITS_MOST, 0, places, length, page, sizeof page).refusal, expected);
        same("a long p", format_largest(places, length, NULL, 0, 1, 0, NULL, 0), expected);
        same("a long g", format_largest(NULL, 0, places, length, 2, 0, NULL, 0), expected);
        same("a long d", format_largest(NULL, 0, NULL, 0, 0, 7, places, length), expected);
        same("a long list in use", format_largest(places, TB_LIST_MOST, places + TB_LIST_MOST - 1 + more, 1, 3, 0, NULL, 0), expected);
        same("a long grown list", format_largest(NULL, 0, places, TB_LIST_MOST - 1 + more, 2, 3, places, 1), expected);
        same("a long new list", format_largest(places + TB_LIST_MOST - 1 + more, 1, NULL, 0, 0, 5, places, TB_LIST_MOST), expected);
        /* The one home of each track. */
        for (uint32_t track = 0; track <= TB_LIST_MOST; track++) {
            more_words[track] = 2 * track;
        }
        same("a long list of tb_spare_first", tb_spare_first(spared, 1, more_words, length, words, TB_SPARES_MOST).refusal, expected);
    }
}

/* A refused answer: the number, and zeros behind it. */
static void refused(const char *call, const void *answer, size_t size, uint32_t refusal)
{
    uint32_t numbers[sizeof(tb_counted) / sizeof(uint32_t)];
    memcpy(numbers, answer, size);
    same(call, numbers[0], refusal);
    for (size_t i = 1; i < size / sizeof(uint32_t); i++) {
        same(call, numbers[i], 0);
    }
}

#define REFUSED(type, call, refusal) \
    do { \
        const type answer = call; \
        refused(#call, &answer, sizeof answer, refusal); \
    } while (0)

/* A number of scratch before a call that is tried on it: every bit is on. */
#define ONES 0xFFFFFFFFu

/* Scratch after a call: so many zeros at its start, and each number behind them as it was. */
static void scratch_left(const char *at_start, const char *behind, uint32_t zeros)
{
    uint32_t cleared = 0;
    uint32_t kept = 0;
    for (size_t i = 0; i < sizeof scratch / sizeof scratch[0]; i++) {
        cleared += i < zeros && scratch[i] == 0;
        kept += i >= zeros && scratch[i] == ONES;
    }
    same(at_start, cleared, zeros);
    same(behind, kept, sizeof scratch / sizeof scratch[0] - zeros);
}

/* A call on scratch full of ones, with its number and what it leaves of the scratch of a drive with so many spares. */
#define SCRATCHED(type, call, number, spares) \
    do { \
        memset(scratch, 0xFF, sizeof scratch); \
        const type answer = call; \
        if ((number) == TB_ACCEPTED) { \
            same(#call, answer.refusal, TB_ACCEPTED); \
        } else { \
            refused(#call, &answer, sizeof answer, number); \
        } \
        scratch_left( \
            "zeros of scratch after " #call, "other numbers of scratch after " #call, \
            (number) == TB_OUT_OF_RANGE || (number) == TB_NO_ROOM ? 0 : (spares)); \
    } while (0)

/* The tracks of a block of a drive whose table is in words: its home track and the one that it lies on, each by its number on the drive. The other
 * calls say the same of the second one and of the shift. */
static void tracks_are(tb_shape shape, uint32_t r, uint32_t block, uint32_t home_track, uint32_t track)
{
    const uint32_t spares = shape.cylinders * shape.heads * r;
    const size_t length = TB_TABLE_LENGTH(spares);
    const uint32_t heads = shape.heads;
    const int32_t shift = (int32_t)(track / heads) - (int32_t)(home_track / heads);
    const tb_tracks tracks = tb_read_tracks(shape, r, words, length, scratch, spares, block);
    same("refusal of tracks", tracks.refusal, TB_ACCEPTED);
    same("cylinder of a home track", tracks.home_cylinder, home_track / heads);
    same("head of a home track", tracks.home_head, home_track % heads);
    same("cylinder of the track of a block", tracks.cylinder, track / heads);
    same("head of the track of a block", tracks.head, track % heads);
    same("shift between tracks", tracks.shift == shift, 1);
    const tb_located located = tb_spare_address(shape, r, words, length, scratch, spares, block);
    same("cylinder of a block and of its track", located.address.cylinder, tracks.cylinder);
    same("head of a block and of its track", located.address.head, tracks.head);
    same("shift of a block and between its tracks", tb_spare_shift(shape, r, words, length, scratch, spares, block).shift == shift, 1);
}

/* A drive of 880 cylinders, 16 heads and 53 sectors, one of them a spare: 14,080 spares and 732,160 blocks. */
static void customers_drive(void)
{
    const tb_shape shape = shaped(880, 16, 53);
    const uint32_t spares = 14080;
    const uint32_t replaced[][3] = {
        {732159, 14079, 0x200B2BFF}, {732158, 14078, 0x300B2BFE}, {732157, 14077, 0x300B2BFD}, {6656, 128, 0x20001A00},
        {6657, 129, 0x30001A01},     {6658, 130, 0x30001A02},     {6604, 127, 0x200019CC},     {6605, 126, 0x300019CD},
    };

    same("a table without a null", tb_spare_first(shape, 1, NULL, 0, words, spares).length, spares);
    for (size_t i = 0; i < sizeof replaced / sizeof replaced[0]; i++) {
        const uint32_t block = replaced[i][0];
        const uint32_t place = replaced[i][1];
        const tb_replaced answer = tb_spare_replace(shape, 1, words, spares, scratch, spares, block);
        same("refusal of a replacement on a large drive", answer.refusal, TB_ACCEPTED);
        same("place of a replacement on a large drive", answer.place, place);
        same("descriptor on a large drive", words[place], replaced[i][2]);
        same("sector on a large drive", tb_spare_sector(shape, 1, words, spares, scratch, spares, block).sector, 53 * place + 52);
        tracks_are(shape, 1, block, block / 52, place);
    }
    tracks_are(shape, 1, 0, 0, 0);
    tracks_are(shape, 1, 731899, 14074, 14074);
    SCRATCHED(tb_replaced, tb_spare_replace(shape, 1, words, spares, scratch, spares, 732160), TB_NO_SUCH_BLOCK, spares);
    SCRATCHED(tb_replaced, tb_spare_replace(shape, 1, words, spares, scratch, spares - 1, 0), TB_NO_ROOM, spares);
    SCRATCHED(tb_tracks, tb_read_tracks(shape, 1, words, spares, scratch, spares, 732160), TB_NO_SUCH_BLOCK, spares);
    SCRATCHED(tb_tracks, tb_read_tracks(shape, 1, words, spares, scratch, spares - 1, 0), TB_NO_ROOM, spares);
    SCRATCHED(tb_tracks, tb_read_tracks(shape, 1, words, spares, scratch, spares + 3, 732159), TB_ACCEPTED, spares);
    const tb_counted counted = tb_spare_census(shape, 1, words, spares, scratch, spares);
    same("free on a large drive", counted.free, spares - 8);
    same("primary on a large drive", counted.primary, 3);
    same("elsewhere on a large drive", counted.elsewhere, 5);
    same("unusable on a large drive", counted.unusable, 0);
    same("null on a large drive", counted.null, 0);

    /* The first home of each track is bad, and so every spare is used. */
    for (uint32_t track = 0; track < spares; track++) {
        more_words[track] = 53 * track;
    }
    same("a table with every spare used", tb_spare_first(shape, 1, more_words, spares, words, spares).length, spares);
    same("primary with every spare used", tb_spare_census(shape, 1, words, spares, scratch, spares).primary, spares);
    SCRATCHED(tb_replaced, tb_spare_replace(shape, 1, words, spares, scratch, spares, 1), TB_NO_SPARE, spares);
}

/* A drive with as many spares as there may be, and 63 blocks to each. */
static void largest_drive(void)
{
    const tb_shape shape = shaped(TB_CYLINDERS_MOST, 16, TB_SECTORS_MOST);
    const uint32_t spares = TB_SPARES_MOST;
    const uint32_t last = 63 * spares - 1;

    same("the largest table", tb_spare_first(shape, 1, NULL, 0, words, spares).length, spares);
    /* Two blocks that are as far apart as there are bits in the scratch. */
    SCRATCHED(tb_replaced, tb_spare_replace(shape, 1, words, spares, scratch, spares, 5), TB_ACCEPTED, spares);
    SCRATCHED(tb_replaced, tb_spare_replace(shape, 1, words, spares, scratch, spares, 5 + 32 * spares), TB_ACCEPTED, spares);
    same("the first of two blocks", words[0], 0x20000005);
    same("the second of two blocks", words[33288], 0x20200005);
    SCRATCHED(tb_replaced, tb_spare_replace(shape, 1, words, spares, scratch, spares, last), TB_ACCEPTED, spares);
    same("the last block", words[spares - 1], 0x20000000 + last);
    SCRATCHED(tb_counted, tb_spare_census(shape, 1, words, spares, scratch, spares - 1), TB_NO_ROOM, spares);
    SCRATCHED(tb_counted, tb_spare_census(shape, 1, words, spares, scratch, spares + 3), TB_ACCEPTED, spares);
    tracks_are(shape, 1, 5, 0, 0);
    tracks_are(shape, 1, 5 + 32 * spares, 33288, 33288);
    tracks_are(shape, 1, last, spares - 1, spares - 1);
    tracks_are(shape, 1, last - 1, spares - 1, spares - 1);
    /* Each of the three is named once more, on the spare after its own or before it. */
    words[1] = 0x30000005;
    SCRATCHED(tb_counted, tb_spare_census(shape, 1, words, spares, scratch, spares), TB_BAD_TABLE, spares);
    SCRATCHED(tb_tracks, tb_read_tracks(shape, 1, words, spares, scratch, spares, last), TB_BAD_TABLE, spares);
    words[1] = 0;
    words[33289] = 0x30200005;
    SCRATCHED(tb_counted, tb_spare_census(shape, 1, words, spares, scratch, spares), TB_BAD_TABLE, spares);
    words[33289] = 0;
    words[spares - 2] = 0x30000000 + last;
    SCRATCHED(tb_counted, tb_spare_census(shape, 1, words, spares, scratch, spares), TB_BAD_TABLE, spares);
    words[spares - 2] = 0;
    SCRATCHED(tb_counted, tb_spare_census(shape, 1, words, spares, scratch, spares), TB_ACCEPTED, spares);
}

/* Each call that takes a shape, with a fault behind the shape. Bad groups are refused before it, and nothing is written. */
static void in_each_call(tb_shape shape, bool bad)
{
    const uint32_t no_sector = bad ? TB_OUT_OF_RANGE : TB_NO_SUCH_SECTOR;
    const uint32_t no_list = bad ? TB_OUT_OF_RANGE : TB_TOO_LONG;
    const uint32_t no_table = bad ? TB_OUT_OF_RANGE : TB_BAD_TABLE;

    REFUSED(tb_placed, tb_shape_sector(shape, 2, 4, 5), no_sector);
    REFUSED(tb_located, tb_shape_address(shape, 40), no_sector);
    REFUSED(tb_located, tb_skipped_address(shape, places, TB_LIST_MOST + 1, 40), no_list);
    REFUSED(tb_named, tb_skipped_block(shape, places, TB_LIST_MOST + 1, 2, 4, 5), no_list);
    memset(words, 0xA5, sizeof words);
    REFUSED(tb_placed, tb_spare_sector(shape, 2, words, 1, scratch, 2 * SPARES, 24), no_table);
    REFUSED(tb_located, tb_spare_address(shape, 2, words, 1, scratch, 2 * SPARES, 24), no_table);
    REFUSED(tb_shifted, tb_spare_shift(shape, 2, words, 1, scratch, 2 * SPARES, 24), no_table);
    REFUSED(tb_named, tb_spare_block(shape, 2, words, 1, scratch, 2 * SPARES, 40), no_table);
    REFUSED(tb_named, tb_spare_block_at(shape, 2, words, 1, scratch, 2 * SPARES, 2, 4, 5), no_table);
    REFUSED(tb_replaced, tb_spare_replace(shape, 2, words, 1, scratch, 2 * SPARES, 24), no_table);
    REFUSED(tb_counted, tb_spare_census(shape, 2, words, 1, scratch, 2 * SPARES), no_table);
    REFUSED(tb_written, tb_spare_first(shape, 2, places, TB_LIST_MOST + 1, words, 1), no_list);
    REFUSED(tb_tracks, tb_read_tracks(shape, 2, words, 1, scratch, 2 * SPARES, 24), no_table);
    REFUSED(tb_judged, tb_read_judge(TB_WIDE_SIZE, shape, 2, words, 1, scratch, 2 * SPARES, 24, home, 1, spare, 1), no_table);
    REFUSED(tb_spotted, tb_read_data(TB_WIDE_SIZE, shape, 2, words, 1, scratch, 2 * SPARES, 24, home, 1, spare, 1), no_table);
    same("the first place of a room, refused", words[0], 0xA5A5A5A5);
}

/* Good groups and bad ones of four heads and five sectors. Two of the products are 4 in 32 bits. */
static void groups(void)
{
    const uint32_t good[][3] = {{1, 4, 0}, {1, 4, 4}, {2, 2, 0}, {2, 2, 4}, {4, 1, 4}};
    const uint32_t bad[][3] = {
        {0, 4, 0}, {4, 0, 0}, {0, 0, 0}, {2, 3, 0}, {4, 2, 0}, {1, 2, 0}, {1, 4, 5}, {2, 2, 5}, {2, 2, 4294967295},
        {65536, 65536, 0}, {1073741825, 4, 0}, {4, 1073741825, 0},
    };

    for (size_t i = 0; i < sizeof good / sizeof good[0]; i++) {
        in_each_call(grouped(2, 4, 5, good[i][0], good[i][1], good[i][2]), false);
    }
    for (size_t i = 0; i < sizeof bad / sizeof bad[0]; i++) {
        in_each_call(grouped(2, 4, 5, bad[i][0], bad[i][1], bad[i][2]), true);
    }
}

/* The drive of the replacements: 12 blocks and 8 spares. */
static tb_shape replacing(void)
{
    return grouped(2, 2, 5, 2, 1, 2);
}

/* Lays a table of that drive in words, with these eight descriptors and null ones behind them, and a pattern behind the table. */
static void lay(const uint32_t descriptors[8])
{
    memset(words, 0xA5, sizeof words);
    for (uint32_t place = 0; place < 128; place++) {
        words[place] = place < 8 ? descriptors[place] : 0x80000000;
    }
}

/* How many words differ from those kept in more_words. */
static uint32_t differing(void)
{
    uint32_t count = 0;
    for (size_t i = 0; i < sizeof words / sizeof words[0]; i++) {
        count += words[i] != more_words[i];
    }
    return count;
}

/* The old place of a block at home. */
#define NOWHERE 128u

/* A block goes from its old place to a new one. The old one is marked as unusable, the new one has this descriptor, and no other word changes. */
static void replaced_to(uint32_t block, uint32_t old, uint32_t place, uint32_t descriptor)
{
    const uint32_t sector = place / 2 * 5 + 3 + place % 2;
    memcpy(more_words, words, sizeof words);
    const tb_replaced replaced = tb_spare_replace(replacing(), 2, words, 128, scratch, SPARES, block);
    same("refusal of a replacement", replaced.refusal, TB_ACCEPTED);
    same("place of a replacement", replaced.place, place);
    same("descriptor at the new place", words[place], descriptor);
    more_words[place] = descriptor;
    if (old != NOWHERE) {
        same("descriptor at the old place", words[old], 0x40000000);
        same("block on the old spare", tb_spare_block(replacing(), 2, words, 128, scratch, SPARES, old / 2 * 5 + 3 + old % 2).found, 0);
        more_words[old] = 0x40000000;
    }
    same("other words that a replacement changed", differing(), 0);
    same("sector of a replaced block", tb_spare_sector(replacing(), 2, words, 128, scratch, SPARES, block).sector, sector);
    tracks_are(replacing(), 2, block, block / 3, place / 2);
    same("block on the new spare", tb_spare_block(replacing(), 2, words, 128, scratch, SPARES, sector).block, block);
}

/* A refused replacement: zeros behind the number, and every word as it was. */
static void not_replaced(uint32_t r, size_t table_length, uint32_t block, uint32_t refusal)
{
    memcpy(more_words, words, sizeof words);
    REFUSED(tb_replaced, tb_spare_replace(replacing(), r, words, table_length, scratch, SPARES, block), refusal);
    same("words that a refused replacement changed", differing(), 0);
}

/* The checks before the search, for a block that lies on a spare and for block 12, which the drive does not have. A 0 behind the spares breaks
 * a rule of the table. */
static void checked_first(uint32_t block)
{
    not_replaced(2, 128, 12, TB_NO_SUCH_BLOCK);
    not_replaced(2, 127, block, TB_BAD_TABLE);
    not_replaced(5, 128, block, TB_OUT_OF_RANGE);
    words[8] = 0;
    not_replaced(2, 128, block, TB_BAD_TABLE);
    not_replaced(2, 128, 12, TB_BAD_TABLE);
    not_replaced(5, 128, block, TB_OUT_OF_RANGE);
    not_replaced(5, 128, 12, TB_OUT_OF_RANGE);
    words[8] = 0x80000000;
}

/* Replacements of blocks at home and of blocks that lie on a spare. */
static void replacements(void)
{
    const uint32_t all_free[8] = {0, 0, 0, 0, 0, 0, 0, 0};
    const uint32_t full[8] = {0x20000000, 0x30000007, 0x30000006, 0x30000008, 0x40000000, 0x40000000, 0x40000000, 0x40000000};
    const uint32_t elsewhere[8] = {0, 0, 0, 0, 0, 0x30000007, 0, 0};

    /* Block 7 goes from spare to spare until none is left. */
    lay(all_free);
    replaced_to(7, NOWHERE, 4, 0x20000007);
    checked_first(7);
    replaced_to(7, 4, 5, 0x30000007);
    replaced_to(8, NOWHERE, 3, 0x30000008);
    replaced_to(7, 5, 6, 0x30000007);
    replaced_to(6, NOWHERE, 2, 0x30000006);
    replaced_to(7, 6, 7, 0x30000007);
    replaced_to(0, NOWHERE, 0, 0x20000000);
    replaced_to(7, 7, 1, 0x30000007);
    for (uint32_t place = 0; place < 8; place++) {
        same("descriptor with no spare left", words[place], full[place]);
    }
    const tb_counted counted = tb_spare_census(replacing(), 2, words, 128, scratch, SPARES);
    same("refusal of the census with no spare left", counted.refusal, TB_ACCEPTED);
    same("free with no spare left", counted.free, 0);
    same("primary with no spare left", counted.primary, 1);
    same("elsewhere with no spare left", counted.elsewhere, 3);
    same("unusable with no spare left", counted.unusable, 4);
    same("null with no spare left", counted.null, 120);
    same("sector with no spare left", tb_spare_sector(replacing(), 2, words, 128, scratch, SPARES, 7).sector, 4);
    same("shift with no spare left", tb_spare_shift(replacing(), 2, words, 128, scratch, SPARES, 7).shift == -1, 1);
    for (uint32_t block = 0; block < 12; block++) {
        tracks_are(replacing(), 2, block, block / 3, block == 7 || block == 0 ? 0 : block == 6 || block == 8 ? 1 : block / 3);
    }
    for (uint32_t block = 0; block < 12; block++) {
        not_replaced(2, 128, block, TB_NO_SPARE);
    }
    checked_first(7);

    /* Three blocks share a track, and the last of them goes on from another cylinder to its own. */
    lay(all_free);
    replaced_to(7, NOWHERE, 4, 0x20000007);
    replaced_to(8, NOWHERE, 5, 0x30000008);
    replaced_to(6, NOWHERE, 3, 0x30000006);
    same("shift of a replaced block", tb_spare_shift(replacing(), 2, words, 128, scratch, SPARES, 6).shift == -1, 1);
    replaced_to(6, 3, 6, 0x30000006);
    same("shift of a block replaced again", tb_spare_shift(replacing(), 2, words, 128, scratch, SPARES, 6).shift == 0, 1);

    /* Block 7 lies elsewhere. While its primary place is free, the table is bad; where that place is unusable, the block goes on from its spare. */
    lay(elsewhere);
    not_replaced(2, 128, 7, TB_BAD_TABLE);
    words[4] = 0x40000000;
    replaced_to(7, 5, 3, 0x30000007);

    /* The only spare that can be used has the block. At its primary place or elsewhere, it keeps its descriptor. */
    for (uint32_t own = 0; own < 8; own++) {
        lay(all_free);
        for (uint32_t place = 0; place < 8; place++) {
            words[place] = place != own ? 0x40000000 : own == 4 ? 0x20000007 : 0x30000007;
        }
        not_replaced(2, 128, 7, TB_NO_SPARE);
        not_replaced(2, 128, 0, TB_NO_SPARE);
    }
}

/* What each call that takes scratch is asked: about a block, or about a sector. */
typedef struct asked {
    uint32_t size;
    tb_shape shape;
    uint32_t r;
    size_t scratch_length;
    uint32_t block;
    uint32_t sector;
    size_t home_length;
} asked;

/* The number that each of them gives: those about a block, those about a sector, a replacement, a census, and those that read a block. */
typedef struct given {
    uint32_t of_block;
    uint32_t of_sector;
    uint32_t of_replacement;
    uint32_t of_census;
    uint32_t of_read;
} given;

static given by_all(uint32_t number)
{
    const given numbers = {number, number, number, number, number};
    return numbers;
}

static given by_reads(uint32_t number)
{
    const given numbers = {TB_ACCEPTED, TB_ACCEPTED, TB_ACCEPTED, TB_ACCEPTED, number};
    return numbers;
}

/* Asks each of them about a table with these descriptors. An accepted replacement writes two of them, and nothing else but scratch is written. */
static void scratch_in_each_call(const uint32_t descriptors[8], asked what, given numbers)
{
    const uint32_t size = what.size;
    const tb_shape shape = what.shape;
    const uint32_t r = what.r;
    uint32_t *const lent = what.scratch_length == 0 ? NULL : scratch;
    const size_t length = what.scratch_length;
    const size_t track = TB_TRACK_LENGTH(size == TB_WIDE_SIZE ? TB_WIDE_SIZE : TB_DATA_SIZE, 5);

    lay(descriptors);
    memcpy(more_words, words, sizeof words);
    SCRATCHED(tb_placed, tb_spare_sector(shape, r, words, 128, lent, length, what.block), numbers.of_block, SPARES);
    SCRATCHED(tb_located, tb_spare_address(shape, r, words, 128, lent, length, what.block), numbers.of_block, SPARES);
    SCRATCHED(tb_shifted, tb_spare_shift(shape, r, words, 128, lent, length, what.block), numbers.of_block, SPARES);
    SCRATCHED(tb_named, tb_spare_block(shape, r, words, 128, lent, length, what.sector), numbers.of_sector, SPARES);
    SCRATCHED(tb_named, tb_spare_block_at(shape, r, words, 128, lent, length, what.sector / 10, what.sector / 5 % 2, what.sector % 5), numbers.of_sector, SPARES);
    SCRATCHED(tb_counted, tb_spare_census(shape, r, words, 128, lent, length), numbers.of_census, SPARES);
    SCRATCHED(tb_tracks, tb_read_tracks(shape, r, words, 128, lent, length, what.block), numbers.of_block, SPARES);
    SCRATCHED(tb_judged, tb_read_judge(size, shape, r, words, 128, lent, length, what.block, home, what.home_length, spare, track), numbers.of_read, SPARES);
    SCRATCHED(tb_spotted, tb_read_data(size, shape, r, words, 128, lent, length, what.block, home, what.home_length, spare, track), numbers.of_read, SPARES);
    same("words that calls without a room changed", differing(), 0);
    SCRATCHED(tb_replaced, tb_spare_replace(shape, r, words, 128, lent, length, what.block), numbers.of_replacement, SPARES);
    same("words that a replacement changed", differing(), numbers.of_replacement == TB_ACCEPTED ? 2 : 0);
}

/* Scratch that is too short, just long enough, and longer, with good and bad tables, numbers and images of a size. */
static void scratches(uint32_t size)
{
    const size_t image_length = TB_IMAGE_LENGTH(size);
    const uint32_t good[8] = {0, 0, 0, 0, 0x20000007, 0, 0, 0};
    const uint32_t twice[8] = {0, 0, 0, 0x30000007, 0x20000007, 0x40000000, 0, 0};
    const uint32_t other_code[8] = {0, 0, 0, 0, 0x30000007, 0, 0, 0};
    const uint32_t full[8] = {0x40000000, 0x40000000, 0x40000000, 0x40000000, 0x20000007, 0x40000000, 0x40000000, 0x40000000};

    const given beyond = {TB_NO_SUCH_BLOCK, TB_NO_SUCH_SECTOR, TB_NO_SUCH_BLOCK, TB_ACCEPTED, TB_NO_SUCH_BLOCK};
    const given no_spare = {TB_ACCEPTED, TB_ACCEPTED, TB_NO_SPARE, TB_ACCEPTED, TB_ACCEPTED};

    /* Block 7 lies on the spare of place 4, which is sector 13, the fourth of its track. Block 12 and sector 20 are the first that the drive
     * does not have. */
    uint8_t *const lying = spare + 3 * image_length;
    const asked well = {size, replacing(), 2, SPARES, 7, 13, TB_TRACK_LENGTH(size, 5)};
    asked what = well;

    for (uint32_t more = 0; more <= 3; more += 3) {
        what = well;
        what.scratch_length = SPARES + more;
        same("an image of block 7", tb_image_write(size, 7, TB_AT_PRIMARY, data, size, false, lying, image_length).refusal, TB_ACCEPTED);
        scratch_in_each_call(good, what, by_all(TB_ACCEPTED));
        scratch_in_each_call(twice, what, by_all(TB_BAD_TABLE));
        scratch_in_each_call(other_code, what, by_all(TB_BAD_TABLE));
        scratch_in_each_call(full, what, no_spare);
        what.block = 12, what.sector = 20;
        scratch_in_each_call(good, what, beyond);
        what.block = 7, what.sector = 13, what.home_length--;
        scratch_in_each_call(good, what, by_reads(TB_WRONG_LENGTH));
        what.home_length = TB_TRACK_LENGTH(other_size(size), 5);
        scratch_in_each_call(good, what, by_reads(TB_WRONG_LENGTH));
        what.home_length = TB_TRACK_LENGTH(size, 5);
        lying[0]++, lying[4]++;
        scratch_in_each_call(good, what, by_reads(TB_NO_ADDRESS));
        lying[8]++;
        scratch_in_each_call(good, what, by_reads(TB_OTHER_BLOCK));
        same("an image of block 7 at home", tb_image_write(size, 7, TB_AT_HOME, data, size, false, lying, image_length).refusal, TB_ACCEPTED);
        scratch_in_each_call(good, what, by_reads(TB_OTHER_BLOCK));
        same("a forced image of block 7", tb_image_write(size, 7, TB_AT_PRIMARY, data, size, true, lying, image_length).refusal, TB_ACCEPTED);
        scratch_in_each_call(good, what, by_reads(TB_FORCED_ERROR));
        lying[TB_HEADER_SIZE + size - 1]++;
        scratch_in_each_call(good, what, by_reads(TB_BAD_CODE));
    }

    /* A size that is none: the other calls take no size, and the reads leave all of scratch as it was. */
    same("a good image of block 7", tb_image_write(size, 7, TB_AT_PRIMARY, data, size, false, lying, image_length).refusal, TB_ACCEPTED);
    what = well;
    what.size = size - 1;
    scratch_in_each_call(good, what, by_reads(TB_OUT_OF_RANGE));

    /* One number too few. */
    what = well;
    what.scratch_length = SPARES - 1;
    scratch_in_each_call(good, what, by_all(TB_NO_ROOM));
    scratch_in_each_call(twice, what, by_all(TB_NO_ROOM));
    scratch_in_each_call(other_code, what, by_all(TB_NO_ROOM));
    what.block = 12, what.sector = 20;
    scratch_in_each_call(good, what, by_all(TB_NO_ROOM));

    /* A drive with too many spares and no scratch, and an r out of its range with scratch. */
    what.shape = too_many_spares(), what.r = 1, what.scratch_length = 0;
    scratch_in_each_call(good, what, by_all(TB_OUT_OF_RANGE));
    what = well;
    what.r = 5;
    scratch_in_each_call(good, what, by_all(TB_OUT_OF_RANGE));
}

/* A table of the drive of the replacements, a block of it with the sector of its spare, and the number that each call gives. */
typedef struct judged_table {
    uint32_t descriptors[8];
    uint32_t block;
    uint32_t sector;
    uint32_t number;
} judged_table;

/* Tables with a free place before a block, and the like of them without. The search order of track 2, which has blocks 6 to 8, is 4, 5, 3, 6, 2,
 * 7, 1, 0. */
static void judged_tables(void)
{
    const judged_table tables[] = {
        {{0, 0, 0, 0, 0, 0x30000007, 0, 0}, 7, 14, TB_BAD_TABLE},
        {{0, 0, 0, 0, 0x40000000, 0x30000007, 0, 0}, 7, 14, TB_ACCEPTED},
        {{0, 0, 0, 0x30000008, 0x20000007, 0, 0, 0}, 8, 9, TB_BAD_TABLE},
        {{0, 0, 0, 0x30000008, 0x20000007, 0x40000000, 0, 0}, 8, 9, TB_ACCEPTED},
        {{0, 0, 0, 0x30000006, 0x20000007, 0x30000008, 0, 0}, 6, 9, TB_ACCEPTED},
        /* The free place is above the primary one, and below it. */
        {{0, 0, 0, 0x40000000, 0x20000007, 0, 0x30000008, 0}, 8, 18, TB_BAD_TABLE},
        {{0, 0, 0, 0, 0x20000007, 0x40000000, 0x30000008, 0}, 8, 18, TB_BAD_TABLE},
        {{0, 0, 0, 0x40000000, 0x20000007, 0x40000000, 0x30000008, 0}, 8, 18, TB_ACCEPTED},
        /* It is the last place before the null ones. */
        {{0, 0x30000008, 0x40000000, 0x40000000, 0x20000007, 0x40000000, 0x40000000, 0}, 8, 4, TB_BAD_TABLE},
        {{0, 0x30000008, 0x40000000, 0x40000000, 0x20000007, 0x40000000, 0x40000000, 0x40000000}, 8, 4, TB_ACCEPTED},
        /* It comes before one block, and another block occurs twice. */
        {{0x20000000, 0x30000000, 0, 0x30000008, 0x20000007, 0, 0, 0}, 8, 9, TB_BAD_TABLE},
        /* It comes before the second place of a block that occurs twice. */
        {{0, 0, 0, 0x30000007, 0x20000007, 0, 0, 0}, 7, 13, TB_BAD_TABLE},
    };

    for (size_t i = 0; i < sizeof tables / sizeof tables[0]; i++) {
        const uint32_t block = tables[i].block;
        const uint32_t sector = tables[i].sector;
        const bool good = tables[i].number == TB_ACCEPTED;
        const uint32_t size = both[i % 2];
        const size_t image_length = TB_IMAGE_LENGTH(size);
        const asked what = {size, replacing(), 2, SPARES, block, sector, TB_TRACK_LENGTH(size, 5)};
        const uint32_t descriptor = tables[i].descriptors[sector / 5 * 2 + sector % 5 - 3];
        same("an image of a block on its spare",
             tb_image_write(
                 size, TB_NUMBER_OF(descriptor), TB_CODE_OF(descriptor), data, size, false, spare + sector % 5 * image_length, image_length)
                 .refusal,
             TB_ACCEPTED);
        scratch_in_each_call(tables[i].descriptors, what, by_all(tables[i].number));
        lay(tables[i].descriptors);
        same("sector of a judged table", tb_spare_sector(replacing(), 2, words, 128, scratch, SPARES, block).sector, good ? sector : 0);
        same("block of a judged table", tb_spare_block(replacing(), 2, words, 128, scratch, SPARES, sector).block, good ? block : 0);
        if (good) {
            tracks_are(replacing(), 2, block, block / 3, sector / 5);
        }
    }

    /* A free place before a block, with faults that are refused before it and behind it. */
    asked what = {TB_DATA_SIZE, replacing(), 2, SPARES + 3, 12, 20, TB_TRACK_LENGTH(TB_DATA_SIZE, 5) - 1};
    scratch_in_each_call(tables[0].descriptors, what, by_all(TB_BAD_TABLE));
    what.scratch_length = SPARES - 1;
    scratch_in_each_call(tables[0].descriptors, what, by_all(TB_NO_ROOM));
    what.r = 5;
    scratch_in_each_call(tables[0].descriptors, what, by_all(TB_OUT_OF_RANGE));
}

/* Each place as that of block 7, each other one as the only free place, and the rest unusable. */
static void free_places(void)
{
    const uint32_t order[8] = {4, 5, 3, 6, 2, 7, 1, 0};

    for (uint32_t own = 0; own < 8; own++) {
        for (uint32_t hole = 0; hole < 8; hole++) {
            uint32_t descriptors[8];
            if (hole == own) {
                continue;
            }
            for (uint32_t i = 0; i < 8; i++) {
                descriptors[order[i]] = i == hole ? 0 : i != own ? 0x40000000 : own == 0 ? 0x20000007 : 0x30000007;
            }
            lay(descriptors);
            if (hole < own) {
                SCRATCHED(tb_placed, tb_spare_sector(replacing(), 2, words, 128, scratch, SPARES, 7), TB_BAD_TABLE, SPARES);
                not_replaced(2, 128, 7, TB_BAD_TABLE);
            } else {
                const uint32_t sector = order[own] / 2 * 5 + 3 + order[own] % 2;
                same("sector before the free place", tb_spare_sector(replacing(), 2, words, 128, scratch, SPARES, 7).sector, sector);
                same("sector of a block at home", tb_spare_sector(replacing(), 2, words, 128, scratch, SPARES, 8).sector, 12);
                replaced_to(7, order[own], order[hole], 0x30000007);
            }
        }
    }
}

/* The free place of a table that has none. */
#define NONE TB_SPARES_MOST

/* A drive with one spare to a track. A block lies at a place, another place is free or none is, and the rest are unusable. */
static void one_free_place(tb_shape shape, uint32_t block, uint32_t place, uint32_t hole, uint32_t number)
{
    const uint32_t spares = shape.cylinders * shape.heads;
    const size_t length = TB_TABLE_LENGTH(spares);
    const uint32_t homes = shape.sectors - 1;
    const uint32_t track = block / homes;
    const uint32_t neighbour = block % homes == 0 ? block + 1 : block - 1;

    for (uint32_t i = 0; i < length; i++) {
        words[i] = i >= spares ? 0x80000000 : i == hole ? 0 : i != place ? 0x40000000 : (i == track ? 0x20000000 : 0x30000000) + block;
    }
    memcpy(more_words, words, sizeof words);
    SCRATCHED(tb_placed, tb_spare_sector(shape, 1, words, length, scratch, spares, block), number, spares);
    SCRATCHED(tb_counted, tb_spare_census(shape, 1, words, length, scratch, spares), number, spares);
    SCRATCHED(tb_counted, tb_spare_census(shape, 1, words, length, scratch, spares - 1), TB_NO_ROOM, spares);
    SCRATCHED(tb_tracks, tb_read_tracks(shape, 1, words, length, scratch, spares, block), number, spares);
    SCRATCHED(tb_tracks, tb_read_tracks(shape, 1, words, length, scratch, spares - 1, block), TB_NO_ROOM, spares);
    if (number != TB_ACCEPTED) {
        SCRATCHED(tb_replaced, tb_spare_replace(shape, 1, words, length, scratch, spares, block), number, spares);
        same("words of a bad table that changed", differing(), 0);
        return;
    }
    same("sector of a block on a spare", tb_spare_sector(shape, 1, words, length, scratch, spares, block).sector, place * shape.sectors + homes);
    same("block on its spare", tb_spare_block(shape, 1, words, length, scratch, spares, place * shape.sectors + homes).block, block);
    same("block on its home", tb_spare_block(shape, 1, words, length, scratch, spares, track * shape.sectors + block % homes).found, 0);
    same("sector of its neighbour at home",
         tb_spare_sector(shape, 1, words, length, scratch, spares, neighbour).sector, track * shape.sectors + neighbour % homes);
    tracks_are(shape, 1, block, track, place);
    tracks_are(shape, 1, neighbour, track, track);
    same("free places", tb_spare_census(shape, 1, words, length, scratch, spares).free, hole == NONE ? 0 : 1);
    if (hole == NONE) {
        SCRATCHED(tb_replaced, tb_spare_replace(shape, 1, words, length, scratch, spares, block), TB_NO_SPARE, spares);
    } else {
        SCRATCHED(tb_replaced, tb_spare_replace(shape, 1, words, length, scratch, spares, block), TB_ACCEPTED, spares);
        more_words[place] = 0x40000000;
        more_words[hole] = 0x30000000 + block;
        same("sector on the free spare", tb_spare_sector(shape, 1, words, length, scratch, spares, block).sector, hole * shape.sectors + homes);
        tracks_are(shape, 1, block, track, hole);
    }
    same("words that are not as they must be after it", differing(), 0);
}

/* A block, its place and the free place of a table, and the number that the table gets. */
typedef struct free_place {
    uint32_t block;
    uint32_t place;
    uint32_t hole;
    uint32_t number;
} free_place;

/* Free places before a block and after it, in a table of three table blocks and in the longest one. */
static void far_free_places(void)
{
    /* 260 spares, which are two table blocks and four places of a third, and two blocks to each. */
    const free_place long_table[] = {
        {0, 256, NONE, TB_ACCEPTED},
        {0, 256, 200, TB_BAD_TABLE},
        {400, 5, NONE, TB_ACCEPTED},
        {400, 5, 259, TB_BAD_TABLE},
        {400, 5, 4, TB_BAD_TABLE},
        {400, 5, 6, TB_ACCEPTED},
        /* In the table block of the primary place, 200: at that place, and on either side of it. */
        {400, 200, 201, TB_ACCEPTED},
        {400, 201, 200, TB_BAD_TABLE},
        {400, 201, 199, TB_ACCEPTED},
        {400, 199, 201, TB_BAD_TABLE},
        {400, 202, 201, TB_BAD_TABLE},
        {400, 202, 199, TB_BAD_TABLE},
        {400, 202, 198, TB_ACCEPTED},
        {400, 198, 199, TB_BAD_TABLE},
        {400, 198, 202, TB_BAD_TABLE},
        {400, 198, 203, TB_ACCEPTED},
        /* Where the other side has left the table block: above 255, and below 128 for the primary place 130. */
        {400, 140, 255, TB_BAD_TABLE},
        {400, 140, 141, TB_BAD_TABLE},
        {400, 140, 139, TB_ACCEPTED},
        {400, 140, 256, TB_ACCEPTED},
        {260, 200, 128, TB_BAD_TABLE},
        {260, 200, 199, TB_BAD_TABLE},
        {260, 200, 201, TB_ACCEPTED},
        {260, 200, 127, TB_ACCEPTED},
        /* At the distance 127, up from the primary place 128, and down from 255. */
        {256, 255, NONE, TB_ACCEPTED},
        {256, 255, 254, TB_BAD_TABLE},
        {256, 255, 256, TB_ACCEPTED},
        {256, 256, 255, TB_BAD_TABLE},
        {510, 128, NONE, TB_ACCEPTED},
        {510, 128, 129, TB_BAD_TABLE},
        {510, 128, 127, TB_ACCEPTED},
        {510, 256, 128, TB_BAD_TABLE},
        /* In a later table block, and between later ones. */
        {400, 256, 255, TB_BAD_TABLE},
        {400, 258, 257, TB_BAD_TABLE},
        {400, 258, 259, TB_ACCEPTED},
        {400, 258, 0, TB_ACCEPTED},
        {0, 128, 127, TB_BAD_TABLE},
        {0, 128, 129, TB_ACCEPTED},
        {0, 259, 128, TB_BAD_TABLE},
        {0, 259, 258, TB_BAD_TABLE},
        /* In an earlier one, also where the primary place is in the last table block. */
        {400, 0, 256, TB_BAD_TABLE},
        {400, 127, 126, TB_BAD_TABLE},
        {400, 126, 127, TB_ACCEPTED},
        {512, 130, 259, TB_BAD_TABLE},
        {512, 130, 0, TB_BAD_TABLE},
        {512, 130, 127, TB_BAD_TABLE},
        {512, 130, 129, TB_BAD_TABLE},
        {512, 130, 131, TB_ACCEPTED},
        {512, 255, NONE, TB_ACCEPTED},
        /* The last place before the null ones. */
        {512, 258, 259, TB_ACCEPTED},
        {512, 0, 259, TB_BAD_TABLE},
        {518, 256, 259, TB_BAD_TABLE},
        {518, 259, 258, TB_ACCEPTED},
    };
    /* As many spares as there may be. The last block has its primary place in the last of 512 table blocks, which begins at 65,408. */
    const uint32_t last = 63 * TB_SPARES_MOST - 1;
    const free_place longest_table[] = {
        {last, 65407, NONE, TB_ACCEPTED},
        {last, 65407, 65408, TB_BAD_TABLE},
        {last, 65407, 65406, TB_BAD_TABLE},
        {last, 65407, 0, TB_BAD_TABLE},
        {last, 65406, 65407, TB_ACCEPTED},
        {last, 65408, 0, TB_ACCEPTED},
        {0, 65535, NONE, TB_ACCEPTED},
        {0, 65535, 65534, TB_BAD_TABLE},
        {0, 65535, 0, TB_BAD_TABLE},
        {0, 65534, 65535, TB_ACCEPTED},
    };

    for (size_t i = 0; i < sizeof long_table / sizeof long_table[0]; i++) {
        one_free_place(shaped(260, 1, 3), long_table[i].block, long_table[i].place, long_table[i].hole, long_table[i].number);
    }
    for (size_t i = 0; i < sizeof longest_table / sizeof longest_table[0]; i++) {
        one_free_place(
            shaped(TB_CYLINDERS_MOST, 16, TB_SECTORS_MOST), longest_table[i].block, longest_table[i].place, longest_table[i].hole,
            longest_table[i].number);
    }
}

/* Tracks of a drive without a replaced block, and of one with three and then one of them replaced again, each in any groups; and the longest ways
 * between tracks. */
static void read_tracks(void)
{
    const uint32_t none[8] = {0, 0, 0, 0, 0, 0, 0, 0};
    const uint32_t three[8] = {0, 0, 0, 0x30000006, 0x20000007, 0x30000008, 0, 0};
    const uint32_t again[8] = {0, 0, 0, 0x40000000, 0x20000007, 0x30000008, 0x30000006, 0};
    const tb_shape shapes[] = {shaped(2, 2, 5), grouped(2, 2, 5, 1, 2, 4), grouped(2, 2, 5, 2, 1, 0), replacing()};

    for (size_t i = 0; i < sizeof shapes / sizeof shapes[0]; i++) {
        for (uint32_t block = 0; block < 12; block++) {
            const uint32_t home_track = block / 3;
            lay(none);
            tracks_are(shapes[i], 2, block, home_track, home_track);
            lay(three);
            tracks_are(shapes[i], 2, block, home_track, block == 6 ? 1 : home_track);
            lay(again);
            tracks_are(shapes[i], 2, block, home_track, block == 6 ? 3 : home_track);
        }
        SCRATCHED(tb_tracks, tb_read_tracks(shapes[i], 2, words, 128, scratch, SPARES, 12), TB_NO_SUCH_BLOCK, SPARES);
        SCRATCHED(tb_tracks, tb_read_tracks(shapes[i], 2, words, 128, scratch, SPARES, 0xFFFFFFFF), TB_NO_SUCH_BLOCK, SPARES);
    }

    /* The checks in their order: with all faults, and then each time without the first that is left. */
    lay(three);
    words[0] = 1;
    memcpy(more_words, words, sizeof words);
    SCRATCHED(tb_tracks, tb_read_tracks(shaped(2, 2, 1), 5, words, 127, scratch, SPARES - 1, 12), TB_OUT_OF_RANGE, SPARES);
    SCRATCHED(tb_tracks, tb_read_tracks(shaped(2, 2, 5), 5, words, 127, scratch, SPARES - 1, 12), TB_OUT_OF_RANGE, SPARES);
    SCRATCHED(tb_tracks, tb_read_tracks(shaped(2, 2, 5), 2, words, 127, scratch, SPARES - 1, 12), TB_NO_ROOM, SPARES);
    SCRATCHED(tb_tracks, tb_read_tracks(shaped(2, 2, 5), 2, words, 127, scratch, SPARES, 12), TB_BAD_TABLE, SPARES);
    SCRATCHED(tb_tracks, tb_read_tracks(shaped(2, 2, 5), 2, words, 128, scratch, SPARES, 12), TB_BAD_TABLE, SPARES);
    SCRATCHED(tb_tracks, tb_read_tracks(shaped(2, 2, 5), 2, words, 128, scratch, SPARES, 6), TB_BAD_TABLE, SPARES);
    same("words that the naming of tracks changed", differing(), 0);
    words[0] = 0;
    memcpy(more_words, words, sizeof words);
    SCRATCHED(tb_tracks, tb_read_tracks(shaped(2, 2, 5), 2, words, 128, scratch, SPARES, 12), TB_NO_SUCH_BLOCK, SPARES);
    SCRATCHED(tb_tracks, tb_read_tracks(shaped(2, 2, 5), 2, words, 128, scratch, SPARES, 6), TB_ACCEPTED, SPARES);
    SCRATCHED(tb_tracks, tb_read_tracks(shaped(2, 2, 5), 2, words, 128, scratch, SPARES + 3, 6), TB_ACCEPTED, SPARES);
    same("words that the naming of tracks changed", differing(), 0);

    /* From the first track to the last and back, where every other spare is unusable. */
    for (uint32_t track = 0; track < TB_CYLINDERS_MOST; track++) {
        words[track] = track == 0 ? 0x30000000 + TB_CYLINDERS_MOST - 1 : track == TB_CYLINDERS_MOST - 1 ? 0x30000000 : 0x40000000;
    }
    tracks_are(shaped(TB_CYLINDERS_MOST, 1, 2), 1, 0, 0, TB_CYLINDERS_MOST - 1);
    tracks_are(shaped(TB_CYLINDERS_MOST, 1, 2), 1, TB_CYLINDERS_MOST - 1, TB_CYLINDERS_MOST - 1, 0);
    tracks_are(shaped(TB_CYLINDERS_MOST / TB_HEADS_MOST, TB_HEADS_MOST, 2), 1, 0, 0, TB_CYLINDERS_MOST - 1);
    tracks_are(shaped(TB_CYLINDERS_MOST / TB_HEADS_MOST, TB_HEADS_MOST, 2), 1, TB_CYLINDERS_MOST - 1, TB_CYLINDERS_MOST - 1, 0);
    tracks_are(shaped(TB_CYLINDERS_MOST / TB_HEADS_MOST, TB_HEADS_MOST, 2), 1, TB_HEADS_MOST, TB_HEADS_MOST, TB_HEADS_MOST);
}

/* The codes, and code and number of words. The macros serve where a constant is asked for, too. */
static void words_of_codes(void)
{
    static const uint32_t code_of_a_constant = TB_CODE_OF(0x3FFFFFFF);
    static const uint32_t number_of_a_constant = TB_NUMBER_OF(0x3FFFFFFF);

    same("TB_CODE_UNIT", TB_CODE_UNIT, 268435456);
    same("TB_AT_HOME", TB_AT_HOME, 0);
    same("TB_AT_PRIMARY", TB_AT_PRIMARY, 2);
    same("TB_ELSEWHERE", TB_ELSEWHERE, 3);
    same("TB_CODE_OF a constant", code_of_a_constant, TB_ELSEWHERE);
    same("TB_NUMBER_OF a constant", number_of_a_constant, 268435455);
    for (uint32_t code = 0; code < 16; code++) {
        for (uint32_t number = 0; number < TB_CODE_UNIT; number = 2 * number + 1) {
            same("TB_CODE_OF", TB_CODE_OF(code * TB_CODE_UNIT + number), code);
            same("TB_NUMBER_OF", TB_NUMBER_OF(code * TB_CODE_UNIT + number), number);
        }
    }
    same("TB_CODE_OF a sum", TB_CODE_OF(0x20000000u + 7u), TB_AT_PRIMARY);
    same("TB_NUMBER_OF a sum", TB_NUMBER_OF(0x20000000u + 7u), 7);
    same("TB_CODE_OF a part of a product", 2u * TB_CODE_OF(0x20000007u), 4);
    same("TB_NUMBER_OF a part of a quotient", 14u / TB_NUMBER_OF(0x20000007u), 2);
}

/* Lays an image of zeros of a size, with four numbers in its header. */
static void lay_image(uint32_t size, uint8_t *to, uint32_t first, uint32_t second, uint32_t third, uint32_t fourth)
{
    const uint32_t copies[4] = {first, second, third, fourth};
    memset(to, 0, TB_IMAGE_LENGTH(size));
    for (size_t i = 0; i < TB_HEADER_SIZE; i++) {
        to[i] = (uint8_t)(copies[i / 4] >> (24 - 8 * (i % 4)));
    }
    to[TB_HEADER_SIZE + size] = TB_START_CODE / 256;
    to[TB_HEADER_SIZE + size + 1] = TB_START_CODE % 256;
}

/* A header with these copies says this code and this block, at either size. */
static void headed_so(uint32_t first, uint32_t second, uint32_t third, uint32_t fourth, uint32_t code, uint32_t block)
{
    for (size_t i = 0; i < 2; i++) {
        const uint32_t size = both[i];
        lay_image(size, image, first, second, third, fourth);
        const tb_headed headed = tb_image_header(size, image, TB_IMAGE_LENGTH(size));
        same("refusal of a header", headed.refusal, TB_ACCEPTED);
        same("code of a header", headed.code, code);
        same("block of a header", headed.block, block);
        same("verdict by what a header says", tb_image_judge(size, image, TB_IMAGE_LENGTH(size), block, code).refusal, TB_ACCEPTED);
        REFUSED(tb_headed, tb_image_header(other_size(size), image, TB_IMAGE_LENGTH(size)), TB_WRONG_LENGTH);
    }
}

/* A header with these copies is refused, at either size. */
static void not_headed(uint32_t first, uint32_t second, uint32_t third, uint32_t fourth, uint32_t refusal)
{
    for (size_t i = 0; i < 2; i++) {
        const uint32_t size = both[i];
        lay_image(size, image, first, second, third, fourth);
        REFUSED(tb_headed, tb_image_header(size, image, TB_IMAGE_LENGTH(size)), refusal);
        REFUSED(tb_headed, tb_image_header(size, image, TB_IMAGE_LENGTH(size) - 1), TB_WRONG_LENGTH);
        REFUSED(tb_headed, tb_image_header(size, image, TB_IMAGE_LENGTH(size) + 1), TB_WRONG_LENGTH);
    }
}

/* Headers of each code, of copies that differ, and with each code that no header may have. */
static void headers(void)
{
    headed_so(0x00000007, 0x00000007, 0x00000007, 0x00000007, TB_AT_HOME, 7);
    headed_so(0x20000007, 0x20000007, 0x20000007, 0x20000007, TB_AT_PRIMARY, 7);
    headed_so(0x3FFFFFFF, 0x3FFFFFFF, 0x3FFFFFFF, 0x3FFFFFFF, TB_ELSEWHERE, 268435455);
    headed_so(0x30000007, 0x30000007, 0x30000007, 0x00000007, TB_ELSEWHERE, 7);
    headed_so(0x00000007, 0x30000007, 0x30000007, 0x30000007, TB_ELSEWHERE, 7);
    headed_so(0x20000007, 0x10000007, 0x20000007, 0x20000007, TB_AT_PRIMARY, 7);
    headed_so(0, 0, 0x20000000, 0, TB_AT_HOME, 0);
    not_headed(0x20000007, 0x20000007, 0x00000007, 0x00000007, TB_NO_ADDRESS);
    not_headed(0x20000007, 0x00000007, 0x20000007, 0x30000007, TB_NO_ADDRESS);
    not_headed(0x10000007, 0x10000007, 0x20000007, 0x20000007, TB_NO_ADDRESS);
    not_headed(0x10000007, 0x20000007, 0x10000007, 0x10000007, TB_OTHER_BLOCK);
    not_headed(0x80000000, 0x80000000, 0x80000000, 0x80000000, TB_OTHER_BLOCK);
    not_headed(0xFFFFFFFF, 0xFFFFFFFF, 0xFFFFFFFF, 0xFFFFFFFF, TB_OTHER_BLOCK);
    for (uint32_t code = 0; code < 16; code++) {
        const uint32_t word = code * TB_CODE_UNIT + 7;
        if (code == TB_AT_HOME || code == TB_AT_PRIMARY || code == TB_ELSEWHERE) {
            headed_so(word, word, word, word, code, 7);
        } else {
            not_headed(word, word, word, word, TB_OTHER_BLOCK);
        }
    }
}

/* The image of zeros of a size has this word in its header, byte for byte. */
static void written_so(uint32_t size, uint32_t block, uint32_t code, uint32_t word)
{
    const size_t length = TB_IMAGE_LENGTH(size);
    uint8_t expected[TB_IMAGE_LENGTH(TB_WIDE_SIZE)];
    memset(data, 0, sizeof data);
    memset(image, 0xA5, sizeof image);
    const tb_written written = tb_image_write(size, block, code, data, size, false, image, sizeof image);
    same("refusal of a written image", written.refusal, TB_ACCEPTED);
    same("length of a written image", written.length, length);
    lay_image(size, expected, word, word, word, word);
    same("bytes of a written image", memcmp(image, expected, length) == 0, 1);
    same("the byte behind a written image", image[length], 0xA5);
    same("good as written", tb_image_judge(size, image, length, block, code).refusal, TB_ACCEPTED);
    same("refusal of a forced image", tb_image_write(size, block, code, data, size, true, image, length).refusal, TB_ACCEPTED);
    same("its first byte", image[0], word >> 24);
    same("its last two bytes", image[length - 2] * 256u + image[length - 1], 0xFFFF - TB_START_CODE);
    same("forced as written", tb_image_judge(size, image, length, block, code).refusal, TB_FORCED_ERROR);
}

/* A write is refused, and no byte of the room changes. */
static void not_written(uint32_t size, uint32_t block, uint32_t code, size_t data_length, size_t room_length, uint32_t refusal)
{
    uint32_t kept = 0;
    memset(image, 0xA5, sizeof image);
    REFUSED(tb_written, tb_image_write(size, block, code, data, data_length, false, image, room_length), refusal);
    for (size_t i = 0; i < sizeof image; i++) {
        kept += image[i] == 0xA5;
    }
    same("bytes of a room that a refused write kept", kept, sizeof image);
}

/* Images of a size with each code, at the last block and beyond it, and with several faults at once. */
static void images_written(uint32_t size)
{
    const size_t room = TB_IMAGE_LENGTH(size);

    written_so(size, 7, TB_AT_HOME, 0x00000007);
    written_so(size, 7, TB_AT_PRIMARY, 0x20000007);
    written_so(size, 7, TB_ELSEWHERE, 0x30000007);
    written_so(size, 268435455, TB_ELSEWHERE, 0x3FFFFFFF);
    written_so(size, 268435455, TB_AT_HOME, 0x0FFFFFFF);
    not_written(size, 268435456, 1, size - 1, room - 1, TB_WRONG_LENGTH);
    not_written(size, 7, TB_AT_HOME, other_size(size), sizeof image, TB_WRONG_LENGTH);
    not_written(size, 268435456, 1, size, room - 1, TB_NO_SUCH_BLOCK);
    not_written(size, 268435456, TB_AT_HOME, size, room, TB_NO_SUCH_BLOCK);
    not_written(size, 0xFFFFFFFF, TB_ELSEWHERE, size, room, TB_NO_SUCH_BLOCK);
    not_written(size, 7, TB_AT_PRIMARY, size, room - 1, TB_NO_ROOM);
    for (uint32_t code = 0; code < 20; code++) {
        if (code != TB_AT_HOME && code != TB_AT_PRIMARY && code != TB_ELSEWHERE) {
            not_written(size, 7, code, size, room, TB_UNKNOWN_CODE);
            not_written(size, 7, code, size, room - 1, TB_UNKNOWN_CODE);
            not_written(size, 268435456, code, size, room, TB_NO_SUCH_BLOCK);
        }
    }
    not_written(size, 7, 0xFFFFFFFF, size, room, TB_UNKNOWN_CODE);
}

/* What is written of data has this code, and the other way round where it is forced. */
static void coded_so(uint32_t size, uint32_t code)
{
    const size_t length = TB_IMAGE_LENGTH(size);
    for (uint32_t forced = 0; forced < 2; forced++) {
        same("refusal of data", tb_image_write(size, 7, TB_AT_HOME, data, size, forced == 1, image, length).refusal, TB_ACCEPTED);
        same("code of data", image[length - 2] * 256u + image[length - 1], forced == 1 ? 0xFFFF - code : code);
        same("verdict on data", tb_image_judge(size, image, length, 7, TB_AT_HOME).refusal, forced == 1 ? TB_FORCED_ERROR : TB_ACCEPTED);
    }
}

/* The codes of data of both sizes. Each word counts, also those of the last 64 bytes of the larger one. */
static void codes_of_data(void)
{
    for (size_t i = 0; i < 2; i++) {
        const uint32_t size = both[i];
        memset(data, 0, sizeof data);
        coded_so(size, 0x5A3C);
        data[1] = 1;
        coded_so(size, 0xDA3C);
        data[1] = 0, data[size - 1] = 1;
        coded_so(size, 0x5A3D);
        data[size - 1] = 0;
    }
    data[0] = 0x02;
    coded_so(TB_DATA_SIZE, 0x5B3C);
    data[1] = 0x40;
    coded_so(TB_DATA_SIZE, 0x5B1C);
    for (uint32_t word = 0; word < TB_WIDE_SIZE / 2; word++) {
        data[2 * word] = (uint8_t)(1000 * word / 256), data[2 * word + 1] = (uint8_t)(1000 * word);
    }
    coded_so(TB_WIDE_SIZE, 0xA541);
    same("its length", tb_image_write(TB_WIDE_SIZE, 7, TB_AT_HOME, data, TB_WIDE_SIZE, false, image, TB_IMAGE_LENGTH(TB_WIDE_SIZE)).length, 594);
    for (size_t at = TB_HEADER_SIZE; at < TB_IMAGE_LENGTH(TB_WIDE_SIZE); at++) {
        image[at] ^= 0x08;
        same("verdict with one bit changed", tb_image_judge(TB_WIDE_SIZE, image, TB_IMAGE_LENGTH(TB_WIDE_SIZE), 7, TB_AT_HOME).refusal, TB_BAD_CODE);
        image[at] ^= 0x08;
    }
    memset(data, 0, sizeof data);
}

/* A number that stands in a header, what is expected of it, and the verdict. */
typedef struct judged_header {
    uint32_t word;
    uint32_t block;
    uint32_t code;
    uint32_t number;
} judged_header;

/* Verdicts on the pair of block and code that a header says, and on pairs that it does not say. Block 268435463 with code 1, block 536870919
 * with code 0, and block 7 with code 18 make the word 20000007 in 32 bits, and no header says them. */
static void images_judged(uint32_t size)
{
    const size_t length = TB_IMAGE_LENGTH(size);
    const judged_header judged[] = {
        {0x20000007, 7, TB_AT_PRIMARY, TB_ACCEPTED},
        {0x20000007, 7, TB_AT_HOME, TB_OTHER_BLOCK},
        {0x20000007, 7, 1, TB_OTHER_BLOCK},
        {0x20000007, 7, TB_ELSEWHERE, TB_OTHER_BLOCK},
        {0x20000007, 8, TB_AT_PRIMARY, TB_OTHER_BLOCK},
        {0x20000007, 268435463, 1, TB_OTHER_BLOCK},
        {0x20000007, 536870919, TB_AT_HOME, TB_OTHER_BLOCK},
        {0x20000007, 7, 18, TB_OTHER_BLOCK},
        {0x30000007, 268435463, TB_AT_PRIMARY, TB_OTHER_BLOCK},
        {0x10000007, 7, 1, TB_OTHER_BLOCK},
        {0x10000007, 268435463, TB_AT_HOME, TB_OTHER_BLOCK},
        {0xFFFFFFFF, 268435455, 15, TB_OTHER_BLOCK},
        {0xFFFFFFFF, 0xFFFFFFFF, TB_AT_HOME, TB_OTHER_BLOCK},
        {0x3FFFFFFF, 268435455, TB_ELSEWHERE, TB_ACCEPTED},
        {0x00000007, 7, TB_AT_HOME, TB_ACCEPTED},
        {0x00000007, 7, TB_AT_PRIMARY, TB_OTHER_BLOCK},
    };

    for (size_t i = 0; i < sizeof judged / sizeof judged[0]; i++) {
        const uint32_t word = judged[i].word;
        const uint32_t block = judged[i].block;
        const uint32_t code = judged[i].code;
        const bool good = judged[i].number == TB_ACCEPTED;
        lay_image(size, image, word, word, word, word);
        same("verdict on a pair", tb_image_judge(size, image, length, block, code).refusal, judged[i].number);
        same("verdict on a pair, wrong length", tb_image_judge(size, image, length - 1, block, code).refusal, TB_WRONG_LENGTH);
        same("verdict on a pair, the other size", tb_image_judge(other_size(size), image, length, block, code).refusal, TB_WRONG_LENGTH);
        same("verdict on a pair, no size", tb_image_judge(size + 1, image, length, block, code).refusal, TB_OUT_OF_RANGE);
        image[0] ^= 0x10;
        same("verdict on a pair, one copy damaged", tb_image_judge(size, image, length, block, code).refusal, judged[i].number);
        image[length - 1] ^= 1;
        same("verdict on a pair, code of the data damaged", tb_image_judge(size, image, length, block, code).refusal, good ? TB_BAD_CODE : TB_OTHER_BLOCK);
        image[length - 1] ^= 0xFE, image[length - 2] ^= 0xFF;
        same("verdict on a pair, forced", tb_image_judge(size, image, length, block, code).refusal, good ? TB_FORCED_ERROR : TB_OTHER_BLOCK);
        image[4] ^= 0x10;
        same("verdict on a pair, two copies damaged", tb_image_judge(size, image, length, block, code).refusal, TB_NO_ADDRESS);
    }
}

/* Reads a block of the drive of the replacements from two images of tracks with sectors of this size. */
static void reads_give(uint32_t size, uint32_t block, size_t home_length, size_t spare_length, uint32_t number)
{
    SCRATCHED(tb_judged, tb_read_judge(size, replacing(), 2, words, 128, scratch, SPARES, block, home, home_length, spare, spare_length), number, SPARES);
    SCRATCHED(tb_spotted, tb_read_data(size, replacing(), 2, words, 128, scratch, SPARES, block, home, home_length, spare, spare_length), number, SPARES);
}

/* Reads a block of that drive, where in the image that it lies in, on this sector of the track, this word stands in the header. */
static void read_so(uint32_t size, uint32_t block, uint32_t image_number, uint32_t sector, uint32_t word, uint32_t number)
{
    const size_t track = TB_TRACK_LENGTH(size, 5);
    uint8_t *const track_image = image_number == 0 ? home : spare;
    memset(home, 0xA5, sizeof home);
    memset(spare, 0xA5, sizeof spare);
    lay_image(size, track_image + sector * TB_IMAGE_LENGTH(size), word, word, word, word);
    reads_give(size, block, track, track, number);
    const tb_spotted spotted = tb_read_data(size, replacing(), 2, words, 128, scratch, SPARES, block, home, track, spare, track);
    same("image of a read", spotted.image, number == TB_ACCEPTED ? image_number : 0);
    same("offset of a read", spotted.offset, number == TB_ACCEPTED ? sector * TB_IMAGE_LENGTH(size) + TB_HEADER_SIZE : 0);
}

/* Reads of a block at its primary spare, of one elsewhere and of one at home, with each code of four bits in the header. Only the one that the
 * table says is accepted. */
static void reads(uint32_t size)
{
    const uint32_t descriptors[8] = {0, 0, 0, 0, 0x20000007, 0x30000008, 0, 0};
    const size_t track = TB_TRACK_LENGTH(size, 5);
    const size_t other = TB_TRACK_LENGTH(other_size(size), 5);

    lay(descriptors);
    for (uint32_t code = 0; code < 16; code++) {
        const uint32_t word = code * TB_CODE_UNIT;
        read_so(size, 7, 1, 3, word + 7, word + 7 == words[4] ? TB_ACCEPTED : TB_OTHER_BLOCK);
        read_so(size, 8, 1, 4, word + 8, word + 8 == words[5] ? TB_ACCEPTED : TB_OTHER_BLOCK);
        read_so(size, 6, 0, 0, word + 6, code == TB_AT_HOME ? TB_ACCEPTED : TB_OTHER_BLOCK);
    }
    read_so(size, 7, 1, 3, 0x20000008, TB_OTHER_BLOCK);
    read_so(size, 8, 1, 4, 0x30000007, TB_OTHER_BLOCK);
    read_so(size, 6, 0, 0, 0x00000007, TB_OTHER_BLOCK);

    /* One image or both are those of tracks with sectors of the other size. */
    read_so(size, 7, 1, 3, 0x20000007, TB_ACCEPTED);
    reads_give(size, 7, other, track, TB_WRONG_LENGTH);
    reads_give(size, 7, track, other, TB_WRONG_LENGTH);
    reads_give(size, 7, other, other, TB_WRONG_LENGTH);
    reads_give(other_size(size), 7, track, track, TB_WRONG_LENGTH);
}

/* A number that is no size, with all else well, and with every other fault beside it. It is refused before all else, and nothing is written. */
static void no_size(uint32_t none)
{
    const uint32_t descriptors[8] = {0, 0, 0, 0, 0x20000007, 0, 0, 0};

    for (size_t i = 0; i < 2; i++) {
        const uint32_t made = both[i];
        const size_t length = TB_IMAGE_LENGTH(made);
        not_written(none, 7, TB_AT_HOME, made, length, TB_OUT_OF_RANGE);
        not_written(none, 268435456, 1, made - 1, 0, TB_OUT_OF_RANGE);
        lay_image(made, image, 7, 7, 7, 7);
        REFUSED(tb_headed, tb_image_header(none, image, length), TB_OUT_OF_RANGE);
        REFUSED(tb_judged, tb_image_judge(none, image, length, 7, TB_AT_HOME), TB_OUT_OF_RANGE);
        lay_image(made, image, 0x10000007, 0x20000007, 0x10000007, 0x20000007);
        REFUSED(tb_headed, tb_image_header(none, image, length - 1), TB_OUT_OF_RANGE);
        REFUSED(tb_judged, tb_image_judge(none, image, length - 1, 268435456, 1), TB_OUT_OF_RANGE);
        lay(descriptors);
        read_so(made, 7, 1, 3, 0x20000007, TB_ACCEPTED);
        reads_give(none, 7, 5 * length, 5 * length, TB_OUT_OF_RANGE);
        SCRATCHED(tb_judged, tb_read_judge(none, shaped(2, 2, 1), 5, words, 127, scratch, SPARES - 1, 12, home, 1, spare, 1), TB_OUT_OF_RANGE, SPARES);
        SCRATCHED(tb_spotted, tb_read_data(none, shaped(2, 2, 1), 5, words, 127, scratch, SPARES - 1, 12, home, 1, spare, 1), TB_OUT_OF_RANGE, SPARES);
    }
}

static void no_sizes(void)
{
    const uint32_t none[] = {0, 1, 511, 513, 544, 575, 577, 1024, 65536 + 512, 65536 + 576, 0xFFFFFFFF};

    for (size_t i = 0; i < sizeof none / sizeof none[0]; i++) {
        no_size(none[i]);
    }
}

/* The XBN area: its sector images one after another, of which some are laid. */
static uint8_t area[5][530];
static uint32_t laid;

/* Lays the next sector of the area: headed by a code and a block, with this first word, good or forced. */
static void lay_sector(uint32_t code, uint32_t block, uint32_t word, bool forced)
{
    memset(data, 0, sizeof data);
    data[0] = (uint8_t)(word / 256), data[1] = (uint8_t)word;
    same("a sector of the XBN area", tb_image_write(TB_DATA_SIZE, block, code, data, TB_DATA_SIZE, forced, area[laid], 530).length, 530);
    laid++;
}

/* The next one as it must be: headed by its XBN with code 0, and good. */
static void lay_mode(uint32_t word)
{
    lay_sector(TB_AT_HOME, laid, word, false);
}

/* The next one so, with one bit changed. */
static void lay_damaged(uint32_t word)
{
    lay_mode(word);
    area[laid - 1][300] ^= 1;
}

/* The sectors that were laid, less so many bytes, say this size, or 0 where they are refused by the number. The next area begins then. */
static void mode_is(uint32_t missing, uint32_t apart, uint32_t number, uint32_t size)
{
    const size_t length = 530 * laid - missing;
    const tb_sized sized = tb_mode(length == 0 ? NULL : area[0], length, apart);
    same("refusal of a mode", sized.refusal, number);
    same("size of a mode", sized.size, size);
    laid = 0;
    memset(area, 0xA5, sizeof area);
}

/* The mode sector: the first copy that says a size counts, and any other is passed over. */
static void modes(void)
{
    const uint32_t words_of_no_size[] = {0, 2, 0x01FF, 0x0201, 0x023F, 0x0241, 0x0400, 0x4002, 0xFFFF};

    lay_mode(0x0240), mode_is(0, 1, TB_ACCEPTED, TB_WIDE_SIZE);
    lay_mode(0x0200), mode_is(0, 7, TB_ACCEPTED, TB_DATA_SIZE);
    lay_mode(0x0240), mode_is(0, 0xFFFFFFFF, TB_ACCEPTED, TB_WIDE_SIZE);
    lay_mode(0x0200), lay_mode(0x0240), mode_is(0, 1, TB_ACCEPTED, TB_DATA_SIZE);
    lay_mode(0x0240), lay_mode(0x0200), mode_is(529, 1, TB_ACCEPTED, TB_WIDE_SIZE);

    /* A copy that is forced, damaged, or headed otherwise. Between the copies stands a sector that says the other size. */
    lay_sector(TB_AT_HOME, 0, 0x0200, true), lay_mode(0x0200), lay_mode(0x0240), mode_is(0, 2, TB_ACCEPTED, TB_WIDE_SIZE);
    lay_damaged(0x0200), lay_mode(0x0200), lay_mode(0x0240), mode_is(0, 2, TB_ACCEPTED, TB_WIDE_SIZE);
    lay_damaged(0x0200), lay_mode(0x0240), lay_mode(0x0200), mode_is(0, 2, TB_ACCEPTED, TB_DATA_SIZE);
    lay_sector(TB_AT_PRIMARY, 0, 0x0200, false), lay_mode(0x0240), mode_is(0, 1, TB_ACCEPTED, TB_WIDE_SIZE);
    lay_sector(TB_ELSEWHERE, 0, 0x0200, false), lay_mode(0x0240), mode_is(0, 1, TB_ACCEPTED, TB_WIDE_SIZE);
    lay_damaged(0x0200), lay_mode(0x0200), lay_sector(TB_AT_HOME, 1, 0x0200, false), lay_mode(0x0200), lay_mode(0x0240);
    mode_is(0, 2, TB_ACCEPTED, TB_WIDE_SIZE);
    lay_damaged(0x0200), lay_sector(TB_AT_HOME, 0, 0x0200, false), lay_mode(0x0240), mode_is(0, 1, TB_ACCEPTED, TB_WIDE_SIZE);

    /* A first word that is no size. */
    for (size_t i = 0; i < sizeof words_of_no_size / sizeof words_of_no_size[0]; i++) {
        lay_mode(words_of_no_size[i]), lay_mode(0x0200), mode_is(0, 1, TB_ACCEPTED, TB_DATA_SIZE);
        lay_mode(words_of_no_size[i]), mode_is(0, 1, TB_NO_MODE, 0);
    }

    /* No copy says a size. */
    mode_is(0, 1, TB_NO_MODE, 0);
    mode_is(0, 0xFFFFFFFF, TB_NO_MODE, 0);
    lay_mode(0x0240), mode_is(1, 1, TB_NO_MODE, 0);
    lay_mode(0x0240), mode_is(529, 1, TB_NO_MODE, 0);
    lay_sector(TB_AT_PRIMARY, 0, 0x0240, false), lay_sector(TB_AT_HOME, 0, 0x0240, false), mode_is(0, 1, TB_NO_MODE, 0);
    lay_damaged(0x0240), lay_mode(0x0240), mode_is(0, 2, TB_NO_MODE, 0);
    lay_damaged(0x0240), lay_mode(0x0240), mode_is(1, 1, TB_NO_MODE, 0);
    lay_damaged(0x0240), lay_mode(0x0240), mode_is(0, 1, TB_ACCEPTED, TB_WIDE_SIZE);
    lay_sector(TB_AT_HOME, 0, 0x0240, true), lay_sector(TB_AT_HOME, 1, 0x0240, true), mode_is(0, 1, TB_NO_MODE, 0);

    /* Copies that lie no sector apart. */
    mode_is(0, 0, TB_OUT_OF_RANGE, 0);
    lay_mode(0x0240), mode_is(0, 0, TB_OUT_OF_RANGE, 0);
    lay_damaged(0x0240), mode_is(1, 0, TB_OUT_OF_RANGE, 0);

    /* A sector of 576 is none of this area. */
    memset(data, 0, sizeof data);
    data[0] = 0x02, data[1] = 0x40;
    same("a wide sector", tb_image_write(TB_WIDE_SIZE, 0, TB_AT_HOME, data, TB_WIDE_SIZE, false, image, 594).length, 594);
    REFUSED(tb_sized, tb_mode(image, 594, 1), TB_NO_MODE);
    memset(data, 0, sizeof data);
}

/* Each refusal number once, by its name and by its number. */
static void refusals(void)
{
    const uint32_t twice[2] = {7, 7};
    const tb_shape shape = shaped(1, 1, 3);
    uint32_t number = 1;

    same("TB_OUT_OF_RANGE", tb_skip_sector(0, NULL, 0, 0).refusal, TB_OUT_OF_RANGE);
    same("its number", TB_OUT_OF_RANGE, number++);
    same("TB_TOO_LONG", tb_skip_sector(20, places, TB_LIST_MOST + 1, 0).refusal, TB_TOO_LONG);
    same("its number", TB_TOO_LONG, number++);
    same("TB_NOT_RISING", tb_skip_sector(20, twice, 2, 0).refusal, TB_NOT_RISING);
    same("its number", TB_NOT_RISING, number++);
    same("TB_OUTSIDE", tb_skip_sector(7, twice, 1, 0).refusal, TB_OUTSIDE);
    same("its number", TB_OUTSIDE, number++);
    same("TB_NO_SUCH_BLOCK", tb_skip_sector(20, twice, 1, 19).refusal, TB_NO_SUCH_BLOCK);
    same("its number", TB_NO_SUCH_BLOCK, number++);
    same("TB_NO_SUCH_SECTOR", tb_skip_block(20, twice, 1, 20).refusal, TB_NO_SUCH_SECTOR);
    same("its number", TB_NO_SUCH_SECTOR, number++);
    same("TB_NO_ROOM", tb_page_write(20, 0, twice, 1, page, 17).refusal, TB_NO_ROOM);
    same("its number", TB_NO_ROOM, number++);
    same("TB_BAD_PAGE", tb_page_write(20, 2, twice, 1, page, sizeof page).refusal, TB_BAD_PAGE);
    same("its number", TB_BAD_PAGE, number++);
    same("TB_STRAY_CURSOR", tb_job_check(cursor_at(0, 1), 20, twice, 1).refusal, TB_STRAY_CURSOR);
    same("its number", TB_STRAY_CURSOR, number++);
    same("TB_BAD_OPTION", format(0, 0, 1), TB_BAD_OPTION);
    same("its number", TB_BAD_OPTION, number++);
    same("TB_BAD_TABLE", tb_spare_census(shape, 1, places, 128, scratch, 1).refusal, TB_BAD_TABLE);
    same("its number", TB_BAD_TABLE, number++);
    same("a first table", tb_spare_first(shape, 1, NULL, 0, words, 128).refusal, TB_ACCEPTED);
    same("the only spare", tb_spare_replace(shape, 1, words, 128, scratch, 1, 0).refusal, TB_ACCEPTED);
    number++; /* 12 is no longer given, so that no name has it. */
    same("TB_NO_SPARE", tb_spare_replace(shape, 1, words, 128, scratch, 1, 1).refusal, TB_NO_SPARE);
    same("its number", TB_NO_SPARE, number++);
    same("TB_WRONG_LENGTH", tb_image_header(TB_DATA_SIZE, image, 1).refusal, TB_WRONG_LENGTH);
    same("its number", TB_WRONG_LENGTH, number++);
    memset(image, 0, sizeof image);
    image[0] = 1;
    image[4] = 1;
    same("TB_NO_ADDRESS", tb_image_header(TB_DATA_SIZE, image, 530).refusal, TB_NO_ADDRESS);
    same("its number", TB_NO_ADDRESS, number++);
    image[8] = 1;
    same("TB_OTHER_BLOCK", tb_image_judge(TB_DATA_SIZE, image, 530, 1, TB_AT_HOME).refusal, TB_OTHER_BLOCK);
    same("its number", TB_OTHER_BLOCK, number++);
    same("a forced image", tb_image_write(TB_DATA_SIZE, 1, TB_AT_HOME, data, TB_DATA_SIZE, true, image, 530).refusal, TB_ACCEPTED);
    same("TB_FORCED_ERROR", tb_image_judge(TB_DATA_SIZE, image, 530, 1, TB_AT_HOME).refusal, TB_FORCED_ERROR);
    same("its number", TB_FORCED_ERROR, number++);
    image[TB_HEADER_SIZE] ^= 1;
    same("TB_BAD_CODE", tb_image_judge(TB_DATA_SIZE, image, 530, 1, TB_AT_HOME).refusal, TB_BAD_CODE);
    same("its number", TB_BAD_CODE, number++);
    number += 2; /* 19 and 20 are given by no call, so that no name has them. */
    same("TB_NO_MODE", tb_mode(image, 530, 1).refusal, TB_NO_MODE);
    same("its number", TB_NO_MODE, number++);
    same("TB_UNKNOWN_CODE", tb_image_write(TB_DATA_SIZE, 1, 1, data, TB_DATA_SIZE, false, image, 530).refusal, TB_UNKNOWN_CODE);
    same("its number", TB_UNKNOWN_CODE, number++);
    same("the refusals", number, 23);
}

/* NULL for each slice of length 0. */
static void nothing_lent(void)
{
    const tb_shape shape = shaped(2, 2, 5);

    same("tb_skip_sector list", tb_skip_sector(20, NULL, 0, 19).sector, 19);
    same("tb_skip_block list", tb_skip_block(20, NULL, 0, 19).block, 19);
    same("tb_job_start list", tb_job_start(20, NULL, 0, 19).next.block, 19);
    same("tb_job_check list", tb_job_check(cursor_at(19, 0), 20, NULL, 0).next.block, 19);
    same("tb_job_step list", tb_job_step(cursor_at(19, 0), 20, NULL, 0).sector, 19);
    same("tb_skipped_address list", tb_skipped_address(shape, NULL, 0, 19).address.sector, 4);
    same("tb_skipped_block list", tb_skipped_block(shape, NULL, 0, 1, 1, 4).block, 19);
    same("tb_page_read page", tb_page_read(NULL, 0, words, 1).refusal, TB_BAD_PAGE);
    same("tb_page_write list", tb_page_write(20, 0, NULL, 0, page, TB_PAGE_FRAME).length, TB_PAGE_FRAME);
    same("tb_page_read room", tb_page_read(page, TB_PAGE_FRAME, NULL, 0).n, 20);
    same("tb_page_write room", tb_page_write(20, 0, NULL, 0, NULL, 0).refusal, TB_NO_ROOM);
    tb_formatted formatted = tb_format(20, NULL, 0, NULL, 0, 3, 1, NULL, 0, NULL, 0, NULL, 0);
    same("tb_format p, g, d, grown and list", formatted.refusal, TB_ACCEPTED);
    same("tb_format space", formatted.space, 3);
    same("tb_spare_sector table", tb_spare_sector(shape, 2, NULL, 0, scratch, SPARES, 0).refusal, TB_BAD_TABLE);
    same("tb_spare_sector scratch", tb_spare_sector(shape, 2, words, 128, NULL, 0, 0).refusal, TB_NO_ROOM);
    same("tb_spare_address table", tb_spare_address(shape, 2, NULL, 0, scratch, SPARES, 0).refusal, TB_BAD_TABLE);
    same("tb_spare_address scratch", tb_spare_address(shape, 2, words, 128, NULL, 0, 0).refusal, TB_NO_ROOM);
    same("tb_spare_shift table", tb_spare_shift(shape, 2, NULL, 0, scratch, SPARES, 0).refusal, TB_BAD_TABLE);
    same("tb_spare_shift scratch", tb_spare_shift(shape, 2, words, 128, NULL, 0, 0).refusal, TB_NO_ROOM);
    same("tb_spare_block table", tb_spare_block(shape, 2, NULL, 0, scratch, SPARES, 0).refusal, TB_BAD_TABLE);
    same("tb_spare_block scratch", tb_spare_block(shape, 2, words, 128, NULL, 0, 0).refusal, TB_NO_ROOM);
    same("tb_spare_block_at table", tb_spare_block_at(shape, 2, NULL, 0, scratch, SPARES, 0, 0, 0).refusal, TB_BAD_TABLE);
    same("tb_spare_block_at scratch", tb_spare_block_at(shape, 2, words, 128, NULL, 0, 0, 0, 0).refusal, TB_NO_ROOM);
    same("tb_spare_replace table", tb_spare_replace(shape, 2, NULL, 0, scratch, SPARES, 0).refusal, TB_BAD_TABLE);
    same("tb_spare_replace scratch", tb_spare_replace(shape, 2, words, 128, NULL, 0, 0).refusal, TB_NO_ROOM);
    same("tb_spare_census table", tb_spare_census(shape, 2, NULL, 0, scratch, SPARES).refusal, TB_BAD_TABLE);
    same("tb_spare_census scratch", tb_spare_census(shape, 2, words, 128, NULL, 0).refusal, TB_NO_ROOM);
    same("tb_spare_first list", tb_spare_first(shape, 2, NULL, 0, words, 128).length, 128);
    same("tb_spare_first room", tb_spare_first(shape, 2, NULL, 0, NULL, 0).refusal, TB_NO_ROOM);
    same("tb_read_tracks table", tb_read_tracks(shape, 2, NULL, 0, scratch, SPARES, 0).refusal, TB_BAD_TABLE);
    same("tb_read_tracks scratch", tb_read_tracks(shape, 2, words, 128, NULL, 0, 0).refusal, TB_NO_ROOM);
    for (size_t i = 0; i < 2; i++) {
        const uint32_t size = both[i];
        const size_t track = TB_TRACK_LENGTH(size, 5);
        same("tb_image_write data", tb_image_write(size, 0, TB_AT_HOME, NULL, 0, false, image, sizeof image).refusal, TB_WRONG_LENGTH);
        same("tb_image_write room", tb_image_write(size, 0, TB_AT_HOME, data, size, false, NULL, 0).refusal, TB_NO_ROOM);
        same("tb_image_header image", tb_image_header(size, NULL, 0).refusal, TB_WRONG_LENGTH);
        same("tb_image_judge image", tb_image_judge(size, NULL, 0, 0, TB_AT_HOME).refusal, TB_WRONG_LENGTH);
        same("tb_read_judge table", tb_read_judge(size, shape, 2, NULL, 0, scratch, SPARES, 0, home, track, spare, track).refusal, TB_BAD_TABLE);
        same("tb_read_judge scratch", tb_read_judge(size, shape, 2, words, 128, NULL, 0, 0, home, track, spare, track).refusal, TB_NO_ROOM);
        same("tb_read_judge home", tb_read_judge(size, shape, 2, words, 128, scratch, SPARES, 0, NULL, 0, spare, track).refusal, TB_WRONG_LENGTH);
        same("tb_read_judge spare", tb_read_judge(size, shape, 2, words, 128, scratch, SPARES, 0, home, track, NULL, 0).refusal, TB_WRONG_LENGTH);
        same("tb_read_data table", tb_read_data(size, shape, 2, NULL, 0, scratch, SPARES, 0, home, track, spare, track).refusal, TB_BAD_TABLE);
        same("tb_read_data scratch", tb_read_data(size, shape, 2, words, 128, NULL, 0, 0, home, track, spare, track).refusal, TB_NO_ROOM);
        same("tb_read_data home", tb_read_data(size, shape, 2, words, 128, scratch, SPARES, 0, NULL, 0, spare, track).refusal, TB_WRONG_LENGTH);
        same("tb_read_data spare", tb_read_data(size, shape, 2, words, 128, scratch, SPARES, 0, home, track, NULL, 0).refusal, TB_WRONG_LENGTH);
    }
    same("tb_mode images", tb_mode(NULL, 0, 1).refusal, TB_NO_MODE);
    same("tb_mode images, no sector apart", tb_mode(NULL, 0, 0).refusal, TB_OUT_OF_RANGE);
}

int main(void)
{
    for (uint32_t i = 0; i <= TB_LIST_MOST; i++) {
        places[i] = i;
    }
    sizes();
    fields();
    angles();
    limits();
    macros_of_lengths();
    lists();
    customers_drive();
    largest_drive();
    groups();
    replacements();
    judged_tables();
    free_places();
    far_free_places();
    read_tracks();
    words_of_codes();
    headers();
    for (size_t i = 0; i < 2; i++) {
        lengths(both[i]);
        scratches(both[i]);
        images_written(both[i]);
        images_judged(both[i]);
        reads(both[i]);
    }
    codes_of_data();
    no_sizes();
    modes();
    refusals();
    nothing_lent();
#ifdef __cplusplus
    printf("header as C++: ");
#else
    printf("header as C: ");
#endif
    printf("%" PRIu32 " facts tried, %" PRIu32 " wrong\n", facts, wrong);
    return wrong == 0 ? 0 : 1;
}
