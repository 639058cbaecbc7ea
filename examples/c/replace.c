/* The day of a bad block on a small revectored drive: the size of its sectors found in its mode sector, a first table, three replacements, the old
 * image moved to the spare and refused, the block written there with its code and read back from the two tracks that are named for it, and the block
 * replaced again when its spare goes bad too. It prints what it sees, and returns 1 if anything is not as it must be. */
#include <inttypes.h>
#include <stdio.h>
#include <string.h>

#include "tautberry.h"

enum { CYLINDERS = 2, HEADS = 2, SECTORS = 5, SPARES_OF_TRACK = 2 };
enum { HOMES_OF_TRACK = SECTORS - SPARES_OF_TRACK, TRACKS = CYLINDERS * HEADS, SPARES = TRACKS * SPARES_OF_TRACK };

/* Each head is a group of its own. Under the second one the angle of a sector is not the sector. */
enum { GROUPS = 2, TRACKS_OF_GROUP = HEADS / GROUPS, OFFSET = 2 };

static const tb_shape shape = {CYLINDERS, HEADS, SECTORS, GROUPS, TRACKS_OF_GROUP, OFFSET};
static const uint32_t r = SPARES_OF_TRACK;
static uint32_t table[TB_TABLE_LENGTH(SPARES)];
static const size_t table_length = sizeof table / sizeof table[0];

/* Each call that is lent the table is lent scratch too, for the check of the table. It has one number for each spare. That is fewer here than the
 * table has, which is made of whole table blocks. Nothing is kept in it between calls: one scratch serves every call, and every drive that has no
 * more spares. */
static uint32_t scratch[SPARES];
static const size_t scratch_length = sizeof scratch / sizeof scratch[0];

/* How many data bytes a sector has is known once the mode sector is read, and from then on it goes into every call on images and reads. There is
 * room for sectors of either size. */
static uint32_t size;
static size_t image_length, track_length;
static uint8_t disc[CYLINDERS][HEADS][TB_TRACK_LENGTH(TB_WIDE_SIZE, SECTORS)];

/* The XBN area: three copies of the format table, two sectors each. Its sectors always have TB_DATA_SIZE bytes of data. */
enum { COPIES = 3, APART = 2 };
static uint8_t area[COPIES * APART][TB_IMAGE_LENGTH(TB_DATA_SIZE)];

static int off = 0;

/* Says so where something is not as it must be. */
static void must(int holds, const char *what)
{
    if (!holds) {
        printf("  OFF: %s\n", what);
        off = 1;
    }
}

/* One sector's data: a line of text, and zeros after it. */
static void fill(uint8_t data[TB_WIDE_SIZE], const char *text)
{
    memset(data, 0, TB_WIDE_SIZE);
    memcpy(data, text, strlen(text));
}

/* The image of a sector. */
static uint8_t *image_at(uint32_t cylinder, uint32_t head, uint32_t sector)
{
    return &disc[cylinder][head][sector * image_length];
}

/* Fetches the image of a track. */
static const uint8_t *fetch(uint32_t cylinder, uint32_t head)
{
    printf("  the track of cylinder %" PRIu32 ", head %" PRIu32 " is fetched\n", cylinder, head);
    return disc[cylinder][head];
}

/* Lays the XBN area of a drive with sectors of TB_WIDE_SIZE. Of its first copy the mode sector is forced. */
static void lay_area(void)
{
    uint8_t data[TB_DATA_SIZE] = {TB_WIDE_SIZE / 256, TB_WIDE_SIZE % 256};
    for (uint32_t xbn = 0; xbn < COPIES * APART; xbn++) {
        tb_written written = tb_image_write(TB_DATA_SIZE, xbn, TB_AT_HOME, data, sizeof data, xbn == 0, area[xbn], sizeof area[xbn]);
        must(written.refusal == TB_ACCEPTED, "every sector of the XBN area can be written");
    }
}

/* Finds the size of the drive's sectors as it comes online. */
static void come_online(void)
{
    tb_sized none = tb_mode(area[0], sizeof area[0], APART);
    printf("  with its first copy alone it is refused %" PRIu32 "\n", none.refusal);
    must(none.refusal == TB_NO_MODE && none.size == 0, "a forced copy says no size");
    tb_sized sized = tb_mode(area[0], sizeof area, APART);
    printf("  its sectors have %" PRIu32 " bytes of data\n", sized.size);
    must(sized.refusal == TB_ACCEPTED && sized.size == TB_WIDE_SIZE, "the second copy says the size");
    size = sized.size;
    image_length = TB_IMAGE_LENGTH(size);
    track_length = TB_TRACK_LENGTH(size, SECTORS);
}

/* Writes every sector of the drive as the block that lies on it, and a sector on which none lies as a forced error. No block is replaced yet, so
 * every header says that its block is at home. */
static void write_drive(const char *text)
{
    uint8_t data[TB_WIDE_SIZE];
    fill(data, text);
    for (uint32_t sector = 0; sector < TRACKS * SECTORS; sector++) {
        tb_named lying = tb_spare_block(shape, r, table, table_length, scratch, scratch_length, sector);
        tb_located located = tb_shape_address(shape, sector);
        uint8_t *image = image_at(located.address.cylinder, located.address.head, located.address.sector);
        tb_written written = tb_image_write(size, lying.block, TB_AT_HOME, data, size, lying.found == 0, image, image_length);
        must(lying.refusal == TB_ACCEPTED && located.refusal == TB_ACCEPTED && written.refusal == TB_ACCEPTED, "every sector of the drive can be written");
    }
}

static void replace(uint32_t block, uint32_t place, uint32_t descriptor, int32_t shift)
{
    tb_replaced replaced = tb_spare_replace(shape, r, table, table_length, scratch, scratch_length, block);
    tb_shifted shifted = tb_spare_shift(shape, r, table, table_length, scratch, scratch_length, block);
    printf("  block %" PRIu32 " goes to place %" PRIu32 ", descriptor %08" PRIX32 ", shift %+" PRId32 "\n", block, replaced.place, table[replaced.place], shifted.shift);
    must(replaced.refusal == TB_ACCEPTED && replaced.place == place, "the place of a replaced block");
    must(table[place] == descriptor, "the descriptor of a replaced block");
    must(shifted.refusal == TB_ACCEPTED && shifted.shift == shift, "the shift of a replaced block");
}

static void census(uint32_t free_places, uint32_t unusable)
{
    tb_counted counted = tb_spare_census(shape, r, table, table_length, scratch, scratch_length);
    printf("  %" PRIu32 " spares free, %" PRIu32 " taken as a block's primary, %" PRIu32 " as another, %" PRIu32 " unusable\n", counted.free, counted.primary, counted.elsewhere, counted.unusable);
    must(counted.refusal == TB_ACCEPTED && counted.free == free_places, "the number of free spares");
    must(counted.unusable == unusable, "the number of unusable spares");
    must(counted.free + counted.primary + counted.elsewhere + counted.unusable + counted.null == table_length, "the census counts every place once");
}

/* Says where a block lies. Its address leads back to its sector number. */
static void locate(uint32_t block, uint32_t sector, uint32_t angle)
{
    tb_located located = tb_spare_address(shape, r, table, table_length, scratch, scratch_length, block);
    tb_placed placed = tb_shape_sector(shape, located.address.cylinder, located.address.head, located.address.sector);
    printf("  block %" PRIu32 " lies at cylinder %" PRIu32 ", head %" PRIu32 ", sector %" PRIu32 ", angle %" PRIu32 ": sector number %" PRIu32 "\n",
           block, located.address.cylinder, located.address.head, located.address.sector, located.address.angle, placed.sector);
    must(located.refusal == TB_ACCEPTED && placed.refusal == TB_ACCEPTED && placed.sector == sector, "the sector of a block");
    must(located.address.angle == angle, "the angle of a block");
}

/* Says what the header of an image says. */
static void show_header(const uint8_t *image, uint32_t code, uint32_t block)
{
    tb_headed headed = tb_image_header(size, image, image_length);
    printf("  its header says code %" PRIu32 " and block %" PRIu32 "\n", headed.code, headed.block);
    must(headed.refusal == TB_ACCEPTED && headed.code == code && headed.block == block, "the code and the block of a header");
}

/* Reads a block: asks for its tracks, fetches them, judges the block in their images, and takes its data. */
static uint32_t read_block(uint32_t block, const char *text)
{
    tb_tracks tracks = tb_read_tracks(shape, r, table, table_length, scratch, scratch_length, block);
    must(tracks.refusal == TB_ACCEPTED, "the tracks of a block of the drive are named");
    if (tracks.refusal != TB_ACCEPTED) {
        return tracks.refusal;
    }
    const uint8_t *home = fetch(tracks.home_cylinder, tracks.home_head);
    const uint8_t *spare = home;
    if (tracks.cylinder != tracks.home_cylinder || tracks.head != tracks.home_head) {
        printf("  the arm moves by %+" PRId32 "\n", tracks.shift);
        spare = fetch(tracks.cylinder, tracks.head);
    }
    tb_judged judged = tb_read_judge(size, shape, r, table, table_length, scratch, scratch_length, block, home, track_length, spare, track_length);
    tb_spotted spotted = tb_read_data(size, shape, r, table, table_length, scratch, scratch_length, block, home, track_length, spare, track_length);
    must(judged.refusal == spotted.refusal, "verdict and data refuse alike");
    if (spotted.refusal != TB_ACCEPTED) {
        printf("  block %" PRIu32 " is refused %" PRIu32 "\n", block, spotted.refusal);
        must(spotted.image == 0 && spotted.offset == 0, "a refusal carries zeros");
        return spotted.refusal;
    }
    const uint8_t *data = (spotted.image == 0 ? home : spare) + spotted.offset;
    printf("  block %" PRIu32 " reads \"%s\", %" PRIu32 " bytes into the image of its %s track\n", block, (const char *)data, spotted.offset, spotted.image == 0 ? "home" : "spare's");
    uint8_t expected[TB_WIDE_SIZE];
    fill(expected, text);
    must(memcmp(data, expected, size) == 0, "the data is what was written");
    return TB_ACCEPTED;
}

int main(void)
{
    printf("A drive of %d cylinders, %d heads and %d sectors a track, the last %d of them spares: %d blocks.\n", CYLINDERS, HEADS, SECTORS, SPARES_OF_TRACK, TRACKS * HOMES_OF_TRACK);
    printf("Its heads are %d groups with %d track each, and each group starts %d sectors after the one before it.\n", GROUPS, TRACKS_OF_GROUP, OFFSET);
    printf("It has %d spares: its table has %d descriptors, and the scratch of a call %d numbers.\n", SPARES, (int)table_length, (int)scratch_length);

    puts("Its mode sector, of which the first copy is lost:");
    lay_area();
    come_online();

    puts("Its first table, with no bad sector known:");
    tb_written first = tb_spare_first(shape, r, NULL, 0, table, table_length);
    must(first.refusal == TB_ACCEPTED && first.length == table_length, "the first table");
    tb_counted refused = tb_spare_census(shape, r, table, table_length, scratch, scratch_length - 1);
    printf("  with one number of scratch fewer a census is refused %" PRIu32 "\n", refused.refusal);
    must(refused.refusal == TB_NO_ROOM, "scratch that is too short is refused");
    census(SPARES, 0);
    locate(6, 10, 0);
    write_drive("Monday's log");
    must(read_block(6, "Monday's log") == TB_ACCEPTED, "block 6 reads well at home");

    puts("Blocks 7, 8 and 6 go bad:");
    replace(7, 4, 0x20000007, 0);
    replace(8, 5, 0x30000008, 0);
    replace(6, 3, 0x30000006, -1);
    census(5, 0);
    locate(6, 9, 1);

    puts("Nothing names block 6 on its spare yet:");
    must(read_block(6, "") == TB_OTHER_BLOCK, "a spare that was not written is refused");

    puts("Its old image is moved there as it is, and says that the block is at home:");
    uint8_t *image = image_at(0, 1, 4);
    memcpy(image, image_at(1, 0, 0), image_length);
    show_header(image, TB_AT_HOME, 6);
    must(read_block(6, "") == TB_OTHER_BLOCK, "an image that says another code is refused");

    puts("It is written there with the code of its descriptor:");
    uint8_t data[TB_WIDE_SIZE];
    fill(data, "Tuesday's log");
    tb_written written = tb_image_write(size, 6, TB_CODE_OF(table[3]), data, size, false, image, image_length);
    must(written.refusal == TB_ACCEPTED && written.length == image_length, "the image of block 6");
    show_header(image, TB_ELSEWHERE, 6);
    must(read_block(6, "Tuesday's log") == TB_ACCEPTED, "block 6 reads well from its spare");

    puts("One bit of its data turns over, in the last byte:");
    image[TB_HEADER_SIZE + size - 1] ^= 0x10;
    must(read_block(6, "") == TB_BAD_CODE, "one bit is seen");

    puts("It is written as lost, so that nobody takes it for good:");
    written = tb_image_write(size, 6, TB_CODE_OF(table[3]), data, size, true, image, image_length);
    must(written.refusal == TB_ACCEPTED && read_block(6, "") == TB_FORCED_ERROR, "a forced error is told");

    puts("Its spare is bad too, and the block is replaced again:");
    uint32_t after[sizeof table / sizeof table[0]];
    memcpy(after, table, sizeof table);
    after[3] = 0x40000000, after[6] = 0x30000006;
    replace(6, 6, 0x30000006, 0);
    printf("  place 3, its old spare, has descriptor %08" PRIX32 "\n", table[3]);
    must(memcmp(after, table, sizeof table) == 0, "the old spare is unusable, and no other place has changed");
    census(4, 1);
    locate(6, 18, 0);
    tb_named left = tb_spare_block(shape, r, table, table_length, scratch, scratch_length, 9);
    must(left.refusal == TB_ACCEPTED && left.found == 0, "no block lies on the old spare");

    puts("It is written on its new spare:");
    fill(data, "Wednesday's log");
    written = tb_image_write(size, 6, TB_CODE_OF(table[6]), data, size, false, image_at(1, 1, 3), image_length);
    must(written.refusal == TB_ACCEPTED && read_block(6, "Wednesday's log") == TB_ACCEPTED, "block 6 reads well from its new spare");

    puts(off ? "Something is off." : "All as it must be.");
    return off;
}
