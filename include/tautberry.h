/* The C face of Tautberry, for C (C99 and later) and C++: the calls of libboard.a.
 *
 * A call takes any numbers. It ends, it calls nothing back, it keeps nothing between calls, and it answers a small
 * struct by value. `refusal` is the first field: TB_ACCEPTED (0), or the number of the first check that fails.
 * Where a call refuses, every other number of the result is 0, and every byte that was lent is as it was. There are
 * two exceptions: tb_job_step hands back in `next` the cursor that it was given, and scratch is left as is said below.
 * The comment of a call names its checks in their order. The word "list" there stands for three of them: TB_TOO_LONG,
 * and then, at the lowest entry at fault, TB_NOT_RISING before TB_OUTSIDE.
 *
 * What is lent:
 * - A pointer and the number of its elements stand together, the pointer first. The pointer may be NULL where the
 *   number is 0, and only there.
 * - A pointer to uint32_t is aligned as uint32_t is.
 * - A pointer to const is read and never written. One that is not const is a room, or scratch: it may be read and
 *   written.
 * - A room or scratch overlaps nothing else that is lent to the same call. What is only read may overlap.
 * - An accepted call fills the first elements of its room and leaves the rest as it was. The room of tb_spare_replace is
 *   the table, of which it writes the descriptors that its comment names.
 * - Scratch comes with every table, for the check of the table. It needs one uint32_t for each spare of the drive, which
 *   is cylinders x heads x r, and any more may be lent. What it holds before the call does not matter. After a call that
 *   passes the checks TB_OUT_OF_RANGE and TB_NO_ROOM, accepted or refused, the first cylinders x heads x r numbers of
 *   scratch are 0 and the rest is as it was. A call that is refused by one of these two leaves all of it as it was.
 * - `forced` is the language's own bool: a byte that is 0 or 1.
 *
 * What libboard.a asks of its place: an x86-64 processor with SSE2, the System V calling convention, the red zone
 * (during a call no interrupt may come in on the same stack), memcpy and memset. docs/FIRMWARE.md says more.
 *
 * Two calls of the library are not here, since they hand back a part of what they were lent: image::data and
 * reading::data. The comments of tb_image_judge and tb_read_data say where the data lies.
 */
#ifndef TAUTBERRY_H
#define TAUTBERRY_H

#include <stddef.h>
#include <stdint.h>
#ifndef __cplusplus
#include <stdbool.h>
#endif

#ifdef __cplusplus
extern "C" {
#endif

/* ---- Refusals ---- */

enum tb_refusal {
    TB_ACCEPTED = 0,
    TB_OUT_OF_RANGE = 1,      /* N, r, a number of the shape or that of all spares is out of its range, heads is not groups x tracks, the size of
                                 a sector is neither of the two, or copies of the format table lie 0 sectors apart */
    TB_TOO_LONG = 2,          /* a list is, or a list to be made would be, longer than TB_LIST_MOST */
    TB_NOT_RISING = 3,        /* an entry of a list does not exceed the entry before it */
    TB_OUTSIDE = 4,           /* an entry of a list is not a unit of its space */
    TB_NO_SUCH_BLOCK = 5,     /* the block asked for lies beyond the last one, or the number of the block to write is TB_CODE_UNIT or more */
    TB_NO_SUCH_SECTOR = 6,    /* the sector, cylinder or head asked for lies beyond the last one */
    TB_NO_ROOM = 7,           /* the room for a result, or scratch, has too few elements */
    TB_BAD_PAGE = 8,          /* the bytes are no list page, or there is no such kind of page */
    TB_STRAY_CURSOR = 9,      /* the cursor does not belong to this N and list */
    TB_BAD_OPTION = 10,       /* there is no such option or space, or the option takes no list and one came */
    TB_BAD_TABLE = 11,        /* the table is not one of this drive, a descriptor breaks a rule, or a free place comes before a block */
    /* 12 is no longer given, and it never names another refusal. */
    TB_NO_SPARE = 13,         /* no spare is left, or too few for all bad home sectors */
    TB_WRONG_LENGTH = 14,     /* the data or an image is not as long as it must be for the size of the sectors */
    TB_NO_ADDRESS = 15,       /* fewer than three copies in the header agree */
    TB_OTHER_BLOCK = 16,      /* the header says another block or another code than it must, or a code that no header may have */
    TB_FORCED_ERROR = 17,     /* the sector was written as bad: its data was lost before */
    TB_BAD_CODE = 18,         /* the data does not have the code that stands behind it */
    /* 19 and 20 are given by no call of this library. */
    TB_NO_MODE = 21,          /* no copy of the format table says the size of the sectors */
    TB_UNKNOWN_CODE = 22      /* the code to write is none of TB_AT_HOME, TB_AT_PRIMARY and TB_ELSEWHERE */
};

/* ---- Limits and sizes ---- */

#define TB_UNITS_MOST 16777216u   /* N: sectors of a drive */
#define TB_CYLINDERS_MOST 4096u   /* cylinders of a shape, from 1 */
#define TB_HEADS_MOST 64u         /* heads of a shape, from 1; groups, and tracks of a group, have the same range */
#define TB_SECTORS_LEAST 2u       /* sectors of a track */
#define TB_SECTORS_MOST 64u
#define TB_LIST_MOST 65536u       /* entries of a list */
#define TB_SPARES_MOST 65536u     /* cylinders x heads x r */
#define TB_TABLE_BLOCK 128u       /* descriptors of a table block */
#define TB_DATA_SIZE 512u         /* data bytes of a sector: one of the two sizes, and that of every sector of the XBN area */
#define TB_WIDE_SIZE 576u         /* the other size */
#define TB_HEADER_SIZE 16u        /* bytes before the data of an image: where the data begins */
#define TB_IMAGE_EXTRA 18u        /* bytes of an image that are no data: header and code */
#define TB_START_CODE 0x5A3Cu     /* the code of no data */
#define TB_CODE_UNIT 268435456u   /* 2 to the power of 28: the low 28 bits of a word are a number, and the four bits above them a code */
#define TB_PAGE_FRAME 14u         /* bytes of a page that are no entries */
#define TB_ENTRY_SIZE 4u          /* bytes of an entry of a page */
#define TB_PAGE_MOST TB_PAGE_LENGTH(TB_LIST_MOST) /* 262158: bytes of the longest page */
#define TB_KIND_MOST 1u           /* kinds of a page: 0 manufacturer's, 1 grown */
#define TB_OPTION_MOST 7u         /* options of Format, from 0 */
#define TB_SPACE_MOST 3u          /* spaces: 0 none, 1 P, 2 G, 3 P and G */
#define TB_LISTING_MOST 16398u    /* bytes that the listing program takes; no call here has this limit */

/* Bytes of a page with so many entries; bytes of the image of a sector of this size, 530 or 594; bytes of the image of a track with so many
 * sectors of this size; descriptors of a table for so many spares. */
#define TB_PAGE_LENGTH(entries) (TB_PAGE_FRAME + TB_ENTRY_SIZE * (entries))
#define TB_IMAGE_LENGTH(size) ((size) + TB_IMAGE_EXTRA)
#define TB_TRACK_LENGTH(size, sectors) (TB_IMAGE_LENGTH(size) * (sectors))
#define TB_TABLE_LENGTH(spares) (TB_TABLE_BLOCK * (((spares) + TB_TABLE_BLOCK - 1u) / TB_TABLE_BLOCK))

/* A descriptor is a word, and so is the number that stands in a header: code x TB_CODE_UNIT + block. The code of a header tells where the block is.
 * These are all that a header may have. A descriptor that names a block has one of the last two. */
#define TB_AT_HOME 0u    /* at home */
#define TB_AT_PRIMARY 2u /* replaced, on its primary spare */
#define TB_ELSEWHERE 3u  /* replaced, on any other spare */

/* The code of a word, and its number: the block, in a header or in a descriptor that names one. */
#define TB_CODE_OF(word) ((word) / TB_CODE_UNIT)
#define TB_NUMBER_OF(word) ((word) % TB_CODE_UNIT)

/* ---- What goes in and comes out ---- */

/* The heads of a drive are `groups` groups of `tracks` tracks each, one track to a head, so groups x tracks is heads. Each group starts
 * `offset` sectors after the one before it, so that a read can go on from group to group. A drive without groups is one group of all
 * heads: groups is 1, tracks is heads, and offset is 0. */
typedef struct tb_shape {
    uint32_t cylinders;
    uint32_t heads;
    uint32_t sectors; /* of a track, its spares among them */
    uint32_t groups;  /* of heads */
    uint32_t tracks;  /* of a group */
    uint32_t offset;  /* in sectors, 0 to sectors - 1 */
} tb_shape;

/* The angle says where on the turn of the disc a sector lies: it is (sector + offset x group) mod sectors, and the group of a head is
 * head / tracks, without the remainder. With one group the angle is the sector, whatever the offset. Calls answer an angle, and none takes
 * one: cylinder, head and sector name a sector. */
typedef struct tb_address {
    uint32_t cylinder;
    uint32_t head;
    uint32_t sector; /* in its track */
    uint32_t angle;  /* 0 to sectors - 1 */
} tb_address;

/* Where a job stands. Both numbers come from a call and go back as they are. */
typedef struct tb_cursor {
    uint32_t block;   /* the next block of the job */
    uint32_t skipped; /* entries of the list below the sector of the block before it */
} tb_cursor;

typedef struct tb_placed {
    uint32_t refusal;
    uint32_t sector;
} tb_placed;

typedef struct tb_named {
    uint32_t refusal;
    uint32_t found; /* 1 where a block lies there, 0 where none does: that is no refusal */
    uint32_t block; /* 0 where none does */
} tb_named;

typedef struct tb_job {
    uint32_t refusal;
    uint32_t sector;
    tb_cursor next;
} tb_job;

typedef struct tb_located {
    uint32_t refusal;
    tb_address address;
} tb_located;

typedef struct tb_paged {
    uint32_t refusal;
    uint32_t kind;
    uint32_t n;
    uint32_t entries; /* of the room that are filled */
} tb_paged;

typedef struct tb_written {
    uint32_t refusal;
    uint32_t length; /* elements of the room that are filled */
} tb_written;

typedef struct tb_formatted {
    uint32_t refusal;
    uint32_t grown; /* entries of the new grown list */
    uint32_t list;  /* entries of the list of the new space */
    uint32_t space; /* the new space */
} tb_formatted;

typedef struct tb_shifted {
    uint32_t refusal;
    int32_t shift; /* cylinders from home to spare, negative toward cylinder 0 */
} tb_shifted;

typedef struct tb_replaced {
    uint32_t refusal;
    uint32_t place; /* of the table, where the block has its descriptor now: the spare's number */
} tb_replaced;

/* How many descriptors of a table have each code. Together they are the table's length. */
typedef struct tb_counted {
    uint32_t refusal;
    uint32_t free;
    uint32_t primary;   /* a block at its primary spare */
    uint32_t elsewhere; /* a block on any other spare */
    uint32_t unusable;
    uint32_t null; /* no spare: the tail of the last table block */
} tb_counted;

typedef struct tb_headed {
    uint32_t refusal;
    uint32_t code; /* TB_AT_HOME, TB_AT_PRIMARY or TB_ELSEWHERE */
    uint32_t block;
} tb_headed;

typedef struct tb_judged {
    uint32_t refusal;
} tb_judged;

typedef struct tb_sized {
    uint32_t refusal;
    uint32_t size; /* TB_DATA_SIZE or TB_WIDE_SIZE: it goes as it is into the calls that take a size */
} tb_sized;

typedef struct tb_tracks {
    uint32_t refusal;
    uint32_t home_cylinder; /* of the block's home track */
    uint32_t home_head;
    uint32_t cylinder; /* of the track that the block lies on */
    uint32_t head;
    int32_t shift; /* cylinders from the first track to the second, negative toward cylinder 0 */
} tb_tracks;

typedef struct tb_spotted {
    uint32_t refusal;
    uint32_t image;  /* 0: the data lies in `home`, 1: in `spare` */
    uint32_t offset; /* of its `size` bytes from the start of that image: sector of the track x TB_IMAGE_LENGTH(size) + TB_HEADER_SIZE */
} tb_spotted;

/* ---- A skipped drive of n sectors, with the list of its bad ones ---- */

/* The sector that a block lies on.
 * Checks: TB_OUT_OF_RANGE (n), list, TB_NO_SUCH_BLOCK. Answers sector. Writes nothing. */
tb_placed tb_skip_sector(uint32_t n, const uint32_t *list, size_t list_length, uint32_t block);

/* The block that lies on a sector; a sector of the list has none.
 * Checks: TB_OUT_OF_RANGE (n), list, TB_NO_SUCH_SECTOR. Answers found and block. Writes nothing. */
tb_named tb_skip_block(uint32_t n, const uint32_t *list, size_t list_length, uint32_t sector);

/* Opens a job at a block: a run of blocks one after another, each found without a walk from the start.
 * Checks: TB_OUT_OF_RANGE (n), list, TB_NO_SUCH_BLOCK. Answers in next the cursor for the block; sector is 0. Writes nothing. */
tb_job tb_job_start(uint32_t n, const uint32_t *list, size_t list_length, uint32_t block);

/* Whether a cursor belongs to this n and list.
 * Checks: TB_OUT_OF_RANGE (n), list, TB_STRAY_CURSOR. Answers in next the cursor as it is; sector is 0. Writes nothing. */
tb_job tb_job_check(tb_cursor cursor, uint32_t n, const uint32_t *list, size_t list_length);

/* One step of a job: the sector of the cursor's block, and the cursor for the block after it. After the last block a step
 * refuses TB_NO_SUCH_BLOCK and the cursor stays.
 * Checks: TB_OUT_OF_RANGE (n), list, TB_STRAY_CURSOR, TB_NO_SUCH_BLOCK. Answers sector and next; refused, next is `cursor`.
 * Writes nothing. */
tb_job tb_job_step(tb_cursor cursor, uint32_t n, const uint32_t *list, size_t list_length);

/* ---- Sector numbers and addresses of any drive with a shape ---- */

/* Cylinder, head and sector to sector number, (cylinder x heads + head) x sectors + sector.
 * Checks: TB_OUT_OF_RANGE (shape), TB_NO_SUCH_SECTOR (any of the three). Answers sector. Writes nothing. */
tb_placed tb_shape_sector(tb_shape shape, uint32_t cylinder, uint32_t head, uint32_t sector);

/* Sector number to cylinder, head, sector and angle.
 * Checks: TB_OUT_OF_RANGE (shape), TB_NO_SUCH_SECTOR. Answers address. Writes nothing. */
tb_located tb_shape_address(tb_shape shape, uint32_t sector);

/* ---- A skipped drive by its shape ---- */

/* The address that a block lies at.
 * Checks: TB_OUT_OF_RANGE (shape), list, TB_NO_SUCH_BLOCK. Answers address. Writes nothing. */
tb_located tb_skipped_address(tb_shape shape, const uint32_t *list, size_t list_length, uint32_t block);

/* The block that lies at a cylinder, head and sector; a sector of the list has none.
 * Checks: TB_OUT_OF_RANGE (shape), list, TB_NO_SUCH_SECTOR (any of the three). Answers found and block. Writes nothing. */
tb_named tb_skipped_block(tb_shape shape, const uint32_t *list, size_t list_length, uint32_t cylinder, uint32_t head, uint32_t sector);

/* ---- The list page ---- */

/* Reads a page. page_length must be the length that the page itself says.
 * Checks: TB_BAD_PAGE (layout, kind, the page's own n), TB_NOT_RISING or TB_OUTSIDE at the lowest entry at fault, TB_NO_ROOM.
 * Answers kind, n and entries. Writes the entries into the first places of room. */
tb_paged tb_page_read(const uint8_t *page, size_t page_length, uint32_t *room, size_t room_length);

/* Writes the page of n, a kind and a list. It needs TB_PAGE_LENGTH(list_length) bytes of room.
 * Checks: TB_OUT_OF_RANGE (n), TB_BAD_PAGE (kind), list, TB_NO_ROOM. Answers length, in bytes. Writes the page into the first
 * bytes of room. */
tb_written tb_page_write(uint32_t n, uint32_t kind, const uint32_t *list, size_t list_length, uint8_t *room, size_t room_length);

/* ---- Format ---- */

/* The lists after a Format. p is the manufacturer's list and g the grown list, both over n sectors; space is the one in use;
 * d is the list that comes with the option: blocks of the space in use for options 1 and 3, sectors for 5 and 7, none for the rest.
 * Checks: TB_OUT_OF_RANGE (n), list (p), list (g), TB_BAD_OPTION, TB_TOO_LONG (the list in use), list (d), TB_TOO_LONG (the new grown
 * list, then the new list), TB_NO_ROOM (either room). Answers grown, list and space. Writes the new grown list into the first places
 * of grown, and the list of the new space into those of list. */
tb_formatted tb_format(
    uint32_t n,
    const uint32_t *p, size_t p_length,
    const uint32_t *g, size_t g_length,
    uint32_t space, uint32_t option,
    const uint32_t *d, size_t d_length,
    uint32_t *grown, size_t grown_length,
    uint32_t *list, size_t list_length);

/* ---- A revectored drive: the last r sectors of each track are spares, and a table says what they hold ---- */

/* The table has TB_TABLE_LENGTH(cylinders x heads x r) descriptors. Every call that is lent a table checks its rules, and takes scratch for
 * this check. The top of this header says how much, and what is left in it. The time of the check grows as the table's length does.
 *
 * The search order of a block begins at its primary place, which is that of the first spare of its home track. In the table block of this place
 * it goes outward: one place up, one down, two up, two down and so on, passing over places outside the table block. Then come the table blocks
 * after that one, and then those before it from the first of the table on, each rising.
 *
 * By the rules a block that lies on a spare has no free place before its own in its search order. An unusable place is not free, nor is a null
 * one. tb_spare_first and tb_spare_replace make only such tables. So the look-up of a block goes along its search order no farther than to
 * the first free place: a block that was not met by then lies at home. */

/* The sector that a block lies on: its spare, or its home where it is not replaced.
 * Checks: TB_OUT_OF_RANGE (shape, r), TB_NO_ROOM (scratch), TB_BAD_TABLE, TB_NO_SUCH_BLOCK. Answers sector. Writes nothing but scratch. */
tb_placed tb_spare_sector(
    tb_shape shape, uint32_t r, const uint32_t *table, size_t table_length, uint32_t *scratch, size_t scratch_length, uint32_t block);

/* The address that a block lies at.
 * Checks: TB_OUT_OF_RANGE (shape, r), TB_NO_ROOM (scratch), TB_BAD_TABLE, TB_NO_SUCH_BLOCK. Answers address. Writes nothing but scratch. */
tb_located tb_spare_address(
    tb_shape shape, uint32_t r, const uint32_t *table, size_t table_length, uint32_t *scratch, size_t scratch_length, uint32_t block);

/* How many cylinders the arm moves from the home of a block to its spare; 0 for a block at home.
 * Checks: TB_OUT_OF_RANGE (shape, r), TB_NO_ROOM (scratch), TB_BAD_TABLE, TB_NO_SUCH_BLOCK. Answers shift. Writes nothing but scratch. */
tb_shifted tb_spare_shift(
    tb_shape shape, uint32_t r, const uint32_t *table, size_t table_length, uint32_t *scratch, size_t scratch_length, uint32_t block);

/* The block that lies on a sector; the home of a replaced block has none, nor has a spare that is not allocated.
 * Checks: TB_OUT_OF_RANGE (shape, r), TB_NO_ROOM (scratch), TB_BAD_TABLE, TB_NO_SUCH_SECTOR. Answers found and block. Writes nothing but
 * scratch. */
tb_named tb_spare_block(
    tb_shape shape, uint32_t r, const uint32_t *table, size_t table_length, uint32_t *scratch, size_t scratch_length, uint32_t sector);

/* The same, for a sector that is asked for by cylinder, head and sector.
 * Checks: TB_OUT_OF_RANGE (shape, r), TB_NO_ROOM (scratch), TB_BAD_TABLE, TB_NO_SUCH_SECTOR (any of the three). Answers found and block.
 * Writes nothing but scratch. */
tb_named tb_spare_block_at(
    tb_shape shape, uint32_t r, const uint32_t *table, size_t table_length, uint32_t *scratch, size_t scratch_length,
    uint32_t cylinder, uint32_t head, uint32_t sector);

/* Replaces a block by the free spare that comes first in its search order. Where the block lies on a spare already, that one is marked as
 * unusable.
 * Checks: TB_OUT_OF_RANGE (shape, r), TB_NO_ROOM (scratch), TB_BAD_TABLE, TB_NO_SUCH_BLOCK, TB_NO_SPARE. Answers place. Writes scratch, and
 * one or two descriptors of table: the block's new one, at place, and its old one, where it has one. It writes no other. */
tb_replaced tb_spare_replace(
    tb_shape shape, uint32_t r, uint32_t *table, size_t table_length, uint32_t *scratch, size_t scratch_length, uint32_t block);

/* Counts the descriptors of each code.
 * Checks: TB_OUT_OF_RANGE (shape, r), TB_NO_ROOM (scratch), TB_BAD_TABLE. Answers free, primary, elsewhere, unusable and null. Writes nothing
 * but scratch. */
tb_counted tb_spare_census(
    tb_shape shape, uint32_t r, const uint32_t *table, size_t table_length, uint32_t *scratch, size_t scratch_length);

/* The first table of a drive, from the list of its bad sectors: the spares among them are marked as unusable, then each home among them is
 * given a spare, the lowest block first.
 * Checks: TB_OUT_OF_RANGE (shape, r), list, TB_NO_ROOM, TB_NO_SPARE. Answers length. Writes the table into the first places of room. */
tb_written tb_spare_first(tb_shape shape, uint32_t r, const uint32_t *list, size_t list_length, uint32_t *room, size_t room_length);

/* ---- Sector images ---- */

/* size is how many data bytes the sectors of the drive have, TB_DATA_SIZE or TB_WIDE_SIZE. It is one of the drive's numbers, and tb_mode finds it.
 * Any other size is refused TB_OUT_OF_RANGE, before all else. An image of the one size is refused TB_WRONG_LENGTH where the other is given.
 *
 * An image has TB_IMAGE_LENGTH(size) bytes. It begins with four copies of one number, which says a code and a block. Then come the `size` bytes of
 * data, and the 16-bit code of the data, which is another thing. Three of the four copies must be alike as whole 32-bit numbers, else no number
 * stands in the header: TB_NO_ADDRESS.
 *
 * The code to write for a block is TB_AT_HOME where the block lies at home. For a replaced block it is that of its descriptor. So after a
 * replacement it is TB_CODE_OF(table[place]), with the place that tb_spare_replace answers. An image with TB_AT_HOME has the plain block number in
 * its header. */

/* Writes the image of a block's data: a good one, or, where forced is true, one that tells every reader that the data was bad already.
 * Checks: TB_OUT_OF_RANGE (size), TB_WRONG_LENGTH (data is not `size` bytes), TB_NO_SUCH_BLOCK (block is TB_CODE_UNIT or more), TB_UNKNOWN_CODE
 * (code), TB_NO_ROOM (room is less than TB_IMAGE_LENGTH(size) bytes). Answers length, TB_IMAGE_LENGTH(size). Writes the image into the first bytes
 * of room. */
tb_written tb_image_write(
    uint32_t size, uint32_t block, uint32_t code, const uint8_t *data, size_t data_length, bool forced, uint8_t *room, size_t room_length);

/* The code and the block that the header of an image says.
 * Checks: TB_OUT_OF_RANGE (size), TB_WRONG_LENGTH (image is not TB_IMAGE_LENGTH(size) bytes), TB_NO_ADDRESS, TB_OTHER_BLOCK (a code that no header
 * may have). Answers code and block. Writes nothing. */
tb_headed tb_image_header(uint32_t size, const uint8_t *image, size_t image_length);

/* The verdict on the image of a block with a code. Where it accepts, the data is the `size` bytes from TB_HEADER_SIZE on. The header must say
 * this code and this block, each by itself. No header says a code that is none of the three, or a block of TB_CODE_UNIT or more: where one is
 * expected, every number that stands in the header is refused TB_OTHER_BLOCK.
 * Checks: TB_OUT_OF_RANGE (size), TB_WRONG_LENGTH (image is not TB_IMAGE_LENGTH(size) bytes), TB_NO_ADDRESS, TB_OTHER_BLOCK, then TB_FORCED_ERROR
 * or TB_BAD_CODE. Writes nothing. */
tb_judged tb_image_judge(uint32_t size, const uint8_t *image, size_t image_length, uint32_t block, uint32_t code);

/* ---- The mode sector: which size the sectors of a drive have ---- */

/* The format table of a drive says it. The table stands in the XBN area in several copies, which begin at XBN 0, apart, 2 x apart and so on. The
 * sectors of this area always have TB_DATA_SIZE bytes of data, whatever size the others have. images are their images one after another from XBN 0
 * on, TB_IMAGE_LENGTH(TB_DATA_SIZE) bytes each, as many as were read.
 *
 * The first sector of a copy is the mode sector. Its first word, the high byte first, is the size. A copy says its size where this sector is good by
 * tb_image_judge, with TB_DATA_SIZE, the XBN for the block and TB_AT_HOME, and where the word is TB_DATA_SIZE or TB_WIDE_SIZE. Any other copy is
 * passed over: one that is damaged, forced, headed otherwise or cut short by the end of the images, and one with any other word. */

/* The size of the first copy that says one.
 * Checks: TB_OUT_OF_RANGE (apart is 0), TB_NO_MODE (no copy says a size). Answers size. Writes nothing. */
tb_sized tb_mode(const uint8_t *images, size_t images_length, uint32_t apart);

/* ---- A read of a block of a revectored drive, from two track images ---- */

/* A block is read in four steps: tb_read_tracks names its two tracks, the board fetches their images, tb_read_judge judges the block in them, and
 * tb_read_data says where its data lies. If both are one track, it is fetched once and its image is lent as both.
 *
 * size is that of the drive's sectors, as for the calls on images; tb_read_tracks takes none. home is the image of the block's home track, and spare
 * the image of its spare's track. For a block at home, spare may be the image of any track. Both are TB_TRACK_LENGTH(size, sectors) bytes long. A
 * block lies in one of them, and no byte of the other is looked at.
 *
 * The header must say the block, and the code that the table says: that of the block's descriptor, or TB_AT_HOME where the block lies at home. So
 * the number that must stand in it is the descriptor itself, or the plain block number. */

/* The tracks to fetch for a read of a block: its home track, and the track that it lies on, which for a block at home is the home track too. The
 * shift from the first to the second is that of tb_spare_shift.
 * Checks: TB_OUT_OF_RANGE (shape, r), TB_NO_ROOM (scratch), TB_BAD_TABLE, TB_NO_SUCH_BLOCK. Answers home_cylinder, home_head, cylinder, head and
 * shift. Writes nothing but scratch. */
tb_tracks tb_read_tracks(
    tb_shape shape, uint32_t r, const uint32_t *table, size_t table_length, uint32_t *scratch, size_t scratch_length, uint32_t block);

/* The verdict on a block.
 * Checks: TB_OUT_OF_RANGE (size, shape, r), TB_NO_ROOM (scratch), TB_BAD_TABLE, TB_NO_SUCH_BLOCK, TB_WRONG_LENGTH (either image), TB_NO_ADDRESS,
 * TB_OTHER_BLOCK, then TB_FORCED_ERROR or TB_BAD_CODE. Writes nothing but scratch. */
tb_judged tb_read_judge(
    uint32_t size, tb_shape shape, uint32_t r, const uint32_t *table, size_t table_length, uint32_t *scratch, size_t scratch_length, uint32_t block,
    const uint8_t *home, size_t home_length, const uint8_t *spare, size_t spare_length);

/* Where the data of a good block lies: `size` bytes, from offset on, of home where image is 0 and of spare where it is 1.
 * Checks: those of tb_read_judge, with the same number. Answers image and offset. Writes nothing but scratch. */
tb_spotted tb_read_data(
    uint32_t size, tb_shape shape, uint32_t r, const uint32_t *table, size_t table_length, uint32_t *scratch, size_t scratch_length, uint32_t block,
    const uint8_t *home, size_t home_length, const uint8_t *spare, size_t spare_length);

#ifdef __cplusplus
}
#endif

#endif
