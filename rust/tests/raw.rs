//! The C face itself, without the wrappers: the numbers beside a refusal, and null slices.

use std::ptr::{null, null_mut};

use tautberry::{image_length, track_length, Address, Cursor, Shape};
use tautberry::{DATA_SIZE, LIST_MOST, PAGE_MOST, WIDE_SIZE};

// The answers are read as one row of numbers, not by their fields.
#[allow(dead_code)]
#[path = "../src/ffi.rs"]
mod ffi;

use ffi::*;

/// C 2, H 2, S 5, r 2: 12 blocks, 20 sectors, 8 spares; each head is a group.
const SHAPE: Shape = Shape { groups: 2, tracks: 1, offset: 3, ..Shape::ungrouped(2, 2, 5) };
const R: u32 = 2;
const SIZES: [u32; 2] = [DATA_SIZE, WIDE_SIZE];
const NO_SIZES: [u32; 6] = [0, 511, 513, 575, 577, u32::MAX];
/// No list has it.
const STRAY: Cursor = Cursor { block: 5, skipped: 4_000 };
/// Scratch for the drive, and two numbers more.
const SCRATCH: [u32; 10] = [u32::MAX; 10];
/// The same after a call that has checked the table.
const CLEARED: [u32; 10] = [0, 0, 0, 0, 0, 0, 0, 0, u32::MAX, u32::MAX];

/// An answer's numbers in their order; every field of every answer is 32 bits wide.
fn numbers<T>(answer: T) -> Vec<u32> {
    let count = size_of::<T>() / size_of::<u32>();
    let first = std::ptr::from_ref(&answer).cast::<u32>();
    // SAFETY: an answer is `#[repr(C)]` and has nothing but 32-bit numbers.
    unsafe { std::slice::from_raw_parts(first, count) }.to_vec()
}

/// The refusal's number, and 0 in every other place.
fn refused<T>(call: &str, number: u32, answer: T) {
    refused_numbers(call, number, &numbers(answer));
}

/// The same of an answer's numbers.
fn refused_numbers(call: &str, number: u32, answer: &[u32]) {
    let mut expected = vec![0; answer.len()];
    expected[0] = number;
    assert_eq!(answer, expected, "{call}");
}

/// An N and a list for each of the refusals 1 to 4.
fn bad_spaces() -> [(u32, u32, Vec<u32>); 4] {
    let too_long = (0..=LIST_MOST as u32).collect();
    [(1, 0, vec![3]), (2, 20, too_long), (3, 20, vec![3, 3]), (4, 20, vec![3, 20])]
}

/// The drive of 20 sectors, or one out of range where N is 0.
fn shape_of(n: u32) -> Shape {
    Shape { heads: if n == 0 { 0 } else { 2 }, ..SHAPE }
}

#[test]
fn refused_skipping_answers_zeros() {
    for (number, n, list) in bad_spaces() {
        let (at, len, shape) = (list.as_ptr(), list.len(), shape_of(n));
        // SAFETY: the pointer and length are those of a live slice.
        unsafe {
            refused("tb_skip_sector", number, tb_skip_sector(n, at, len, 3));
            refused("tb_skip_block", number, tb_skip_block(n, at, len, 3));
            refused("tb_job_start", number, tb_job_start(n, at, len, 3));
            refused("tb_job_check", number, tb_job_check(STRAY, n, at, len));
            refused("tb_skipped_address", number, tb_skipped_address(shape, at, len, 3));
            refused("tb_skipped_block", number, tb_skipped_block(shape, at, len, 1, 1, 3));
        }
    }
    let list = [3];
    let (at, len) = (list.as_ptr(), list.len());
    // SAFETY: the pointer and length are those of a live slice.
    unsafe {
        refused("tb_skip_sector", 5, tb_skip_sector(20, at, len, 19));
        refused("tb_skip_block", 6, tb_skip_block(20, at, len, 20));
        refused("tb_job_start", 5, tb_job_start(20, at, len, 19));
        refused("tb_job_check", 9, tb_job_check(STRAY, 20, at, len));
        refused("tb_skipped_address", 5, tb_skipped_address(SHAPE, at, len, 19));
        refused("tb_skipped_block", 6, tb_skipped_block(SHAPE, at, len, 1, 2, 3));
        refused("tb_shape_sector", 1, tb_shape_sector(shape_of(0), 1, 1, 1));
        refused("tb_shape_sector", 6, tb_shape_sector(SHAPE, 1, 1, 5));
        refused("tb_shape_address", 1, tb_shape_address(shape_of(0), 1));
        refused("tb_shape_address", 6, tb_shape_address(SHAPE, 20));
    }
}

#[test]
fn a_refused_step_hands_back_the_cursor() {
    let step = |number: u32, cursor: Cursor, n: u32, list: &[u32]| {
        // SAFETY: the pointer and length are those of a live slice.
        let answer = unsafe { tb_job_step(cursor, n, list.as_ptr(), list.len()) };
        let expected = [number, 0, cursor.block, cursor.skipped];
        assert_eq!(numbers(answer), expected, "tb_job_step");
    };
    for (number, n, list) in bad_spaces() {
        step(number, STRAY, n, &list);
    }
    step(9, STRAY, 20, &[3]);
    step(5, Cursor { block: 19, skipped: 1 }, 20, &[3]);
}

/// A start and a check answer sector 0 beside the cursor.
#[test]
fn no_sector_beside_a_cursor_that_does_not_step() {
    let list = [3];
    let cursor = Cursor { block: 5, skipped: 1 };
    // SAFETY: the pointer and length are those of a live slice.
    unsafe {
        let started = tb_job_start(20, list.as_ptr(), list.len(), 5);
        assert_eq!(numbers(started), [0, 0, 5, 1], "tb_job_start");
        let checked = tb_job_check(cursor, 20, list.as_ptr(), list.len());
        assert_eq!(numbers(checked), [0, 0, 5, 1], "tb_job_check");
    }
}

/// "No block" is accepted, and its block is 0.
#[test]
fn no_block_answers_zeros() {
    let (list, table, mut scratch) = ([3], table(), SCRATCH);
    let (at, len) = (table.as_ptr(), table.len());
    // SAFETY: the pointers and lengths are those of live slices.
    unsafe {
        let on = tb_skip_block(20, list.as_ptr(), list.len(), 3);
        assert_eq!(numbers(on), [0, 0, 0], "tb_skip_block");
        let on = tb_skipped_block(SHAPE, list.as_ptr(), list.len(), 0, 0, 3);
        assert_eq!(numbers(on), [0, 0, 0], "tb_skipped_block");
        // The home of block 7.
        let on = tb_spare_block(SHAPE, R, at, len, scratch.as_mut_ptr(), scratch.len(), 11);
        assert_eq!(numbers(on), [0, 0, 0], "tb_spare_block");
        assert_eq!(scratch, CLEARED, "tb_spare_block");
        scratch = SCRATCH;
        let on = tb_spare_block_at(SHAPE, R, at, len, scratch.as_mut_ptr(), scratch.len(), 1, 0, 1);
        assert_eq!(numbers(on), [0, 0, 0], "tb_spare_block_at");
        assert_eq!(scratch, CLEARED, "tb_spare_block_at");
    }
}

#[test]
fn refused_pages_answer_zeros() {
    let read = |number: u32, page: &[u8], room: &mut [u32]| {
        // SAFETY: pointers and lengths are those of live slices.
        let answer =
            unsafe { tb_page_read(page.as_ptr(), page.len(), room.as_mut_ptr(), room.len()) };
        refused("tb_page_read", number, answer);
    };
    let page = |first: u8, second: u8| {
        [0, 0, 0, 22, 1, 1, 0, 0, 0, 20, 0, 0, 0, first, 0, 0, 0, second, 255, 255, 255, 255]
    };
    read(8, &page(3, 7)[1..], &mut [0; 2]);
    read(3, &page(3, 3), &mut [0; 2]);
    read(4, &page(3, 20), &mut [0; 2]);
    read(7, &page(3, 7), &mut [0; 1]);

    let write = |number: u32, n: u32, kind: u32, list: &[u32], length: usize| {
        let mut room = vec![0; length];
        // SAFETY: pointers and lengths are those of live slices.
        let answer = unsafe {
            tb_page_write(n, kind, list.as_ptr(), list.len(), room.as_mut_ptr(), room.len())
        };
        refused("tb_page_write", number, answer);
    };
    for (number, n, list) in bad_spaces() {
        write(number, n, 1, &list, PAGE_MOST + 4);
    }
    write(8, 20, 256, &[3], 20);
    write(7, 20, 1, &[3], 17);
}

#[test]
fn refused_nights_answer_zeros() {
    let night = |number: u32, n: u32, p: &[u32], option: u32, d: &[u32], length: usize| {
        let (mut grown, mut list) = (vec![0; length], vec![0; length]);
        // SAFETY: pointers and lengths are those of live slices.
        let answer = unsafe {
            tb_format(
                n,
                p.as_ptr(),
                p.len(),
                null(),
                0,
                1,
                option,
                d.as_ptr(),
                d.len(),
                grown.as_mut_ptr(),
                grown.len(),
                list.as_mut_ptr(),
                list.len(),
            )
        };
        refused("tb_format", number, answer);
    };
    for (number, n, list) in bad_spaces() {
        night(number, n, &list, 5, &[3], 9);
        night(number, n, &[3], 5, &list, 9);
    }
    night(10, 20, &[3], 4, &[3], 9);
    night(7, 20, &[3], 5, &[3, 5], 1);
}

/// The drive's table with block 7 at place 4 and no other.
fn table() -> Vec<u32> {
    let mut table = vec![0; 128];
    table[4] = 0x2000_0007;
    table[8..].fill(0x8000_0000);
    table
}

/// The same with block 8 at place 3, although place 5 is free and comes first in its search order.
fn table_with_a_hole() -> Vec<u32> {
    let mut table = table();
    table[3] = 0x3000_0008;
    table
}

/// The drive's table with every place taken or unusable.
fn full_table() -> Vec<u32> {
    let mut table = table();
    for word in &mut table[..8] {
        if *word == 0 {
            *word = 0x4000_0000;
        }
    }
    table
}

/// What a call leaves of the scratch where it gives this number.
fn left(number: u32) -> [u32; 10] {
    match number {
        1 | 7 => SCRATCH,
        _ => CLEARED,
    }
}

#[test]
fn refused_spares_answer_zeros() {
    let (mut bad, holed) = (table(), table_with_a_hole());
    bad[0] = 0x1000_0000;
    // The number by block, the number by sector, r, the table, how much of the scratch is lent, and what
    // is asked for.
    let cases = [
        (1, 1, 5, table(), 10, 3),
        (1, 1, 5, table(), 0, 3),
        (7, 7, R, bad.clone(), 7, 900),
        (7, 7, R, holed.clone(), 7, 3),
        (11, 11, R, bad, 10, 900),
        (11, 11, R, holed, 10, 3),
        (5, 6, R, table(), 10, 900),
    ];
    for (by_block, by_sector, r, mut table, lent, asked) in cases {
        let (before, at, len) = (table.clone(), table.as_mut_ptr(), table.len());
        // Scratch for each of the eight calls.
        let mut scratch = [SCRATCH; 8];
        let to = scratch.each_mut().map(|numbers| numbers.as_mut_ptr());
        // SAFETY: the pointers and lengths are those of live slices, and no scratch overlaps the table.
        unsafe {
            let on = tb_spare_sector(SHAPE, r, at, len, to[0], lent, asked);
            refused("tb_spare_sector", by_block, on);
            let on = tb_spare_address(SHAPE, r, at, len, to[1], lent, asked);
            refused("tb_spare_address", by_block, on);
            let shift = tb_spare_shift(SHAPE, r, at, len, to[2], lent, asked);
            refused("tb_spare_shift", by_block, shift);
            let block = tb_spare_block(SHAPE, r, at, len, to[3], lent, asked);
            refused("tb_spare_block", by_sector, block);
            let block = tb_spare_block_at(SHAPE, r, at, len, to[4], lent, 1, 1, asked);
            refused("tb_spare_block_at", by_sector, block);
            let replaced = tb_spare_replace(SHAPE, r, at, len, to[5], lent, asked);
            refused("tb_spare_replace", by_block, replaced);
            let count = tb_spare_census(SHAPE, r, at, len, to[6], lent);
            if by_block != 5 {
                refused("tb_spare_census", by_block, count);
            }
            let tracks = tb_read_tracks(SHAPE, r, at, len, to[7], lent, asked);
            refused("tb_read_tracks", by_block, tracks);
        }
        assert_eq!((table, scratch), (before, [left(by_block); 8]), "{by_block}");
    }
    // Block 7 lies on a spare, block 0 at home.
    for block in [7, 0] {
        let (mut table, mut scratch) = (full_table(), SCRATCH);
        let (at, len) = (table.as_mut_ptr(), table.len());
        // SAFETY: the pointers and lengths are those of live slices that do not overlap.
        let answer = unsafe {
            tb_spare_replace(SHAPE, R, at, len, scratch.as_mut_ptr(), scratch.len(), block)
        };
        refused("tb_spare_replace", 13, answer);
        assert_eq!((table, scratch), (full_table(), CLEARED), "tb_spare_replace");
    }

    let first = |number: u32, r: u32, list: &[u32], length: usize| {
        let mut room = vec![0; length];
        // SAFETY: pointers and lengths are those of live slices.
        let answer = unsafe {
            tb_spare_first(SHAPE, r, list.as_ptr(), list.len(), room.as_mut_ptr(), room.len())
        };
        refused("tb_spare_first", number, answer);
    };
    for (number, n, list) in bad_spaces() {
        first(number, if n == 0 { 0 } else { R }, &list, 128);
    }
    first(7, R, &[3], 127);
    first(13, R, &[0, 1, 2, 5, 6, 7, 10, 11, 12], 128);
}

/// A block at home writes the descriptor at its place, a block on a spare also that of its old place.
#[test]
fn a_replacement_answers_its_place() {
    let (mut table, mut expected) = (table(), table());
    expected[5] = 0x3000_0008;
    let mut replace = |block: u32, place: u32, expected: &[u32]| {
        let mut scratch = SCRATCH;
        let (at, len) = (table.as_mut_ptr(), table.len());
        // SAFETY: the pointers and lengths are those of live slices that do not overlap.
        let answer = unsafe {
            tb_spare_replace(SHAPE, R, at, len, scratch.as_mut_ptr(), scratch.len(), block)
        };
        assert_eq!(numbers(answer), [0, place], "tb_spare_replace");
        assert_eq!((&table[..], scratch), (expected, CLEARED), "tb_spare_replace");
    };
    replace(8, 5, &expected);
    (expected[4], expected[3]) = (0x4000_0000, 0x3000_0007);
    replace(7, 3, &expected);
}

/// The home track comes before the track that the block lies on, the cylinder before the head, and the shift
/// last.
#[test]
fn tracks_answer_home_then_there() {
    // C 9, H 8, S 5, r 1: block 281 is at home on track 70 and lies on the spare of track 26, block 41 on track
    // 10 and on the spare of track 60. Every other spare is unusable.
    let shape = Shape { groups: 4, tracks: 2, offset: 3, ..Shape::ungrouped(9, 8, 5) };
    let mut table = vec![0x4000_0000; 128];
    (table[26], table[60]) = (0x3000_0000 + 281, 0x3000_0000 + 41);
    table[72..].fill(0x8000_0000);
    let before = table.clone();
    let rows = [
        (281, [0, 8, 6, 3, 2, -5]),
        (41, [0, 1, 2, 7, 4, 6]),
        (282, [0, 8, 6, 8, 6, 0]),
        (107, [0, 3, 2, 3, 2, 0]),
    ];
    for (block, expected) in rows {
        let mut scratch = [u32::MAX; 75];
        let (at, len) = (table.as_ptr(), table.len());
        // SAFETY: the pointers and lengths are those of live slices that do not overlap.
        let answer = unsafe {
            tb_read_tracks(shape, 1, at, len, scratch.as_mut_ptr(), scratch.len(), block)
        };
        assert_eq!(numbers(answer), expected.map(|number: i32| number as u32), "block {block}");
        assert!(scratch[..72].iter().all(|number| *number == 0), "block {block}");
        assert_eq!(scratch[72..], [u32::MAX; 3], "block {block}");
    }
    assert_eq!(table, before);
}

/// Every call that takes a shape, where the groups are at fault and nothing else is.
#[test]
fn bad_groups_answer_zeros() {
    let bad = [
        (0, 1, 3),
        (2, 0, 3),
        (2, 2, 3),
        (1, 1, 3),
        (2, 1, 5),
        (2, 1, u32::MAX),
        (65_536, 65_536, 3),
        (2_147_483_649, 2, 3),
    ];
    let takes_shape = include_str!("../src/ffi.rs").matches("shape: Shape").count();
    let (mut table, mut room, mut scratch) = (table(), vec![7; 128], SCRATCH);
    let (size, track) = (WIDE_SIZE, vec![0; track_length(WIDE_SIZE, 5)]);
    for (groups, tracks, offset) in bad {
        let shape = Shape { groups, tracks, offset, ..SHAPE };
        let (list, at, len) = (null(), table.as_ptr(), table.len());
        let (to, lent) = (scratch.as_mut_ptr(), scratch.len());
        let (image, bytes) = (track.as_ptr(), track.len());
        // SAFETY: the C face takes null where the length is 0; other pointers are of live slices.
        let answers = unsafe {
            [
                ("tb_shape_sector", numbers(tb_shape_sector(shape, 1, 1, 1))),
                ("tb_shape_address", numbers(tb_shape_address(shape, 18))),
                ("tb_skipped_address", numbers(tb_skipped_address(shape, list, 0, 18))),
                ("tb_skipped_block", numbers(tb_skipped_block(shape, list, 0, 1, 1, 1))),
                ("tb_spare_sector", numbers(tb_spare_sector(shape, R, at, len, to, lent, 9))),
                ("tb_spare_address", numbers(tb_spare_address(shape, R, at, len, to, lent, 9))),
                ("tb_spare_shift", numbers(tb_spare_shift(shape, R, at, len, to, lent, 9))),
                ("tb_spare_block", numbers(tb_spare_block(shape, R, at, len, to, lent, 9))),
                (
                    "tb_spare_block_at",
                    numbers(tb_spare_block_at(shape, R, at, len, to, lent, 1, 1, 1)),
                ),
                ("tb_spare_census", numbers(tb_spare_census(shape, R, at, len, to, lent))),
                (
                    "tb_spare_replace",
                    numbers(tb_spare_replace(shape, R, table.as_mut_ptr(), len, to, lent, 9)),
                ),
                (
                    "tb_spare_first",
                    numbers(tb_spare_first(shape, R, list, 0, room.as_mut_ptr(), room.len())),
                ),
                ("tb_read_tracks", numbers(tb_read_tracks(shape, R, at, len, to, lent, 9))),
                (
                    "tb_read_judge",
                    numbers(tb_read_judge(
                        size, shape, R, at, len, to, lent, 9, image, bytes, image, bytes,
                    )),
                ),
                (
                    "tb_read_data",
                    numbers(tb_read_data(
                        size, shape, R, at, len, to, lent, 9, image, bytes, image, bytes,
                    )),
                ),
            ]
        };
        assert_eq!(answers.len(), takes_shape, "a call is left out");
        for (call, answer) in answers {
            refused_numbers(call, 1, &answer);
        }
    }
    assert_eq!((table, room, scratch), (self::table(), vec![7; 128], SCRATCH));
}

/// The image of block 7 at its primary spare, with zeros for data, good or forced.
fn image(size: u32, forced: bool) -> Vec<u8> {
    let mut image = [0x20, 0, 0, 7].repeat(4);
    image.resize(16 + size as usize, 0);
    image.extend(if forced { [0xA5, 0xC3] } else { [0x5A, 0x3C] });
    image
}

/// Images of block 7 at its primary spare that are refused so, by the call that reads a header alone and by the
/// others: with another block, each other code of four bits, and all else.
fn bad_images(size: u32) -> Vec<(u32, u32, Vec<u8>)> {
    let mut no_address = image(size, false);
    (no_address[0], no_address[4]) = (0, 0x30);
    let mut other_block = image(size, false);
    other_block[3..16].iter_mut().step_by(4).for_each(|byte| *byte = 8);
    let mut bad_code = image(size, false);
    bad_code[15 + size as usize] ^= 1;
    let mut images = vec![
        (14, 14, image(DATA_SIZE + WIDE_SIZE - size, false)),
        (14, 14, image(size, false)[1..].to_vec()),
        (15, 15, no_address),
        (0, 16, other_block),
        (0, 17, image(size, true)),
        (0, 18, bad_code),
    ];
    for code in (0..16).filter(|code| *code != 2) {
        let mut other_code = image(size, false);
        other_code[..16].iter_mut().step_by(4).for_each(|byte| *byte = 16 * code);
        images.push((if [0, 3].contains(&code) { 0 } else { 16 }, 16, other_code));
    }
    images
}

#[test]
fn refused_images_answer_zeros() {
    for size in SIZES {
        for (by_header, number, image) in bad_images(size) {
            // SAFETY: the pointer and length are those of a live slice.
            unsafe {
                let (at, len) = (image.as_ptr(), image.len());
                refused("tb_image_judge", number, tb_image_judge(size, at, len, 7, 2));
                if by_header != 0 {
                    refused("tb_image_header", by_header, tb_image_header(size, at, len));
                }
                for none in NO_SIZES {
                    refused("tb_image_judge", 1, tb_image_judge(none, at, len, 7, 2));
                    refused("tb_image_header", 1, tb_image_header(none, at, len));
                }
            }
        }
        // Pairs of a block and a code that the image is not of.
        let good = image(size, false);
        let pairs = [(7, 0), (7, 1), (7, 3), (7, 18), (8, 2), (268_435_463, 1), (536_870_919, 0)];
        for (block, code) in pairs {
            // SAFETY: the pointer and length are those of a live slice.
            let answer = unsafe { tb_image_judge(size, good.as_ptr(), good.len(), block, code) };
            refused("tb_image_judge", 16, answer);
        }
    }
}

#[test]
fn refused_writes_answer_zeros() {
    // The number, the size, the block, the code, the lengths of the data and of the room.
    let mut writes = vec![];
    for size in SIZES {
        let (data, room, other) = (size as usize, image_length(size), DATA_SIZE + WIDE_SIZE - size);
        writes.extend([
            (14, size, 268_435_456, 1, data - 1, room - 1),
            (14, size, 7, 2, other as usize, room),
            (5, size, 268_435_456, 1, data, room - 1),
            (22, size, 268_435_455, 1, data, room - 1),
            (22, size, 7, 15, data, room),
            (22, size, 7, u32::MAX, data, room),
            (7, size, 7, 2, data, room - 1),
        ]);
        for none in NO_SIZES {
            writes.push((1, none, 268_435_456, 1, data - 1, 0));
            writes.push((1, none, 7, 2, data, room));
        }
    }
    for (number, size, block, code, length, room_length) in writes {
        let (data, mut room) = (vec![0; length], vec![0xA5; room_length]);
        let (at, len) = (data.as_ptr(), data.len());
        // SAFETY: pointers and lengths are those of live slices.
        let answer = unsafe {
            tb_image_write(size, block, code, at, len, true, room.as_mut_ptr(), room.len())
        };
        refused("tb_image_write", number, answer);
        assert_eq!(room, vec![0xA5; room_length], "tb_image_write");
    }
}

/// The code comes before the block.
#[test]
fn a_header_answers_code_and_block() {
    for size in SIZES {
        let image = image(size, false);
        let (at, len) = (image.as_ptr(), image.len());
        // SAFETY: the pointer and length are those of a live slice.
        unsafe {
            assert_eq!(numbers(tb_image_header(size, at, len)), [0, 2, 7]);
            assert_eq!(numbers(tb_image_judge(size, at, len, 7, 2)), [0]);
        }
        let (data, mut room) = (vec![0; size as usize], vec![0; image_length(size)]);
        let (at, len) = (data.as_ptr(), data.len());
        // SAFETY: pointers and lengths are those of live slices.
        let answer =
            unsafe { tb_image_write(size, 7, 2, at, len, false, room.as_mut_ptr(), room.len()) };
        assert_eq!((numbers(answer), room), (vec![0, size + 18], image));
    }
}

#[test]
fn refused_reads_answer_zeros() {
    // The number and the size, r, the table, how much of the scratch is lent, the block, the spare's image.
    let read = |(number, size): (u32, u32), r, table: &[u32], lent, block, spare: &[u8]| {
        let home = vec![0; track_length(size.min(WIDE_SIZE), 5)];
        let (at, len) = (table.as_ptr(), table.len());
        let (home, home_len) = (home.as_ptr(), home.len());
        let (spare, spare_len) = (spare.as_ptr(), spare.len());
        let (mut first, mut again) = (SCRATCH, SCRATCH);
        let (to, to_again) = (first.as_mut_ptr(), again.as_mut_ptr());
        // SAFETY: pointers and lengths are those of live slices.
        let answers = unsafe {
            (
                tb_read_judge(
                    size, SHAPE, r, at, len, to, lent, block, home, home_len, spare, spare_len,
                ),
                tb_read_data(
                    size, SHAPE, r, at, len, to_again, lent, block, home, home_len, spare,
                    spare_len,
                ),
            )
        };
        refused("tb_read_judge", number, answers.0);
        refused("tb_read_data", number, answers.1);
        assert_eq!((first, again), (left(number), left(number)), "{number}");
    };
    let table = table();
    for size in SIZES {
        let length = image_length(size);
        // Block 7 is on place 4, sector 3 of its track.
        let mut spare = vec![0; 5 * length];
        spare[3 * length..4 * length].copy_from_slice(&image(size, false));
        for none in NO_SIZES {
            read((1, none), 5, &table[1..], 0, 12, &spare[1..]);
            read((1, none), R, &table, 10, 7, &spare);
        }
        read((1, size), 5, &table, 0, 7, &spare);
        read((7, size), R, &table[1..], 7, 12, &spare[1..]);
        read((11, size), R, &table[1..], 10, 12, &spare[1..]);
        read((11, size), R, &table_with_a_hole(), 10, 7, &spare);
        read((5, size), R, &table, 10, 12, &spare[1..]);
        read((14, size), R, &table, 10, 7, &spare[1..]);
        // A home track of the right length, and a spare's of the other size.
        let other = vec![0; track_length(DATA_SIZE + WIDE_SIZE - size, 5)];
        read((14, size), R, &table, 10, 7, &other);
        for (_, number, image) in bad_images(size).into_iter().filter(|(_, number, _)| *number > 14)
        {
            spare[3 * length..4 * length].copy_from_slice(&image);
            read((number, size), R, &table, 10, 7, &spare);
        }
    }
}

/// The image comes before the offset, and the offset is in the image of a track of the size.
#[test]
fn a_read_answers_image_and_offset() {
    let table = table();
    for size in SIZES {
        let length = image_length(size);
        let (home, mut spare) = (vec![0xA5; 5 * length], vec![0xA5; 5 * length]);
        spare[3 * length..4 * length].copy_from_slice(&image(size, false));
        let (at, len) = (table.as_ptr(), table.len());
        let (home, spare, bytes) = (home.as_ptr(), spare.as_ptr(), spare.len());
        let mut scratch = SCRATCH;
        let (to, lent) = (scratch.as_mut_ptr(), scratch.len());
        // SAFETY: pointers and lengths are those of live slices.
        let answer = unsafe {
            tb_read_data(size, SHAPE, R, at, len, to, lent, 7, home, bytes, spare, bytes)
        };
        assert_eq!(numbers(answer), [0, 1, 3 * (size + 18) + 16], "tb_read_data");
        assert_eq!(scratch, CLEARED, "tb_read_data");
    }
}

/// The size comes behind the refusal, and is 0 beside one.
#[test]
fn a_mode_answers_its_size() {
    let of_mode = |size: u32| {
        let mut image = vec![0; 530];
        image[16..18].copy_from_slice(&(size as u16).to_be_bytes());
        image[528..].copy_from_slice(if size == 512 { &[0x5B, 0x3C] } else { &[0x5B, 0x1C] });
        image
    };
    for size in SIZES {
        let image = of_mode(size);
        let (at, len) = (image.as_ptr(), image.len());
        // SAFETY: the C face takes null where the length is 0; other pointers are of live slices.
        unsafe {
            assert_eq!(numbers(tb_mode(at, len, 1)), [0, size], "tb_mode");
            assert_eq!(numbers(tb_mode(at, len, u32::MAX)), [0, size], "tb_mode");
            refused("tb_mode", 1, tb_mode(at, len, 0));
            refused("tb_mode", 1, tb_mode(null(), 0, 0));
            refused("tb_mode", 21, tb_mode(at, len - 1, 1));
            refused("tb_mode", 21, tb_mode(null(), 0, 1));
            refused("tb_mode", 21, tb_mode(null(), 0, u32::MAX));
        }
    }
}

/// A null pointer with length 0 is an empty slice, in every place where a slice is taken.
#[test]
fn null_with_length_0_is_an_empty_slice() {
    let start = Cursor::default();
    // SAFETY: the C face takes null where the length is 0.
    unsafe {
        assert_eq!(numbers(tb_skip_sector(20, null(), 0, 3)), [0, 3]);
        assert_eq!(numbers(tb_skip_block(20, null(), 0, 3)), [0, 1, 3]);
        assert_eq!(numbers(tb_job_start(20, null(), 0, 3)), [0, 0, 3, 0]);
        assert_eq!(numbers(tb_job_check(start, 20, null(), 0)), [0, 0, 0, 0]);
        assert_eq!(numbers(tb_job_step(start, 20, null(), 0)), [0, 0, 1, 0]);
        assert_eq!(numbers(tb_skipped_address(SHAPE, null(), 0, 18)), [0, 1, 1, 3, 1]);
        assert_eq!(numbers(tb_skipped_block(SHAPE, null(), 0, 1, 0, 3)), [0, 1, 13]);
    }
}

#[test]
fn null_pages_and_nights() {
    let mut page = [0; 14];
    // SAFETY: the C face takes null where the length is 0; other pointers are of live slices.
    unsafe {
        refused("tb_page_read", 8, tb_page_read(null(), 0, null_mut(), 0));
        refused("tb_page_write", 7, tb_page_write(20, 1, null(), 0, null_mut(), 0));
        let written = tb_page_write(20, 1, null(), 0, page.as_mut_ptr(), page.len());
        assert_eq!(numbers(written), [0, 14]);
        let read = tb_page_read(page.as_ptr(), page.len(), null_mut(), 0);
        assert_eq!(numbers(read), [0, 1, 20, 0]);

        // An empty result needs no room.
        for option in 0..8 {
            let night = tb_format(
                20,
                null(),
                0,
                null(),
                0,
                0,
                option,
                null(),
                0,
                null_mut(),
                0,
                null_mut(),
                0,
            );
            let space = [0, 3, 2, 2, 1, 3, 0, 2][option as usize];
            assert_eq!(numbers(night), [0, 0, 0, space], "option {option}");
        }
        let d = [3];
        let night =
            tb_format(20, null(), 0, null(), 0, 0, 7, d.as_ptr(), 1, null_mut(), 0, null_mut(), 0);
        refused("tb_format", 7, night);
    }
}

#[test]
fn null_tables_and_lists() {
    let (mut room, mut scratch) = ([7; 128], SCRATCH);
    let (to, lent) = (scratch.as_mut_ptr(), scratch.len());
    // SAFETY: the C face takes null where the length is 0; other pointers are of live slices.
    unsafe {
        refused("tb_spare_sector", 11, tb_spare_sector(SHAPE, R, null(), 0, to, lent, 3));
        refused("tb_spare_address", 11, tb_spare_address(SHAPE, R, null(), 0, to, lent, 3));
        refused("tb_spare_shift", 11, tb_spare_shift(SHAPE, R, null(), 0, to, lent, 3));
        refused("tb_spare_block", 11, tb_spare_block(SHAPE, R, null(), 0, to, lent, 3));
        let on = tb_spare_block_at(SHAPE, R, null(), 0, to, lent, 1, 0, 3);
        refused("tb_spare_block_at", 11, on);
        refused("tb_spare_replace", 11, tb_spare_replace(SHAPE, R, null_mut(), 0, to, lent, 3));
        refused("tb_spare_census", 11, tb_spare_census(SHAPE, R, null(), 0, to, lent));
        refused("tb_read_tracks", 11, tb_read_tracks(SHAPE, R, null(), 0, to, lent, 3));
        refused("tb_spare_first", 7, tb_spare_first(SHAPE, R, null(), 0, null_mut(), 0));
        let made = tb_spare_first(SHAPE, R, null(), 0, room.as_mut_ptr(), room.len());
        assert_eq!(numbers(made), [0, 128]);
    }
    assert_eq!(scratch, CLEARED);
    assert_eq!(room[..8], [0; 8]);
    assert_eq!(room[8..], [0x8000_0000; 120]);
}

/// No scratch at all is too little for any drive, and none is looked for where the shape is out of range.
#[test]
fn null_scratch() {
    let (mut table, track) = (table(), vec![0; track_length(DATA_SIZE, 5)]);
    let (len, no, size) = (table.len(), null_mut(), DATA_SIZE);
    let (image, bytes) = (track.as_ptr(), track.len());
    for (number, shape) in [(7, SHAPE), (1, shape_of(0))] {
        let at = table.as_mut_ptr();
        // SAFETY: the C face takes null where the length is 0; other pointers are of live slices.
        unsafe {
            refused("tb_spare_sector", number, tb_spare_sector(shape, R, at, len, no, 0, 3));
            refused("tb_spare_address", number, tb_spare_address(shape, R, at, len, no, 0, 3));
            refused("tb_spare_shift", number, tb_spare_shift(shape, R, at, len, no, 0, 3));
            refused("tb_spare_block", number, tb_spare_block(shape, R, at, len, no, 0, 3));
            let on = tb_spare_block_at(shape, R, at, len, no, 0, 1, 0, 3);
            refused("tb_spare_block_at", number, on);
            refused("tb_spare_replace", number, tb_spare_replace(shape, R, at, len, no, 0, 3));
            refused("tb_spare_census", number, tb_spare_census(shape, R, at, len, no, 0));
            refused("tb_read_tracks", number, tb_read_tracks(shape, R, at, len, no, 0, 3));
            let judged =
                tb_read_judge(size, shape, R, at, len, no, 0, 3, image, bytes, image, bytes);
            refused("tb_read_judge", number, judged);
            let part = tb_read_data(size, shape, R, at, len, no, 0, 3, image, bytes, image, bytes);
            refused("tb_read_data", number, part);
        }
    }
    assert_eq!(table, self::table());
}

#[test]
fn null_images() {
    let table = table();
    let (at, len) = (table.as_ptr(), table.len());
    for size in SIZES {
        let (data, mut scratch) = (vec![0; size as usize], SCRATCH);
        let (to, lent) = (scratch.as_mut_ptr(), scratch.len());
        // SAFETY: the C face takes null where the length is 0; other pointers are of live slices.
        unsafe {
            let written = tb_image_write(size, 7, 2, null(), 0, false, null_mut(), 0);
            refused("tb_image_write", 14, written);
            let (from, bytes) = (data.as_ptr(), data.len());
            let written = tb_image_write(size, 7, 2, from, bytes, false, null_mut(), 0);
            refused("tb_image_write", 7, written);
            refused("tb_image_header", 14, tb_image_header(size, null(), 0));
            refused("tb_image_judge", 14, tb_image_judge(size, null(), 0, 7, 2));
            for (number, at, len) in [(11, null(), 0), (14, at, len)] {
                let judged =
                    tb_read_judge(size, SHAPE, R, at, len, to, lent, 7, null(), 0, null(), 0);
                refused("tb_read_judge", number, judged);
                let part = tb_read_data(size, SHAPE, R, at, len, to, lent, 7, null(), 0, null(), 0);
                refused("tb_read_data", number, part);
            }
        }
        assert_eq!(scratch, CLEARED);
    }
    // Of no size nothing is looked for, and no pointer.
    for size in NO_SIZES {
        // SAFETY: the C face takes null where the length is 0; other pointers are of live slices.
        unsafe {
            let written = tb_image_write(size, 7, 2, null(), 0, false, null_mut(), 0);
            refused("tb_image_write", 1, written);
            refused("tb_image_header", 1, tb_image_header(size, null(), 0));
            refused("tb_image_judge", 1, tb_image_judge(size, null(), 0, 7, 2));
            let no = null_mut();
            let judged = tb_read_judge(size, SHAPE, R, at, len, no, 0, 7, null(), 0, null(), 0);
            refused("tb_read_judge", 1, judged);
            let part = tb_read_data(size, SHAPE, R, at, len, no, 0, 7, null(), 0, null(), 0);
            refused("tb_read_data", 1, part);
        }
    }
}
