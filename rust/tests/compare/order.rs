//! Several faults at once: the first check in the paper's order is the one that refuses.
//!
//! Each call is given an input with all its faults. Then the faults are mended one after the other in
//! the order of the checks, and each time the next number must come up, from library and model.

use tautberry::{format, image, mode, page, reading, shape as shapes, skip, skipped, spares};
use tautberry::{image_length, Cursor, Refusal, Shape, LIST_MOST};

use crate::drawn_images::SIZES;
use crate::drawn_shapes::{grouped, misgrouped, paper, shape};
use crate::model;
use crate::model::format::Night;
use crate::model::image::Read;
use crate::model::skipping;
use crate::shape_calls::{every_call_gives, Rest};

/// N, a list and the number asked for, mended step by step: 1, 2, the lowest place at fault (3, then
/// 4), then the number itself.
fn spaces() -> Vec<(u32, Vec<u32>, u32)> {
    let mut too_long = vec![5, 5, 900];
    too_long.resize(LIST_MOST + 1, 0);
    vec![
        (0, too_long.clone(), 900),
        (100, too_long, 900),
        (100, vec![5, 5, 900], 900),
        (100, vec![900, 5], 900),
        (100, vec![5, 900], 900),
        (100, vec![5, 9], 900),
        (100, vec![5, 9], 50),
    ]
}

/// The numbers of a library's answers, 0 for accepted.
pub fn number<T>(answer: Result<T, Refusal>) -> u32 {
    answer.map_or_else(Refusal::number, |_| 0)
}

/// The same of the model.
pub fn paper_number<T>(answer: Result<T, u32>) -> u32 {
    answer.map_or_else(|number| number, |_| 0)
}

fn same(call: &str, library: Vec<u32>, model: Vec<u32>, expected: &[u32]) {
    assert_eq!(library, expected, "{call}: the library's order");
    assert_eq!(model, expected, "{call}: the model's order");
}

#[test]
fn skipping_in_order() {
    let ask = |call: &dyn Fn(u32, &[u32], u32) -> u32| -> Vec<u32> {
        spaces().iter().map(|(n, list, asked)| call(*n, list, *asked)).collect()
    };
    same(
        "skip::sector_of",
        ask(&|n, list, block| number(skip::sector_of(n, list, block))),
        ask(&|n, list, block| paper_number(skipping::sector_of(n, list, block))),
        &[1, 2, 3, 4, 4, 5, 0],
    );
    same(
        "skip::block_on",
        ask(&|n, list, sector| number(skip::block_on(n, list, sector))),
        ask(&|n, list, sector| paper_number(skipping::block_on(n, list, sector))),
        &[1, 2, 3, 4, 4, 6, 0],
    );
    same(
        "Cursor::start",
        ask(&|n, list, block| number(Cursor::start(n, list, block))),
        ask(&|n, list, block| paper_number(skipping::start(n, list, block))),
        &[1, 2, 3, 4, 4, 5, 0],
    );
    let cursor = |block: u32| Cursor { block, skipped: 2 };
    same(
        "Cursor::check",
        ask(&|n, list, block| number(cursor(block).check(n, list))),
        ask(&|n, list, block| paper_number(skipping::check((block, 2), n, list))),
        &[1, 2, 3, 4, 4, 9, 0],
    );
    same(
        "Cursor::step",
        ask(&|n, list, block| {
            let answer = cursor(block).step(n, list);
            number(answer.map_err(|(refusal, _)| refusal))
        }),
        ask(&|n, list, block| {
            let answer = skipping::step((block, 2), n, list);
            paper_number(answer.map_err(|(number, _)| number))
        }),
        &[1, 2, 3, 4, 4, 9, 0],
    );
    // The cursor after the last block strays before it ends.
    for (skipped, expected) in [(1, 9), (2, 5)] {
        let cursor = Cursor { block: 98, skipped };
        let refused = cursor.step(100, &[5, 9]).map_err(|(refusal, _)| refusal.number());
        assert_eq!(refused.err(), Some(expected));
        let model = skipping::step((98, skipped), 100, &[5, 9]);
        assert_eq!(model.map_err(|(number, _)| number).err(), Some(expected));
    }
}

#[test]
fn shapes_in_order() {
    let drive = shape(5, 4, 5);
    let cases = [(shape(0, 1, 2), 9), (grouped(drive, (2, 3, 0)), 900), (drive, 900), (drive, 2)];
    same(
        "shape::sector_of",
        cases.map(|(drive, asked)| number(shapes::sector_of(drive, asked, 0, 0))).to_vec(),
        cases
            .map(|(drive, asked)| {
                paper_number(model::shape::sector_of(paper(drive), (asked, 0, 0)))
            })
            .to_vec(),
        &[1, 1, 6, 0],
    );
    same(
        "shape::address_of",
        cases.map(|(drive, asked)| number(shapes::address_of(drive, asked))).to_vec(),
        cases
            .map(|(drive, asked)| paper_number(model::shape::address_of(paper(drive), asked)))
            .to_vec(),
        &[1, 1, 6, 0],
    );
}

/// The groups come before the list, the scratch, the table, the number asked for, the room and the images.
#[test]
fn groups_before_all_else() {
    let drives = [shape(5, 4, 5), grouped(shape(5, 4, 5), (2, 2, 3)), shape(2, 7, 64)];
    for drive in drives {
        let (proper, faulty) = (Rest::proper(drive, 2), Rest::faulty(2));
        every_call_gives(drive, &proper, |_| 0);
        let first_fault = |call: &str| match call {
            "shape::sector_of" | "shape::address_of" => 6,
            "skipped::address_of" | "skipped::block_at" | "spares::first_table" => 2,
            _ => 7,
        };
        every_call_gives(drive, &faulty, first_fault);
        let scratch_mended = Rest { scratch: proper.scratch.clone(), ..faulty.clone() };
        every_call_gives(drive, &scratch_mended, |call| match first_fault(call) {
            7 => 11,
            number => number,
        });
        for drive in misgrouped(drive) {
            every_call_gives(drive, &faulty, |_| 1);
            every_call_gives(drive, &proper, |_| 1);
        }
    }
}

/// A drive of 100 sectors in the place of N; out of range where N is 0.
fn shaped(n: u32) -> Shape {
    if n == 0 {
        shape(5, 65, 5)
    } else {
        shape(5, 4, 5)
    }
}

#[test]
fn skipped_drives_in_order() {
    let ask = |call: &dyn Fn(Shape, &[u32], u32) -> u32| -> Vec<u32> {
        spaces().iter().map(|(n, list, asked)| call(shaped(*n), list, *asked)).collect()
    };
    same(
        "skipped::address_of",
        ask(&|drive, list, block| number(skipped::address_of(drive, list, block))),
        ask(&|drive, list, block| paper_number(skipping::address_of(paper(drive), list, block))),
        &[1, 2, 3, 4, 4, 5, 0],
    );
    // Each of the three numbers has its own bound, also where the sector would be on the drive.
    for at in [(5, 0, 0), (0, 4, 0), (0, 0, 5), (4, 3, 5)] {
        let (cylinder, head, sector) = at;
        let drive = shaped(100);
        let library = skipped::block_at(drive, &[5, 900], cylinder, head, sector);
        assert_eq!(number(library), 4);
        let library = skipped::block_at(drive, &[5, 9], cylinder, head, sector);
        assert_eq!(number(library), 6);
        assert_eq!(paper_number(skipping::block_at(paper(drive), &[5, 9], at)), 6);
    }
}

#[test]
fn pages_in_order() {
    // The page's layout, then the list, then the room.
    let strays = model::page::bytes(20, 0, &[7, 7, 30]);
    let mut broken = strays.clone();
    *broken.last_mut().expect("a byte") = 0;
    let outside = model::page::bytes(20, 0, &[7, 30]);
    let proper = model::page::bytes(20, 0, &[7, 9]);
    let cases = [(&broken, 0), (&strays, 0), (&outside, 0), (&proper, 1), (&proper, 2)];
    same(
        "page::read",
        cases.map(|(page, room)| number(page::read(page, &mut vec![0; room]))).to_vec(),
        cases
            .map(|(page, room)| paper_number(model::page::read(page, &mut vec![0; room])))
            .to_vec(),
        &[8, 3, 4, 7, 0],
    );

    // N, kind, list, room.
    let too_long = vec![0; LIST_MOST + 1];
    let cases: [(u32, u32, &[u32], usize); 7] = [
        (0, 2, &too_long, 0),
        (20, 2, &too_long, 0),
        (20, 256, &too_long, 0),
        (20, 1, &too_long, 0),
        (20, 1, &[7, 7, 30], 0),
        (20, 1, &[7, 9], 21),
        (20, 1, &[7, 9], 22),
    ];
    same(
        "page::write",
        cases
            .map(|(n, kind, list, room)| number(page::write(n, kind, list, &mut vec![0; room])))
            .to_vec(),
        cases
            .map(|(n, kind, list, room)| {
                paper_number(model::page::write(n, kind, list, &mut vec![0; room]))
            })
            .to_vec(),
        &[1, 8, 8, 2, 3, 7, 0],
    );
}

#[test]
fn nights_in_order() {
    let most = LIST_MOST as u32;
    let over: Vec<u32> = (0..=most).collect();
    let even: Vec<u32> = (0..most).map(|entry| 2 * entry).collect();
    let n = 2 * most + 100;
    let outside = [n];
    let both = [1, 3];
    let steps: Vec<(Night, usize, u32)> = vec![
        (night(0, &over, &[9, 9], 4, 8, &[9, 9]), 0, 1),
        (night(n, &over, &[9, 9], 4, 8, &[9, 9]), 0, 2),
        (night(n, &outside, &[9, 9], 4, 8, &[9, 9]), 0, 4),
        (night(n, &even, &[9, 9], 4, 8, &[9, 9]), 0, 3),
        (night(n, &even, &both, 4, 8, &[9, 9]), 0, 10),
        (night(n, &even, &both, 3, 8, &[9, 9]), 0, 10),
        // A list with an option that takes none, before the length of the list in use.
        (night(n, &even, &both, 3, 6, &[9, 9]), 0, 10),
        // The list in use, before any look at D.
        (night(n, &even, &both, 3, 7, &[9, 9]), 0, 2),
        (night(n, &even, &both, 2, 5, &[9, 9]), 0, 3),
        (night(n, &even, &both, 2, 5, &outside), 0, 4),
        // The new list's length before the rooms.
        (night(n, &even, &both, 2, 5, &[9]), 0, 2),
        (night(n, &even, &both, 2, 7, &[9]), 0, 7),
        (night(n, &even, &both, 2, 7, &[9]), 1, 0),
    ];
    for (step, (night, room, expected)) in steps.into_iter().enumerate() {
        let Night { n, p, g, space, option, d } = night;
        let (mut grown, mut list) = (vec![0; LIST_MOST], vec![0; room]);
        let library = format::format(n, p, g, space, option, d, &mut grown, &mut list);
        assert_eq!(number(library), expected, "format::format: the library at step {step}");
        let library = format::format(n, p, g, space, option, d, &mut list, &mut grown);
        assert_eq!(number(library), expected, "format::format: the other room at step {step}");
        let model = model::format::format(night, &mut grown, &mut list);
        assert_eq!(paper_number(model), expected, "format::format: the model at step {step}");
    }
    // For options 1 and 3 D is held against the number of blocks.
    for (option, expected) in [(1, 4), (3, 4), (5, 0), (7, 0)] {
        let night = night(20, &[3, 7], &[], 1, option, &[18]);
        assert_eq!(paper_number(model::format::lists(night)), expected);
        let library = format::format(20, &[3, 7], &[], 1, option, &[18], &mut [0; 9], &mut [0; 9]);
        assert_eq!(number(library), expected, "format::format: option {option}");
    }
}

fn night<'a>(
    n: u32,
    p: &'a [u32],
    g: &'a [u32],
    space: u32,
    option: u32,
    d: &'a [u32],
) -> Night<'a> {
    Night { n, p, g, space, option, d }
}

/// A drive, its table and scratch, and the number asked for.
struct Asked {
    drive: Shape,
    r: u32,
    table: Vec<u32>,
    scratch: Vec<u32>,
    number: u32,
}

/// Rows with ever fewer faults: C 2, H 2, S 5, r 2 has 12 blocks, 20 sectors and 8 spares. The first five
/// are refused 1, the next three 7, the two after them 11, and the last but one 5 or 6.
fn tables() -> Vec<Asked> {
    let drive = shape(2, 2, 5);
    let row = |drive: Shape, r: u32, table: &[u32], scratch: usize, number: u32| {
        let scratch = vec![u32::MAX; scratch];
        Asked { drive, r, table: table.to_vec(), scratch, number }
    };
    let (broken, holed, proper) = ([1; 5], table_with_a_hole(), table_of_8());
    vec![
        row(shape(2, 2, 66), 0, &broken, 0, 900),
        row(grouped(drive, (2, 1, 5)), 2, &broken, 0, 900),
        row(drive, 0, &broken, 0, 900),
        row(drive, 5, &broken, 0, 900),
        row(shape(1_986, 33, 5), 1, &broken, 0, 900),
        row(shape(2, 2, 64), 63, &broken, 251, 900),
        row(drive, 2, &broken, 7, 900),
        row(drive, 2, &holed, 7, 900),
        row(drive, 2, &broken, 8, 900),
        row(drive, 2, &holed, 8, 900),
        row(drive, 2, &proper, 8, 900),
        row(drive, 2, &proper, 8, 9),
    ]
}

/// Blocks 7, 8 and 6 replaced.
fn table_of_8() -> Vec<u32> {
    let mut table = vec![0; 128];
    table[8..].fill(0x8000_0000);
    table[3..6].copy_from_slice(&[0x3000_0006, 0x2000_0007, 0x3000_0008]);
    table
}

/// The same with place 5 free, which comes before that of block 6 in its search order.
fn table_with_a_hole() -> Vec<u32> {
    let mut table = table_of_8();
    table[5] = 0;
    table
}

/// The scratch after a call on the drive of 8 spares, or one that was refused earlier.
fn left(scratch: &[u32], number: u32) -> Vec<u32> {
    let mut left = scratch.to_vec();
    if number != 1 && number != 7 {
        left[..8].fill(0);
    }
    left
}

/// Asks a call and the model of every row.
fn ask_tables(
    call: &str,
    library: &dyn Fn(Shape, u32, &[u32], &mut [u32], u32) -> u32,
    model: &dyn Fn(model::shape::Shape, u32, &[u32], &mut [u32], u32) -> u32,
    expected: &[u32],
) {
    let (mut ours, mut theirs) = (vec![], vec![]);
    for (Asked { drive, r, table, scratch, number }, expected) in tables().iter().zip(expected) {
        let (mut our_scratch, mut their_scratch) = (scratch.clone(), scratch.clone());
        ours.push(library(*drive, *r, table, &mut our_scratch, *number));
        theirs.push(model(paper(*drive), *r, table, &mut their_scratch, *number));
        let left = left(scratch, *expected);
        assert_eq!((&our_scratch, &their_scratch), (&left, &left), "{call}: {expected}");
    }
    same(call, ours, theirs, expected);
}

#[test]
fn spares_in_order() {
    let by_block = [1, 1, 1, 1, 1, 7, 7, 7, 11, 11, 5, 0];
    ask_tables(
        "spares::sector_of",
        &|drive, r, table, lent, block| number(spares::sector_of(drive, r, table, lent, block)),
        &|drive, r, table, lent, block| {
            paper_number(model::spares::sector_of(drive, r, table, lent, block))
        },
        &by_block,
    );
    ask_tables(
        "spares::address_of",
        &|drive, r, table, lent, block| number(spares::address_of(drive, r, table, lent, block)),
        &|drive, r, table, lent, block| {
            paper_number(model::spares::address_of(drive, r, table, lent, block))
        },
        &by_block,
    );
    ask_tables(
        "spares::shift",
        &|drive, r, table, lent, block| number(spares::shift(drive, r, table, lent, block)),
        &|drive, r, table, lent, block| {
            paper_number(model::spares::shift(drive, r, table, lent, block))
        },
        &by_block,
    );
    ask_tables(
        "reading::tracks",
        &|drive, r, table, lent, block| number(reading::tracks(drive, r, table, lent, block)),
        &|drive, r, table, lent, block| {
            paper_number(model::spares::tracks(drive, r, table, lent, block))
        },
        &by_block,
    );
    ask_tables(
        "spares::replace",
        &|drive, r, table, lent, block| {
            number(spares::replace(drive, r, &mut table.to_vec(), lent, block))
        },
        &|drive, r, table, lent, block| {
            paper_number(model::spares::replace(drive, r, &mut table.to_vec(), lent, block))
        },
        &by_block,
    );
    let by_sector = [1, 1, 1, 1, 1, 7, 7, 7, 11, 11, 6, 0];
    ask_tables(
        "spares::block_on",
        &|drive, r, table, lent, sector| number(spares::block_on(drive, r, table, lent, sector)),
        &|drive, r, table, lent, sector| {
            paper_number(model::spares::block_on(drive, r, table, lent, sector))
        },
        &by_sector,
    );
    ask_tables(
        "spares::block_at",
        &|drive, r, table, lent, asked| {
            number(spares::block_at(drive, r, table, lent, asked / 9, 0, 0))
        },
        &|drive, r, table, lent, asked| {
            paper_number(model::spares::block_at(drive, r, table, lent, (asked / 9, 0, 0)))
        },
        &by_sector,
    );
    ask_tables(
        "spares::census",
        &|drive, r, table, lent, _| number(spares::census(drive, r, table, lent)),
        &|drive, r, table, lent, _| paper_number(model::spares::census(drive, r, table, lent)),
        &[1, 1, 1, 1, 1, 7, 7, 7, 11, 11, 0, 0],
    );
}

/// With no spare left, block 7 on its spare and block 0 at home are both refused for want of one, and
/// that is the last check. No word of the table changes, whatever refuses.
#[test]
fn no_spare_after_all_else() {
    let drive = shape(2, 2, 5);
    let some_free = table_of_8();
    let holed = table_with_a_hole();
    let mut broken = some_free.clone();
    broken[0] = 1;
    let mut full = some_free.clone();
    full[..8].iter_mut().filter(|word| **word == 0).for_each(|word| *word = 0x4000_0000);
    // It names a block that the drive has not.
    let mut naming_12 = full.clone();
    naming_12[0] = 0x3000_000C;
    // The drive and r, the table, the length of the scratch, the block, and the number.
    let rows: [(Shape, u32, &[u32], usize, u32, u32); 16] = [
        (shape(2, 2, 66), 5, &broken, 7, 900, 1),
        (drive, 5, &broken, 7, 900, 1),
        (drive, 5, &broken, 8, 7, 1),
        (drive, 5, &some_free, 8, 7, 1),
        (drive, 5, &full, 8, 7, 1),
        (drive, 2, &broken, 7, 900, 7),
        (drive, 2, &full, 7, 7, 7),
        (drive, 2, &broken, 8, 7, 11),
        (drive, 2, &naming_12, 8, 12, 11),
        (drive, 2, &holed, 8, 12, 11),
        (drive, 2, &holed, 8, 6, 11),
        (drive, 2, &some_free, 8, 12, 5),
        (drive, 2, &full, 8, 12, 5),
        (drive, 2, &full, 8, 900, 5),
        (drive, 2, &full, 8, 7, 13),
        (drive, 2, &full, 8, 0, 13),
    ];
    for (drive, r, table, length, block, expected) in rows {
        let (mut ours, mut theirs) = (table.to_vec(), table.to_vec());
        let scratch = vec![u32::MAX; length];
        let (mut our_scratch, mut their_scratch) = (scratch.clone(), scratch.clone());
        let library = spares::replace(drive, r, &mut ours, &mut our_scratch, block);
        assert_eq!(number(library), expected);
        let model = model::spares::replace(paper(drive), r, &mut theirs, &mut their_scratch, block);
        assert_eq!(paper_number(model), expected);
        assert_eq!((&ours[..], &theirs[..]), (table, table), "block {block}, {expected}");
        let left = left(&scratch, expected);
        assert_eq!((&our_scratch, &their_scratch), (&left, &left), "block {block}, {expected}");
    }
}

#[test]
fn first_tables_in_order() {
    let drive = shape(2, 2, 5);
    let too_long = vec![0; LIST_MOST + 1];
    // Nine bad home sectors, eight spares.
    let too_many = [0, 1, 2, 5, 6, 7, 10, 11, 12];
    // Seven bad home sectors and two bad spares leave too few.
    let spares_too = [0, 1, 2, 3, 4, 5, 6, 7, 10];
    let cases: [(Shape, u32, &[u32], usize); 10] = [
        (shape(0, 2, 5), 2, &too_long, 0),
        (grouped(drive, (1, 1, 0)), 2, &too_long, 0),
        (drive, 5, &too_long, 0),
        (drive, 2, &too_long, 0),
        (drive, 2, &[5, 5, 20], 0),
        (drive, 2, &[5, 20], 0),
        (drive, 2, &too_many, 127),
        (drive, 2, &too_many, 128),
        (drive, 2, &spares_too, 128),
        (drive, 2, &too_many[1..], 128),
    ];
    same(
        "spares::first_table",
        cases
            .map(|(drive, r, list, room)| {
                number(spares::first_table(drive, r, list, &mut vec![0; room]))
            })
            .to_vec(),
        cases
            .map(|(drive, r, list, room)| {
                let room = &mut vec![0; room];
                paper_number(model::spares::first_table(paper(drive), r, list, room))
            })
            .to_vec(),
        &[1, 1, 1, 2, 3, 4, 7, 13, 13, 0],
    );
}

#[test]
fn images_in_order() {
    for size in SIZES {
        let (length, fits) = (size as usize, image_length(size));
        // The size, the block, the code, the lengths of the data and of the room.
        let cases = [
            (size + 1, 268_435_456, 1, length - 1, 0),
            (size, 268_435_456, 1, length - 1, 0),
            (size, 268_435_456, 1, length + 1, fits - 1),
            (size, 268_435_456, 1, length, fits - 1),
            (size, 268_435_455, 1, length, fits - 1),
            (size, 268_435_455, 3, length, fits - 1),
            (size, 268_435_455, 3, length, fits),
        ];
        same(
            "image::write",
            cases
                .map(|(size, block, code, data, room)| {
                    let (data, room) = (vec![0; data], &mut vec![0; room]);
                    number(image::write(size, block, code, &data, true, room))
                })
                .to_vec(),
            cases
                .map(|(size, block, code, data, room)| {
                    let (data, room) = (vec![0; data], &mut vec![0; room]);
                    paper_number(model::image::write(size, block, code, &data, true, room))
                })
                .to_vec(),
            &[1, 14, 14, 5, 22, 7, 0],
        );

        // The first image once more with a size that is none, and then each with its own.
        let images = faulty_images(size);
        let sized: Vec<(u32, &Vec<u8>)> = [(size - 1, &images[0])]
            .into_iter()
            .chain(images.iter().map(|image| (size, image)))
            .collect();
        let ask = |call: &dyn Fn(u32, &[u8]) -> u32| -> Vec<u32> {
            sized.iter().map(|(size, image)| call(*size, image)).collect()
        };
        same(
            "image::header",
            ask(&|size, image| number(image::header(size, image))),
            ask(&|size, image| paper_number(model::image::header(size, image))),
            &[1, 14, 15, 16, 0, 0, 0, 0, 0],
        );
        same(
            "image::judge",
            ask(&|size, image| number(image::judge(size, image, 7, 2))),
            ask(&|size, image| paper_number(model::image::judge(size, image, 7, 2))),
            &[1, 14, 15, 16, 16, 16, 18, 17, 0],
        );
        same(
            "image::data",
            ask(&|size, image| number(image::data(size, image, 7, 2))),
            ask(&|size, image| paper_number(model::image::data(size, image, 7, 2))),
            &[1, 14, 15, 16, 16, 16, 18, 17, 0],
        );
    }
}

/// Images of block 7 with code 2, with ever fewer faults: length, header, a fourth code, another block, another
/// code, the code of the data, forced, good.
fn faulty_images(size: u32) -> Vec<Vec<u8>> {
    let (copy, data) = (model::image::copy(2, 7), vec![0; size as usize]);
    let good = model::image::bytes(copy, &data, false);
    let forced = model::image::bytes(copy, &data, true);
    let mut bad_code = forced.clone();
    bad_code[good.len() - 1] ^= 1;
    let naming = |number: u32| {
        let mut image = bad_code.clone();
        image[..12].copy_from_slice(&number.to_be_bytes().repeat(3));
        image
    };
    let (other_code, other_block) = (naming(0x3000_0007), naming(0x2000_0008));
    let fourth_code = naming(0x1000_0007);
    let mut no_address = fourth_code.clone();
    no_address[4] = 0x20;
    let mut long = no_address.clone();
    long.push(0);
    vec![long, no_address, fourth_code, other_block, other_code, bad_code, forced, good]
}

#[test]
fn mode_in_order() {
    let good = model::image::bytes([0; 4], &[&[2, 64][..], &[0; 510]].concat(), false);
    let cases = [(&[][..], 0), (&good[..], 0), (&good[1..], 1), (&[], 1), (&good, 1)];
    same(
        "mode::find",
        cases.map(|(images, apart)| number(mode::find(images, apart))).to_vec(),
        cases.map(|(images, apart)| paper_number(model::mode::find(images, apart))).to_vec(),
        &[1, 1, 21, 21, 0],
    );
}

#[test]
fn reads_in_order() {
    for size in SIZES {
        reads_of_a_size_in_order(size);
    }
}

fn reads_of_a_size_in_order(size: u32) {
    // A block on its spare: the home image is noise and not looked into.
    let (drive, table) = (shape(2, 2, 5), table_of_8());
    let length = image_length(size);
    let track = 5 * length;
    let noise = vec![0xA5; track];
    let mut by_table = tables();
    // All but the row that is refused nothing.
    by_table.pop();
    // The size is looked at before the first fault of the drive.
    let mut cases = vec![(size + 1, tables().remove(0), noise.clone(), vec![0; 3])];
    for asked in by_table {
        cases.push((size, asked, noise.clone(), vec![0; 3]));
    }
    let proper = || {
        let (table, scratch) = (table.clone(), vec![u32::MAX; 8]);
        Asked { drive, r: 2, table, scratch, number: 7 }
    };
    cases.push((size, proper(), vec![0xA5; track + 1], noise.clone()));
    cases.push((size, proper(), noise.clone(), vec![0xA5; track - 1]));
    for image in faulty_images(size).into_iter().skip(1) {
        // Block 7 lies on place 4, which is sector 3 of its track.
        let mut spare = noise.clone();
        spare[3 * length..4 * length].copy_from_slice(&image);
        cases.push((size, proper(), noise.clone(), spare));
    }
    // Nothing but the size is at fault, and then nothing at all.
    let (_, _, home, spare) = cases.last().expect("a good image");
    let no_size = (512 + 576, proper(), home.clone(), spare.clone());
    cases.insert(cases.len() - 1, no_size);
    let expected = [1, 1, 1, 1, 1, 1, 7, 7, 7, 11, 11, 5, 14, 14, 15, 16, 16, 16, 18, 17, 1, 0];
    assert_eq!(cases.len(), expected.len());
    for ((size, asked, home, spare), expected) in cases.iter().zip(expected) {
        let Asked { drive, r, table, scratch, number: block } = asked;
        let (size, drive, r, block) = (*size, *drive, *r, *block);
        let left = left(scratch, expected);
        let mut lent = scratch.clone();
        let judged = reading::judge(size, drive, r, table, &mut lent, block, home, spare);
        assert_eq!((number(judged), &lent), (expected, &left), "reading::judge");
        let mut lent = scratch.clone();
        let spot = reading::spot(size, drive, r, table, &mut lent, block, home, spare);
        assert_eq!((number(spot), &lent), (expected, &left), "reading::spot");
        let mut lent = scratch.clone();
        let part = reading::data(size, drive, r, table, &mut lent, block, home, spare);
        assert_eq!((number(part), &lent), (expected, &left), "reading::data");
        let read = Read { size, shape: paper(drive), r, table, block, home, spare };
        let mut lent = scratch.clone();
        let model = model::image::spot(read, &mut lent);
        assert_eq!((paper_number(model), &lent), (expected, &left), "the model's read");
    }
    assert_eq!(cases.len(), expected.len());
}
