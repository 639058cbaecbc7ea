//! The paper's own numbers, asked of the library and of the model.

use tautberry::image::{self, Head};
use tautberry::reading::{self, Track};
use tautberry::{format, mode, page, shape as shapes, skip, skipped, spares, Refusal, Shape};

use crate::drawn_images::{other_size, NO_SIZES, SIZES};
use crate::drawn_nights::Drawn;
use crate::drawn_shapes::{grouped, paper, shape, CUSTOMERS};
use crate::model::image::{bytes, copy, data_code, image_length, Read};
use crate::model::{self, skipping};
use crate::nights::formatted;
use crate::reads::named;
use crate::shape_calls::{every_call_gives, every_table_call_gives, Rest};
use crate::skipping::numbers;

const CHART: [u32; 4] = [3, 7, 60, 61];

#[test]
fn the_chart() {
    for (block, sector) in [(3, 4), (57, 59), (58, 62), (843, 847)] {
        assert_eq!(skip::sector_of(848, &CHART, block), Ok(sector));
        assert_eq!(skipping::sector_of(848, &CHART, block), Ok(sector));
        assert_eq!(skip::block_on(848, &CHART, sector), Ok(Some(block)));
        assert_eq!(skipping::block_on(848, &CHART, sector), Ok(Some(block)));
    }
    assert_eq!(skip::block_on(848, &CHART, 61), Ok(None));
    assert_eq!(skipping::block_on(848, &CHART, 61), Ok(None));
    assert_eq!(skip::sector_of(848, &CHART, 844), Err(Refusal::NoSuchBlock));
    assert_eq!(skipping::sector_of(848, &CHART, 844), Err(5));
}

#[test]
fn three_bad_sectors_at_the_start() {
    assert_eq!(skip::sector_of(6, &[0, 1, 2], 0), Ok(3));
    assert_eq!(skipping::sector_of(6, &[0, 1, 2], 0), Ok(3));
}

#[test]
fn the_night_of_twenty_sectors() {
    let night = Drawn { n: 20, p: vec![3, 7], g: vec![], space: 3, option: 1, d: vec![3, 16] };
    let (mut grown, mut list) = ([0; 2], [0; 4]);
    let answer = formatted(&night, &mut grown, &mut list);
    let expected = format::Formatted { grown: 2, list: 4, space: 3 };
    assert_eq!(answer, Ok(expected));
    assert_eq!((grown, list), ([4, 18], [3, 4, 7, 18]));
    assert_eq!(skip::sector_of(20, &list, 15), Ok(19));

    let model = model::format::lists(night.lent());
    assert_eq!(model, Ok((vec![4, 18], vec![3, 4, 7, 18], 3)));
    assert_eq!(skipping::sector_of(20, &list, 15), Ok(19));
}

/// Library and model must find the sector at this place and angle, and the library finds it back.
fn lies_at(drive: Shape, sector: u32, at: (u32, u32, u32, u32)) {
    assert_eq!(shapes::address_of(drive, sector).map(numbers), Ok(at));
    assert_eq!(skipped::address_of(drive, &[], sector).map(numbers), Ok(at));
    assert_eq!(model::shape::address_of(paper(drive), sector), Ok(at));
    assert_eq!(skipping::address_of(paper(drive), &[], sector), Ok(at));
    let (cylinder, head, number, _) = at;
    assert_eq!(shapes::sector_of(drive, cylinder, head, number), Ok(sector));
    assert_eq!(skipped::block_at(drive, &[], cylinder, head, number), Ok(Some(sector)));
}

/// C 2, H 4, S 5 in two groups of two tracks, the second group three sectors after the first.
fn two_groups() -> Shape {
    grouped(shape(2, 4, 5), (2, 2, 3))
}

#[test]
fn the_angles() {
    let rows = [
        (0, (0, 0, 0, 0)),
        (9, (0, 1, 4, 4)),
        (10, (0, 2, 0, 3)),
        (13, (0, 2, 3, 1)),
        (19, (0, 3, 4, 2)),
        (20, (1, 0, 0, 0)),
        (39, (1, 3, 4, 2)),
    ];
    for (sector, at) in rows {
        lies_at(two_groups(), sector, at);
    }
    lies_at(grouped(shape(4_096, 64, 64), (64, 1, 63)), 16_777_215, (4_095, 63, 63, 0));
}

#[test]
fn one_group_leaves_the_angle_at_the_sector() {
    let all_heads = Shape { cylinders: 2, heads: 4, sectors: 5, groups: 1, tracks: 4, offset: 0 };
    assert_eq!(Shape::ungrouped(2, 4, 5), all_heads);
    for offset in 0..5 {
        for sector in 0..40 {
            let at = (sector / 20, sector / 5 % 4, sector % 5, sector % 5);
            lies_at(grouped(shape(2, 4, 5), (1, 4, offset)), sector, at);
        }
    }
}

/// With r 2 block 6 is at home on sector 10, and place 4 is sector 13.
#[test]
fn the_angle_of_a_replaced_block() {
    let drive = two_groups();
    let Rest { mut table, scratch, .. } = Rest::proper(drive, 2);
    for at in [(0, 2, 0, 3), (0, 2, 3, 1)] {
        let (mut ours, mut theirs) = (scratch.clone(), scratch.clone());
        let library = spares::address_of(drive, 2, &table, &mut ours, 6);
        assert_eq!(library.map(numbers), Ok(at));
        let model = model::spares::address_of(paper(drive), 2, &table, &mut theirs, 6);
        assert_eq!(model, Ok(at));
        assert_eq!(ours, theirs);
        table[4] = 0x2000_0006;
    }
}

/// Groups of a drive of C 2, H 4, S 5, good and bad, asked of every call that takes a shape.
#[test]
fn good_and_bad_groups() {
    let drive = shape(2, 4, 5);
    let rest = Rest::proper(drive, 2);
    let accepted = [(1, 4, 0), (2, 2, 3), (4, 1, 4)];
    let refused = [
        (0, 4, 0),
        (1, 0, 0),
        (2, 3, 0),
        (4, 2, 0),
        (2, 2, 5),
        (2, 2, 4_294_967_295),
        (65_536, 65_536, 0),
        (1_073_741_825, 4, 0),
    ];
    for groups in accepted {
        every_call_gives(grouped(drive, groups), &rest, |_| 0);
    }
    for groups in refused {
        every_call_gives(grouped(drive, groups), &rest, |_| 1);
    }
}

/// The table of 8 spares with these words for them.
fn table_of(words: [u32; 8]) -> Vec<u32> {
    let mut table = words.to_vec();
    table.resize(128, 0x8000_0000);
    table
}

/// A drive and its r.
type Drive = (Shape, u32);

/// C 2, H 2, S 5, r 2.
const EIGHT_SPARES: Drive = (Shape::ungrouped(2, 2, 5), 2);

/// Scratch for a drive, full of ones.
fn scratch((shape, r): Drive) -> Vec<u32> {
    vec![u32::MAX; (shape.cylinders * shape.heads * r) as usize]
}

/// Library and model must answer this place or refusal for the block, and leave the same table and
/// scratch.
fn replaces(drive: Drive, table: &mut Vec<u32>, block: u32, expected: Result<u32, u32>) {
    let (shape, r) = drive;
    let mut theirs = table.clone();
    let (mut our_scratch, mut their_scratch) = (scratch(drive), scratch(drive));
    let library = spares::replace(shape, r, table, &mut our_scratch, block);
    let model = model::spares::replace(paper(shape), r, &mut theirs, &mut their_scratch, block);
    assert_eq!(library.map_err(Refusal::number), expected, "block {block}");
    assert_eq!(model, expected, "block {block}");
    assert!(*table == theirs && our_scratch == their_scratch, "block {block}");
}

/// Library and model must find the block on this sector, so many cylinders from its home, and leave the same
/// scratch.
fn lies_on(drive: Drive, table: &[u32], block: u32, sector: u32, shift: i32) {
    let (shape, r) = drive;
    let (mut ours, mut theirs) = (scratch(drive), scratch(drive));
    assert_eq!(spares::sector_of(shape, r, table, &mut ours, block), Ok(sector));
    let model = model::spares::sector_of(paper(shape), r, table, &mut theirs, block);
    assert_eq!(model, Ok(sector));
    assert!(ours == theirs, "block {block}");

    let (mut ours, mut theirs) = (scratch(drive), scratch(drive));
    assert_eq!(spares::shift(shape, r, table, &mut ours, block), Ok(shift));
    let model = model::spares::shift(paper(shape), r, table, &mut theirs, block);
    assert_eq!(model, Ok(shift));
    assert!(ours == theirs, "block {block}");
}

/// Library and model must name these tracks for a read of the block, its home track and the one that it lies on
/// by cylinder and head, and this shift, and leave the same scratch.
fn is_fetched_from(
    drive: Drive,
    table: &[u32],
    block: u32,
    expected: (model::spares::Track, model::spares::Track, i32),
) {
    let (shape, r) = drive;
    let (mut ours, mut theirs) = (scratch(drive), scratch(drive));
    let library = reading::tracks(shape, r, table, &mut ours, block).map(named);
    assert_eq!(library, Ok(expected), "block {block}");
    let model = model::spares::tracks(paper(shape), r, table, &mut theirs, block);
    assert_eq!(model, Ok(expected), "block {block}");
    assert!(ours == theirs, "block {block}");
}

/// Library and model must count so many descriptors of code 0, 2, 3, 4 and 8, and leave the same scratch.
fn counts(drive: Drive, table: &[u32], expected: [u32; 5]) {
    let (shape, r) = drive;
    let (mut ours, mut theirs) = (scratch(drive), scratch(drive));
    let [free, primary, elsewhere, unusable, null] = expected;
    let census = spares::Census { free, primary, elsewhere, unusable, null };
    assert_eq!(spares::census(shape, r, table, &mut ours), Ok(census));
    assert_eq!(model::spares::census(paper(shape), r, table, &mut theirs), Ok(expected));
    assert!(ours == theirs);
}

/// Three blocks are replaced, and then the third of them again.
#[test]
fn three_replacements() {
    let mut table = table_of([0; 8]);
    for (block, place, word) in [(7, 4, 0x2000_0007), (8, 5, 0x3000_0008), (6, 3, 0x3000_0006)] {
        replaces(EIGHT_SPARES, &mut table, block, Ok(place));
        assert_eq!(table[place as usize], word);
    }
    lies_on(EIGHT_SPARES, &table, 6, 9, -1);

    replaces(EIGHT_SPARES, &mut table, 6, Ok(6));
    let words = [0, 0, 0, 0x4000_0000, 0x2000_0007, 0x3000_0008, 0x3000_0006, 0];
    assert_eq!(table, table_of(words));
    lies_on(EIGHT_SPARES, &table, 6, 18, 0);
}

/// The tracks of blocks at home, on the primary spare, on the other spare of the home track, on another cylinder,
/// and under another head of the own one, where block 6 is replaced again.
#[test]
fn the_tracks_of_a_read() {
    let mut table = table_of([0; 8]);
    let homes = [(0, 0), (0, 1), (1, 0), (1, 1)];
    let at_home = |table: &[u32], blocks: &[u32]| {
        for block in blocks {
            let home = homes[*block as usize / 3];
            is_fetched_from(EIGHT_SPARES, table, *block, (home, home, 0));
        }
    };
    at_home(&table, &[0, 1, 2, 3, 4, 5, 6, 7, 8, 9, 10, 11]);
    for (block, place) in [(7, 4), (8, 5), (6, 3)] {
        replaces(EIGHT_SPARES, &mut table, block, Ok(place));
    }
    at_home(&table, &[0, 1, 2, 3, 4, 5, 9, 10, 11]);
    is_fetched_from(EIGHT_SPARES, &table, 7, ((1, 0), (1, 0), 0));
    is_fetched_from(EIGHT_SPARES, &table, 8, ((1, 0), (1, 0), 0));
    is_fetched_from(EIGHT_SPARES, &table, 6, ((1, 0), (0, 1), -1));
    replaces(EIGHT_SPARES, &mut table, 6, Ok(6));
    is_fetched_from(EIGHT_SPARES, &table, 6, ((1, 0), (1, 1), 0));

    let drive = THREE_TABLE_BLOCKS;
    let table = table_of_260(&[(256, 0x3000_0000), (5, 0x3000_0190)]);
    is_fetched_from(drive, &table, 0, ((0, 0), (256, 0), 256));
    is_fetched_from(drive, &table, 400, ((200, 0), (5, 0), -195));
    is_fetched_from(drive, &table, 519, ((259, 0), (259, 0), 0));
}

/// Groups and offset change no track.
#[test]
fn the_tracks_of_a_grouped_drive() {
    let mut words = [0; 8];
    words[3..6].copy_from_slice(&[0x3000_0006, 0x2000_0007, 0x3000_0008]);
    let table = table_of(words);
    for groups in [(1, 2, 4), (2, 1, 0), (2, 1, 3)] {
        let drive = (grouped(EIGHT_SPARES.0, groups), 2);
        is_fetched_from(drive, &table, 6, ((1, 0), (0, 1), -1));
        is_fetched_from(drive, &table, 8, ((1, 0), (1, 0), 0));
        is_fetched_from(drive, &table, 11, ((1, 1), (1, 1), 0));
    }
}

/// One block is replaced five times, until no spare is left to any block.
#[test]
fn spares_that_die() {
    let mut table = table_of([0; 8]);
    let places = [(7, 4), (7, 5), (8, 3), (7, 6), (6, 2), (7, 7), (0, 0), (7, 1)];
    for (block, place) in places {
        replaces(EIGHT_SPARES, &mut table, block, Ok(place));
    }
    let mut words = [0x4000_0000; 8];
    words[..4].copy_from_slice(&[0x2000_0000, 0x3000_0007, 0x3000_0006, 0x3000_0008]);
    assert_eq!(table, table_of(words));

    counts(EIGHT_SPARES, &table, [0, 1, 3, 4, 120]);
    lies_on(EIGHT_SPARES, &table, 7, 4, -1);

    for block in 0..12 {
        replaces(EIGHT_SPARES, &mut table, block, Err(13));
        assert_eq!(table, table_of(words), "block {block}");
    }
}

/// A block that lies elsewhere never goes back to its primary place: where that is free the table is bad,
/// and where it is unusable the block goes on in its search order.
#[test]
fn never_back_to_the_primary_place() {
    let mut table = table_of([0, 0, 0, 0, 0, 0x3000_0007, 0, 0]);
    replaces(EIGHT_SPARES, &mut table, 7, Err(11));
    assert_eq!(table, table_of([0, 0, 0, 0, 0, 0x3000_0007, 0, 0]));
    table[4] = 0x4000_0000;
    replaces(EIGHT_SPARES, &mut table, 7, Ok(3));
    assert_eq!(table, table_of([0, 0, 0, 0x3000_0007, 0x4000_0000, 0x4000_0000, 0, 0]));
}

/// Library and model must refuse a table by every call that is lent one, and leave zeros in the scratch.
fn refuse_table((shape, r): Drive, table: &[u32]) {
    let rest = Rest { table: table.to_vec(), ..Rest::proper(shape, r) };
    every_table_call_gives(shape, &rest, |_| 11, &vec![0; rest.scratch.len()]);
}

/// Blocks 6, 7 and 8 have their primary place at 4, and then 5, 3, 6 and so on.
#[test]
fn holes_among_eight_spares() {
    refuse_table(EIGHT_SPARES, &table_of([0, 0, 0, 0, 0, 0x3000_0007, 0, 0]));
    let table = table_of([0, 0, 0, 0, 0x4000_0000, 0x3000_0007, 0, 0]);
    lies_on(EIGHT_SPARES, &table, 7, 14, 0);
    counts(EIGHT_SPARES, &table, [6, 0, 1, 1, 120]);

    refuse_table(EIGHT_SPARES, &table_of([0, 0, 0, 0x3000_0008, 0x2000_0007, 0, 0, 0]));
    let table = table_of([0, 0, 0, 0x3000_0008, 0x2000_0007, 0x4000_0000, 0, 0]);
    lies_on(EIGHT_SPARES, &table, 8, 9, -1);
    counts(EIGHT_SPARES, &table, [5, 1, 1, 1, 120]);

    let table = table_of([0, 0, 0, 0x3000_0006, 0x2000_0007, 0x3000_0008, 0, 0]);
    for (block, sector, shift) in [(6, 9, -1), (7, 13, 0), (8, 14, 0)] {
        lies_on(EIGHT_SPARES, &table, block, sector, shift);
    }
    counts(EIGHT_SPARES, &table, [5, 1, 2, 0, 120]);
}

/// C 260, H 1, S 3, r 1: two blocks to a track, and two table blocks and four places of a third.
const THREE_TABLE_BLOCKS: Drive = (Shape::ungrouped(260, 1, 3), 1);

/// The table of its 260 spares, all of them unusable but these.
fn table_of_260(words: &[(usize, u32)]) -> Vec<u32> {
    let mut table = vec![0x4000_0000; 260];
    table.resize(384, 0x8000_0000);
    for (place, word) in words {
        table[*place] = *word;
    }
    table
}

/// Block 0 has its primary place in the first table block and lies in the third; block 400 has it at 200, in
/// the second, and lies in the first, which comes after the third.
#[test]
fn holes_in_three_table_blocks() {
    let drive = THREE_TABLE_BLOCKS;
    lies_on(drive, &table_of_260(&[(256, 0x3000_0000)]), 0, 770, 256);
    refuse_table(drive, &table_of_260(&[(256, 0x3000_0000), (200, 0)]));

    let block_400 = (5, 0x3000_0190);
    lies_on(drive, &table_of_260(&[block_400]), 400, 17, -195);
    refuse_table(drive, &table_of_260(&[block_400, (259, 0)]));
    refuse_table(drive, &table_of_260(&[block_400, (4, 0)]));
    lies_on(drive, &table_of_260(&[block_400, (6, 0)]), 400, 17, -195);
}

/// One hole before one block of the same drive. Place 127 comes last in the search order of block 400.
#[test]
fn a_hole_wherever_it_lies() {
    let drive = THREE_TABLE_BLOCKS;
    // The block, its place, and the hole.
    let rows = [
        // At the primary place, beside it, and at either end of its table block.
        (400, 127, 200),
        (400, 127, 201),
        (400, 127, 199),
        (400, 127, 255),
        (400, 127, 128),
        // 127 places from the primary place, above and below, with the block at the next place.
        (0, 128, 127),
        (254, 128, 0),
        (256, 256, 255),
        (510, 256, 128),
        // In a later table block, and at the last place before the null descriptors.
        (400, 127, 256),
        (400, 127, 259),
        (0, 259, 258),
        // In an earlier table block.
        (400, 127, 0),
        (400, 127, 126),
        (518, 255, 254),
    ];
    for (block, place, hole) in rows {
        let word = 0x3000_0000 + block;
        let sector = 3 * place as u32 + 2;
        let shift = place as i32 - block as i32 / 2;
        lies_on(drive, &table_of_260(&[(place, word)]), block, sector, shift);
        refuse_table(drive, &table_of_260(&[(place, word), (hole, 0)]));
    }
}

#[test]
fn a_hole_and_another_fault() {
    let drive = THREE_TABLE_BLOCKS;
    // A free place before both places that name block 400, between them, and after both.
    for free in [200, 30, 90] {
        refuse_table(drive, &table_of_260(&[(5, 0x3000_0190), (60, 0x3000_0190), (free, 0)]));
    }
    // Scratch that is too short is refused before the hole, and is kept.
    let table = table_of_260(&[(5, 0x3000_0190), (4, 0)]);
    let short = Rest { table, scratch: vec![7; 259], ..Rest::proper(drive.0, drive.1) };
    every_table_call_gives(drive.0, &short, |_| 7, &[7; 259]);
    // No such block comes after the hole.
    let asked = Rest { scratch: vec![7; 260], asked: u32::MAX, ..short };
    every_table_call_gives(drive.0, &asked, |_| 11, &[0; 260]);
}

/// Every other spare is unusable: the block stays where it is.
#[test]
fn the_last_good_spare() {
    for place in 0..8 {
        let mut words = [0x4000_0000; 8];
        words[place] = if place == 4 { 0x2000_0007 } else { 0x3000_0007 };
        let mut table = table_of(words);
        replaces(EIGHT_SPARES, &mut table, 7, Err(13));
        assert_eq!(table, table_of(words), "place {place}");
    }
}

/// Library and model must make this table of the customer's drive, which has no null descriptor.
fn first_table_of_the_customers_drive(list: &[u32], expected: &[u32]) -> Vec<u32> {
    let (shape, r) = CUSTOMERS;
    let (mut ours, mut theirs) = (vec![7; 14_080], vec![7; 14_080]);
    assert_eq!(spares::first_table(shape, r, list, &mut ours), Ok(14_080));
    assert_eq!(model::spares::first_table(paper(shape), r, list, &mut theirs), Ok(14_080));
    assert!(ours == expected && theirs == expected);
    ours
}

#[test]
fn replacements_on_the_customers_drive() {
    let drive = model::spares::drive(paper(CUSTOMERS.0), CUSTOMERS.1).expect("in its range");
    assert_eq!((drive.spares(), drive.blocks(), drive.table_length()), (14_080, 732_160, 14_080));
    let mut table = first_table_of_the_customers_drive(&[], &[0; 14_080]);
    counts(CUSTOMERS, &table, [14_080, 0, 0, 0, 0]);
    let rows = [
        (732_159, 14_079, 0x200B_2BFF),
        (732_158, 14_078, 0x300B_2BFE),
        (732_157, 14_077, 0x300B_2BFD),
        (6_656, 128, 0x2000_1A00),
        (6_657, 129, 0x3000_1A01),
        (6_658, 130, 0x3000_1A02),
        (6_604, 127, 0x2000_19CC),
        (6_605, 126, 0x3000_19CD),
    ];
    for (block, place, word) in rows {
        replaces(CUSTOMERS, &mut table, block, Ok(place));
        assert_eq!(table[place as usize], word, "block {block}");
    }
    // Place 14,077 is the spare of head 13 of the last cylinder, and 126 that of head 14 of cylinder 7.
    lies_on(CUSTOMERS, &table, 732_157, 14_077 * 53 + 52, 0);
    lies_on(CUSTOMERS, &table, 6_605, 126 * 53 + 52, 0);
    lies_on(CUSTOMERS, &table, 6_658, 130 * 53 + 52, 0);
    is_fetched_from(CUSTOMERS, &table, 732_157, ((879, 15), (879, 13), 0));
    is_fetched_from(CUSTOMERS, &table, 6_605, ((7, 15), (7, 14), 0));
    is_fetched_from(CUSTOMERS, &table, 6_656, ((8, 0), (8, 0), 0));
    counts(CUSTOMERS, &table, [14_072, 3, 5, 0, 0]);
}

/// The first home of every track is bad, so every spare is used; block 1 is at home and block 0 on a spare.
#[test]
fn every_spare_of_the_customers_drive_used_then_one_more() {
    let list: Vec<u32> = (0..14_080).map(|track| 53 * track).collect();
    let full: Vec<u32> = (0..14_080).map(|track| 0x2000_0000 + 52 * track).collect();
    let mut table = first_table_of_the_customers_drive(&list, &full);
    counts(CUSTOMERS, &table, [0, 14_080, 0, 0, 0]);
    for block in [1, 0, 732_159] {
        replaces(CUSTOMERS, &mut table, block, Err(13));
        assert!(table == full, "block {block}");
    }
}

/// C 4,096, H 16, S 64, r 1: 65,536 spares and 4,128,768 blocks, which is more than 32 blocks a spare. One
/// bit of the scratch stands for block 5 and for block 2,097,157.
#[test]
fn blocks_that_share_a_bit_of_the_scratch() {
    let drive = (shape(4_096, 16, 64), 1);
    let mut table = vec![0; 65_536];
    replaces(drive, &mut table, 5, Ok(0));
    replaces(drive, &mut table, 2_097_157, Ok(33_288));
    counts(drive, &table, [65_534, 2, 0, 0, 0]);
    lies_on(drive, &table, 5, 63, 0);
    lies_on(drive, &table, 2_097_157, 33_288 * 64 + 63, 0);
}

/// The last block of the same drive, named by its own spare and by the one before.
#[test]
fn the_last_block_named_twice() {
    let drive = (shape(4_096, 16, 64), 1);
    let mut table = vec![0; 65_536];
    table[65_535] = 0x2000_0000 + 4_128_767;
    counts(drive, &table, [65_535, 1, 0, 0, 0]);
    table[65_534] = 0x3000_0000 + 4_128_767;
    replaces(drive, &mut table, 0, Err(11));
    let rest = Rest { table, ..Rest::proper(drive.0, drive.1) };
    every_table_call_gives(drive.0, &rest, |_| 11, &[0; 65_536]);
}

/// The code of data, written good or forced, by the library and by the model.
fn has_code(data: &[u8], forced: bool, code: u16) {
    let size = data.len() as u32;
    let mut room = vec![0; image_length(size)];
    assert_eq!(image::write(size, 9, 0, data, forced, &mut room), Ok(size + 18));
    assert_eq!(room[room.len() - 2..], code.to_be_bytes(), "{size} bytes, forced {forced}");
    assert_eq!(bytes([0, 0, 0, 9], data, forced), room, "{size} bytes, forced {forced}");
}

#[test]
fn the_codes() {
    for size in SIZES {
        let zeros = vec![0; size as usize];
        let (mut first, mut last) = (zeros.clone(), zeros.clone());
        first[1] = 1;
        last[size as usize - 1] = 1;
        has_code(&zeros, false, 0x5A3C);
        has_code(&zeros, true, 0xA5C3);
        has_code(&first, false, 0xDA3C);
        has_code(&last, false, 0x5A3D);
    }
    has_code(&thousands(), false, 0xA541);
    has_code(&thousands(), true, 0x5ABE);
    has_code(&mode_data(0x0200), false, 0x5B3C);
    has_code(&mode_data(0x0240), false, 0x5B1C);
}

/// 576 bytes: word i is 1000 i, in 16 bits.
fn thousands() -> Vec<u8> {
    (0..288).flat_map(|word: u32| ((1_000 * word) as u16).to_be_bytes()).collect()
}

/// An image of zeros of this size with these four numbers in its header.
fn image_of(size: u32, copies: [u32; 4]) -> Vec<u8> {
    let mut image = bytes([0; 4], &vec![0; size as usize], false);
    let header = copies.map(u32::to_be_bytes);
    image[..16].copy_from_slice(header.as_flattened());
    image
}

/// What a header says is read back, and with code 0 the header is the plain block number.
#[test]
fn the_headers() {
    let rows = [
        (7, 0, [0, 0, 0, 7]),
        (7, 2, [0x20, 0, 0, 7]),
        (7, 3, [0x30, 0, 0, 7]),
        (268_435_455, 3, [0x3F, 0xFF, 0xFF, 0xFF]),
        (268_435_455, 0, [0x0F, 0xFF, 0xFF, 0xFF]),
    ];
    for (size, (block, code, copy)) in
        SIZES.into_iter().flat_map(|size| rows.map(|row| (size, row)))
    {
        let data = vec![0; size as usize];
        let mut expected = copy.repeat(4);
        expected.extend(&data);
        expected.extend([0x5A, 0x3C]);
        let mut ours = vec![7; image_length(size)];
        let mut theirs = ours.clone();
        assert_eq!(image::write(size, block, code, &data, false, &mut ours), Ok(size + 18));
        let model = model::image::write(size, block, code, &data, false, &mut theirs);
        assert_eq!(model, Ok(size + 18));
        assert!(ours == expected && theirs == expected, "block {block}, code {code}");
        assert_eq!(image::header(size, &ours), Ok(Head { code, block }));
        assert_eq!(model::image::header(size, &ours), Ok((code, block)));
    }
}

#[test]
fn headers_of_four_copies() {
    let (at_home, at_primary, elsewhere) = (0x0000_0007, 0x2000_0007, 0x3000_0007);
    let rows = [
        ([elsewhere, elsewhere, elsewhere, at_home], Ok((3, 7))),
        ([at_home, elsewhere, elsewhere, elsewhere], Ok((3, 7))),
        ([at_home, at_home, at_primary, at_home], Ok((0, 7))),
        ([at_primary; 4], Ok((2, 7))),
        ([at_primary, at_primary, at_home, at_home], Err(15)),
        ([at_primary, at_home, elsewhere, at_primary], Err(15)),
        ([0x1000_0007; 4], Err(16)),
        ([0x1000_0007, at_primary, 0x1000_0007, 0x1000_0007], Err(16)),
        ([0x1000_0007, at_primary, at_primary, 0x1000_0007], Err(15)),
        ([0x4000_0000; 4], Err(16)),
        ([0x8000_0000; 4], Err(16)),
        ([0xFFFF_FFFF; 4], Err(16)),
    ];
    for (size, (copies, expected)) in SIZES.into_iter().flat_map(|size| rows.map(|row| (size, row)))
    {
        let image = image_of(size, copies);
        let says = |size: u32, expected: Result<(u32, u32), u32>| {
            let library = image::header(size, &image).map(|Head { code, block }| (code, block));
            assert_eq!(library.map_err(Refusal::number), expected, "{copies:08X?}, size {size}");
            assert_eq!(model::image::header(size, &image), expected, "{copies:08X?}, size {size}");
        };
        says(size, expected);
        says(other_size(size), Err(14));
        for none in NO_SIZES {
            says(none, Err(1));
        }
    }
}

#[test]
fn images_that_are_not_written() {
    // The size, the block, the code, the lengths of the data and of the room, and the number.
    let mut rows = vec![];
    for size in SIZES {
        let (data, room) = (size as usize, image_length(size));
        rows.extend([
            (size, 268_435_456, 1, data - 1, room, 14),
            (size, 268_435_456, 1, other_size(size) as usize, room, 14),
            (size, 7, 2, other_size(size) as usize, 594, 14),
            (size, 268_435_456, 1, data, room, 5),
            (size, 268_435_456, 0, data, room, 5),
            (size, 4_294_967_295, 3, data, room, 5),
            (size, 7, 1, data, room, 22),
            (size, 7, 4, data, room, 22),
            (size, 7, 15, data, room, 22),
            (size, 7, 16, data, room, 22),
            (size, 7, 18, data, room, 22),
            (size, 7, 1, data, room - 1, 22),
            (size, 7, 2, data, room - 1, 7),
        ]);
    }
    for size in NO_SIZES {
        rows.push((size, 268_435_456, 1, 511, 529, 1));
        rows.push((size, 7, 2, 512, 530, 1));
        rows.push((size, 7, 2, 576, 594, 1));
    }
    for (size, block, code, data, length, expected) in rows {
        let case = format!("size {size}, block {block}, code {code}");
        let data = vec![0; data];
        let (mut ours, mut theirs) = (vec![7; length], vec![7; length]);
        let library = image::write(size, block, code, &data, false, &mut ours);
        assert_eq!(library.map_err(Refusal::number), Err(expected), "{case}");
        let model = model::image::write(size, block, code, &data, false, &mut theirs);
        assert_eq!(model, Err(expected), "{case}");
        assert_eq!((&ours, &theirs), (&vec![7; length], &vec![7; length]), "{case}");
    }
}

/// A code and a block are compared apart: 2²⁸ × 1 + 268,435,463 is the word of block 7 with code 2, and so is
/// 2²⁸ × 18 + 7 in 32 bits.
#[test]
fn the_pairs_that_an_image_is_not_of() {
    let rows = [
        (0x2000_0007, 7, 2, 0),
        (0x2000_0007, 7, 0, 16),
        (0x2000_0007, 7, 1, 16),
        (0x2000_0007, 7, 3, 16),
        (0x2000_0007, 8, 2, 16),
        (0x2000_0007, 7, 18, 16),
        (0x2000_0007, 268_435_463, 1, 16),
        (0x2000_0007, 536_870_919, 0, 16),
        (0x2000_0007, 4_294_967_287, 2, 16),
        (0x3000_0007, 268_435_463, 2, 16),
        (0x1000_0007, 7, 1, 16),
        (0x1000_0007, 268_435_463, 0, 16),
        (0xFFFF_FFFF, 268_435_455, 15, 16),
        (0x0000_0007, 7, 0, 0),
        (0x3FFF_FFFF, 268_435_455, 3, 0),
    ];
    for (number, block, code, expected) in rows {
        let case = format!("{number:08X}, block {block}, code {code}");
        for size in SIZES {
            let image = image_of(size, [number; 4]);
            judged(size, &image, (block, code), expected, &case);
            // Of no size and at the other size the same image is refused before its header is looked at.
            judged(other_size(size), &image, (block, code), 14, &case);
            for none in NO_SIZES {
                judged(none, &image, (block, code), 1, &case);
            }
        }
    }
    // Without three copies that agree it is 15, whatever is expected.
    for size in SIZES {
        let image = image_of(size, [0x2000_0007, 0x2000_0007, 0x0000_0007, 0x0000_0007]);
        for (block, code) in [(7, 0), (7, 2), (7, 1), (268_435_463, 1)] {
            judged(size, &image, (block, code), 15, "two copies against two");
        }
    }
}

/// Library and model must judge an image so, 0 for good, and hand back its data where it is good.
fn judged(size: u32, image: &[u8], (block, code): (u32, u32), expected: u32, case: &str) {
    let data = if expected == 0 { Ok(&image[16..image.len() - 2]) } else { Err(expected) };
    let library = image::judge(size, image, block, code).map_err(Refusal::number);
    assert_eq!(library, data.map(|_| ()), "{case}");
    assert_eq!(model::image::judge(size, image, block, code), library, "{case}");
    let part = image::data(size, image, block, code).map_err(Refusal::number);
    assert_eq!(part, data, "{case}");
    assert_eq!(model::image::data(size, image, block, code), part, "{case}");
}

/// Two images of 576 that differ in the last 64 bytes alone: one is good, and the other is not. With the code of
/// the first 512 bytes behind it, an image of 576 is not good.
#[test]
fn the_last_64_bytes() {
    let good = bytes(copy(2, 7), &thousands(), false);
    let mut other = good.clone();
    other[16 + 512..16 + 576].fill(0);
    judged(576, &good, (7, 2), 0, "as written");
    judged(576, &other, (7, 2), 18, "with other bytes at its end");
    let mut short_code = good.clone();
    short_code[592..].copy_from_slice(&data_code(&thousands()[..512]).to_be_bytes());
    judged(576, &short_code, (7, 2), 18, "with the code of 512 bytes");
}

/// Block 7 at place 4, block 8 at place 5, block 6 at home: sectors 3, 4 and 0 of their track. The other image
/// is noise.
#[test]
fn reads_by_the_code_of_the_table() {
    let rows = [
        (7, 3, 0x2000_0007, 0),
        (7, 3, 0x3000_0007, 16),
        (7, 3, 0x0000_0007, 16),
        (7, 3, 0x1000_0007, 16),
        (7, 3, 0x2000_0008, 16),
        (8, 4, 0x3000_0008, 0),
        (8, 4, 0x2000_0008, 16),
        (8, 4, 0x0000_0008, 16),
        (8, 4, 0x4000_0008, 16),
        (6, 0, 0x0000_0006, 0),
        (6, 0, 0x2000_0006, 16),
        (6, 0, 0x3000_0006, 16),
        (6, 0, 0x8000_0006, 16),
    ];
    for (size, (block, sector, number, expected)) in
        SIZES.into_iter().flat_map(|size| rows.map(|row| (size, row)))
    {
        let case = format!("block {block}, {number:08X}, size {size}");
        let length = image_length(size);
        let mut track = vec![0xA5; 5 * length];
        track[sector * length..][..length].copy_from_slice(&image_of(size, [number; 4]));
        let noise = vec![0xA5; 5 * length];
        let (home, spare) = if block == 6 { (&track, &noise) } else { (&noise, &track) };
        let spot = (u32::from(block != 6), (sector * length + 16) as u32);
        let answer = if expected == 0 { Ok(spot) } else { Err(expected) };
        reads_so(size, block, (home, spare), answer, &case);
        // At the other size both images are too long or too short, and of no size nothing is looked at.
        reads_so(other_size(size), block, (home, spare), Err(14), &case);
        for none in NO_SIZES {
            reads_so(none, block, (home, spare), Err(1), &case);
        }
        // One image of the right length, and one of the other size.
        let other = vec![0xA5; 5 * image_length(other_size(size))];
        reads_so(size, block, (home, &other), Err(14), &case);
        reads_so(size, block, (&other, spare), Err(14), &case);
    }
}

/// Library and model must find the data of a block of the drive of eight spares here, or refuse it so. The
/// scratch is kept where the size is none, and else it is zeros.
fn reads_so(
    size: u32,
    block: u32,
    (home, spare): (&[u8], &[u8]),
    answer: Result<(u32, u32), u32>,
    case: &str,
) {
    let (shape, r) = EIGHT_SPARES;
    let table = table_of([0, 0, 0, 0, 0x2000_0007, 0x3000_0008, 0, 0]);
    let mut scratches = [(); 6].map(|_| scratch(EIGHT_SPARES));
    let before = scratches.clone();
    let [first, second, third, fourth, fifth, sixth] = &mut scratches;
    let read = Read { size, shape: paper(shape), r, table: &table, block, home, spare };

    let judged = reading::judge(size, shape, r, &table, first, block, home, spare);
    assert_eq!(judged.map_err(Refusal::number), answer.map(|_| ()), "{case}");
    assert_eq!(model::image::judge_read(read, second), answer.map(|_| ()), "{case}");
    let lies = reading::spot(size, shape, r, &table, third, block, home, spare);
    let lies = lies.map(|spot| (u32::from(spot.track == Track::Spare), spot.offset));
    assert_eq!(lies.map_err(Refusal::number), answer, "{case}");
    assert_eq!(model::image::spot(read, fourth), answer, "{case}");
    let part = reading::data(size, shape, r, &table, fifth, block, home, spare);
    let part = part.map_err(Refusal::number);
    let expected = answer.map(|(image, offset)| {
        let track = if image == 0 { home } else { spare };
        &track[offset as usize..][..size as usize]
    });
    assert_eq!(part, expected, "{case}");
    assert_eq!(model::image::read_data(read, sixth), part, "{case}");
    if answer == Err(1) {
        assert_eq!(scratches, before, "{case}");
    } else {
        assert_eq!(scratches, [(); 6].map(|_| vec![0; 8]), "{case}");
    }
}

/// The data of a mode sector: this first word, and zeros.
fn mode_data(word: u16) -> Vec<u8> {
    let mut data = word.to_be_bytes().to_vec();
    data.resize(512, 0);
    data
}

/// The image of a mode sector that is headed by an XBN with code 0, with this first word.
fn mode_sector(xbn: u32, word: u16) -> Vec<u8> {
    bytes(copy(0, xbn), &mode_data(word), false)
}

/// The same, with a fault.
fn forced(xbn: u32, word: u16) -> Vec<u8> {
    bytes(copy(0, xbn), &mode_data(word), true)
}

fn damaged(xbn: u32, word: u16) -> Vec<u8> {
    let mut image = mode_sector(xbn, word);
    image[16 + 300] ^= 4;
    image
}

fn headed(code: u32, block: u32, word: u16) -> Vec<u8> {
    bytes(copy(code, block), &mode_data(word), false)
}

/// Library and model must find this size in images that lie one after another, or refuse so.
fn finds(images: &[Vec<u8>], apart: u32, expected: Result<u32, u32>) {
    let images = images.concat();
    assert_eq!(mode::find(&images, apart).map_err(Refusal::number), expected, "apart {apart}");
    assert_eq!(model::mode::find(&images, apart), expected, "apart {apart}");
}

#[test]
fn the_mode_sector() {
    let noise = || vec![0xA5; 530];
    finds(&[mode_sector(0, 0x0240)], 1, Ok(576));
    finds(&[mode_sector(0, 0x0200)], 7, Ok(512));
    finds(&[forced(0, 0x0200), mode_sector(1, 0x0200), mode_sector(2, 0x0240)], 2, Ok(576));
    finds(&[mode_sector(0, 0x0201), mode_sector(1, 0x0200)], 1, Ok(512));
    finds(&[headed(2, 0, 0x0200), mode_sector(1, 0x0240)], 1, Ok(576));
    finds(&[headed(3, 0, 0x0200), mode_sector(1, 0x0240)], 1, Ok(576));
    finds(&[headed(1, 0, 0x0200), mode_sector(1, 0x0240)], 1, Ok(576));
    // The first copy that says a size is taken, whatever the others say.
    finds(&[mode_sector(0, 0x0200), mode_sector(1, 0x0240)], 1, Ok(512));
    finds(&[mode_sector(0, 0x0240), mode_sector(1, 0x0200)], 1, Ok(576));
    finds(&[noise(), mode_sector(1, 0x0240), mode_sector(2, 0x0200)], 2, Ok(512));
    // A copy is headed by its XBN, and not by its own number or by 0.
    finds(&[noise(), noise(), headed(0, 1, 0x0200), noise(), mode_sector(4, 0x0240)], 2, Ok(576));
    finds(&[noise(), headed(0, 0, 0x0200), mode_sector(2, 0x0240)], 1, Ok(576));
    // Words beside the two, and the two with their bytes exchanged.
    for word in [0x0000, 0x0002, 0x01FF, 0x0201, 0x023F, 0x0241, 0x0400, 0x4002, 0xFFFF] {
        finds(&[mode_sector(0, word)], 1, Err(21));
        finds(&[mode_sector(0, word), mode_sector(1, 0x0240)], 1, Ok(576));
    }
    // What follows the copy may be cut short, also far from it.
    finds(&[mode_sector(0, 0x0240), vec![0; 529]], 1, Ok(576));
    finds(&[mode_sector(0, 0x0240), vec![7]], 3, Ok(576));
    // The area has sectors of 512. One of 576 that says so is none.
    let mut wide = mode_data(0x0240);
    wide.resize(576, 0);
    finds(&[bytes(copy(0, 0), &wide, false)], 1, Err(21));
}

#[test]
fn no_mode_sector() {
    let cut = |mut image: Vec<u8>| {
        image.pop();
        image
    };
    for images in [vec![], vec![mode_sector(0, 0x0240)], vec![vec![0xA5; 529]]] {
        finds(&images, 0, Err(1));
    }
    for apart in [1, 2, 529, 530, u32::MAX] {
        finds(&[], apart, Err(21));
        finds(&[cut(mode_sector(0, 0x0240))], apart, Err(21));
        finds(&[mode_sector(0, 0x0240)], apart, Ok(576));
        finds(&[mode_sector(0, 0x0200), vec![7; 100]], apart, Ok(512));
        finds(&[mode_sector(1, 0x0200)], apart, Err(21));
    }
    // A wrong code at 0, and XBN 1 headed 0.
    finds(&[headed(2, 0, 0x0240), headed(0, 0, 0x0240)], 1, Err(21));
    finds(&[damaged(0, 0x0240), mode_sector(1, 0x0240)], 2, Err(21));
    finds(&[damaged(0, 0x0240), cut(mode_sector(1, 0x0240))], 1, Err(21));
    finds(&[damaged(0, 0x0240), mode_sector(1, 0x0240)], 1, Ok(576));
    finds(&[forced(0, 0x0240)], 1, Err(21));
    finds(&[forced(0, 0x0240), forced(1, 0x0200)], 1, Err(21));
    finds(&[vec![0xA5; 530], vec![0; 530], vec![0xFF; 530]], 1, Err(21));
}

#[test]
fn the_whole_page() {
    let bytes =
        [0, 0, 0, 0x16, 1, 0, 0, 0, 0, 0x14, 0, 0, 0, 3, 0, 0, 0, 7, 0xFF, 0xFF, 0xFF, 0xFF];
    let mut room = [0; 22];
    assert_eq!(page::write(20, 0, &[3, 7], &mut room), Ok(22));
    assert_eq!(room, bytes);
    assert_eq!(model::page::bytes(20, 0, &[3, 7]), bytes);
    let mut list = [0; 2];
    let read = page::Page { kind: 0, n: 20, entries: 2 };
    assert_eq!(page::read(&bytes, &mut list), Ok(read));
    assert_eq!(list, [3, 7]);
}
