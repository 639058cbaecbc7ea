//! The limits, each at its last accepted number and at the first refused.

use tautberry::{
    format, image, mode, page, reading, shape as shapes, skip, skipped, spares, Cursor, Refusal,
    CODE_UNIT, LIST_MOST, PAGE_MOST, SPARES_MOST, UNITS_MOST,
};

use crate::drawn_images::{CODES, SIZES};
use crate::drawn_nights::Drawn;
use crate::drawn_shapes::{grouped, groupings, misgrouped, paper, shape};
use crate::drawn_tables::descriptor;
use crate::model::image::copy;
use crate::model::spares::{drive, empty_table, search_order, word, FREE, PRIMARY, UNUSABLE};
use crate::model::{self, skipping};
use crate::nights::formatted;
use crate::reads::named;
use crate::shape_calls::{every_call_gives, every_table_call_gives, is_lent_a_table, Rest};
use crate::skipping::{numbers, same_addresses};

/// The first numbers, as many as asked for.
fn first(count: usize) -> Vec<u32> {
    (0..count as u32).collect()
}

#[test]
fn a_list_of_65536_and_of_65537() {
    let (full, over) = (first(LIST_MOST), first(LIST_MOST + 1));
    // 70,000 sectors; the first that is not in the full list holds block 0.
    let drive = shape(35, 40, 50);
    let (n, good) = (70_000, 65_536);
    let (at, too_long) = ((32, 30, 36), Err(Refusal::TooLong));
    let (cylinder, head, sector) = at;

    assert_eq!(skip::sector_of(n, &full, 0), Ok(good));
    assert_eq!(skipping::sector_of(n, &full, 0), Ok(good));
    assert_eq!(skip::sector_of(n, &over, 0).map(|_| ()), too_long);
    assert_eq!(skipping::sector_of(n, &over, 0), Err(2));

    assert_eq!(skip::block_on(n, &full, good), Ok(Some(0)));
    assert_eq!(skipping::block_on(n, &full, good), Ok(Some(0)));
    assert_eq!(skip::block_on(n, &over, good).map(|_| ()), too_long);
    assert_eq!(skipping::block_on(n, &over, good), Err(2));

    let (start, next) = (Cursor::default(), Cursor { block: 1, skipped: good });
    assert_eq!(Cursor::start(n, &full, 0), Ok(start));
    assert_eq!(skipping::start(n, &full, 0), Ok((0, 0)));
    assert_eq!(Cursor::start(n, &over, 0).map(|_| ()), too_long);
    assert_eq!(skipping::start(n, &over, 0), Err(2));
    assert_eq!(next.check(n, &full), Ok(next));
    assert_eq!(skipping::check((1, good), n, &full), Ok((1, good)));
    assert_eq!(next.check(n, &over).map(|_| ()), too_long);
    assert_eq!(skipping::check((1, good), n, &over), Err(2));
    assert_eq!(start.step(n, &full), Ok((good, next)));
    assert_eq!(skipping::step((0, 0), n, &full), Ok((good, (1, good))));
    assert_eq!(start.step(n, &over), Err((Refusal::TooLong, start)));
    assert_eq!(skipping::step((0, 0), n, &over), Err((2, (0, 0))));

    let there = (cylinder, head, sector, sector);
    assert_eq!(skipped::address_of(drive, &full, 0).map(numbers), Ok(there));
    assert_eq!(skipping::address_of(paper(drive), &full, 0), Ok(there));
    assert_eq!(skipped::address_of(drive, &over, 0).map(|_| ()), too_long);
    assert_eq!(skipping::address_of(paper(drive), &over, 0), Err(2));
    assert_eq!(skipped::block_at(drive, &full, cylinder, head, sector), Ok(Some(0)));
    assert_eq!(skipping::block_at(paper(drive), &full, at), Ok(Some(0)));
    let library = skipped::block_at(drive, &over, cylinder, head, sector);
    assert_eq!(library.map(|_| ()), too_long);
    assert_eq!(skipping::block_at(paper(drive), &over, at), Err(2));
}

/// Every entry of the list is the first home of a track.
#[test]
fn a_first_table_of_65536_entries_and_of_65537() {
    let (drive_shape, r) = (shape(4_096, 16, 64), 1);
    let full: Vec<u32> = (0..SPARES_MOST).map(|track| 64 * track).collect();
    let mut over = full.clone();
    over.push(full[LIST_MOST - 1] + 1);
    let (mut ours, mut theirs) = (vec![7; LIST_MOST], vec![7; LIST_MOST]);
    assert_eq!(spares::first_table(drive_shape, r, &over, &mut ours), Err(Refusal::TooLong));
    let model = model::spares::first_table(paper(drive_shape), r, &over, &mut theirs);
    assert_eq!(model, Err(2));
    assert!(ours == vec![7; LIST_MOST] && theirs == ours);

    assert_eq!(spares::first_table(drive_shape, r, &full, &mut ours), Ok(SPARES_MOST));
    let model = model::spares::first_table(paper(drive_shape), r, &full, &mut theirs);
    assert_eq!(model, Ok(SPARES_MOST));
    let expected: Vec<u32> = (0..SPARES_MOST).map(|track| word(PRIMARY, 63 * track)).collect();
    assert!(ours == expected && theirs == expected);
}

#[test]
fn a_page_of_262158_bytes_and_of_one_entry_more() {
    let (full, over) = (first(LIST_MOST), first(LIST_MOST + 1));
    let (n, entries) = (70_000, 65_536);
    let (mut ours, mut theirs) = (vec![0; PAGE_MOST + 4], vec![0; PAGE_MOST + 4]);
    assert_eq!(page::write(n, 1, &over, &mut ours), Err(Refusal::TooLong));
    assert_eq!(model::page::write(n, 1, &over, &mut theirs), Err(2));
    assert!(ours == vec![0; PAGE_MOST + 4]);
    assert_eq!(page::write(n, 1, &full, &mut ours), Ok(262_158));
    assert_eq!(model::page::write(n, 1, &full, &mut theirs), Ok(262_158));
    assert!(ours == theirs);

    let mut list = vec![0; LIST_MOST + 1];
    let read = page::Page { kind: 1, n, entries };
    assert_eq!(page::read(&ours[..262_158], &mut list), Ok(read));
    assert!(list[..LIST_MOST] == full && list[LIST_MOST] == 0);
    assert_eq!(model::page::read(&ours[..262_158], &mut list), Ok((1, n, entries)));
    let long_page = model::page::bytes(n, 1, &over);
    assert_eq!(long_page.len(), 262_162);
    assert_eq!(page::read(&long_page, &mut list), Err(Refusal::BadPage));
    assert_eq!(model::page::read(&long_page, &mut list), Err(8));
}

#[test]
fn n_of_16777216_and_one_more() {
    assert_eq!(skip::sector_of(UNITS_MOST, &[], UNITS_MOST - 1), Ok(UNITS_MOST - 1));
    assert_eq!(skip::sector_of(UNITS_MOST, &[0], UNITS_MOST - 2), Ok(UNITS_MOST - 1));
    assert_eq!(skip::sector_of(UNITS_MOST, &[0], UNITS_MOST - 1), Err(Refusal::NoSuchBlock));
    assert_eq!(skip::sector_of(UNITS_MOST + 1, &[], 0), Err(Refusal::OutOfRange));
    assert_eq!(skip::block_on(UNITS_MOST + 1, &[], 0), Err(Refusal::OutOfRange));
    assert_eq!(Cursor::start(UNITS_MOST + 1, &[], 0), Err(Refusal::OutOfRange));
    assert_eq!(Cursor::default().check(UNITS_MOST + 1, &[]), Err(Refusal::OutOfRange));
    let refused = (Refusal::OutOfRange, Cursor::default());
    assert_eq!(Cursor::default().step(UNITS_MOST + 1, &[]), Err(refused));
    let end = Cursor { block: UNITS_MOST, skipped: 0 };
    assert_eq!(end.check(UNITS_MOST, &[]), Ok(end));
    assert_eq!(end.step(UNITS_MOST, &[]), Err((Refusal::NoSuchBlock, end)));

    let mut room = [0; 14];
    assert_eq!(page::write(UNITS_MOST, 0, &[], &mut room), Ok(14));
    assert_eq!(page::read(&room, &mut []).map(|read| read.n), Ok(UNITS_MOST));
    assert_eq!(page::write(UNITS_MOST + 1, 0, &[], &mut room), Err(Refusal::OutOfRange));
    let over = model::page::bytes(UNITS_MOST + 1, 0, &[]);
    assert_eq!(page::read(&over, &mut []), Err(Refusal::BadPage));

    let most = format::format(UNITS_MOST, &[], &[], 0, 6, &[], &mut [], &mut []);
    assert_eq!(most, Ok(format::Formatted { grown: 0, list: 0, space: 0 }));
    let over = format::format(UNITS_MOST + 1, &[], &[], 0, 6, &[], &mut [], &mut []);
    assert_eq!(over, Err(Refusal::OutOfRange));

    let largest = shape(4_096, 64, 64);
    assert_eq!(shapes::sector_of(largest, 4_095, 63, 63), Ok(UNITS_MOST - 1));
    assert_eq!(shapes::address_of(largest, UNITS_MOST), Err(Refusal::NoSuchSector));
}

#[test]
fn every_edge_of_a_shape() {
    let accepted = [(1, 1, 2), (4_096, 1, 2), (1, 64, 2), (1, 1, 64)];
    let refused = [(0, 1, 2), (4_097, 1, 2), (1, 0, 2), (1, 65, 2), (1, 1, 1), (1, 1, 65)]
        .map(|(cylinders, heads, sectors)| shape(cylinders, heads, sectors));
    // Too many heads in groups that are right for them.
    let in_groups =
        [grouped(shape(1, 65, 2), (5, 13, 0)), grouped(shape(1, 4_096, 2), (64, 64, 0))];
    for (cylinders, heads, sectors) in accepted {
        assert_eq!(
            shapes::address_of(shape(cylinders, heads, sectors), 0).map(|at| at.sector),
            Ok(0)
        );
    }
    for drive in refused.into_iter().chain(in_groups) {
        assert_eq!(shapes::address_of(drive, 0), Err(Refusal::OutOfRange));
        assert_eq!(shapes::sector_of(drive, 0, 0, 0), Err(Refusal::OutOfRange));
        assert_eq!(model::shape::address_of(paper(drive), 0), Err(1));
    }
}

/// The fewest and the most groups, each at offset 0, at S − 1 and at S, asked of every call.
#[test]
fn every_edge_of_groups() {
    for drive in [shape(16, 64, 64), shape(16, 64, 2), shape(1, 1, 2), shape(1, 1, 64)] {
        let rest = Rest::proper(drive, 1);
        for (groups, tracks) in [(1, drive.heads), (drive.heads, 1)] {
            let at = |offset| grouped(drive, (groups, tracks, offset));
            every_call_gives(at(0), &rest, |_| 0);
            every_call_gives(at(drive.sectors - 1), &rest, |_| 0);
            every_call_gives(at(drive.sectors), &rest, |_| 1);
            for wrong in misgrouped(at(0)) {
                every_call_gives(wrong, &rest, |_| 1);
            }
        }
    }
}

/// 64 heads in groups of any size, from one group to one group a head.
#[test]
fn every_address_of_64_heads() {
    for (groups, tracks) in groupings(64) {
        for offset in [0, 1, 32, 63] {
            same_addresses(grouped(shape(1, 64, 64), (groups, tracks, offset)));
        }
    }
}

/// T × r at its limit, asked of every call: with scratch for each spare, and with one number fewer.
#[test]
fn spares_of_65536() {
    for (most, r) in [(shape(4_096, 16, 64), 1), (shape(4_096, 1, 64), 16)] {
        let mut rest = Rest::proper(most, r);
        assert_eq!((rest.table.len(), rest.scratch.len()), (65_536, 65_536));
        every_call_gives(most, &rest, |_| 0);
        rest.scratch.pop();
        every_table_call_gives(most, &rest, |_| 7, &rest.scratch);
    }
}

/// T × r above its limit, with all that such a drive would need. There is no drive of 65,537 spares, since
/// that number is prime and above every number of a shape.
#[test]
fn spares_of_65538() {
    for (over, r) in [(shape(1_986, 33, 4), 1), (shape(331, 18, 12), 11)] {
        let rest = Rest::proper(over, r);
        assert_eq!(rest.scratch.len(), 65_538);
        let takes_r = |call: &str| is_lent_a_table(call) || call == "spares::first_table";
        every_call_gives(over, &rest, |call| u32::from(takes_r(call)));
    }
}

/// A number of spares that needs a table block more than 1,024 do.
#[test]
fn spares_of_1025() {
    for (drive, r) in [(shape(41, 25, 4), 1), (shape(205, 1, 8), 5), (shape(25, 1, 42), 41)] {
        let mut rest = Rest::proper(drive, r);
        assert_eq!((rest.table.len(), rest.scratch.len()), (1_152, 1_025));
        every_call_gives(drive, &rest, |_| 0);
        // The null descriptors begin one place late.
        rest.table[1_025] = 0;
        every_table_call_gives(drive, &rest, |_| 11, &[0; 1_025]);
    }
}

#[test]
fn every_spare_used_then_one_more() {
    let drives =
        [(shape(64, 16, 3), 1), (shape(2, 2, 5), 2), (shape(16, 4, 64), 16), (shape(41, 25, 4), 1)];
    for (drive_shape, r) in drives {
        let drive = drive(paper(drive_shape), r).expect("a drive in its range");
        let (mut ours, mut theirs) = (empty_table(drive), empty_table(drive));
        let mut scratch = vec![u32::MAX; drive.spares() as usize];
        let mut their_scratch = scratch.clone();
        // All blocks of the last track first, so that the search runs far.
        let mut blocks = (0..drive.blocks()).rev();
        for block in blocks.by_ref().take(drive.spares() as usize) {
            let lent = &mut their_scratch;
            let place = model::spares::replace(paper(drive_shape), r, &mut theirs, lent, block);
            let library = spares::replace(drive_shape, r, &mut ours, &mut scratch, block);
            assert_eq!(library.ok(), place.ok());
            assert!(place.is_ok(), "block {block} finds a spare");
        }
        assert_eq!((&ours, &scratch), (&theirs, &their_scratch));
        let one_more = blocks.next().expect("more blocks than spares");
        let full = ours.clone();
        // The second lies on a spare.
        for block in [one_more, one_more + 1] {
            scratch.fill(u32::MAX);
            let refused = spares::replace(drive_shape, r, &mut ours, &mut scratch, block);
            assert_eq!(refused, Err(Refusal::NoSpare));
            assert_eq!((&ours, &scratch), (&full, &their_scratch));
        }
        scratch.fill(u32::MAX);
        let census = spares::census(drive_shape, r, &ours, &mut scratch);
        assert_eq!((census.map(|count| count.free), &scratch), (Ok(0), &their_scratch));
    }
}

/// The shift at both ends: from the last cylinder to the first and back. Every spare between is unusable.
#[test]
fn the_longest_shifts() {
    let drive_shape = shape(4_096, 1, 2);
    let drive = drive(paper(drive_shape), 1).expect("4,096 spares");
    let mut table = vec![word(UNUSABLE, 0); 4_096];
    table[0] = descriptor(drive, 0, 4_095);
    table[4_095] = descriptor(drive, 4_095, 0);
    for (block, shift) in [(4_095, -4_095), (0, 4_095), (5, 0)] {
        let (mut ours, mut theirs) = (vec![1; 4_096], vec![1; 4_096]);
        assert_eq!(spares::shift(drive_shape, 1, &table, &mut ours, block), Ok(shift));
        let model = model::spares::shift(paper(drive_shape), 1, &table, &mut theirs, block);
        assert_eq!(model, Ok(shift));
        assert_eq!(ours, theirs);

        let (mut ours, mut theirs) = (vec![1; 4_096], vec![1; 4_096]);
        let expected = ((block, 0), (block.wrapping_add_signed(shift), 0), shift);
        let library = reading::tracks(drive_shape, 1, &table, &mut ours, block).map(named);
        assert_eq!(library, Ok(expected));
        let model = model::spares::tracks(paper(drive_shape), 1, &table, &mut theirs, block);
        assert_eq!(model, Ok(expected));
        assert_eq!(ours, theirs);
    }
}

/// The tracks at both ends of the largest drives: from the first track to the last and back, and at home.
#[test]
fn the_first_track_and_the_last() {
    for (drive_shape, r) in [(shape(4_096, 16, 64), 1), (shape(1_024, 64, 2), 1)] {
        let drive = drive(paper(drive_shape), r).expect("65,536 spares");
        let mut table = vec![word(UNUSABLE, 0); 65_536];
        let (last, last_place) = (drive.blocks() - 1, drive.spares() - 1);
        table[0] = descriptor(drive, 0, last);
        table[last_place as usize] = descriptor(drive, last_place, 0);
        let first_track = (0, 0);
        let last_track = (drive_shape.cylinders - 1, drive_shape.heads - 1);
        let second_track = (0, 1);
        let shift = drive_shape.cylinders as i32 - 1;
        let rows = [
            (0, (first_track, last_track, shift)),
            (last, (last_track, first_track, -shift)),
            (drive.l, (second_track, second_track, 0)),
        ];
        for (block, expected) in rows {
            let (mut ours, mut theirs) = (vec![1; 65_536], vec![1; 65_536]);
            let library = reading::tracks(drive_shape, r, &table, &mut ours, block).map(named);
            assert_eq!(library, Ok(expected), "block {block}");
            let model = model::spares::tracks(paper(drive_shape), r, &table, &mut theirs, block);
            assert_eq!(model, Ok(expected), "block {block}");
            assert!(ours == theirs, "block {block}");
        }
    }
}

/// One hole before one block of a drive of 65,536 spares, all others unusable. Place 65,535 comes last in the
/// search order of block 0, and place 65,407 in that of the last block.
#[test]
fn holes_of_65536() {
    let (drive_shape, r) = (shape(4_096, 16, 64), 1);
    let drive = drive(paper(drive_shape), r).expect("65,536 spares");
    let last = drive.blocks() - 1;
    let rows: [(u32, u32, &[u32]); 2] = [
        (0, 65_535, &[0, 1, 127, 128, 33_000, 65_534]),
        (last, 65_407, &[65_535, 65_534, 65_408, 0, 33_000, 65_406]),
    ];
    let mut unusable = Rest::proper(drive_shape, r);
    unusable.table.fill(word(UNUSABLE, 0));
    for (block, place, holes) in rows {
        let mut rest = unusable.clone();
        rest.table[place as usize] = descriptor(drive, place, block);
        let (mut ours, mut theirs) = (rest.scratch.clone(), rest.scratch.clone());
        let library = spares::sector_of(drive_shape, r, &rest.table, &mut ours, block);
        assert_eq!(library, Ok(drive.spare(place)));
        let lent = &mut theirs;
        let model = model::spares::sector_of(paper(drive_shape), r, &rest.table, lent, block);
        assert_eq!(model, Ok(drive.spare(place)));
        assert!(ours == theirs);
        for hole in holes {
            let mut holed = rest.clone();
            holed.table[*hole as usize] = word(FREE, 0);
            every_table_call_gives(drive_shape, &holed, |_| 11, &ours);
        }
    }
}

/// The search leaves its table block on one side and goes on at the other, then in the blocks after
/// it and before it.
#[test]
fn the_search_goes_round_the_table() {
    let drive_shape = shape(64, 6, 2);
    let drive = drive(paper(drive_shape), 1).expect("384 spares");
    for free in 0..drive.spares() {
        for block in [0, 1, 63, 126, 127, 128, 129, 200, 255, 256, 383] {
            let (mut table, mut scratch) = (vec![word(UNUSABLE, 0); 384], [u32::MAX; 384]);
            table[free as usize] = 0;
            let place = spares::replace(drive_shape, 1, &mut table, &mut scratch, block);
            assert_eq!((place, scratch), (Ok(free), [0; 384]), "block {block}");
            assert_eq!(table[free as usize], descriptor(drive, free, block));
        }
    }
}

/// One block alone uses up every spare, in its search order.
#[test]
fn every_spare_dies_under_one_block() {
    let drive_shape = shape(64, 6, 2);
    let drive = drive(paper(drive_shape), 1).expect("384 spares");
    for block in [0, 127, 128, 200, 383] {
        let (mut table, mut scratch) = (empty_table(drive), [u32::MAX; 384]);
        let order: Vec<usize> = search_order(384, drive.primary(block)).collect();
        for place in &order {
            let answer = spares::replace(drive_shape, 1, &mut table, &mut scratch, block);
            assert_eq!(answer, Ok(*place as u32), "block {block}");
        }
        let mut expected = vec![word(UNUSABLE, 0); 384];
        expected[order[383]] = descriptor(drive, order[383] as u32, block);
        assert_eq!(table, expected, "block {block}");
        let one_more = spares::replace(drive_shape, 1, &mut table, &mut scratch, block);
        assert_eq!(one_more, Err(Refusal::NoSpare), "block {block}");
        assert_eq!((&table, scratch), (&expected, [0; 384]), "block {block}");
    }
}

/// The last block that a header can say, with each code that it may have, and the first that it cannot.
#[test]
fn blocks_of_28_bits() {
    for (code, size) in CODES.into_iter().flat_map(|code| SIZES.map(|size| (code, size))) {
        let (length, data) = (size + 18, vec![0; size as usize]);
        for (block, expected) in [(CODE_UNIT - 1, Ok(length)), (CODE_UNIT, Err(5))] {
            let mut ours = vec![7; length as usize];
            let mut theirs = ours.clone();
            let library = image::write(size, block, code, &data, false, &mut ours);
            assert_eq!(library.map_err(Refusal::number), expected, "code {code}");
            let model = model::image::write(size, block, code, &data, false, &mut theirs);
            assert_eq!(model, expected, "code {code}");
            assert_eq!(ours, theirs, "code {code}");
            // In a room that was not written 07070707 stands in the header.
            let judged = expected.map(|_| ()).map_err(|_| 16);
            let library = image::judge(size, &ours, block, code).map_err(Refusal::number);
            assert_eq!(library, judged, "code {code}");
            assert_eq!(model::image::judge(size, &ours, block, code), judged, "code {code}");
        }
    }
}

/// The numbers about the two sizes: only the two are one.
#[test]
fn sizes_of_512_and_of_576() {
    for size in (0..=1_200).chain([65_536 + 512, 65_536 + 576, 1 << 31, u32::MAX]) {
        let data = vec![0; size.min(1_200) as usize];
        let (mut room, expected) = (vec![7; 1_300], SIZES.contains(&size));
        let library = image::write(size, 7, 2, &data, false, &mut room);
        let model = model::image::write(size, 7, 2, &data, false, &mut [7; 1_300]);
        let answer = if expected { Ok(size + 18) } else { Err(1) };
        assert_eq!((library.map_err(Refusal::number), model), (answer, answer), "size {size}");
        let image = &room[..data.len() + 18];
        let judged = image::judge(size, image, 7, 2).map_err(Refusal::number);
        assert_eq!(judged, answer.map(|_| ()), "size {size}");
        assert_eq!(room[..16] == [7; 16], !expected, "size {size}");
    }
}

/// The only good copy of the format table lies where its XBN needs more than 16 bits, and no other sector of the
/// area is good.
#[test]
fn a_mode_sector_far_away() {
    let xbn = 65_537;
    let mut images = vec![0xA5; xbn * 530];
    let mut data = vec![0; 512];
    data[..2].copy_from_slice(&[0x02, 0x40]);
    images.extend(model::image::bytes(copy(0, xbn as u32), &data, false));
    for (images, apart, expected) in [
        (&images[..], 65_537, Ok(576)),
        (&images[..], 1, Ok(576)),
        (&images[..], 65_536, Err(21)),
        (&images[..], 2, Err(21)),
        (&images[..images.len() - 1], 65_537, Err(21)),
    ] {
        assert_eq!(mode::find(images, apart).map_err(Refusal::number), expected, "apart {apart}");
        assert_eq!(model::mode::find(images, apart), expected, "apart {apart}");
    }
}

#[test]
fn one_sector_and_it_is_bad() {
    assert_eq!(skip::sector_of(1, &[0], 0), Err(Refusal::NoSuchBlock));
    assert_eq!(skipping::sector_of(1, &[0], 0), Err(5));
    assert_eq!(skip::block_on(1, &[0], 0), Ok(None));
    assert_eq!(Cursor::start(1, &[0], 0), Err(Refusal::NoSuchBlock));
    let none = Cursor::default();
    assert_eq!(none.check(1, &[0]), Ok(none));
    assert_eq!(none.step(1, &[0]), Err((Refusal::NoSuchBlock, none)));
    let stray = Cursor { block: 0, skipped: 1 };
    assert_eq!(stray.step(1, &[0]), Err((Refusal::StrayCursor, stray)));
    let night = Drawn { n: 1, p: vec![0], g: vec![], space: 1, option: 1, d: vec![0] };
    assert_eq!(formatted(&night, &mut [], &mut [0]), Err(Refusal::Outside));
    assert_eq!(model::format::lists(night.lent()), Err(4));
}

#[test]
fn a_page_of_14_bytes_and_of_13() {
    let page = model::page::bytes(20, 0, &[]);
    assert_eq!(page.len(), 14);
    let read = page::Page { kind: 0, n: 20, entries: 0 };
    assert_eq!(page::read(&page, &mut []), Ok(read));
    assert_eq!(page::read(&page[..13], &mut []), Err(Refusal::BadPage));
    assert_eq!(model::page::read(&page[..13], &mut []), Err(8));
    assert_eq!(page::write(20, 0, &[], &mut [0; 14]), Ok(14));
    assert_eq!(page::write(20, 0, &[], &mut [0; 13]), Err(Refusal::NoRoom));
}

/// A night that leaves exactly 65,536 entries, and one that would leave 65,537, in each place where a
/// length is refused.
#[test]
fn nights_of_65536_and_of_65537() {
    let even: Vec<u32> = (0..32_768).map(|entry| 2 * entry).collect();
    let odd: Vec<u32> = (0..32_768).map(|entry| 2 * entry + 1).collect();
    let mut longer = odd.clone();
    longer.push(65_537);
    let night = |p: &Vec<u32>, g: &Vec<u32>, space, option, d: Vec<u32>| Drawn {
        n: 140_000,
        p: p.clone(),
        g: g.clone(),
        space,
        option,
        d,
    };
    let cases = [
        // The list in use, whatever the option.
        (night(&even, &odd, 3, 6, vec![]), Ok(0)),
        (night(&even, &longer, 3, 6, vec![]), Err(2)),
        // The new list.
        (night(&even, &odd, 1, 1, vec![]), Ok(65_536)),
        (night(&even, &odd, 1, 1, vec![32_767]), Ok(65_536)),
        (night(&even, &odd, 1, 1, vec![32_768]), Err(2)),
        (night(&even, &odd, 0, 5, longer.clone()), Err(2)),
        (night(&even, &odd, 0, 7, longer.clone()), Ok(32_769)),
        // D itself.
        (night(&even, &odd, 0, 7, first(65_536)), Ok(65_536)),
        (night(&even, &odd, 0, 7, first(65_537)), Err(2)),
        (night(&even, &odd, 0, 3, first(65_537)), Err(2)),
        // G, as it is and with one block more.
        (night(&even, &first(65_536), 2, 3, vec![]), Ok(65_536)),
        (night(&even, &first(65_536), 2, 3, vec![0]), Err(2)),
        (night(&even, &first(65_537), 0, 6, vec![]), Err(2)),
        // P.
        (night(&first(65_536), &odd, 1, 0, vec![]), Ok(65_536)),
        (night(&first(65_537), &odd, 1, 0, vec![]), Err(2)),
    ];
    for (case, (night, expected)) in cases.into_iter().enumerate() {
        let (mut grown, mut list) = (vec![0; LIST_MOST], vec![0; LIST_MOST]);
        let library = formatted(&night, &mut grown, &mut list);
        assert_eq!(library.map(|done| done.list).map_err(Refusal::number), expected, "case {case}");
        let model = model::format::lists(night.lent());
        assert_eq!(model.map(|(_, list, _)| list.len() as u32), expected, "case {case}");
    }
}
