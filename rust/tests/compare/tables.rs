//! Revectored drives against the model.

use std::cmp::Ordering;

use tautberry::{spares, Refusal, Shape};

use crate::draw::{Draw, Room, Scratch};
use crate::drawn_shapes::{paper, shape as ungrouped, FEW_SPARES};
use crate::drawn_tables::descriptor;
use crate::model;
use crate::model::spares::{check_table, empty_table, word, Drive, FREE, UNUSABLE};
use crate::skipping::{numbers, turned};
use crate::tally::Tally;

const SEEDS: u64 = 24_000;

#[test]
fn spares_sector_of() {
    let mut tally = Tally::of("spares::sector_of");
    for seed in tally.seeds(SEEDS) {
        let mut draw = Draw::of(seed);
        let tabled = draw.any_tabled();
        let block = draw.block_of(&tabled);
        let (shape, r, table) = (tabled.shape, tabled.r, &tabled.table);
        let mut scratch = tabled.scratch();
        let library = spares::sector_of(shape, r, table, scratch.library.lent(), block);
        let model = model::spares::sector_of(paper(shape), r, table, scratch.model.lent(), block);
        tally.same_on_table(seed, (&tabled, Some(block)), &scratch, library, model);
    }
    tally.saw(&[0, 1, 5, 7, 11]);
}

#[test]
fn spares_address_of() {
    let mut tally = Tally::of("spares::address_of");
    let mut elsewhere = 0;
    for seed in tally.seeds(SEEDS) {
        let mut draw = Draw::of(seed);
        let tabled = draw.any_tabled();
        let block = draw.block_of(&tabled);
        let (shape, r, table) = (tabled.shape, tabled.r, &tabled.table);
        let mut scratch = tabled.scratch();
        let library = spares::address_of(shape, r, table, scratch.library.lent(), block);
        let library = library.map(numbers);
        elsewhere += u32::from(turned(&library));
        let model = model::spares::address_of(paper(shape), r, table, scratch.model.lent(), block);
        tally.same_on_table(seed, (&tabled, Some(block)), &scratch, library, model);
    }
    tally.saw(&[0, 1, 5, 7, 11]);
    assert!(elsewhere > 1_000, "{elsewhere} turned");
}

#[test]
fn spares_shift() {
    let mut tally = Tally::of("spares::shift");
    let (mut toward, mut away) = (0, 0);
    for seed in tally.seeds(SEEDS) {
        let mut draw = Draw::of(seed);
        let tabled = draw.any_tabled();
        let block = draw.block_of(&tabled);
        let (shape, r, table) = (tabled.shape, tabled.r, &tabled.table);
        let mut scratch = tabled.scratch();
        let library = spares::shift(shape, r, table, scratch.library.lent(), block);
        toward += u32::from(library.is_ok_and(|shift| shift < 0));
        away += u32::from(library.is_ok_and(|shift| shift > 0));
        let model = model::spares::shift(paper(shape), r, table, scratch.model.lent(), block);
        tally.same_on_table(seed, (&tabled, Some(block)), &scratch, library, model);
    }
    tally.saw(&[0, 1, 5, 7, 11]);
    assert!(toward > 200 && away > 200, "{toward} negative, {away} positive");
}

/// The block whose home is this sector; none where it is a spare.
fn home_of(drive: Drive, sector: u32) -> Option<u32> {
    let (track, at) = (sector / drive.shape.s, sector % drive.shape.s);
    (at < drive.l).then_some(track * drive.l + at)
}

#[test]
fn spares_block_on() {
    let mut tally = Tally::of("spares::block_on");
    let (mut blocks, mut none) = (0, 0);
    for seed in tally.seeds(SEEDS) {
        let mut draw = Draw::of(seed);
        let tabled = draw.any_tabled();
        let sector = draw.near(tabled.drive.blocks() + tabled.drive.spares());
        let (shape, r, table) = (tabled.shape, tabled.r, &tabled.table);
        let mut scratch = tabled.scratch();
        let library = spares::block_on(shape, r, table, scratch.library.lent(), sector);
        blocks += u32::from(matches!(library, Ok(Some(_))));
        none += u32::from(library == Ok(None));
        let model = model::spares::block_on(paper(shape), r, table, scratch.model.lent(), sector);
        let home = home_of(tabled.drive, sector);
        tally.same_on_table(seed, (&tabled, home), &scratch, library, model);
    }
    tally.saw(&[0, 1, 6, 7, 11]);
    assert!(blocks > 1_000 && none > 1_000, "{blocks} blocks, {none} times none");
}

#[test]
fn spares_block_at() {
    let mut tally = Tally::of("spares::block_at");
    let (mut blocks, mut none) = (0, 0);
    for seed in tally.seeds(SEEDS) {
        let mut draw = Draw::of(seed);
        let tabled = draw.any_tabled();
        let address = draw.any_address(tabled.shape);
        let (shape, r, table) = (tabled.shape, tabled.r, &tabled.table);
        let (cylinder, head, sector) = address;
        let mut scratch = tabled.scratch();
        let ours = scratch.library.lent();
        let library = spares::block_at(shape, r, table, ours, cylinder, head, sector);
        blocks += u32::from(matches!(library, Ok(Some(_))));
        none += u32::from(library == Ok(None));
        let model = model::spares::block_at(paper(shape), r, table, scratch.model.lent(), address);
        let sector = model::shape::sector_of(tabled.drive.shape, address).ok();
        let home = sector.and_then(|sector| home_of(tabled.drive, sector));
        tally.same_on_table(seed, (&tabled, home), &scratch, library, model);
    }
    tally.saw(&[0, 1, 6, 7, 11]);
    assert!(blocks > 1_000 && none > 1_000, "{blocks} blocks, {none} times none");
}

/// The table after a block of the drive was sent to a free place: the place that it came from, if it
/// lay on a spare, is unusable, the new one names it, and every other is as it was.
fn sent(drive: Drive, before: &[u32], block: u32, place: u32) -> Vec<u32> {
    let mut after = before.to_vec();
    assert_eq!(after[place as usize], word(FREE, 0), "place {place} was not free");
    if let Some(old) = drive.place_of(before, block) {
        after[old as usize] = word(UNUSABLE, 0);
    }
    after[place as usize] = descriptor(drive, place, block);
    after
}

#[test]
fn spares_replace() {
    let mut tally = Tally::of("spares::replace");
    // Blocks on a spare that found another, and those that found none.
    let (mut again, mut kept) = (0, 0);
    for seed in tally.seeds(SEEDS) {
        let mut draw = Draw::of(seed);
        let tabled = draw.any_tabled();
        let block = draw.block_of(&tabled);
        let (shape, r) = (tabled.shape, tabled.r);
        let (mut ours, mut theirs) = (tabled.table.clone(), tabled.table.clone());
        let mut scratch = tabled.scratch();
        let library = spares::replace(shape, r, &mut ours, scratch.library.lent(), block);
        let lent = scratch.model.lent();
        let model = model::spares::replace(paper(shape), r, &mut theirs, lent, block);
        tally.same_on_table(seed, (&tabled, Some(block)), &scratch, library, model);
        assert!(ours == theirs, "spares::replace: another table at seed {seed}");
        let expected = match library {
            Ok(place) => sent(tabled.drive, &tabled.table, block, place),
            Err(_) => tabled.table.clone(),
        };
        if library.is_ok() {
            assert_eq!(check_table(tabled.drive, &ours), Ok(()), "a bad table at seed {seed}");
        }
        assert!(ours == expected, "spares::replace: another place altered at seed {seed}");
        let on_spare = tabled.drive.place_of(&tabled.table, block).is_some();
        again += u32::from(on_spare && library.is_ok());
        kept += u32::from(on_spare && library == Err(Refusal::NoSpare));
    }
    tally.saw(&[0, 1, 5, 7, 11, 13]);
    assert!(again > 1_000 && kept > 200, "{again} sent again, {kept} kept");
}

#[test]
fn spares_census() {
    let mut tally = Tally::of("spares::census");
    for seed in tally.seeds(SEEDS) {
        let mut draw = Draw::of(seed);
        let tabled = draw.any_tabled();
        let (shape, r, table) = (tabled.shape, tabled.r, &tabled.table);
        let mut scratch = tabled.scratch();
        let library = spares::census(shape, r, table, scratch.library.lent())
            .map(|count| [count.free, count.primary, count.elsewhere, count.unusable, count.null]);
        let model = model::spares::census(paper(shape), r, table, scratch.model.lent());
        tally.same_on_table(seed, (&tabled, None), &scratch, library, model);
    }
    tally.saw(&[0, 1, 7, 11]);
}

#[test]
fn spares_first_table() {
    let mut tally = Tally::of("spares::first_table");
    for seed in tally.seeds(SEEDS) {
        let mut draw = Draw::of(seed);
        let (shape, r) = draw.drive();
        let drive = model::spares::drive(paper(shape), r).expect("a drive in its range");
        let n = drive.blocks() + drive.spares();
        let mut list = draw.any_list(n);
        if draw.one_in(2) {
            // Few bad sectors, so that the spares are enough. Where there are many spares the bad sectors
            // lie apart: a search that passes many table blocks takes long.
            let few = draw.below(drive.spares() + 2) as usize;
            if drive.spares() > FEW_SPARES {
                let apart = list.len() / few.max(1) + 1;
                list = list.into_iter().step_by(apart).collect();
            }
            list.truncate(few);
        }
        let (shape, r) = draw.any_drive(shape, r);
        let length = draw.room_length(drive.table_length());
        let before = draw.word_room(length);
        let (mut ours, mut theirs) = (before.clone(), before.clone());
        let library = spares::first_table(shape, r, &list, ours.lent());
        let model = model::spares::first_table(paper(shape), r, &list, theirs.lent());
        let written = model.unwrap_or(0) as usize;
        tally.same_on(seed, (shape, Some(r)), library, model);
        tally.same_room(seed, &before, &ours, &theirs, written);
        if model.is_ok() {
            let passes = check_table(drive, &ours.held()[..written]);
            assert_eq!(passes, Ok(()), "a bad table at seed {seed}");
        }
    }
    tally.saw(&[0, 1, 2, 3, 4, 7, 13]);
}

/// From a first table through blocks at home and on spares, many of them again and again, until no
/// spare is left: the table stays the model's. Each accepted call takes one free place, and kills one
/// spare exactly where its block lay on one.
#[test]
fn replacing_until_no_spare_is_left() {
    let mut tally = Tally::of("spares::replace, whole lives");
    let (mut again, mut kept) = (0, 0);
    for seed in tally.seeds(300) {
        let mut draw = Draw::of(seed);
        let (shape, r) = draw.drive_of_few_spares();
        let drive = model::spares::drive(paper(shape), r).expect("a drive in its range");
        let mut list = draw.list(drive.blocks() + drive.spares());
        list.truncate(drive.spares() as usize / 3);
        let mut ours = vec![0; drive.table_length()];
        let mut theirs = empty_table(drive);
        spares::first_table(shape, r, &list, &mut ours).expect("few bad sectors");
        model::spares::first_table(paper(shape), r, &list, &mut theirs).expect("few bad sectors");
        assert_eq!(ours, theirs, "spares::first_table at seed {seed}");

        // One scratch serves the whole life.
        let mut scratch = Scratch::of(Room::full_of_ones(drive.spares() as usize));
        let counted = |table: &[u32]| {
            let mut scratch = vec![u32::MAX; drive.spares() as usize];
            let count = spares::census(shape, r, table, &mut scratch).expect("a table of its own");
            assert!(scratch.iter().all(|number| *number == 0), "spares::census at seed {seed}");
            count
        };
        let bad_spares = (0..drive.spares()).filter(|q| list.contains(&drive.spare(*q))).count();
        let mut count = counted(&ours);
        assert_eq!(count.free, drive.spares() - list.len() as u32, "free at seed {seed}");
        assert_eq!(count.unusable, bad_spares as u32, "unusable at seed {seed}");
        let mut asked = vec![];
        for _ in 0..drive.spares() + 10 {
            let other = draw.below(drive.blocks());
            let block =
                if draw.one_in(2) || asked.is_empty() { other } else { draw.of_these(&asked) };
            asked.push(block);
            let before = ours.clone();
            let library = spares::replace(shape, r, &mut ours, scratch.library.lent(), block);
            let lent = scratch.model.lent();
            let model = model::spares::replace(paper(shape), r, &mut theirs, lent, block);
            tally.same(seed, library, model);
            assert_eq!((&ours, &scratch.library), (&theirs, &scratch.model), "seed {seed}");
            let expected = match library {
                Ok(place) => sent(drive, &before, block, place),
                Err(_) => before.clone(),
            };
            assert_eq!(ours, expected, "spares::replace: another place altered at seed {seed}");

            let on_spare = drive.place_of(&before, block).is_some();
            let taken = u32::from(library.is_ok());
            let killed = u32::from(library.is_ok() && on_spare);
            let after = counted(&ours);
            assert_eq!(after.free, count.free - taken, "free at seed {seed}");
            assert_eq!(after.unusable, count.unusable + killed, "unusable at seed {seed}");
            assert_eq!(after.null, count.null, "null at seed {seed}");
            let named = count.primary + count.elsewhere + taken - killed;
            assert_eq!(after.primary + after.elsewhere, named, "named at seed {seed}");
            count = after;
            again += killed;
            kept += u32::from(library.is_err() && on_spare);
        }
        assert_eq!(count.free, 0, "free at seed {seed}");
    }
    tally.saw(&[0, 13]);
    assert!(again > 1_000 && kept > 1_000, "{again} sent again, {kept} kept");
}

/// Every two blocks on the two spares of a drive: the table is refused exactly where they are one block.
/// With more than 32 blocks a spare one bit of the scratch stands for two blocks.
#[test]
fn every_two_blocks_on_two_spares() {
    for sectors in [33, 34, 64] {
        let shape = ungrouped(2, 1, sectors);
        let drive = model::spares::drive(paper(shape), 1).expect("a drive in its range");
        let mut table = empty_table(drive);
        for (first, second) in pairs(drive.blocks()) {
            table[0] = descriptor(drive, 0, first);
            table[1] = descriptor(drive, 1, second);
            let mut scratch = Scratch::of(Room::full_of_ones(3));
            let library = spares::sector_of(shape, 1, &table, scratch.library.lent(), second);
            let lent = scratch.model.lent();
            let model = model::spares::sector_of(paper(shape), 1, &table, lent, second);
            let expected = if first == second { Err(11) } else { Ok(drive.spare(1)) };
            let answers = (library.map_err(Refusal::number), model);
            assert_eq!(answers, (expected, expected), "blocks {first} and {second}");
            assert_eq!(scratch.library.held(), [0, 0, u32::MAX], "blocks {first} and {second}");
            assert_eq!(scratch.library, scratch.model, "blocks {first} and {second}");
        }
    }
}

/// How late a place comes in the search order of a primary place: first its table block, by the distance and
/// above before below, then the table blocks after it, then those before it.
fn rank(primary: u32, place: u32) -> (u32, u32) {
    let own = primary / 128;
    match (place / 128).cmp(&own) {
        Ordering::Equal => (0, 2 * place.abs_diff(primary) + u32::from(place < primary)),
        Ordering::Greater => (1, place),
        Ordering::Less => (2, place),
    }
}

/// A table that names one block and has these free places, all other spares unusable: library and model must
/// find the block on its spare, or refuse the table where one of the free places comes before it.
fn same_with_free(shape: Shape, r: u32, block: u32, place: u32, free: &[u32]) {
    let drive = model::spares::drive(paper(shape), r).expect("a drive in its range");
    let mut table = empty_table(drive);
    table[..drive.spares() as usize].fill(word(UNUSABLE, 0));
    for free in free {
        table[*free as usize] = word(FREE, 0);
    }
    table[place as usize] = descriptor(drive, place, block);
    let primary = drive.primary(block) as u32;
    let hole = free.iter().any(|free| rank(primary, *free) < rank(primary, place));
    let expected = if hole { Err(11) } else { Ok(drive.spare(place)) };
    let mut scratch = Scratch::of(Room::full_of_ones(drive.spares() as usize));
    let library = spares::sector_of(shape, r, &table, scratch.library.lent(), block);
    let model = model::spares::sector_of(paper(shape), r, &table, scratch.model.lent(), block);
    let answers = (library.map_err(Refusal::number), model);
    assert_eq!(answers, (expected, expected), "block {block} at {place}, free {free:?}");
    assert!(scratch.library.held().iter().all(|number| *number == 0));
    assert_eq!(scratch.library, scratch.model, "block {block} at {place}, free {free:?}");
}

/// A block of each track at each of eight spares, with any of the others free.
#[test]
fn any_free_places_of_eight() {
    for track in 0..4 {
        for place in 0..8 {
            for set in 0..256_u32 {
                let free: Vec<u32> = (0..8).filter(|other| set >> other & 1 == 1).collect();
                if !free.contains(&place) {
                    same_with_free(ungrouped(2, 2, 5), 2, 3 * track, place, &free);
                }
            }
        }
    }
}

/// Blocks and places about the edges of three table blocks, with each other spare free in turn.
#[test]
fn each_free_place_of_260() {
    let edges = [0, 1, 63, 126, 127, 128, 129, 200, 254, 255, 256, 258, 259];
    for track in edges {
        for place in edges {
            for free in (0..260).filter(|free| *free != place) {
                same_with_free(ungrouped(260, 1, 3), 1, 2 * track, place, &[free]);
            }
        }
    }
}

/// Every pair of numbers below `bound`, each in both orders, and each with itself.
fn pairs(bound: u32) -> impl Iterator<Item = (u32, u32)> {
    (0..bound).flat_map(move |first| (0..bound).map(move |second| (first, second)))
}
