//! Skipping, the job cursor, shapes and the skipped drive against the model.

use tautberry::{shape as shapes, skip, skipped, Address, Cursor, Refusal, Shape};

use crate::draw::Draw;
use crate::drawn_shapes::{grouped, groupings, paper, shape};
use crate::model::numbers::{check_list, check_size};
use crate::model::{self, skipping};
use crate::tally::Tally;

const SEEDS: u64 = 20_000;

/// An address as the model has it.
pub fn numbers(address: Address) -> (u32, u32, u32, u32) {
    (address.cylinder, address.head, address.sector, address.angle)
}

/// Whether an answered address has an angle other than its sector.
pub fn turned<E>(answer: &Result<(u32, u32, u32, u32), E>) -> bool {
    matches!(answer, Ok((_, _, sector, angle)) if sector != angle)
}

/// Holds a translation of blocks to the model, over so many seeds.
pub fn places_like_the_model(
    call: &'static str,
    seeds: u64,
    sector_of: impl Fn(u32, &[u32], u32) -> Result<u32, u32>,
) {
    let mut tally = Tally::of(call);
    for seed in tally.seeds(seeds) {
        let mut draw = Draw::of(seed);
        let (n, list) = draw.space();
        let block = draw.near(n.saturating_sub(list.len() as u32));
        let answer = sector_of(n, &list, block);
        tally.same_numbers(seed, answer, skipping::sector_of(n, &list, block));
    }
    tally.saw(&[0, 1, 2, 3, 4, 5]);
}

#[test]
fn skip_sector_of() {
    places_like_the_model("skip::sector_of", SEEDS, |n, list, block| {
        skip::sector_of(n, list, block).map_err(Refusal::number)
    });
}

#[test]
fn skip_block_on() {
    let mut tally = Tally::of("skip::block_on");
    let (mut blocks, mut none) = (0, 0);
    for seed in tally.seeds(SEEDS) {
        let mut draw = Draw::of(seed);
        let (n, list) = draw.space();
        let sector = match list.first() {
            Some(_) if draw.one_in(3) => draw.of_these(&list),
            _ => draw.near(n),
        };
        let library = skip::block_on(n, &list, sector);
        blocks += u32::from(matches!(library, Ok(Some(_))));
        none += u32::from(library == Ok(None));
        tally.same(seed, library, skipping::block_on(n, &list, sector));
    }
    tally.saw(&[0, 1, 2, 3, 4, 6]);
    assert!(blocks > 1_000 && none > 1_000, "{blocks} blocks, {none} times none");
}

#[test]
fn cursor_start() {
    let mut tally = Tally::of("Cursor::start");
    for seed in tally.seeds(SEEDS) {
        let mut draw = Draw::of(seed);
        let (n, list) = draw.space();
        let block = draw.near(n.saturating_sub(list.len() as u32));
        let library = Cursor::start(n, &list, block).map(pair);
        tally.same(seed, library, skipping::start(n, &list, block));
    }
    tally.saw(&[0, 1, 2, 3, 4, 5]);
}

#[test]
fn cursor_check() {
    let mut tally = Tally::of("Cursor::check");
    for seed in tally.seeds(SEEDS) {
        let mut draw = Draw::of(seed);
        let (n, list) = draw.space();
        let cursor = any_cursor(&mut draw, n, &list);
        let library = cursor.check(n, &list).map(pair);
        tally.same(seed, library, skipping::check(pair(cursor), n, &list));
    }
    tally.saw(&[0, 1, 2, 3, 4, 9]);
}

#[test]
fn cursor_step() {
    let mut tally = Tally::of("Cursor::step");
    for seed in tally.seeds(SEEDS) {
        let mut draw = Draw::of(seed);
        let (n, list) = draw.space();
        let cursor = any_cursor(&mut draw, n, &list);
        same_step(&mut tally, seed, cursor, n, &list);
    }
    tally.saw(&[0, 1, 2, 3, 4, 5, 9]);
}

/// A whole job: each step is the model's and a fresh translation's, the last cursor stays.
#[test]
fn cursor_walks_to_the_end() {
    let mut tally = Tally::of("Cursor::step, whole jobs");
    for seed in tally.seeds(1_000) {
        let mut draw = Draw::of(seed);
        let n = draw.within(1, 60);
        let list = draw.list(n);
        let blocks = n - list.len() as u32;
        if blocks == 0 {
            assert_eq!(Cursor::start(n, &list, 0), Err(Refusal::NoSuchBlock), "seed {seed}");
            continue;
        }
        let first = draw.below(blocks);
        let mut cursor = Cursor::start(n, &list, first).expect("a job opens at any block");
        for block in first..blocks {
            assert_eq!(cursor.check(n, &list), Ok(cursor), "seed {seed}");
            same_step(&mut tally, seed, cursor, n, &list);
            let (sector, next) = cursor.step(n, &list).expect("a block is left");
            assert_eq!(Ok(sector), skip::sector_of(n, &list, block), "seed {seed}");
            cursor = next;
        }
        assert_eq!(cursor.check(n, &list), Ok(cursor), "seed {seed}");
        same_step(&mut tally, seed, cursor, n, &list);
    }
    tally.saw(&[0, 5]);
}

#[test]
fn shape_sector_of() {
    let mut tally = Tally::of("shape::sector_of");
    for seed in tally.seeds(SEEDS) {
        let mut draw = Draw::of(seed);
        let shape = draw.shape();
        let address = draw.any_address(shape);
        let shape = draw.any_shape(shape);
        let (cylinder, head, sector) = address;
        let library = shapes::sector_of(shape, cylinder, head, sector);
        let model = model::shape::sector_of(paper(shape), address);
        tally.same_on(seed, (shape, None), library, model);
    }
    tally.saw(&[0, 1, 6]);
}

#[test]
fn shape_address_of() {
    let mut tally = Tally::of("shape::address_of");
    let mut elsewhere = 0;
    for seed in tally.seeds(SEEDS) {
        let mut draw = Draw::of(seed);
        let shape = draw.shape();
        let sector = draw.near(shape.cylinders * shape.heads * shape.sectors);
        let shape = draw.any_shape(shape);
        let library = shapes::address_of(shape, sector).map(numbers);
        elsewhere += u32::from(turned(&library));
        let model = model::shape::address_of(paper(shape), sector);
        tally.same_on(seed, (shape, None), library, model);
    }
    tally.saw(&[0, 1, 6]);
    assert!(elsewhere > 1_000, "{elsewhere} turned");
}

/// Library and model give every sector of a drive the same address, and the library finds it back.
pub fn same_addresses(drive: Shape) {
    for sector in 0..drive.cylinders * drive.heads * drive.sectors {
        let library = shapes::address_of(drive, sector).map(numbers);
        let model = model::shape::address_of(paper(drive), sector);
        assert_eq!(library.map_err(Refusal::number), model, "sector {sector} of {drive:?}");
        let (cylinder, head, at, _) = model.expect("a sector of the drive");
        assert_eq!(shapes::sector_of(drive, cylinder, head, at), Ok(sector), "{drive:?}");
    }
}

#[test]
fn every_address_of_small_drives() {
    for heads in 1..=12 {
        for (groups, tracks) in groupings(heads) {
            for sectors in 2..=7 {
                for offset in 0..sectors {
                    same_addresses(grouped(shape(2, heads, sectors), (groups, tracks, offset)));
                }
            }
        }
    }
}

#[test]
fn skipped_address_of() {
    let mut tally = Tally::of("skipped::address_of");
    let mut elsewhere = 0;
    for seed in tally.seeds(SEEDS) {
        let mut draw = Draw::of(seed);
        let shape = draw.shape();
        let n = shape.cylinders * shape.heads * shape.sectors;
        let list = draw.any_list(n);
        let block = draw.near(n.saturating_sub(list.len() as u32));
        let shape = draw.any_shape(shape);
        let library = skipped::address_of(shape, &list, block).map(numbers);
        elsewhere += u32::from(turned(&library));
        let model = skipping::address_of(paper(shape), &list, block);
        tally.same_on(seed, (shape, None), library, model);
    }
    tally.saw(&[0, 1, 2, 3, 4, 5]);
    assert!(elsewhere > 1_000, "{elsewhere} turned");
}

#[test]
fn skipped_block_at() {
    let mut tally = Tally::of("skipped::block_at");
    let (mut blocks, mut none) = (0, 0);
    for seed in tally.seeds(SEEDS) {
        let mut draw = Draw::of(seed);
        let shape = draw.shape();
        let list = draw.any_list(shape.cylinders * shape.heads * shape.sectors);
        let address = draw.any_address(shape);
        let shape = draw.any_shape(shape);
        let (cylinder, head, sector) = address;
        let library = skipped::block_at(shape, &list, cylinder, head, sector);
        blocks += u32::from(matches!(library, Ok(Some(_))));
        none += u32::from(library == Ok(None));
        let model = skipping::block_at(paper(shape), &list, address);
        tally.same_on(seed, (shape, None), library, model);
    }
    tally.saw(&[0, 1, 2, 3, 4, 6]);
    assert!(blocks > 1_000 && none > 1_000, "{blocks} blocks, {none} times none");
}

/// Both sides step, and a refused step hands the cursor back.
fn same_step(tally: &mut Tally, seed: u64, cursor: Cursor, n: u32, list: &[u32]) {
    let library = cursor.step(n, list);
    let model = skipping::step(pair(cursor), n, list);
    if let Err((_, kept)) = library {
        assert_eq!(kept, cursor, "Cursor::step loses the cursor at seed {seed}");
    }
    tally.same(
        seed,
        library.map(|(sector, next)| (sector, pair(next))).map_err(|(refusal, _)| refusal),
        model.map_err(|(number, _)| number),
    );
}

fn pair(cursor: Cursor) -> skipping::Cursor {
    (cursor.block, cursor.skipped)
}

/// A cursor of the list, also the one after its last block, or one that strays.
pub fn any_cursor(draw: &mut Draw, n: u32, list: &[u32]) -> Cursor {
    if check_size(n).is_err() || check_list(n, list).is_err() {
        return Cursor { block: draw.below(8), skipped: draw.below(3) };
    }
    let blocks = skipping::blocks(n, list);
    let block = if draw.one_in(8) { blocks } else { draw.below(blocks + 1) };
    let mut cursor = Cursor { block, skipped: skipping::count(n, list, block) };
    match draw.below(12) {
        0 => cursor.skipped = cursor.skipped.wrapping_add(1),
        1 => cursor.skipped = cursor.skipped.wrapping_sub(1),
        2 => cursor.skipped = draw.below(list.len() as u32 + 2),
        3 => cursor.block = cursor.block.wrapping_add(1),
        4 => cursor.block = draw.near(blocks),
        5 => cursor = Cursor { block: draw.any(), skipped: draw.any() },
        // As many as lie below the block itself, not below the one before.
        6 if block < blocks => cursor.skipped = skipping::count(n, list, block + 1),
        _ => {}
    }
    cursor
}
