//! The benchmark's plain Rust against the model, so that both sides of a ratio do the same work.

use crate::draw::Draw;
use crate::drawn_nights::Drawn;
use crate::drawn_shapes::paper;
use crate::images::judges_like_the_model;
use crate::model::{self, skipping};
use crate::modes::finds_like_the_model;
use crate::nights::formats_like_the_model;
use crate::pages::{reads_like_the_model, writes_like_the_model};
use crate::plain;
use crate::skipping::{any_cursor, places_like_the_model};
use crate::tally::Tally;

const SEEDS: u64 = 10_000;

#[test]
fn plain_sector_of() {
    places_like_the_model("plain::sector_of", SEEDS, plain::sector_of);
}

#[test]
fn plain_step() {
    let mut tally = Tally::of("plain::step");
    for seed in tally.seeds(SEEDS) {
        let mut draw = Draw::of(seed);
        let (n, list) = draw.space();
        let drawn = any_cursor(&mut draw, n, &list);
        let cursor = plain::Cursor { block: drawn.block, skipped: drawn.skipped };
        let pair = |cursor: plain::Cursor| (cursor.block, cursor.skipped);
        let plain = plain::step(cursor, n, &list)
            .map(|(sector, next)| (sector, pair(next)))
            .map_err(|(number, kept)| {
                assert_eq!(kept, cursor, "plain::step loses the cursor at seed {seed}");
                number
            });
        let model = skipping::step(pair(cursor), n, &list).map_err(|(number, _)| number);
        tally.same_numbers(seed, plain, model);
    }
    tally.saw(&[0, 1, 2, 3, 4, 5, 9]);
}

#[test]
fn plain_spare_sector() {
    let mut tally = Tally::of("plain::spare_sector");
    for seed in tally.seeds(24_000) {
        let mut draw = Draw::of(seed);
        let tabled = draw.any_tabled();
        let block = draw.block_of(&tabled);
        let (shape, r, table) = (tabled.shape, tabled.r, &tabled.table);
        let mut scratch = tabled.scratch();
        let lent = scratch.library.lent();
        let plain = plain::spare_sector(plain::Shape::from(shape), r, table, lent, block);
        let model = model::spares::sector_of(paper(shape), r, table, scratch.model.lent(), block);
        tally.same_numbers_on_table(seed, (&tabled, Some(block)), &scratch, plain, model);
    }
    tally.saw(&[0, 1, 5, 7, 11]);
}

#[test]
fn plain_read_tracks() {
    let mut tally = Tally::of("plain::read_tracks");
    for seed in tally.seeds(24_000) {
        let mut draw = Draw::of(seed);
        let tabled = draw.any_tabled();
        let block = draw.block_of(&tabled);
        let (shape, r, table) = (tabled.shape, tabled.r, &tabled.table);
        let mut scratch = tabled.scratch();
        let lent = scratch.library.lent();
        let plain = plain::read_tracks(plain::Shape::from(shape), r, table, lent, block);
        let model = model::spares::tracks(paper(shape), r, table, scratch.model.lent(), block);
        tally.same_numbers_on_table(seed, (&tabled, Some(block)), &scratch, plain, model);
    }
    tally.saw(&[0, 1, 5, 7, 11]);
}

#[test]
fn plain_judge() {
    judges_like_the_model("plain::judge", SEEDS, plain::judge);
}

#[test]
fn plain_find_mode() {
    finds_like_the_model("plain::find_mode", SEEDS, plain::find_mode);
}

#[test]
fn plain_read_page() {
    reads_like_the_model("plain::read_page", SEEDS, plain::read_page);
}

#[test]
fn plain_write_page() {
    writes_like_the_model("plain::write_page", SEEDS, plain::write_page);
}

#[test]
fn plain_format() {
    let mut rooms = plain::Rooms::new();
    formats_like_the_model("plain::format", SEEDS, |night, grown, list| {
        let Drawn { n, p, g, space, option, d } = night;
        plain::format(*n, p, g, *space, *option, d, grown, list, &mut rooms)
    });
}
