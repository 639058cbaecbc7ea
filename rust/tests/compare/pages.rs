//! Pages against the model.

use tautberry::{page, Refusal};

use crate::draw::Draw;
use crate::model;
use crate::tally::Tally;

const SEEDS: u64 = 30_000;

/// Holds a reader of pages to the model, over so many seeds.
pub fn reads_like_the_model(
    call: &'static str,
    seeds: u64,
    read: impl Fn(&[u8], &mut [u32]) -> Result<(u32, u32, u32), u32>,
) {
    let mut tally = Tally::of(call);
    for seed in tally.seeds(seeds) {
        let mut draw = Draw::of(seed);
        let page = draw.any_page();
        let length = draw.room_length(page.len().saturating_sub(14) / 4);
        let before = draw.word_room(length);
        let (mut ours, mut theirs) = (before.clone(), before.clone());
        let answer = read(&page, ours.lent());
        let model = model::page::read(&page, theirs.lent());
        let written = model.map_or(0, |(_, _, entries)| entries as usize);
        tally.same_numbers(seed, answer, model);
        tally.same_room(seed, &before, &ours, &theirs, written);
    }
    tally.saw(&[0, 3, 4, 7, 8]);
}

/// Holds a writer of pages to the model, over so many seeds.
pub fn writes_like_the_model(
    call: &'static str,
    seeds: u64,
    write: impl Fn(u32, u32, &[u32], &mut [u8]) -> Result<u32, u32>,
) {
    let mut tally = Tally::of(call);
    for seed in tally.seeds(seeds) {
        let mut draw = Draw::of(seed);
        let (n, list) = draw.space();
        let kind =
            if draw.one_in(16) { draw.of_these(&[2, 255, 256, u32::MAX]) } else { draw.below(2) };
        let length = draw.room_length(14 + 4 * list.len());
        let before = draw.byte_room(length);
        let (mut ours, mut theirs) = (before.clone(), before.clone());
        let answer = write(n, kind, &list, ours.lent());
        let model = model::page::write(n, kind, &list, theirs.lent());
        let written = model.unwrap_or(0) as usize;
        tally.same_numbers(seed, answer, model);
        tally.same_room(seed, &before, &ours, &theirs, written);
    }
    tally.saw(&[0, 1, 2, 3, 4, 7, 8]);
}

#[test]
fn page_read() {
    reads_like_the_model("page::read", SEEDS, |bytes, room| {
        let read = page::read(bytes, room).map_err(Refusal::number)?;
        Ok((read.kind, read.n, read.entries))
    });
}

#[test]
fn page_write() {
    writes_like_the_model("page::write", SEEDS, |n, kind, list, room| {
        page::write(n, kind, list, room).map_err(Refusal::number)
    });
}

/// What is written reads back, and what was read is written as the same bytes.
#[test]
fn page_there_and_back() {
    for seed in 0..5_000 {
        let mut draw = Draw::of(seed);
        let n = draw.size();
        let list = draw.list(n);
        let kind = draw.below(2);
        let mut bytes = vec![0; 14 + 4 * list.len()];
        let length = page::write(n, kind, &list, &mut bytes).expect("a proper list");
        assert_eq!(length as usize, bytes.len(), "seed {seed}");

        let mut room = vec![0; list.len()];
        let read = page::read(&bytes, &mut room).expect("a written page");
        let entries = list.len() as u32;
        assert_eq!(read, page::Page { kind, n, entries }, "seed {seed}");
        assert_eq!(room, list, "seed {seed}");

        let mut again = vec![0; bytes.len()];
        page::write(read.n, read.kind, &room, &mut again).expect("what was read");
        assert_eq!(again, bytes, "seed {seed}");
    }
}
