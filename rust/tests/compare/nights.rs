//! Format against the model.

use tautberry::format::{format, Formatted};
use tautberry::{skip, Refusal};

use crate::draw::{Draw, Room};
use crate::drawn_nights::Drawn;
use crate::model;
use crate::model::format::{lists, map};
use crate::tally::Tally;

const SEEDS: u64 = 40_000;

/// The library's Format of a drawn night.
pub fn formatted(night: &Drawn, grown: &mut [u32], list: &mut [u32]) -> Result<Formatted, Refusal> {
    let Drawn { n, p, g, space, option, d } = night;
    format(*n, p, g, *space, *option, d, grown, list)
}

/// A night's new lists and space, in rooms that are long enough.
fn in_full(night: &Drawn) -> Result<(Vec<u32>, Vec<u32>, u32), Refusal> {
    let most = night.p.len() + night.g.len() + night.d.len();
    let (mut grown, mut list) = (vec![0; most], vec![0; most]);
    let answer = formatted(night, &mut grown, &mut list)?;
    grown.truncate(answer.grown as usize);
    list.truncate(answer.list as usize);
    Ok((grown, list, answer.space))
}

/// Holds a Format to the model, over so many seeds.
pub fn formats_like_the_model(
    call: &'static str,
    seeds: u64,
    mut format: impl FnMut(&Drawn, &mut [u32], &mut [u32]) -> Result<(u32, u32, u32), u32>,
) {
    let mut tally = Tally::of(call);
    for seed in tally.seeds(seeds) {
        let mut draw = Draw::of(seed);
        let night = draw.any_night();
        let (grown, list) = rooms(&mut draw, &night);
        let (mut our_grown, mut our_list) = (grown.clone(), list.clone());
        let (mut their_grown, mut their_list) = (grown.clone(), list.clone());
        let answer = format(&night, our_grown.lent(), our_list.lent());
        let model = model::format::format(night.lent(), their_grown.lent(), their_list.lent());
        let (grown_written, list_written, _) = model.unwrap_or((0, 0, 0));
        tally.same_numbers(seed, answer, model);
        tally.same_room(seed, &grown, &our_grown, &their_grown, grown_written as usize);
        tally.same_room(seed, &list, &our_list, &their_list, list_written as usize);
    }
    tally.saw(&[0, 1, 2, 3, 4, 7, 10]);
}

#[test]
fn format_of_any_night() {
    formats_like_the_model("format::format", SEEDS, |night, grown, list| {
        let done = formatted(night, grown, list).map_err(Refusal::number)?;
        Ok((done.grown, done.list, done.space))
    });
}

/// Every option in every space, each accepted at least once.
#[test]
fn format_of_every_option_in_every_space() {
    let mut accepted = [[0; 4]; 8];
    let mut tally = Tally::of("format::format, proper nights");
    for seed in tally.seeds(20_000) {
        let mut draw = Draw::of(seed);
        let night = draw.night();
        let library = in_full(&night);
        if library.is_ok() {
            accepted[night.option as usize][night.space as usize] += 1;
        }
        tally.same(seed, library, lists(night.lent()));
    }
    tally.saw(&[0, 2]);
    let least = accepted.iter().flatten().min();
    assert!(least > Some(&100), "options by spaces: {accepted:?}");
}

/// Two nights are one: the second's blocks, carried through the first night's map, join the first's.
#[test]
fn two_nights_are_one() {
    let mut joined_nights = 0;
    for seed in 0..4_000 {
        let mut draw = Draw::of(seed);
        let (space, option) = draw.of_these(&[(3, 1), (2, 3)]);
        let n = draw.within(1, 120);
        let (p, g) = (draw.list(n), draw.list(n));
        let used = model::format::list_of(space, &p, &g);
        let blocks = n - used.len() as u32;
        if blocks == 0 {
            continue;
        }
        let d = draw.list(blocks);
        let first = Drawn { n, p, g, space, option, d };
        let (grown, list, space) = in_full(&first).expect("a short night");
        let left = n - list.len() as u32;
        if left == 0 {
            continue;
        }
        let d = draw.list(left);
        let second = Drawn { g: grown, d: d.clone(), space, ..first.clone() };

        let in_first_numbers = map(blocks, &first.d, &d);
        let d = model::format::union(&first.d, &in_first_numbers);
        let joined = Drawn { d, ..first.clone() };
        assert_eq!(in_full(&joined), in_full(&second), "seed {seed}");
        for block in [0, left - 1] {
            let on_new = skip::sector_of(n, &list, block).expect("a block of the new space");
            let was = map(blocks, &first.d, &[block])[0];
            assert_eq!(skip::sector_of(n, &used, was), Ok(on_new), "seed {seed}");
        }
        joined_nights += 1;
    }
    assert!(joined_nights > 2_000, "only {joined_nights} pairs of nights");
}

/// Rooms about as long as the results.
fn rooms(draw: &mut Draw, night: &Drawn) -> (Room<u32>, Room<u32>) {
    let (grown, list) = match lists(night.lent()) {
        Ok((grown, list, _)) => (grown.len(), list.len()),
        Err(_) => (draw.place(30), draw.place(30)),
    };
    let (grown, list) = (draw.room_length(grown), draw.room_length(list));
    (draw.word_room(grown), draw.word_room(list))
}
