//! What a comparison has seen, and its verdict on each input.

use std::collections::BTreeMap;
use std::fmt::Debug;
use std::ops::Range;

use tautberry::{Refusal, Shape, SPARES_MOST, TABLE_BLOCK};

use crate::draw::{Room, Scratch};
use crate::drawn_images::{Size, CODES, NO_SIZES, SIZES};
use crate::drawn_shapes::{grouped, paper, FEW_SPARES};
use crate::drawn_tables::{Hole, Tabled};
use crate::model;
use crate::model::image::{is_known, said, standing, BLOCKS_MOST};
use crate::model::spares::{allocated, check_descriptors, holes, search_order, word, FREE};

/// The answers of one call, counted by refusal number on both sides; 0 is accepted.
pub struct Tally {
    call: &'static str,
    library: BTreeMap<u32, u32>,
    model: BTreeMap<u32, u32>,
    groups: Option<Groups>,
    tables: Option<Tables>,
    look_ups: Option<LookUps>,
    headers: Option<Headers>,
    sizes: Option<Sizes>,
}

/// What the groups of the shapes came to, of a call that takes a shape.
#[derive(Debug, Default)]
struct Groups {
    /// Refused 1 for g or t alone.
    heads: u32,
    /// Refused 1 for the offset alone.
    offset: u32,
    /// Accepted with more than one group, and with an offset that is not 0.
    accepted: u32,
}

/// What the scratch came to, of a call that is lent a table, how large the drives were, and what holes their
/// tables had.
#[derive(Debug, Default)]
struct Tables {
    /// Scratch that was too short.
    short: u32,
    /// Scratch that was written by a call that was accepted.
    accepted: u32,
    /// Scratch that was written by a call that was refused.
    refused: u32,
    /// Scratch that was written and was longer than it had to be.
    longer: u32,
    /// Drives of more than [`FEW_SPARES`].
    many_spares: u32,
    /// Drives of about as many spares as may be.
    most_spares: u32,
    /// Tables that were refused for a hole, or for several, and broke no other rule.
    holes: u32,
    /// Those of them whose holes are all of a kind.
    kinds: BTreeMap<Hole, u32>,
}

/// Where look-ups ended, of a call that looks a block up in a table.
#[derive(Debug, Default)]
struct LookUps {
    /// At a free place in the table block of the block's primary place.
    free: u32,
    /// At a free place in another table block.
    free_elsewhere: u32,
    /// At the block.
    block: u32,
    /// At the end of the search order.
    end: u32,
}

/// What numbers stood in headers, of a call that expects a code and a block. A fourth code is none.
#[derive(Debug, Default)]
struct Headers {
    /// The block that was expected, with each code that was expected and each that the header said.
    codes: BTreeMap<(Option<u32>, Option<u32>), u32>,
    /// Another block, with the code that was expected.
    other_block: u32,
    /// Another code and another block, or one of the two, that come to the word of those expected.
    aliases: u32,
}

/// What the sizes of sectors came to, of a call that takes one.
#[derive(Debug, Default)]
struct Sizes {
    /// Accepted, with each size.
    accepted: BTreeMap<u32, u32>,
    /// Refused 1, with each number that is no size.
    none: BTreeMap<u32, u32>,
    /// Refused 14 at each size, where what was lent was made for the other.
    other: BTreeMap<u32, u32>,
}

/// Every comparison of a call that takes a shape must have seen each count of [`Groups`] so often, one of a
/// call that is lent a table each count of [`Tables`] but those below, and one of a call that looks a block
/// up each count of [`LookUps`].
const SEEN_LEAST: u32 = 100;
/// It must have seen each kind of hole so often.
const HOLES_LEAST: u32 = 50;
/// It must have seen the most spares so often: such an input takes long.
const MOST_SPARES_LEAST: u32 = 8;
/// One of a call that expects a code and a block must have seen each count of [`Headers`] so often.
const HEADERS_LEAST: u32 = 40;
/// One of a call that takes the size of a sector must have seen each count of [`Sizes`] so often.
const SIZES_LEAST: u32 = 40;

impl Groups {
    /// Counts one answer about a drive, with r where it has spares.
    fn count(&mut self, (shape, r): (Shape, Option<u32>), number: u32) {
        let in_range = |shape: Shape| match r {
            Some(r) => model::spares::drive(paper(shape), r).is_ok(),
            None => model::shape::check(paper(shape)).is_ok(),
        };
        let one_group = grouped(shape, (1, shape.heads, shape.offset));
        self.heads += u32::from(number == 1 && in_range(one_group));
        self.offset += u32::from(number == 1 && in_range(Shape { offset: 0, ..shape }));
        self.accepted += u32::from(number == 0 && shape.groups > 1 && shape.offset > 0);
    }
}

impl Tables {
    /// Counts one answer about a drive with its table, and the scratch after it.
    fn count(&mut self, tabled: &Tabled, scratch: &Scratch, number: u32) {
        let drive = model::spares::drive(paper(tabled.shape), tabled.r);
        let spares = drive.map_or(0, |drive| drive.spares());
        self.many_spares += u32::from(spares > FEW_SPARES);
        self.most_spares += u32::from(spares > SPARES_MOST - 100);
        let written = scratch.written();
        self.short += u32::from(number == 7);
        self.accepted += u32::from(written && number == 0);
        self.refused += u32::from(written && number != 0);
        self.longer += u32::from(written && scratch.end_stands());
        if number == 11 && check_descriptors(tabled.drive, &tabled.table).is_ok() {
            self.count_holes(tabled);
        }
    }

    /// Counts the holes of a table that breaks no other rule.
    fn count_holes(&mut self, Tabled { table, drive, .. }: &Tabled) {
        let mut kinds = Hole::ALL.to_vec();
        for (place, descriptor) in table.iter().enumerate() {
            if let Some(block) = allocated(*descriptor) {
                let primary = drive.primary(block);
                for hole in holes(*drive, table, place, block) {
                    kinds.retain(|kind| kind.lies_at(*drive, primary, hole));
                }
            }
        }
        self.holes += 1;
        for kind in kinds {
            *self.kinds.entry(kind).or_default() += 1;
        }
    }
}

impl LookUps {
    /// Counts the look-up of a block in a table that was accepted.
    fn count(&mut self, Tabled { table, drive, .. }: &Tabled, block: u32) {
        let primary = drive.primary(block);
        let names_it = |place: usize| allocated(table[place]) == Some(block);
        let is_free = |place: usize| table[place] == word(FREE, 0);
        let mut order = search_order(table.len(), primary);
        let ended = order.find(|place| is_free(*place) || names_it(*place));
        let count = match ended {
            None => &mut self.end,
            Some(place) if names_it(place) => &mut self.block,
            Some(place) if place / TABLE_BLOCK == primary / TABLE_BLOCK => &mut self.free,
            Some(_) => &mut self.free_elsewhere,
        };
        *count += 1;
    }
}

impl Headers {
    /// Counts the header of an image where this code and this block were expected. The call must have given
    /// 16 exactly where a number stands in it that does not say them, or says a fourth code.
    fn count(&mut self, image: &[u8], (code, block): (u32, u32), given: u32) {
        let Ok(copy) = standing(image) else {
            assert!(given != 16, "16 without a number in the header");
            return;
        };
        let (its_code, its_block) = said(copy);
        let says_them = (its_code, its_block) == (code, block);
        assert_eq!(given == 16, !says_them || !is_known(its_code), "{given} for {copy:?}");
        let known = |code: u32| is_known(code).then_some(code);
        if its_block == block {
            *self.codes.entry((known(code), known(its_code))).or_default() += 1;
        }
        self.other_block += u32::from(its_code == code && its_block != block);
        let word = code.wrapping_mul(BLOCKS_MOST).wrapping_add(block);
        self.aliases += u32::from(!says_them && word.to_be_bytes() == copy);
    }

    /// Whether enough of each was seen. A table says one of the three codes, and a block of the drive.
    fn are_enough(&self, by_table: bool) -> bool {
        let three = CODES.map(Some);
        let expected = if by_table { &three[..] } else { &[&three[..], &[None]].concat() };
        let all_said = [&three[..], &[None]].concat();
        let pairs =
            expected.iter().flat_map(|one| all_said.iter().map(move |other| (*one, *other)));
        let mut seen: Vec<u32> =
            pairs.map(|pair| self.codes.get(&pair).copied().unwrap_or(0)).collect();
        seen.push(self.other_block);
        if !by_table {
            seen.push(self.aliases);
        }
        seen.into_iter().all(|count| count >= HEADERS_LEAST)
    }
}

impl Sizes {
    /// Counts one answer. The call must have given 1 wherever the size is none.
    fn count(&mut self, Size { given, made }: Size, number: u32) {
        let count = if !SIZES.contains(&given) {
            assert_eq!(number, 1, "size {given}");
            &mut self.none
        } else if number == 0 {
            &mut self.accepted
        } else if number == 14 && given != made {
            &mut self.other
        } else {
            return;
        };
        *count.entry(given).or_default() += 1;
    }

    fn are_enough(&self) -> bool {
        let enough = |seen: &BTreeMap<u32, u32>, sizes: &[u32]| {
            sizes.iter().all(|size| seen.get(size).is_some_and(|count| *count >= SIZES_LEAST))
        };
        let Sizes { accepted, none, other } = self;
        enough(accepted, &SIZES) && enough(none, &NO_SIZES) && enough(other, &SIZES)
    }
}

impl Tally {
    pub fn of(call: &'static str) -> Tally {
        Tally {
            call,
            library: BTreeMap::new(),
            model: BTreeMap::new(),
            groups: None,
            tables: None,
            look_ups: None,
            headers: None,
            sizes: None,
        }
    }

    /// So many seeds that no other call has, as its name gives them.
    pub fn seeds(&self, count: u64) -> Range<u64> {
        let mixed =
            self.call.bytes().fold(0, |mixed: u64, byte| mixed * 31 % 1_000_003 + u64::from(byte));
        let first = mixed * 1_000_000;
        first..first + count
    }

    /// Counts one input's answers, which must be the same.
    pub fn same<T: PartialEq + Debug>(
        &mut self,
        seed: u64,
        library: Result<T, Refusal>,
        model: Result<T, u32>,
    ) {
        self.same_numbers(seed, library.map_err(Refusal::number), model);
    }

    /// The same for a side that gives numbers.
    pub fn same_numbers<T: PartialEq + Debug>(
        &mut self,
        seed: u64,
        library: Result<T, u32>,
        model: Result<T, u32>,
    ) {
        *self.library.entry(number(&library)).or_default() += 1;
        *self.model.entry(number(&model)).or_default() += 1;
        assert!(
            library == model,
            "{} differs at seed {seed}: the library gives {library:?}, the model {model:?}",
            self.call
        );
    }

    /// The same for a call that takes a shape, and r where the drive has spares: what its groups came to
    /// is counted too.
    pub fn same_on<T: PartialEq + Debug>(
        &mut self,
        seed: u64,
        drive: (Shape, Option<u32>),
        library: Result<T, Refusal>,
        model: Result<T, u32>,
    ) {
        self.same_numbers_on(seed, drive, library.map_err(Refusal::number), model);
    }

    /// The same for a side that gives numbers.
    pub fn same_numbers_on<T: PartialEq + Debug>(
        &mut self,
        seed: u64,
        drive: (Shape, Option<u32>),
        library: Result<T, u32>,
        model: Result<T, u32>,
    ) {
        self.groups.get_or_insert_default().count(drive, number(&library));
        self.same_numbers(seed, library, model);
    }

    /// The same for a call that is lent a table and looks up this block in it, if any: the scratch after it
    /// must be the same too.
    pub fn same_on_table<T: PartialEq + Debug>(
        &mut self,
        seed: u64,
        asked: (&Tabled, Option<u32>),
        scratch: &Scratch,
        library: Result<T, Refusal>,
        model: Result<T, u32>,
    ) {
        self.same_numbers_on_table(seed, asked, scratch, library.map_err(Refusal::number), model);
    }

    /// The same for a side that gives numbers.
    pub fn same_numbers_on_table<T: PartialEq + Debug>(
        &mut self,
        seed: u64,
        (tabled, block): (&Tabled, Option<u32>),
        scratch: &Scratch,
        library: Result<T, u32>,
        model: Result<T, u32>,
    ) {
        let given = number(&library);
        self.same_numbers_on(seed, (tabled.shape, Some(tabled.r)), library, model);
        self.tables.get_or_insert_default().count(tabled, scratch, given);
        // What an image is refused for comes after the look-up.
        if let (Some(block), 0 | 15..=18) = (block, given) {
            self.look_ups.get_or_insert_default().count(tabled, block);
        }
        assert!(
            scratch.library == scratch.model,
            "{} leaves other scratch than the model at seed {seed}",
            self.call
        );
    }

    /// Counts the header of an image where a call expected this code and this block, and gave this number.
    pub fn count_header(&mut self, image: &[u8], expected: (u32, u32), given: u32) {
        // 1 and 14 come before any look at the header.
        if given != 1 && given != 14 {
            self.headers.get_or_insert_default().count(image, expected, given);
        }
    }

    /// Counts the size that a call was given, and gave this number.
    pub fn count_size(&mut self, size: Size, number: u32) {
        self.sizes.get_or_insert_default().count(size, number);
    }

    /// The rooms after one input: the same on both sides, and as before past what was written, which
    /// is nothing on a refusal.
    pub fn same_room<T: PartialEq + Copy + Debug>(
        &self,
        seed: u64,
        before: &Room<T>,
        library: &Room<T>,
        model: &Room<T>,
        written: usize,
    ) {
        let call = self.call;
        assert!(
            library.kept(before, written),
            "{call} writes past its result at seed {seed}, or on a refusal"
        );
        assert!(
            library == model,
            "{call} fills its room otherwise at seed {seed}: the library {library:?}, the model {model:?}"
        );
    }

    /// Both sides must have given these numbers, 0 for accepted, and no others. A call that takes a shape
    /// must have been refused for its groups alone, and accepted with groups. One that is lent a table must
    /// have been refused for its scratch, must have written to it, accepted and refused, must have been asked
    /// about drives of many spares, and must have been refused for each kind of hole alone. One that looks a
    /// block up must have ended in each way. One that expects a code and a block must have met each code
    /// where each was expected. One that takes the size of a sector must have accepted with both, and must
    /// have been refused for each number that is none, and for what was made for the other size.
    pub fn saw(self, numbers: &[u32]) {
        let inputs: u32 = self.library.values().sum();
        println!("{}: {inputs} inputs, answers {:?}", self.call, self.library);
        if let Some(groups) = &self.groups {
            println!("{}: {groups:?}", self.call);
            for seen in [groups.heads, groups.offset, groups.accepted] {
                assert!(seen >= SEEN_LEAST, "{}: too few of {groups:?}", self.call);
            }
        }
        if let Some(tables) = &self.tables {
            println!("{}: {tables:?}", self.call);
            let Tables { short, accepted, refused, longer, many_spares, most_spares, .. } = *tables;
            for seen in [short, accepted, refused, longer, many_spares, tables.holes] {
                assert!(seen >= SEEN_LEAST, "{}: too few of {tables:?}", self.call);
            }
            assert!(most_spares >= MOST_SPARES_LEAST, "{}: too few of {tables:?}", self.call);
            for kind in Hole::ALL {
                let seen = tables.kinds.get(&kind).copied().unwrap_or(0);
                assert!(seen >= HOLES_LEAST, "{}: too few of {tables:?}", self.call);
            }
        }
        if let Some(look_ups) = &self.look_ups {
            println!("{}: {look_ups:?}", self.call);
            let mut ended = vec![look_ups.free, look_ups.free_elsewhere, look_ups.block];
            // A replacement looks a block up only where a place is free.
            if !numbers.contains(&13) {
                ended.push(look_ups.end);
            }
            for seen in ended {
                assert!(seen >= SEEN_LEAST, "{}: too few of {look_ups:?}", self.call);
            }
        }
        if let Some(headers) = &self.headers {
            println!("{}: {headers:?}", self.call);
            let enough = headers.are_enough(self.tables.is_some());
            assert!(enough, "{}: too few of {headers:?}", self.call);
        }
        if let Some(sizes) = &self.sizes {
            println!("{}: {sizes:?}", self.call);
            assert!(sizes.are_enough(), "{}: too few of {sizes:?}", self.call);
        }
        for (side, seen) in [("library", &self.library), ("model", &self.model)] {
            let given: Vec<u32> = seen.keys().copied().collect();
            assert_eq!(given, numbers, "{}: numbers that the {side} gave", self.call);
        }
    }
}

fn number<T>(answer: &Result<T, u32>) -> u32 {
    match answer {
        Ok(_) => 0,
        Err(number) => *number,
    }
}
