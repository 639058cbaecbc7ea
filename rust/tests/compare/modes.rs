//! The mode sector against the model.

use std::collections::BTreeMap;

use tautberry::{mode, Refusal};

use crate::draw::Draw;
use crate::drawn_modes::Area;
use crate::model;
use crate::model::image::HOME;
use crate::model::mode::copies;
use crate::tally::Tally;

const SEEDS: u64 = 30_000;

/// Each count of [`Seen`] must have come up so often.
const SEEN_LEAST: u32 = 100;

/// What the copies came to. A copy with a word that is no size counts as 0, one that is refused by its number.
#[derive(Debug, Default)]
struct Seen {
    /// The sizes that were found in the first copy.
    first: BTreeMap<u32, u32>,
    /// The sizes that were found in a later one.
    later: BTreeMap<u32, u32>,
    /// What copies came to that were passed over before the size was found.
    passed: BTreeMap<u32, u32>,
    /// What the last copy came to where no size was found.
    last: BTreeMap<u32, u32>,
    /// Areas with no image at all.
    nothing: u32,
    /// Answers that another way through the sectors would not give: one sector on instead of to the next copy.
    sector_by_sector: u32,
    /// Sizes that were found where the copies lie farther apart than the area has sectors.
    one_copy: u32,
}

impl Seen {
    /// Counts one answer, with copies that lie some sectors apart.
    fn count(&mut self, Area { images, apart }: &Area, answer: Result<u32, u32>) {
        // What each copy came to, up to the one with the size.
        let verdicts = copies(images, *apart).map(|(xbn, sector)| {
            model::image::judge(512, sector, xbn, HOME).map_or_else(|number| number, |_| 0)
        });
        let verdicts: Vec<u32> = verdicts.collect();
        let found = (0..verdicts.len()).find(|copy| {
            let xbn = copy * *apart as usize;
            let word = images.get(xbn * 530 + 16..xbn * 530 + 18);
            verdicts[*copy] == 0 && matches!(word, Some([0x02, 0x00 | 0x40]))
        });
        match (found, answer) {
            (Some(0), Ok(size)) => *self.first.entry(size).or_default() += 1,
            (Some(_), Ok(size)) => *self.later.entry(size).or_default() += 1,
            (None, Err(21)) => match verdicts.last() {
                Some(verdict) => *self.last.entry(*verdict).or_default() += 1,
                None => self.nothing += 1,
            },
            _ => panic!("{answer:?} with copies {verdicts:?}, of which {found:?} says a size"),
        }
        for verdict in &verdicts[..found.unwrap_or(0)] {
            *self.passed.entry(*verdict).or_default() += 1;
        }
        self.sector_by_sector += u32::from(model::mode::find(images, 1) != answer);
        self.one_copy += u32::from(answer.is_ok() && *apart as usize > images.len() / 530);
    }

    fn are_enough(&self) -> bool {
        let enough = |seen: &BTreeMap<u32, u32>, keys: &[u32]| {
            seen.keys().eq(keys) && seen.values().all(|count| *count >= SEEN_LEAST)
        };
        enough(&self.first, &[512, 576])
            && enough(&self.later, &[512, 576])
            // Only the last copy can be cut short.
            && enough(&self.passed, &[0, 15, 16, 17, 18])
            && enough(&self.last, &[0, 14, 15, 16, 17, 18])
            && self.nothing >= SEEN_LEAST
            && self.sector_by_sector >= SEEN_LEAST
            && self.one_copy >= SEEN_LEAST
    }
}

/// Holds a call that finds the size in an XBN area to the model, over so many seeds.
pub fn finds_like_the_model(
    call: &'static str,
    seeds: u64,
    find: impl Fn(&[u8], u32) -> Result<u32, u32>,
) {
    let mut tally = Tally::of(call);
    let mut seen = Seen::default();
    for seed in tally.seeds(seeds) {
        let area = Draw::of(seed).area();
        let answer = find(&area.images, area.apart);
        tally.same_numbers(seed, answer, model::mode::find(&area.images, area.apart));
        if area.apart > 0 {
            seen.count(&area, answer);
        }
    }
    tally.saw(&[0, 1, 21]);
    println!("{call}: {seen:?}");
    assert!(seen.are_enough(), "{call}: too few of {seen:?}");
}

#[test]
fn mode_find() {
    finds_like_the_model("mode::find", SEEDS, |images, apart| {
        mode::find(images, apart).map_err(Refusal::number)
    });
}
