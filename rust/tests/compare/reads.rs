//! Reads of revectored blocks against the model.

use std::fmt::Debug;

use tautberry::reading::{self, Track, TrackAddress, Tracks};
use tautberry::Refusal;

use crate::draw::{Draw, Scratch};
use crate::drawn_images::{other_size, Size, SIZES};
use crate::drawn_shapes::paper;
use crate::drawn_tables::Tabled;
use crate::model;
use crate::model::image::{image_length, Read, HOME};
use crate::model::spares::{self, allocated, Drive, ELSEWHERE, PRIMARY};
use crate::order::number;
use crate::tally::Tally;

const SEEDS: u64 = 36_000;
const TRACKS_SEEDS: u64 = 24_000;

/// A drive with the size of its sectors and its table, a block, and two track images.
struct Drawn {
    size: Size,
    tabled: Tabled,
    block: u32,
    home: Vec<u8>,
    spare: Vec<u8>,
}

impl Drawn {
    /// Holds the answer of a call, and the scratch after it, to the model. Where the size is none, nothing
    /// else is looked at, and the scratch is kept.
    fn same<T: Copy + PartialEq + Debug>(
        &self,
        tally: &mut Tally,
        seed: u64,
        scratch: &Scratch,
        library: Result<T, Refusal>,
        model: Result<T, u32>,
    ) {
        tally.count_size(self.size, number(library));
        if SIZES.contains(&self.size.given) {
            let asked = (&self.tabled, Some(self.block));
            tally.same_on_table(seed, asked, scratch, library, model);
            self.count_header(tally, number(library));
        } else {
            tally.same(seed, library, model);
            assert!(!scratch.written(), "scratch is written at seed {seed}");
            assert!(scratch.library == scratch.model, "the model writes scratch at seed {seed}");
        }
    }

    /// Counts the header that the block has where it lies, once the checks before it have passed.
    fn count_header(&self, tally: &mut Tally, given: u32) {
        if given != 0 && given < 15 {
            return;
        }
        let Tabled { drive, table, .. } = &self.tabled;
        let place = drive.place_of(table, self.block);
        let (track, sector) = match place {
            None => (&self.home, self.block % drive.l),
            Some(place) => (&self.spare, drive.l + place % drive.r),
        };
        let length = image_length(self.size.given);
        let expected = (code_at(*drive, place, self.block), self.block);
        tally.count_header(&track[sector as usize * length..][..length], expected, given);
    }

    fn paper(&self) -> Read<'_> {
        Read {
            size: self.size.given,
            shape: paper(self.tabled.shape),
            r: self.tabled.r,
            table: &self.tabled.table,
            block: self.block,
            home: &self.home,
            spare: &self.spare,
        }
    }
}

/// The code that a block has at its place, if it has one, or at home.
pub fn code_at(drive: Drive, place: Option<u32>, block: u32) -> u32 {
    match place {
        None => HOME,
        Some(place) if place as usize == drive.primary(block) => PRIMARY,
        Some(_) => ELSEWHERE,
    }
}

/// Both images hold an image of the block where it would lie, good or damaged, often with the code that it
/// must have there; all else is noise.
fn any_read(draw: &mut Draw) -> Drawn {
    let size = draw.any_sector_size();
    let tabled = draw.any_tabled();
    let drive = tabled.drive;
    let named: Vec<u32> = tabled.table.iter().filter_map(|word| allocated(*word)).collect();
    let on_any_spare = !named.is_empty() && draw.one_in(3);
    let block = if on_any_spare { draw.of_these(&named) } else { draw.block_of(&tabled) };
    let place = drive.place_of(&tabled.table, block);
    let length = image_length(size.made);
    let track = drive.shape.s as usize * length;
    let (mut home, mut spare) = (draw.bytes(track), draw.bytes(track));
    let on_home = if draw.one_in(12) { draw.below(drive.shape.s) } else { block % drive.l };
    let on_spare = if draw.one_in(12) {
        draw.below(drive.shape.s)
    } else {
        drive.l + place.unwrap_or(0) % drive.r
    };
    let code = code_at(drive, place, block);
    for (image, sector) in [(&mut home, on_home), (&mut spare, on_spare)] {
        let copy = draw.any_copy(code, block);
        let drawn = draw.any_image(size.made, copy);
        image[sector as usize * length..][..length].copy_from_slice(&drawn);
    }
    if draw.one_in(12) {
        std::mem::swap(&mut home, &mut spare);
    }
    let at_other_size = drive.shape.s as usize * image_length(other_size(size.made));
    draw.any_length(&mut home, at_other_size, 20);
    draw.any_length(&mut spare, at_other_size, 20);
    Drawn { size, tabled, block, home, spare }
}

/// The tracks of a read by cylinder and head, and the shift, as the model has them.
pub fn named(tracks: Tracks) -> (spares::Track, spares::Track, i32) {
    let numbers = |TrackAddress { cylinder, head }: TrackAddress| (cylinder, head);
    (numbers(tracks.home), numbers(tracks.there), tracks.shift)
}

#[test]
fn reading_tracks() {
    let mut tally = Tally::of("reading::tracks");
    // On another cylinder toward 0 and away from it, under another head of the same one, and on a spare of
    // the home track.
    let (mut toward, mut away, mut beside, mut same) = (0, 0, 0, 0);
    for seed in tally.seeds(TRACKS_SEEDS) {
        let mut draw = Draw::of(seed);
        let tabled = draw.any_tabled();
        let block = draw.block_of(&tabled);
        let (shape, r, table) = (tabled.shape, tabled.r, &tabled.table);
        let mut scratch = tabled.scratch();
        let library = reading::tracks(shape, r, table, scratch.library.lent(), block).map(named);
        if let Ok((home, there, shift)) = library {
            let on_spare = tabled.drive.place_of(table, block).is_some();
            toward += u32::from(shift < 0);
            away += u32::from(shift > 0);
            beside += u32::from(shift == 0 && there != home);
            same += u32::from(on_spare && there == home);
        }
        let model = spares::tracks(paper(shape), r, table, scratch.model.lent(), block);
        tally.same_on_table(seed, (&tabled, Some(block)), &scratch, library, model);
    }
    tally.saw(&[0, 1, 5, 7, 11]);
    let seen = [toward, away, beside, same];
    assert!(seen.iter().all(|count| *count > 200), "toward, away, beside, same: {seen:?}");
}

#[test]
fn reading_judge() {
    let mut tally = Tally::of("reading::judge");
    for seed in tally.seeds(SEEDS) {
        let read = any_read(&mut Draw::of(seed));
        let Drawn { size, tabled, block, home, spare } = &read;
        let (shape, r, table) = (tabled.shape, tabled.r, &tabled.table);
        let mut scratch = tabled.scratch();
        let lent = scratch.library.lent();
        let library = reading::judge(size.given, shape, r, table, lent, *block, home, spare);
        let model = model::image::judge_read(read.paper(), scratch.model.lent());
        read.same(&mut tally, seed, &scratch, library, model);
    }
    tally.saw(&[0, 1, 5, 7, 11, 14, 15, 16, 17, 18]);
}

#[test]
fn reading_spot_and_data() {
    let mut tally = Tally::of("reading::spot");
    let mut parts = Tally::of("reading::data");
    let (mut at_home, mut on_spare) = (0, 0);
    for seed in tally.seeds(SEEDS) {
        let read = any_read(&mut Draw::of(seed));
        let Drawn { size, tabled, block, home, spare } = &read;
        let (size, shape, r, table) = (size.given, tabled.shape, tabled.r, &tabled.table);
        let mut scratch = tabled.scratch();
        let lent = scratch.library.lent();
        let library = reading::spot(size, shape, r, table, lent, *block, home, spare);
        let library = library.map(|spot| {
            let image = match spot.track {
                Track::Home => 0,
                Track::Spare => 1,
            };
            (image, spot.offset)
        });
        at_home += u32::from(matches!(library, Ok((0, _))));
        on_spare += u32::from(matches!(library, Ok((1, _))));
        let model = model::image::spot(read.paper(), scratch.model.lent());
        read.same(&mut tally, seed, &scratch, library, model);

        let mut scratch = tabled.scratch();
        let lent = scratch.library.lent();
        let library = reading::data(size, shape, r, table, lent, *block, home, spare);
        let model = model::image::read_data(read.paper(), scratch.model.lent());
        let same_place = match (library, model) {
            (Ok(ours), Ok(theirs)) => ours.as_ptr() == theirs.as_ptr(),
            _ => true,
        };
        assert!(same_place, "reading::data lies elsewhere at seed {seed}");
        read.same(&mut parts, seed, &scratch, library, model);
    }
    tally.saw(&[0, 1, 5, 7, 11, 14, 15, 16, 17, 18]);
    parts.saw(&[0, 1, 5, 7, 11, 14, 15, 16, 17, 18]);
    assert!(at_home > 1_000 && on_spare > 1_000, "{at_home} at home, {on_spare} on spares");
}
