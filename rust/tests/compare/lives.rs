//! Drawn lives of a revectored drive, whose table and sectors are kept in memory: blocks are written, replaced
//! and read, and calls are refused. A ledger keeps what was last written to each block, and every read is held to
//! it. The model lives the same life beside the library.
//!
//! A block is read as a board reads it: its two tracks are asked for, their images fetched, and the block is judged
//! in them. It is written as a board writes it, with the code that the table has for the sector that it lies on.

use std::collections::BTreeMap;
use std::ops::Range;

use tautberry::reading::{self, TrackAddress, Tracks};
use tautberry::{code_of, image, spares, Refusal, Shape, AT_HOME, AT_PRIMARY, CODE_UNIT};

use crate::draw::{Draw, Room, Scratch};
use crate::drawn_images::{other_size, CODES, NO_SIZES, SIZES};
use crate::drawn_shapes::{misgrouped, paper};
use crate::model;
use crate::model::image::{bytes, copy, image_length, Read, HOME};
use crate::model::spares::{allocated, check_table, empty_table, Drive};
use crate::order::number;
use crate::reads::{code_at, named};
use crate::tally::Tally;

const LIVES: u64 = 800;
/// The most sectors of a drive: their images are all drawn and kept.
const KEPT_MOST: u32 = 1_600;
/// All lives together must have seen each [`Event`] so often.
const SEEN_LEAST: u32 = 200;

/// What was last written to a block.
struct Entry {
    data: Vec<u8>,
    forced: bool,
}

/// What library or model keeps of the drive: its table, and the images of its sectors one after another.
#[derive(Clone, PartialEq)]
struct Kept {
    table: Vec<u32>,
    sectors: Vec<u8>,
}

struct Life {
    seed: u64,
    shape: Shape,
    r: u32,
    size: u32,
    /// The drive's form in the model.
    drive: Drive,
    scratch: Scratch,
    library: Kept,
    model: Kept,
    ledger: BTreeMap<u32, Entry>,
}

/// The answers of each call, over all lives.
struct Tallies {
    first: Tally,
    sector: Tally,
    replaced: Tally,
    written: Tally,
    tracks: Tally,
    judged: Tally,
    part: Tally,
}

/// What calls on the table of a drive are given: the table, where it is not the drive's own, and the length of the
/// scratch. One of them is at fault, and the calls that take it must give this number.
struct Faulty {
    size: u32,
    shape: Shape,
    r: u32,
    table: Option<Vec<u32>>,
    scratch: usize,
    block: u32,
    number: u32,
}

/// What happens in a life.
#[derive(Clone, Copy, Debug, PartialEq, Eq, PartialOrd, Ord)]
enum Event {
    /// A block is replaced at home.
    ReplacedAtHome,
    /// A block is replaced on a spare.
    ReplacedOnSpare,
    /// Good data is read at home.
    AtHome,
    /// Good data is read at the primary spare.
    AtPrimary,
    /// Good data is read on another spare.
    Elsewhere,
    /// Good data is read on a spare of the home track.
    SameTrack,
    /// Good data is read on a spare of another track of the home's cylinder.
    SameCylinder,
    /// Good data is read on a spare of a lower cylinder.
    Toward,
    /// Good data is read on a spare of a higher cylinder.
    Away,
    /// A block is read that was written as forced.
    Forced,
    /// A block is read that was not written where it lies, and an old image is good for it there.
    OldGood,
    /// The same, and the old image is forced.
    OldForced,
    /// The same, and there is no image of it.
    Nothing,
}

impl Event {
    const ALL: [Event; 13] = [
        Event::ReplacedAtHome,
        Event::ReplacedOnSpare,
        Event::AtHome,
        Event::AtPrimary,
        Event::Elsewhere,
        Event::SameTrack,
        Event::SameCylinder,
        Event::Toward,
        Event::Away,
        Event::Forced,
        Event::OldGood,
        Event::OldForced,
        Event::Nothing,
    ];
}

/// What all lives have seen.
#[derive(Debug, Default)]
struct Seen(BTreeMap<Event, u32>);

impl Seen {
    fn count(&mut self, event: Event) {
        *self.0.entry(event).or_default() += 1;
    }

    /// Counts a read of good data, with this code and from these tracks.
    fn count_good(&mut self, code: u32, Tracks { home, there, shift }: Tracks) {
        self.count(match code {
            AT_HOME => return self.count(Event::AtHome),
            AT_PRIMARY => Event::AtPrimary,
            _ => Event::Elsewhere,
        });
        self.count(match shift {
            0 if home == there => Event::SameTrack,
            0 => Event::SameCylinder,
            1.. => Event::Away,
            _ => Event::Toward,
        });
    }

    fn is_enough(&self) -> bool {
        let often = |event: &Event| self.0.get(event).is_some_and(|count| *count >= SEEN_LEAST);
        Event::ALL.iter().all(often)
    }
}

impl Draw {
    /// A drive whose sectors can all be kept, with a first table and with what its sectors hold before anything is
    /// written.
    fn life(&mut self, seed: u64, tallies: &mut Tallies) -> Life {
        let (shape, r) = loop {
            let (shape, r) = self.drive_of_few_spares();
            if shape.cylinders * shape.heads * shape.sectors <= KEPT_MOST {
                break (shape, r);
            }
        };
        let drive = model::spares::drive(paper(shape), r).expect("a drive in its range");
        let sectors = drive.blocks() + drive.spares();
        let bad = if self.one_in(3) { 0 } else { self.below(drive.spares() + 1) };
        let list = self.rising(sectors, bad as usize);
        let (mut table, mut theirs) = (vec![0; drive.table_length()], empty_table(drive));
        let library = spares::first_table(shape, r, &list, &mut table);
        let model = model::spares::first_table(paper(shape), r, &list, &mut theirs);
        tallies.first.same(seed, library, model);
        assert_eq!(table, theirs, "spares::first_table at seed {seed}");

        let size = self.of_these(&SIZES);
        let mut lying = vec![None; sectors as usize];
        for block in 0..drive.blocks() {
            lying[drive.home(block) as usize] = Some((HOME, block));
        }
        for (place, word) in (0..).zip(&table) {
            if let Some(block) = allocated(*word) {
                lying[drive.home(block) as usize] = None;
                let code = code_at(drive, Some(place), block);
                lying[drive.spare(place) as usize] = Some((code, block));
            }
        }
        let images =
            (0..).zip(lying).flat_map(|(sector, lying)| self.old_image(size, drive, sector, lying));
        let kept = Kept { table, sectors: images.collect() };
        Life {
            seed,
            shape,
            r,
            size,
            drive,
            scratch: Scratch::of(Room::full_of_ones(drive.spares() as usize)),
            library: kept.clone(),
            model: kept,
            ledger: BTreeMap::new(),
        }
    }

    /// What a sector holds before anything is written, where this block lies on it with this code, or none does:
    /// bytes without any order, or an image, good, forced or damaged, of that block, of one of the same track or of
    /// any other, with that code or another.
    fn old_image(
        &mut self,
        size: u32,
        drive: Drive,
        sector: u32,
        lying: Option<(u32, u32)>,
    ) -> Vec<u8> {
        let of_track = sector / drive.shape.s * drive.l + self.below(drive.l);
        let (code, block) = match (lying, self.below(4)) {
            (Some(lying), 0..=2) => lying,
            (None, 0..=2) => (self.of_these(&CODES), of_track),
            _ => (self.of_these(&CODES), self.below(drive.blocks())),
        };
        match self.below(3) {
            0 => self.bytes(image_length(size)),
            1 => bytes(copy(code, block), &self.data(size), self.one_in(4)),
            _ => {
                let copy = self.any_copy(code, block);
                self.any_image(size, copy)
            }
        }
    }

    /// A copy of a table that breaks a rule.
    fn damaged(&mut self, drive: Drive, table: &[u32]) -> Vec<u32> {
        loop {
            let mut copy = table.to_vec();
            self.damage_table(&mut copy, drive);
            if check_table(drive, &copy).is_err() {
                return copy;
            }
        }
    }

    /// What calls on the table of a drive are given, with one fault.
    fn faulty(&mut self, life: &Life) -> Faulty {
        let Life { size, shape, r, drive, .. } = *life;
        let well = Faulty {
            size,
            shape,
            r,
            table: None,
            scratch: drive.spares() as usize,
            block: self.below(drive.blocks()),
            number: 0,
        };
        match self.below(7) {
            0 => {
                let mut wrong = misgrouped(shape);
                wrong.extend([0, 4_097].map(|cylinders| Shape { cylinders, ..shape }));
                wrong.extend([0, 65].map(|heads| Shape { heads, ..shape }));
                wrong.extend([1, 65].map(|sectors| Shape { sectors, ..shape }));
                Faulty { shape: self.of_these(&wrong), number: 1, ..well }
            }
            1 => Faulty { r: self.of_these(&[0, shape.sectors, u32::MAX]), number: 1, ..well },
            2 => Faulty { size: self.of_these(&NO_SIZES), number: 1, ..well },
            3 => Faulty { scratch: self.place(well.scratch), number: 7, ..well },
            4 => {
                let table = Some(self.damaged(drive, &life.library.table));
                Faulty { table, number: 11, ..well }
            }
            5 => {
                let beyond = [drive.blocks(), drive.blocks() + 1, u32::MAX];
                Faulty { block: self.of_these(&beyond), number: 5, ..well }
            }
            _ => Faulty { size: other_size(size), number: 14, ..well },
        }
    }

    /// A block of the drive: often one that was written before, or one of its track.
    fn block_of_life(&mut self, life: &Life) -> u32 {
        let written: Vec<u32> = life.ledger.keys().copied().collect();
        match self.below(6) {
            0..=2 if !written.is_empty() => self.of_these(&written),
            3 if !written.is_empty() => {
                let track = self.of_these(&written) / life.drive.l;
                track * life.drive.l + self.below(life.drive.l)
            }
            _ => self.below(life.drive.blocks()),
        }
    }
}

impl Life {
    /// Where the image of a sector lies.
    fn image(&self, sector: u32) -> Range<usize> {
        let length = image_length(self.size);
        let start = sector as usize * length;
        start..start + length
    }

    /// The image of a track: those of its sectors one after another.
    fn fetched(&self, TrackAddress { cylinder, head }: TrackAddress) -> Vec<u8> {
        let first = (cylinder * self.shape.heads + head) * self.shape.sectors;
        let last = first + self.shape.sectors - 1;
        self.library.sectors[self.image(first).start..self.image(last).end].to_vec()
    }

    /// Writes data of a block to the sector that it lies on, with the code that the table has for it there.
    fn write(&mut self, draw: &mut Draw, tallies: &mut Tallies, block: u32) {
        let (shape, r) = (self.shape, self.r);
        let lent = self.scratch.library.lent();
        let library = spares::sector_of(shape, r, &self.library.table, lent, block);
        let lent = self.scratch.model.lent();
        let model = model::spares::sector_of(paper(shape), r, &self.model.table, lent, block);
        tallies.sector.same(self.seed, library, model);
        self.is_one();
        let sector = library.expect("a block of the drive");
        let homes = shape.sectors - r;
        let (track, in_track) = (sector / shape.sectors, sector % shape.sectors);
        let code = match in_track.checked_sub(homes) {
            None => AT_HOME,
            Some(spare) => code_of(self.library.table[(track * r + spare) as usize]),
        };
        self.write_on(draw, tallies, block, code, sector);
    }

    /// Writes data of a block with a code to a sector, good or forced. The room is the sector itself.
    fn write_on(
        &mut self,
        draw: &mut Draw,
        tallies: &mut Tallies,
        block: u32,
        code: u32,
        sector: u32,
    ) {
        let (size, at) = (self.size, self.image(sector));
        let (data, forced) = (draw.data(size), draw.one_in(5));
        let ours = &mut self.library.sectors[at.clone()];
        let library = image::write(size, block, code, &data, forced, ours);
        let theirs = &mut self.model.sectors[at];
        let model = model::image::write(size, block, code, &data, forced, theirs);
        tallies.written.same(self.seed, library, model);
        library.expect("data of the size, and one of the three codes");
        self.ledger.insert(block, Entry { data, forced });
    }

    /// Replaces a block, and writes it on its spare. At times it is read before: nothing was written for it there.
    fn replace(&mut self, draw: &mut Draw, tallies: &mut Tallies, seen: &mut Seen, block: u32) {
        let on_spare = self.drive.place_of(&self.model.table, block).is_some();
        let lent = self.scratch.library.lent();
        let library = spares::replace(self.shape, self.r, &mut self.library.table, lent, block);
        let (paper, theirs) = (paper(self.shape), &mut self.model.table);
        let lent = self.scratch.model.lent();
        let model = model::spares::replace(paper, self.r, theirs, lent, block);
        tallies.replaced.same(self.seed, library, model);
        let Ok(place) = library else {
            return;
        };
        seen.count(if on_spare { Event::ReplacedOnSpare } else { Event::ReplacedAtHome });
        self.ledger.remove(&block);
        if draw.one_in(4) {
            self.read(tallies, seen, block);
        }
        let code = code_of(self.library.table[place as usize]);
        self.write_on(draw, tallies, block, code, self.drive.spare(place));
    }

    /// Reads a block from the two tracks that are named for it.
    fn read(&mut self, tallies: &mut Tallies, seen: &mut Seen, block: u32) {
        let (seed, size, shape, r) = (self.seed, self.size, self.shape, self.r);
        let lent = self.scratch.library.lent();
        let library = reading::tracks(shape, r, &self.library.table, lent, block);
        let lent = self.scratch.model.lent();
        let model = model::spares::tracks(paper(shape), r, &self.model.table, lent, block);
        tallies.tracks.same(seed, library.map(named), model);
        self.is_one();
        let tracks = library.expect("a block of the drive");
        let (home, spare) = (self.fetched(tracks.home), self.fetched(tracks.there));

        let table = &self.library.table;
        let lent = self.scratch.library.lent();
        let judged = reading::judge(size, shape, r, table, lent, block, &home, &spare);
        let part = reading::data(size, shape, r, table, lent, block, &home, &spare);
        // What the sector that the block lies on says by itself, in the drive of the model.
        let place = self.drive.place_of(&self.model.table, block);
        let sector = place.map_or(self.drive.home(block), |place| self.drive.spare(place));
        let code = code_at(self.drive, place, block);
        let image = &self.model.sectors[self.image(sector)];
        let plainly = model::image::data(size, image, block, code);
        tallies.judged.same(seed, judged, plainly.map(|_| ()));
        tallies.part.same(seed, part, plainly);
        if let Ok(part) = part {
            let track = if place.is_some() { &spare } else { &home };
            let in_track = self.image(sector % shape.sectors);
            let lies = std::ptr::eq(part, &track[in_track][16..16 + size as usize]);
            assert!(lies, "reading::data lies elsewhere at seed {seed}");
        }
        match self.ledger.get(&block) {
            Some(Entry { data, forced: false }) => {
                assert_eq!(part, Ok(&data[..]), "block {block} at seed {seed}");
                seen.count_good(code, tracks);
            }
            Some(Entry { forced: true, .. }) => {
                assert_eq!(part, Err(Refusal::ForcedError), "block {block} at seed {seed}");
                seen.count(Event::Forced);
            }
            None => seen.count(match part {
                Ok(_) => Event::OldGood,
                Err(Refusal::ForcedError) => Event::OldForced,
                Err(_) => Event::Nothing,
            }),
        }
    }

    /// A write with one fault: it is refused so, and changes nothing. The room is a sector of the drive, or all of
    /// it but a byte.
    fn refused_write(&mut self, draw: &mut Draw, tallies: &mut Tallies) {
        let mut at = self.image(draw.below(self.drive.blocks() + self.drive.spares()));
        let (mut size, mut code) = (self.size, draw.of_these(&CODES));
        let mut block = draw.below(self.drive.blocks());
        let mut data = draw.data(size);
        let expected = match draw.below(6) {
            0 => {
                size = draw.of_these(&NO_SIZES);
                1
            }
            1 => {
                size = other_size(size);
                14
            }
            2 => {
                data.pop();
                14
            }
            3 => {
                block += draw.of_these(&[1, 2, 15]) * CODE_UNIT;
                5
            }
            4 => {
                code = draw.of_these(&[1, 4, 8, 15, 16, 18, u32::MAX]);
                22
            }
            _ => {
                at.end -= 1;
                7
            }
        };
        let forced = draw.one_in(2);
        let ours = &mut self.library.sectors[at.clone()];
        let library = image::write(size, block, code, &data, forced, ours);
        let theirs = &mut self.model.sectors[at];
        let model = model::image::write(size, block, code, &data, forced, theirs);
        tallies.written.same(self.seed, library, model);
        assert_eq!(number(library), expected, "image::write at seed {}", self.seed);
    }

    /// Calls on the table with one fault: they are refused so, and change nothing. They are lent the drive's own
    /// table, where it is not the table that is at fault.
    fn refused_on_table(&mut self, draw: &mut Draw, tallies: &mut Tallies) {
        let seed = self.seed;
        let Faulty { size, shape, r, table, scratch, block, number: expected } = draw.faulty(self);
        let any_track = |draw: &mut Draw| TrackAddress {
            cylinder: draw.below(self.shape.cylinders),
            head: draw.below(self.shape.heads),
        };
        let (home, spare) = (self.fetched(any_track(draw)), self.fetched(any_track(draw)));
        let mut copies = table.map(|table| (table.clone(), table));
        let (ours, theirs) = match &mut copies {
            Some((ours, theirs)) => (ours, theirs),
            None => (&mut self.library.table, &mut self.model.table),
        };
        let (paper, before) = (paper(shape), ours.clone());
        let our_scratch = &mut self.scratch.library.lent()[..scratch];
        let their_scratch = &mut self.scratch.model.lent()[..scratch];

        let read = Read { size, shape: paper, r, table: theirs, block, home: &home, spare: &spare };
        let library = reading::judge(size, shape, r, ours, our_scratch, block, &home, &spare);
        let model = model::image::judge_read(read, their_scratch);
        tallies.judged.same(seed, library, model);
        assert_eq!(number(library), expected, "reading::judge at seed {seed}");
        let library = reading::data(size, shape, r, ours, our_scratch, block, &home, &spare);
        let model = model::image::read_data(read, their_scratch);
        tallies.part.same(seed, library, model);
        assert_eq!(number(library), expected, "reading::data at seed {seed}");
        if size == self.size {
            let library = reading::tracks(shape, r, ours, our_scratch, block).map(named);
            let model = model::spares::tracks(paper, r, theirs, their_scratch, block);
            tallies.tracks.same(seed, library, model);
            assert_eq!(number(library), expected, "reading::tracks at seed {seed}");
            let library = spares::replace(shape, r, ours, our_scratch, block);
            let model = model::spares::replace(paper, r, theirs, their_scratch, block);
            tallies.replaced.same(seed, library, model);
            assert_eq!(number(library), expected, "spares::replace at seed {seed}");
        }
        assert!(*ours == before, "a refused call changes the table at seed {seed}");
    }

    /// Library and model must have the same table, and must have left the same scratch.
    fn is_one(&self) {
        let seed = self.seed;
        assert!(self.library.table == self.model.table, "another table at seed {seed}");
        assert!(self.scratch.library == self.scratch.model, "other scratch at seed {seed}");
    }
}

#[test]
fn drawn_lives() {
    let mut tallies = Tallies {
        first: Tally::of("spares::first_table, drawn lives"),
        sector: Tally::of("spares::sector_of, drawn lives"),
        replaced: Tally::of("spares::replace, drawn lives"),
        written: Tally::of("image::write, drawn lives"),
        tracks: Tally::of("reading::tracks, drawn lives"),
        judged: Tally::of("reading::judge, drawn lives"),
        part: Tally::of("reading::data, drawn lives"),
    };
    let mut seen = Seen::default();
    for seed in tallies.tracks.seeds(LIVES) {
        let mut draw = Draw::of(seed);
        let mut life = draw.life(seed, &mut tallies);
        let replacements = draw.of_these(&[1, 3, 9]);
        for _ in 0..draw.within(10, 60) {
            if draw.one_in(3) {
                // The scratch need not be as the last call left it, and may be longer.
                let length = life.drive.spares() + draw.below(4);
                life.scratch = Scratch::of(draw.word_room(length as usize));
            }
            let block = draw.block_of_life(&life);
            match draw.below(10 + replacements) {
                0..=3 => life.write(&mut draw, &mut tallies, block),
                4..=7 => life.read(&mut tallies, &mut seen, block),
                8 => life.refused_write(&mut draw, &mut tallies),
                9 => life.refused_on_table(&mut draw, &mut tallies),
                _ => life.replace(&mut draw, &mut tallies, &mut seen, block),
            }
            life.is_one();
        }
        let written: Vec<u32> = life.ledger.keys().copied().collect();
        for block in written {
            life.read(&mut tallies, &mut seen, block);
        }
        life.is_one();
        assert!(life.library.sectors == life.model.sectors, "other sectors at seed {seed}");
    }
    println!("drawn lives: {LIVES}, {seen:?}");
    assert!(seen.is_enough(), "too few of {seen:?}");
    tallies.first.saw(&[0]);
    tallies.sector.saw(&[0]);
    tallies.replaced.saw(&[0, 1, 5, 7, 11, 13]);
    tallies.written.saw(&[0, 1, 5, 7, 14, 22]);
    tallies.tracks.saw(&[0, 1, 5, 7, 11]);
    tallies.judged.saw(&[0, 1, 5, 7, 11, 14, 15, 16, 17, 18]);
    tallies.part.saw(&[0, 1, 5, 7, 11, 14, 15, 16, 17, 18]);
}
