//! Drawn descriptor tables.

use std::collections::HashMap;

use tautberry::{Shape, TABLE_BLOCK};

use crate::draw::{Draw, Room, Scratch};
use crate::drawn_shapes::{paper, FEW_SPARES};
use crate::model::spares::{
    allocated, drive, empty_table, search_order, send, word, Drive, ELSEWHERE, FREE, NULL, PRIMARY,
    UNUSABLE,
};

/// A drive with its table and scratch, each at times at fault, and the drive's form in the model as it was
/// before any fault.
pub struct Tabled {
    pub shape: Shape,
    pub r: u32,
    pub table: Vec<u32>,
    scratch: Room<u32>,
    pub drive: Drive,
}

impl Tabled {
    /// The scratch for one comparison.
    pub fn scratch(&self) -> Scratch {
        Scratch::of(self.scratch.clone())
    }
}

/// Where a hole lies, seen from the primary place of a block that it comes before. It may be of several
/// kinds.
#[derive(Clone, Copy, Debug, PartialEq, Eq, PartialOrd, Ord)]
pub enum Hole {
    /// At the primary place.
    Primary,
    /// Above it in its table block.
    Above,
    /// Below it in its table block.
    Below,
    /// At the other end of its table block.
    Farthest,
    /// In a table block after its own.
    Later,
    /// In a table block before its own.
    Earlier,
    /// At the last place before the null descriptors.
    BeforeNull,
}

impl Hole {
    pub const ALL: [Hole; 7] = [
        Hole::Primary,
        Hole::Above,
        Hole::Below,
        Hole::Farthest,
        Hole::Later,
        Hole::Earlier,
        Hole::BeforeNull,
    ];

    /// The kinds that a drive of one table block has not.
    const FAR: [Hole; 3] = [Hole::Farthest, Hole::Later, Hole::Earlier];

    /// Whether a hole at this place is of the kind.
    pub fn lies_at(self, drive: Drive, primary: usize, place: usize) -> bool {
        let (own, other) = (primary / TABLE_BLOCK, place / TABLE_BLOCK);
        match self {
            Hole::Primary => place == primary,
            Hole::Above => other == own && place > primary,
            Hole::Below => other == own && place < primary,
            Hole::Farthest => other == own && place.abs_diff(primary) == TABLE_BLOCK - 1,
            Hole::Later => other > own,
            Hole::Earlier => other < own,
            Hole::BeforeNull => {
                let spares = drive.spares() as usize;
                place + 1 == spares && spares < drive.table_length()
            }
        }
    }
}

impl Draw {
    /// A drive with a table that obeys the rules, and with scratch; now and then with a fault in one of the
    /// three, or in more.
    pub fn any_tabled(&mut self) -> Tabled {
        let (shape, r) = self.drive();
        let drive = drive(paper(shape), r).expect("a drive in its range");
        let mut table = self.table(drive);
        while self.one_in(4) {
            self.damage_table(&mut table, drive);
        }
        let scratch = self.scratch(drive.spares());
        let (shape, r) = self.any_drive(shape, r);
        Tabled { shape, r, table, scratch, drive }
    }

    /// A block to ask a drive for: about the number of its blocks, one that the table names, or one of the
    /// same track.
    pub fn block_of(&mut self, tabled: &Tabled) -> u32 {
        let drive = tabled.drive;
        let place = self.below(drive.spares()) as usize;
        let named = tabled.table.get(place).and_then(|word| allocated(*word));
        match (named, self.below(8)) {
            (Some(block), 0 | 1) => block,
            (Some(block), 2) => block / drive.l * drive.l + self.below(drive.l),
            _ => self.near(drive.blocks()),
        }
    }

    /// A table that obeys the rules. Some spares are unusable from the start. Then blocks are replaced, the
    /// same one at times again and again: none, a few, or so many that few spares or none are left.
    fn table(&mut self, drive: Drive) -> Vec<u32> {
        let mut table = empty_table(drive);
        self.mark_unusable(&mut table[..drive.spares() as usize]);
        let free = table.iter().filter(|found| **found == word(FREE, 0)).count() as u32;
        let mut replacements = free * self.of_these(&[0, 2, 6, 11, 15, 16]) / 16;
        let (first, tracks) = self.tracks_that_fail(drive);
        if tracks < drive.tracks && drive.spares() > FEW_SPARES {
            // Searches that pass many places take long.
            replacements = replacements.min(1_500);
        }
        let (mut lies_on, mut block) = (HashMap::new(), 0);
        for _ in 0..replacements {
            block = match self.below(8) {
                // 32 blocks a spare after the one before: one bit of the scratch stands for both.
                0 => (block + 32 * drive.spares()) % drive.blocks(),
                _ => first * drive.l + self.below(tracks * drive.l),
            };
            let old = lies_on.get(&block).copied();
            let new = send(drive, &mut table, block, old).expect("a free place for each");
            lies_on.insert(block, new);
        }
        table
    }

    /// Marks none of the spares unusable, some or most; at times all of one table block, where there are
    /// several.
    fn mark_unusable(&mut self, spares: &mut [u32]) {
        let unusable_of_16 = self.of_these(&[0, 0, 2, 6, 11]);
        for descriptor in spares.iter_mut() {
            if self.below(16) < unusable_of_16 {
                *descriptor = word(UNUSABLE, 0);
            }
        }
        if spares.len() > TABLE_BLOCK && self.one_in(3) {
            let start = self.place(spares.len()) / TABLE_BLOCK * TABLE_BLOCK;
            let end = spares.len().min(start + TABLE_BLOCK);
            spares[start..end].fill(word(UNUSABLE, 0));
        }
    }

    /// The tracks whose blocks are replaced, as the first of them and their number: all of the drive, or a
    /// few side by side, so that their searches run far.
    fn tracks_that_fail(&mut self, drive: Drive) -> (u32, u32) {
        if self.one_in(2) {
            return (0, drive.tracks);
        }
        let tracks = self.within(1, drive.tracks.div_ceil(4).min(40));
        (self.below(drive.tracks - tracks + 1), tracks)
    }

    /// Breaks a rule of the table, if it can; a second fault may hide the first.
    pub fn damage_table(&mut self, table: &mut Vec<u32>, drive: Drive) {
        if table.is_empty() {
            return;
        }
        let place = self.place(table.len());
        let spare = self.below(drive.spares());
        let block = self.below(drive.blocks());
        match self.below(14) {
            0 => self.relengthen(table),
            1 => table[place] = word(self.of_these(&[FREE, UNUSABLE, NULL]), block),
            2 => table[place] = word(self.of_these(&[1, 5, 6, 7, 9, 12, 15]), 0),
            3 => table[place] = word(NULL, 0),
            4 => *table.last_mut().expect("a place") = self.of_these(&[0, word(UNUSABLE, 0)]),
            5 => table[place] = word(self.of_these(&[PRIMARY, ELSEWHERE]), block),
            6 => table[place] = word(ELSEWHERE, drive.blocks() + self.below(2)),
            7 => table[place] = self.any(),
            8 => {
                // The same block at two places, each with its right code.
                for place in [spare, self.below(drive.spares())] {
                    if let Some(found) = table.get_mut(place as usize) {
                        *found = descriptor(drive, place, block);
                    }
                }
            }
            _ => self.dig_hole(table, drive),
        }
    }

    /// Another length, a multiple of 128 or not.
    fn relengthen(&mut self, table: &mut Vec<u32>) {
        let length = table.len();
        let other = self.of_these(&[0, 1, length - 1, length + 1, length + 128, length / 2]);
        table.resize(other, word(NULL, 0));
    }

    /// Sends a block past a free place of its search order, and past no other: those are unusable from then
    /// on. The free place is of any kind that the drive has.
    fn dig_hole(&mut self, table: &mut [u32], drive: Drive) {
        if table.len() != drive.table_length() {
            return;
        }
        let several = table.len() > TABLE_BLOCK && !self.one_in(3);
        let kind = self.of_these(if several { &Hole::FAR } else { &Hole::ALL[..] });
        // Not every block has a place of the kind before another one.
        for _ in 0..20 {
            let block = self.block_to_pass(drive);
            let primary = drive.primary(block);
            let order = search_order(table.len(), primary);
            let order: Vec<usize> =
                order.filter(|place| *place < drive.spares() as usize).collect();
            let last = order.len() - 1;
            let of_kind = |at: &usize| kind.lies_at(drive, primary, order[*at]);
            let fitting: Vec<usize> = (0..last).filter(of_kind).collect();
            if fitting.is_empty() {
                continue;
            }
            let hole = self.of_these(&fitting);
            let next = hole + 1;
            let behind = if self.one_in(2) { next } else { next + self.place(last - hole) };
            if let Some(old) = drive.place_of(table, block) {
                table[old as usize] = word(UNUSABLE, 0);
            }
            for before in &order[..behind] {
                if table[*before] == word(FREE, 0) {
                    table[*before] = word(UNUSABLE, 0);
                }
            }
            table[order[behind]] = descriptor(drive, order[behind] as u32, block);
            table[order[hole]] = word(FREE, 0);
            return;
        }
    }

    /// A block of the drive, often one whose primary place is the first or the last of a table block.
    fn block_to_pass(&mut self, drive: Drive) -> u32 {
        let start = self.place(drive.table_length()) / TABLE_BLOCK * TABLE_BLOCK;
        let edge = (start + self.of_these(&[0, TABLE_BLOCK - 1])) as u32;
        if edge < drive.spares() && edge.is_multiple_of(drive.r) && self.one_in(2) {
            edge / drive.r * drive.l + self.below(drive.l)
        } else {
            self.below(drive.blocks())
        }
    }
}

/// The right descriptor for a block at a place.
pub fn descriptor(drive: Drive, place: u32, block: u32) -> u32 {
    let at_primary = drive.primary(block) == place as usize;
    word(if at_primary { PRIMARY } else { ELSEWHERE }, block)
}
