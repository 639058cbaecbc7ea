//! Descriptors and spares of a revectored drive.

use std::collections::BTreeSet;
use std::iter::once;

use super::numbers::{check_list, fill, refuse, Answer, SPARES_MOST};
use super::shape::{self, Shape};
use super::skipping::marks;

pub const FREE: u32 = 0;
pub const PRIMARY: u32 = 2;
pub const ELSEWHERE: u32 = 3;
pub const UNUSABLE: u32 = 4;
pub const NULL: u32 = 8;

/// A descriptor: the code in the top four bits, the number in the low 28.
pub fn word(code: u32, number: u32) -> u32 {
    code << 28 | number
}

/// The code and the number of a descriptor.
fn parts(word: u32) -> (u32, u32) {
    (word >> 28, word & 0x0FFF_FFFF)
}

/// The block that a descriptor names, if it is allocated.
pub fn allocated(word: u32) -> Option<u32> {
    match parts(word) {
        (PRIMARY | ELSEWHERE, block) => Some(block),
        _ => None,
    }
}

/// A checked revectored drive.
#[derive(Clone, Copy, Debug)]
pub struct Drive {
    pub shape: Shape,
    /// Spares of a track.
    pub r: u32,
    /// Home sectors of a track.
    pub l: u32,
    /// Tracks.
    pub tracks: u32,
}

/// Check 1: the shape, r, and T × r.
pub fn drive(shape: Shape, r: u32) -> Answer<Drive> {
    shape::check(shape)?;
    refuse(r < 1 || r >= shape.s, 1)?;
    let tracks = shape.c * shape.h;
    refuse(tracks * r > SPARES_MOST, 1)?;
    Ok(Drive { shape, r, l: shape.s - r, tracks })
}

impl Drive {
    pub fn spares(self) -> u32 {
        self.tracks * self.r
    }

    pub fn blocks(self) -> u32 {
        self.tracks * self.l
    }

    /// As many table blocks of 128 as the spares need.
    pub fn table_length(self) -> usize {
        let mut length = 0;
        while length < self.spares() as usize {
            length += 128;
        }
        length
    }

    /// The sector number of a sector of a track.
    fn sector(self, track: u32, sector: u32) -> u32 {
        track * self.shape.s + sector
    }

    pub fn home(self, block: u32) -> u32 {
        self.sector(block / self.l, block % self.l)
    }

    pub fn spare(self, q: u32) -> u32 {
        self.sector(q / self.r, self.l + q % self.r)
    }

    pub fn primary(self, block: u32) -> usize {
        ((block / self.l) * self.r) as usize
    }

    /// The place that names a block.
    pub fn place_of(self, table: &[u32], block: u32) -> Option<u32> {
        let place = table.iter().position(|word| allocated(*word) == Some(block));
        place.map(|place| place as u32)
    }

    fn lies_on(self, table: &[u32], block: u32) -> u32 {
        match self.place_of(table, block) {
            Some(place) => self.spare(place),
            None => self.home(block),
        }
    }
}

/// The rules of one descriptor that look at no other.
fn obeys(drive: Drive, place: usize, word: u32) -> bool {
    let past_spares = place >= drive.spares() as usize;
    let (code, number) = parts(word);
    match code {
        FREE | UNUSABLE => number == 0 && !past_spares,
        NULL => number == 0 && past_spares,
        PRIMARY => !past_spares && number < drive.blocks() && place == drive.primary(number),
        ELSEWHERE => !past_spares && number < drive.blocks() && place != drive.primary(number),
        _ => false,
    }
}

/// Check 7: the scratch has a number for each spare. Each of these is 0 from then on, whatever the call
/// comes to, and no other number is touched.
fn take_scratch(drive: Drive, scratch: &mut [u32]) -> Answer<()> {
    let spares = drive.spares() as usize;
    refuse(scratch.len() < spares, 7)?;
    fill(scratch, &vec![0; spares]);
    Ok(())
}

/// The rules of a table that look at no search order: the length, each descriptor, and that no block is
/// named twice.
pub fn check_descriptors(drive: Drive, table: &[u32]) -> Answer<()> {
    refuse(table.len() != drive.table_length(), 11)?;
    for (place, word) in table.iter().enumerate() {
        refuse(!obeys(drive, place, *word), 11)?;
    }
    let mut named = BTreeSet::new();
    for block in table.iter().filter_map(|word| allocated(*word)) {
        refuse(!named.insert(block), 11)?;
    }
    Ok(())
}

/// The free places that come before a block's place in the block's search order.
pub fn holes(
    drive: Drive,
    table: &[u32],
    place: usize,
    block: u32,
) -> impl Iterator<Item = usize> + '_ {
    let order = search_order(table.len(), drive.primary(block));
    let before = order.take_while(move |at| *at != place);
    before.filter(|at| table[*at] == word(FREE, 0))
}

/// Check 11: those rules, and that no allocated block has a hole before it.
pub fn check_table(drive: Drive, table: &[u32]) -> Answer<()> {
    check_descriptors(drive, table)?;
    for (place, word) in table.iter().enumerate() {
        if let Some(block) = allocated(*word) {
            refuse(holes(drive, table, place, block).next().is_some(), 11)?;
        }
    }
    Ok(())
}

/// Checks 1, 7 and 11.
fn checked(shape: Shape, r: u32, table: &[u32], scratch: &mut [u32]) -> Answer<Drive> {
    let drive = drive(shape, r)?;
    take_scratch(drive, scratch)?;
    check_table(drive, table)?;
    Ok(drive)
}

/// Checks 1, 7, 11 and 5.
pub fn checked_block(
    shape: Shape,
    r: u32,
    table: &[u32],
    scratch: &mut [u32],
    block: u32,
) -> Answer<Drive> {
    let drive = checked(shape, r, table, scratch)?;
    refuse(block >= drive.blocks(), 5)?;
    Ok(drive)
}

pub fn sector_of(
    shape: Shape,
    r: u32,
    table: &[u32],
    scratch: &mut [u32],
    block: u32,
) -> Answer<u32> {
    let drive = checked_block(shape, r, table, scratch, block)?;
    Ok(drive.lies_on(table, block))
}

pub fn address_of(
    shape: Shape,
    r: u32,
    table: &[u32],
    scratch: &mut [u32],
    block: u32,
) -> Answer<(u32, u32, u32, u32)> {
    let drive = checked_block(shape, r, table, scratch, block)?;
    Ok(shape::located(shape, drive.lies_on(table, block)))
}

/// From the home's cylinder to the one that the block lies on.
pub fn shift(shape: Shape, r: u32, table: &[u32], scratch: &mut [u32], block: u32) -> Answer<i32> {
    let drive = checked_block(shape, r, table, scratch, block)?;
    let (from, _, _) = shape::split(shape, drive.home(block));
    let (to, _, _) = shape::split(shape, drive.lies_on(table, block));
    Ok(to as i32 - from as i32)
}

/// A track by its cylinder and head.
pub type Track = (u32, u32);

/// The track of a number.
fn reached(shape: Shape, track: u32) -> Track {
    (track / shape.h, track % shape.h)
}

/// The tracks of a read: the one with the block's home, of which a track has l, and the one that the block lies
/// on, where spare q is on track q / r. Then the cylinders from the first to the second.
pub fn tracks(
    shape: Shape,
    r: u32,
    table: &[u32],
    scratch: &mut [u32],
    block: u32,
) -> Answer<(Track, Track, i32)> {
    let drive = checked_block(shape, r, table, scratch, block)?;
    let with_home = block / drive.l;
    let lies_on = drive.place_of(table, block).map_or(with_home, |q| q / drive.r);
    let (home, there) = (reached(shape, with_home), reached(shape, lies_on));
    Ok((home, there, there.0 as i32 - home.0 as i32))
}

/// The block that lies on a sector, looked for among all blocks.
fn named(drive: Drive, table: &[u32], sector: u32) -> Option<u32> {
    let mut lies: Vec<u32> = (0..drive.blocks()).map(|block| drive.home(block)).collect();
    for (place, word) in table.iter().enumerate() {
        if let Some(block) = allocated(*word) {
            lies[block as usize] = drive.spare(place as u32);
        }
    }
    lies.iter().position(|on| *on == sector).map(|block| block as u32)
}

pub fn block_on(
    shape: Shape,
    r: u32,
    table: &[u32],
    scratch: &mut [u32],
    sector: u32,
) -> Answer<Option<u32>> {
    let drive = checked(shape, r, table, scratch)?;
    refuse(sector >= shape::sectors(shape), 6)?;
    Ok(named(drive, table, sector))
}

pub fn block_at(
    shape: Shape,
    r: u32,
    table: &[u32],
    scratch: &mut [u32],
    address: (u32, u32, u32),
) -> Answer<Option<u32>> {
    let drive = checked(shape, r, table, scratch)?;
    shape::check_address(shape, address)?;
    Ok(named(drive, table, shape::join(shape, address)))
}

/// Every place of a table in the search order of a primary: outward in its own table block, then the
/// table blocks after it, then those before it, each rising.
pub fn search_order(length: usize, primary: usize) -> impl Iterator<Item = usize> {
    let own = primary / 128;
    let offset = (primary % 128) as i32;
    let beside = (1..128).flat_map(move |away| [offset + away, offset - away]);
    let inside = once(offset).chain(beside).filter(|at| (0..128).contains(at));
    let outward = inside.map(move |at| own * 128 + at as usize);
    let others = (own + 1..length / 128).chain(0..own);
    outward.chain(others.flat_map(|block| block * 128..block * 128 + 128))
}

/// Writes the block's descriptor at its first free place and answers the place; with none free it
/// writes nothing.
fn allocate(drive: Drive, table: &mut [u32], block: u32) -> Answer<u32> {
    let primary = drive.primary(block);
    for place in search_order(table.len(), primary) {
        if table[place] == word(FREE, 0) {
            let code = if place == primary { PRIMARY } else { ELSEWHERE };
            table[place] = word(code, block);
            return Ok(place as u32);
        }
    }
    Err(13)
}

/// Sends a block to its first free place and answers the place; the spare that it lay on, if it did, is
/// unusable from then on.
pub fn send(drive: Drive, table: &mut [u32], block: u32, old: Option<u32>) -> Answer<u32> {
    let new = allocate(drive, table, block)?;
    if let Some(old) = old {
        table[old as usize] = word(UNUSABLE, 0);
    }
    Ok(new)
}

/// The block's new place.
pub fn replace(
    shape: Shape,
    r: u32,
    table: &mut [u32],
    scratch: &mut [u32],
    block: u32,
) -> Answer<u32> {
    let drive = checked_block(shape, r, table, scratch, block)?;
    let old = drive.place_of(table, block);
    send(drive, table, block, old)
}

/// How many descriptors have code 0, 2, 3, 4 and 8.
pub fn census(shape: Shape, r: u32, table: &[u32], scratch: &mut [u32]) -> Answer<[u32; 5]> {
    checked(shape, r, table, scratch)?;
    Ok([FREE, PRIMARY, ELSEWHERE, UNUSABLE, NULL]
        .map(|code| table.iter().filter(|word| parts(**word).0 == code).count() as u32))
}

/// The table of a drive with no bad sector.
pub fn empty_table(drive: Drive) -> Vec<u32> {
    let mut table = vec![word(FREE, 0); drive.table_length()];
    for descriptor in &mut table[drive.spares() as usize..] {
        *descriptor = word(NULL, 0);
    }
    table
}

/// The length of the first table written to the room.
pub fn first_table(shape: Shape, r: u32, list: &[u32], room: &mut [u32]) -> Answer<u32> {
    let drive = drive(shape, r)?;
    check_list(shape::sectors(shape), list)?;
    refuse(room.len() < drive.table_length(), 7)?;
    let bad = marks(shape::sectors(shape), list);
    let mut table = empty_table(drive);
    for q in 0..drive.spares() {
        if bad[drive.spare(q) as usize] {
            table[q as usize] = word(UNUSABLE, 0);
        }
    }
    for block in 0..drive.blocks() {
        if bad[drive.home(block) as usize] {
            allocate(drive, &mut table, block)?;
        }
    }
    fill(room, &table);
    Ok(table.len() as u32)
}
