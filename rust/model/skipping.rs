//! Skipping: the good sectors in rising order are the blocks.

use super::numbers::{check_list, check_size, refuse, Answer};
use super::shape::{self, Shape};

/// For each of the `n` sectors whether it is bad.
pub fn marks(n: u32, list: &[u32]) -> Vec<bool> {
    let mut bad = vec![false; n as usize];
    for sector in list {
        bad[*sector as usize] = true;
    }
    bad
}

/// The sectors outside a proper list, in rising order.
pub fn good_sectors(n: u32, list: &[u32]) -> impl Iterator<Item = u32> {
    let bad = marks(n, list);
    (0..n).filter(move |sector| !bad[*sector as usize])
}

/// The sector outside the list with exactly `block` smaller sectors outside it.
fn place(n: u32, list: &[u32], block: u32) -> u32 {
    good_sectors(n, list).nth(block as usize).expect("the block exists")
}

pub fn blocks(n: u32, list: &[u32]) -> u32 {
    n - list.len() as u32
}

pub fn sector_of(n: u32, list: &[u32], block: u32) -> Answer<u32> {
    check_size(n)?;
    check_list(n, list)?;
    refuse(block >= blocks(n, list), 5)?;
    Ok(place(n, list, block))
}

/// The block on a sector of the space; none for a sector of the list.
fn named(n: u32, list: &[u32], sector: u32) -> Option<u32> {
    if list.contains(&sector) {
        return None;
    }
    let smaller = good_sectors(n, list).take_while(|good| *good < sector);
    Some(smaller.count() as u32)
}

pub fn block_on(n: u32, list: &[u32], sector: u32) -> Answer<Option<u32>> {
    check_size(n)?;
    check_list(n, list)?;
    refuse(sector >= n, 6)?;
    Ok(named(n, list, sector))
}

/// A cursor: the next block and the count.
pub type Cursor = (u32, u32);

/// The count of the cursor for `block`: the entries below the sector of the block before, 0 at 0.
pub fn count(n: u32, list: &[u32], block: u32) -> u32 {
    if block == 0 {
        return 0;
    }
    let before = place(n, list, block - 1);
    list.iter().filter(|entry| **entry < before).count() as u32
}

fn belongs(n: u32, list: &[u32], cursor: Cursor) -> bool {
    let (block, skipped) = cursor;
    block <= blocks(n, list) && skipped == count(n, list, block)
}

pub fn start(n: u32, list: &[u32], block: u32) -> Answer<Cursor> {
    check_size(n)?;
    check_list(n, list)?;
    refuse(block >= blocks(n, list), 5)?;
    Ok((block, count(n, list, block)))
}

pub fn check(cursor: Cursor, n: u32, list: &[u32]) -> Answer<Cursor> {
    check_size(n)?;
    check_list(n, list)?;
    refuse(!belongs(n, list, cursor), 9)?;
    Ok(cursor)
}

/// The sector and the cursor for the next block; a refusal carries the cursor that was given.
pub fn step(cursor: Cursor, n: u32, list: &[u32]) -> Result<(u32, Cursor), (u32, Cursor)> {
    let (block, _) = cursor;
    let checked = check(cursor, n, list).and_then(|_| refuse(block >= blocks(n, list), 5));
    match checked {
        Err(number) => Err((number, cursor)),
        Ok(()) => {
            let next = (block + 1, count(n, list, block + 1));
            Ok((place(n, list, block), next))
        }
    }
}

/// The address of a block of a skipped drive, and its angle.
pub fn address_of(drive: Shape, list: &[u32], block: u32) -> Answer<(u32, u32, u32, u32)> {
    shape::check(drive)?;
    let n = shape::sectors(drive);
    check_list(n, list)?;
    refuse(block >= blocks(n, list), 5)?;
    Ok(shape::located(drive, place(n, list, block)))
}

/// The block at an address of a skipped drive.
pub fn block_at(drive: Shape, list: &[u32], address: (u32, u32, u32)) -> Answer<Option<u32>> {
    shape::check(drive)?;
    let n = shape::sectors(drive);
    check_list(n, list)?;
    shape::check_address(drive, address)?;
    Ok(named(n, list, shape::join(drive, address)))
}
