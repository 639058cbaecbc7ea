//! Format.

use std::collections::BTreeSet;

use super::numbers::{check_list, check_size, fill, refuse, Answer, LIST_MOST};
use super::skipping::{blocks, good_sectors};

/// Every entry of either list, once, rising.
pub fn union(one: &[u32], other: &[u32]) -> Vec<u32> {
    let both: BTreeSet<u32> = one.iter().chain(other).copied().collect();
    both.into_iter().collect()
}

/// The list of a space: 0 none, 1 P, 2 G, 3 both.
pub fn list_of(space: u32, p: &[u32], g: &[u32]) -> Vec<u32> {
    match space {
        0 => Vec::new(),
        1 => p.to_vec(),
        2 => g.to_vec(),
        3 => union(p, g),
        _ => panic!("no space {space}"),
    }
}

/// The sectors of the blocks in `d`, in the space whose bad sectors are `used`.
pub fn map(n: u32, used: &[u32], d: &[u32]) -> Vec<u32> {
    let wanted: BTreeSet<u32> = d.iter().copied().collect();
    let mut found = Vec::new();
    for (block, sector) in good_sectors(n, used).enumerate() {
        if wanted.contains(&(block as u32)) {
            found.push(sector);
        }
    }
    found
}

/// What a Format is given.
#[derive(Clone, Copy)]
pub struct Night<'a> {
    pub n: u32,
    pub p: &'a [u32],
    pub g: &'a [u32],
    pub space: u32,
    pub option: u32,
    pub d: &'a [u32],
}

/// The new grown list, the list of the new space and the new space, before any room is looked at.
pub fn lists(night: Night) -> Answer<(Vec<u32>, Vec<u32>, u32)> {
    let Night { n, p, g, space, option, d } = night;
    check_size(n)?;
    check_list(n, p)?;
    check_list(n, g)?;
    refuse(option > 7 || space > 3, 10)?;
    let takes_list = option % 2 == 1;
    refuse(!takes_list && !d.is_empty(), 10)?;
    let used = list_of(space, p, g);
    refuse(used.len() > LIST_MOST, 2)?;
    let in_blocks = option == 1 || option == 3;
    check_list(if in_blocks { blocks(n, &used) } else { n }, d)?;
    let grown = match option {
        0 | 2 => g.to_vec(),
        1 | 3 => union(g, &map(n, &used, d)),
        4 | 6 => Vec::new(),
        5 | 7 => d.to_vec(),
        _ => panic!("no option {option}"),
    };
    let new_space = [space, 3, 2, 2, 1, 3, 0, 2][option as usize];
    refuse(grown.len() > LIST_MOST, 2)?;
    let list = list_of(new_space, p, &grown);
    refuse(list.len() > LIST_MOST, 2)?;
    Ok((grown, list, new_space))
}

/// Both lengths and the new space; the lists go to their rooms.
pub fn format(night: Night, grown_room: &mut [u32], room: &mut [u32]) -> Answer<(u32, u32, u32)> {
    let (grown, list, space) = lists(night)?;
    refuse(grown_room.len() < grown.len() || room.len() < list.len(), 7)?;
    fill(grown_room, &grown);
    fill(room, &list);
    Ok((grown.len() as u32, list.len() as u32, space))
}
