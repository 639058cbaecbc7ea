//! The list page.

use super::numbers::{check_list, check_size, fill, refuse, Answer, LIST_MOST};

/// The big-endian number in four bytes from `at`.
fn word(bytes: &[u8], at: usize) -> u32 {
    let mut number = 0;
    for byte in &bytes[at..at + 4] {
        number = number * 256 + u32::from(*byte);
    }
    number
}

/// The bytes of a whole page.
pub fn bytes(n: u32, kind: u8, list: &[u32]) -> Vec<u8> {
    let mut page = Vec::new();
    let length = 14 + 4 * list.len() as u32;
    page.extend(length.to_be_bytes());
    page.push(1);
    page.push(kind);
    page.extend(n.to_be_bytes());
    for entry in list {
        page.extend(entry.to_be_bytes());
    }
    page.extend([0xFF; 4]);
    page
}

/// Every reason for refusal 8 of a page to read.
fn check_layout(page: &[u8]) -> Answer<()> {
    refuse(page.len() < 14 || page.len() > 14 + 4 * LIST_MOST, 8)?;
    refuse(word(page, 0) as usize != page.len(), 8)?;
    refuse((page.len() - 14) % 4 != 0, 8)?;
    refuse(page[4] != 1, 8)?;
    refuse(page[5] != 0 && page[5] != 1, 8)?;
    refuse(check_size(word(page, 6)).is_err(), 8)?;
    refuse(page[page.len() - 4..] != [0xFF; 4], 8)
}

/// Kind, N and the number of entries; the entries go to the room.
pub fn read(page: &[u8], room: &mut [u32]) -> Answer<(u32, u32, u32)> {
    check_layout(page)?;
    let n = word(page, 6);
    let mut list = Vec::new();
    let mut at = 10;
    while at < page.len() - 4 {
        list.push(word(page, at));
        at += 4;
    }
    check_list(n, &list)?;
    refuse(room.len() < list.len(), 7)?;
    fill(room, &list);
    Ok((u32::from(page[5]), n, list.len() as u32))
}

/// The length of the page written to the room.
pub fn write(n: u32, kind: u32, list: &[u32], room: &mut [u8]) -> Answer<u32> {
    check_size(n)?;
    refuse(kind != 0 && kind != 1, 8)?;
    check_list(n, list)?;
    let page = bytes(n, kind as u8, list);
    refuse(room.len() < page.len(), 7)?;
    fill(room, &page);
    Ok(page.len() as u32)
}
