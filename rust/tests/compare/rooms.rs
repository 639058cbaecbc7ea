//! Lent memory: a refused call leaves every byte, an accepted one what lies past its result.
//!
//! The rooms stand between guards, so a write outside them shows too. Nothing here asks the model.

use tautberry::{format, image, image_length, page, spares, Refusal};
use tautberry::{CODE_UNIT, LIST_MOST, PAGE_MOST};

use crate::draw::{Draw, Room};
use crate::drawn_images::{other_size, SIZES};
use crate::drawn_shapes::shape;

/// Lends a room to a call and holds it to what was written of it.
fn lend<T: Copy + PartialEq>(
    case: &str,
    before: &Room<T>,
    written: usize,
    expected: Result<(), Refusal>,
    call: impl FnOnce(&mut [T]) -> Result<(), Refusal>,
) {
    let mut room = before.clone();
    assert_eq!(call(room.lent()), expected, "{case}");
    assert!(room.kept(before, written), "{case}: bytes outside the result changed");
    if written > 0 {
        assert!(!room.kept(before, written - 1), "{case}: the result was not written");
    }
}

#[test]
fn rooms_of_a_page_that_is_read() {
    let mut draw = Draw::of(1);
    let mut page = vec![0; 22];
    page::write(20, 0, &[3, 7], &mut page).expect("a proper page");
    let with = |at: usize, byte: u8| {
        let mut other = page.clone();
        other[at] = byte;
        other
    };
    let cases = [
        ("not rising", with(17, 3), 5, Err(Refusal::NotRising)),
        ("outside", with(17, 20), 5, Err(Refusal::Outside)),
        ("no room", page.clone(), 1, Err(Refusal::NoRoom)),
        ("bad page", with(21, 0), 5, Err(Refusal::BadPage)),
        ("accepted", page.clone(), 5, Ok(())),
    ];
    for (case, page, length, expected) in cases {
        let before = draw.word_room(length);
        let written = if expected.is_ok() { 2 } else { 0 };
        lend(case, &before, written, expected, |room| page::read(&page, room).map(|_| ()));
    }
}

#[test]
fn rooms_of_a_page_that_is_written() {
    let mut draw = Draw::of(2);
    let over: Vec<u32> = (0..=LIST_MOST as u32).collect();
    let cases: [(u32, u32, &[u32], usize, Result<(), Refusal>); 7] = [
        (0, 0, &[3, 7], 40, Err(Refusal::OutOfRange)),
        (20, 2, &[3, 7], 40, Err(Refusal::BadPage)),
        (20, 0, &over, PAGE_MOST + 4, Err(Refusal::TooLong)),
        (20, 0, &[7, 3], 40, Err(Refusal::NotRising)),
        (20, 0, &[3, 20], 40, Err(Refusal::Outside)),
        (20, 0, &[3, 7], 21, Err(Refusal::NoRoom)),
        (20, 0, &[3, 7], 40, Ok(())),
    ];
    for (n, kind, list, length, expected) in cases {
        let before = draw.byte_room(length);
        let written = if expected.is_ok() { 22 } else { 0 };
        let case = format!("page::write, {expected:?}");
        lend(&case, &before, written, expected, |room| {
            page::write(n, kind, list, room).map(|_| ())
        });
    }
}

#[test]
fn both_rooms_of_a_night() {
    let mut draw = Draw::of(3);
    let over: Vec<u32> = (0..=LIST_MOST as u32).collect();
    let cases: [(u32, u32, &[u32], [usize; 2], Result<(), Refusal>); 8] = [
        (0, 1, &[3, 16], [9, 9], Err(Refusal::OutOfRange)),
        (20, 1, &over, [9, 9], Err(Refusal::TooLong)),
        (20, 1, &[16, 3], [9, 9], Err(Refusal::NotRising)),
        (20, 1, &[3, 18], [9, 9], Err(Refusal::Outside)),
        (20, 8, &[3, 16], [9, 9], Err(Refusal::BadOption)),
        (20, 1, &[3, 16], [1, 9], Err(Refusal::NoRoom)),
        (20, 1, &[3, 16], [9, 3], Err(Refusal::NoRoom)),
        (20, 1, &[3, 16], [9, 9], Ok(())),
    ];
    for (n, option, d, lengths, expected) in cases {
        let [before_grown, before_list] = lengths.map(|length| draw.word_room(length));
        let (mut grown, mut list) = (before_grown.clone(), before_list.clone());
        let answer = format::format(n, &[3, 7], &[], 3, option, d, grown.lent(), list.lent());
        assert_eq!(answer.map(|_| ()), expected, "format::format");
        let [grown_written, list_written] = if expected.is_ok() { [2, 4] } else { [0, 0] };
        assert!(grown.kept(&before_grown, grown_written), "format::format, {expected:?}");
        assert!(list.kept(&before_list, list_written), "format::format, {expected:?}");
    }
}

/// The table of C 2, H 2, S 5, r 2 after three replacements.
fn table(draw: &mut Draw) -> Room<u32> {
    let mut room = draw.word_room(128);
    let table = room.lent();
    table[..8].copy_from_slice(&[0, 0, 0, 0x3000_0006, 0x2000_0007, 0x3000_0008, 0, 0]);
    table[8..].fill(0x8000_0000);
    room
}

#[test]
fn the_table_of_a_replacement() {
    let mut draw = Draw::of(4);
    let drive = shape(2, 2, 5);
    let proper = table(&mut draw);
    let mut full = proper.clone();
    full.lent().iter_mut().filter(|word| **word == 0).for_each(|word| *word = 0x4000_0000);
    let mut broken = proper.clone();
    broken.lent()[0] = 1;
    let mut holed = proper.clone();
    holed.lent()[4] = 0;
    // The table, r, the length of the scratch, the block, and the refusal.
    let cases = [
        (&proper, 5, 11, 0, Err(Refusal::OutOfRange)),
        (&proper, 2, 7, 0, Err(Refusal::NoRoom)),
        (&broken, 2, 11, 0, Err(Refusal::BadTable)),
        (&holed, 2, 11, 0, Err(Refusal::BadTable)),
        (&proper, 2, 11, 12, Err(Refusal::NoSuchBlock)),
        (&full, 2, 11, 7, Err(Refusal::NoSpare)),
        (&full, 2, 11, 0, Err(Refusal::NoSpare)),
        (&proper, 2, 8, 0, Ok(())),
        (&proper, 2, 11, 0, Ok(())),
    ];
    for (before, r, length, block, expected) in cases {
        let case = format!("spares::replace, {expected:?}");
        // Block 0 goes to place 0, so one place is written.
        let written = if expected.is_ok() { 1 } else { 0 };
        let scratch_before = draw.word_room(length);
        let mut scratch = scratch_before.clone();
        lend(&case, before, written, expected, |table| {
            spares::replace(drive, r, table, scratch.lent(), block).map(|_| ())
        });
        let cleared = match expected {
            Err(Refusal::OutOfRange | Refusal::NoRoom) => 0,
            _ => 8,
        };
        assert!(scratch.kept(&scratch_before, cleared), "{case}: numbers past the spares changed");
        assert_eq!(scratch.held()[..cleared], [0; 8][..cleared], "{case}: the scratch");
    }
}

/// Block 7 leaves place 4 for place 6; every other word, and the guards, stay.
#[test]
fn the_two_places_of_a_second_replacement() {
    let drive = shape(2, 2, 5);
    let mut room = table(&mut Draw::of(7));
    let mut expected = room.clone();
    (expected.lent()[4], expected.lent()[6]) = (0x4000_0000, 0x3000_0007);
    let mut scratch = [u32::MAX; 8];
    assert_eq!(spares::replace(drive, 2, room.lent(), &mut scratch, 7), Ok(6));
    assert_eq!((room, scratch), (expected, [0; 8]));
}

#[test]
fn the_room_of_a_first_table() {
    let mut draw = Draw::of(5);
    let drive = shape(2, 2, 5);
    let over: Vec<u32> = (0..=LIST_MOST as u32).collect();
    let cases: [(u32, &[u32], usize, Result<(), Refusal>); 7] = [
        (0, &[0], 140, Err(Refusal::OutOfRange)),
        (2, &over, 140, Err(Refusal::TooLong)),
        (2, &[1, 1], 140, Err(Refusal::NotRising)),
        (2, &[20], 140, Err(Refusal::Outside)),
        (2, &[0], 127, Err(Refusal::NoRoom)),
        (2, &[0, 1, 2, 5, 6, 7, 10, 11, 12], 140, Err(Refusal::NoSpare)),
        (2, &[0], 140, Ok(())),
    ];
    for (r, list, length, expected) in cases {
        let before = draw.word_room(length);
        let case = format!("spares::first_table, {expected:?}");
        let written = if expected.is_ok() { 128 } else { 0 };
        lend(&case, &before, written, expected, |room| {
            spares::first_table(drive, r, list, room).map(|_| ())
        });
    }
}

#[test]
fn the_room_of_an_image() {
    let mut draw = Draw::of(8);
    for size in SIZES {
        let data = draw.bytes(size as usize);
        let other = draw.bytes(other_size(size) as usize);
        let fits = image_length(size);
        // The size, the block, the code, the data, the length of the room, and the refusal.
        let cases = [
            (size + 1, CODE_UNIT, 1, &data[1..], 600, Err(Refusal::OutOfRange)),
            (0, 9, 2, &data[..], 600, Err(Refusal::OutOfRange)),
            (size, 9, 2, &data[1..], 600, Err(Refusal::WrongLength)),
            (size, 9, 2, &other[..], 600, Err(Refusal::WrongLength)),
            (size, CODE_UNIT, 2, &data[..], 600, Err(Refusal::NoSuchBlock)),
            (size, 9, 1, &data[..], 600, Err(Refusal::UnknownCode)),
            (size, 9, 2, &data[..], fits - 1, Err(Refusal::NoRoom)),
            (size, 9, 0, &data[..], fits, Ok(())),
            (size, 9, 2, &data[..], fits, Ok(())),
            (size, 9, 3, &data[..], 600, Ok(())),
        ];
        for (size, block, code, data, length, expected) in cases {
            let before = draw.byte_room(length);
            let case = format!("image::write of {size} into {length}, {expected:?}");
            let written = if expected.is_ok() { fits } else { 0 };
            lend(&case, &before, written, expected, |room| {
                image::write(size, block, code, data, false, room).map(|_| ())
            });
        }
    }
}
