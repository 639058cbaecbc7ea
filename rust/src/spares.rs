//! A revectored drive: the last `r` sectors of each track are spares, and a table says what they hold.
//!
//! A call that is lent a table checks it whole, and takes `scratch` for that: one number for each spare,
//! which is cylinders × heads × `r` and not the table's length. More may be lent, and what the numbers
//! are does not matter. Too few are [`NoRoom`](Refusal::NoRoom), after [`OutOfRange`](Refusal::OutOfRange)
//! and before [`BadTable`](Refusal::BadTable).
//!
//! A call that is refused by one of the first two checks leaves all of `scratch` as it was. After any
//! other, accepted or refused, a number for each spare is 0, and the rest is as it was.
//!
//! The search order of a block begins at its primary place, that of the first spare of its home track. In
//! the table block of this place it goes outward: one place up, one down, two up, two down and so on. Then
//! come the table blocks after that one, then those before it, each rising. A table in which a free place
//! comes before a block's own in this order is [`BadTable`](Refusal::BadTable). [`first_table`] and
//! [`replace`] make no such table. So a look-up ends at the block or at the first free place, and a block
//! that was not met by then lies at home.

use crate::ffi;
use crate::refusal::{answered, named, Refusal};
use crate::shape::{Address, Shape};

/// The sector that `block` lies on: its spare's where the table names the block, else its home.
///
/// Checks: [`OutOfRange`](Refusal::OutOfRange) for shape, `r` and the number of spares;
/// [`NoRoom`](Refusal::NoRoom) for `scratch`; [`BadTable`](Refusal::BadTable);
/// [`NoSuchBlock`](Refusal::NoSuchBlock).
pub fn sector_of(
    shape: Shape,
    r: u32,
    table: &[u32],
    scratch: &mut [u32],
    block: u32,
) -> Result<u32, Refusal> {
    // SAFETY: pointers and lengths are those of live slices, and scratch overlaps nothing.
    let answer = unsafe {
        ffi::tb_spare_sector(
            shape,
            r,
            table.as_ptr(),
            table.len(),
            scratch.as_mut_ptr(),
            scratch.len(),
            block,
        )
    };
    answered(answer.refusal, answer.sector)
}

/// The place that `block` lies on, as cylinder, head and sector, with its angle.
///
/// Checks: those of [`sector_of`].
pub fn address_of(
    shape: Shape,
    r: u32,
    table: &[u32],
    scratch: &mut [u32],
    block: u32,
) -> Result<Address, Refusal> {
    // SAFETY: pointers and lengths are those of live slices, and scratch overlaps nothing.
    let answer = unsafe {
        ffi::tb_spare_address(
            shape,
            r,
            table.as_ptr(),
            table.len(),
            scratch.as_mut_ptr(),
            scratch.len(),
            block,
        )
    };
    answered(answer.refusal, answer.address)
}

/// The cylinders from the home of `block` to its spare, negative toward cylinder 0; 0 at home.
///
/// Checks: those of [`sector_of`].
pub fn shift(
    shape: Shape,
    r: u32,
    table: &[u32],
    scratch: &mut [u32],
    block: u32,
) -> Result<i32, Refusal> {
    // SAFETY: pointers and lengths are those of live slices, and scratch overlaps nothing.
    let answer = unsafe {
        ffi::tb_spare_shift(
            shape,
            r,
            table.as_ptr(),
            table.len(),
            scratch.as_mut_ptr(),
            scratch.len(),
            block,
        )
    };
    answered(answer.refusal, answer.shift)
}

/// The block that lies on `sector`; none for a home whose block has moved away, and for a spare that
/// holds none.
///
/// Checks: [`OutOfRange`](Refusal::OutOfRange) for shape, `r` and the number of spares;
/// [`NoRoom`](Refusal::NoRoom) for `scratch`; [`BadTable`](Refusal::BadTable);
/// [`NoSuchSector`](Refusal::NoSuchSector).
pub fn block_on(
    shape: Shape,
    r: u32,
    table: &[u32],
    scratch: &mut [u32],
    sector: u32,
) -> Result<Option<u32>, Refusal> {
    // SAFETY: pointers and lengths are those of live slices, and scratch overlaps nothing.
    let answer = unsafe {
        ffi::tb_spare_block(
            shape,
            r,
            table.as_ptr(),
            table.len(),
            scratch.as_mut_ptr(),
            scratch.len(),
            sector,
        )
    };
    answered(answer.refusal, named(answer.found, answer.block))
}

/// The block that lies at a place; none for a home whose block has moved away, and for a spare that
/// holds none.
///
/// Checks: [`OutOfRange`](Refusal::OutOfRange) for shape, `r` and the number of spares;
/// [`NoRoom`](Refusal::NoRoom) for `scratch`; [`BadTable`](Refusal::BadTable);
/// [`NoSuchSector`](Refusal::NoSuchSector) where cylinder, head or sector is not below its bound.
pub fn block_at(
    shape: Shape,
    r: u32,
    table: &[u32],
    scratch: &mut [u32],
    cylinder: u32,
    head: u32,
    sector: u32,
) -> Result<Option<u32>, Refusal> {
    // SAFETY: pointers and lengths are those of live slices, and scratch overlaps nothing.
    let answer = unsafe {
        ffi::tb_spare_block_at(
            shape,
            r,
            table.as_ptr(),
            table.len(),
            scratch.as_mut_ptr(),
            scratch.len(),
            cylinder,
            head,
            sector,
        )
    };
    answered(answer.refusal, named(answer.found, answer.block))
}

/// Sends `block` to the first free place in its search order, writes its descriptor there and answers
/// the place, which is the spare's number. A block that lies on a spare leaves it for good: its old
/// descriptor becomes unusable. The call writes these one or two descriptors and no other.
///
/// Checks: [`OutOfRange`](Refusal::OutOfRange) for shape, `r` and the number of spares;
/// [`NoRoom`](Refusal::NoRoom) for `scratch`; [`BadTable`](Refusal::BadTable);
/// [`NoSuchBlock`](Refusal::NoSuchBlock); [`NoSpare`](Refusal::NoSpare).
///
/// ```
/// use tautberry::{spares, Shape};
///
/// let shape = Shape::ungrouped(2, 2, 5);
/// let (mut table, mut scratch) = ([0; 128], [0; 8]);
/// spares::first_table(shape, 2, &[], &mut table)?;
/// assert_eq!(spares::replace(shape, 2, &mut table, &mut scratch, 7), Ok(4));
/// assert_eq!(spares::replace(shape, 2, &mut table, &mut scratch, 7), Ok(5));
/// assert_eq!(table[4..6], [0x4000_0000, 0x3000_0007]);
/// # Ok::<(), tautberry::Refusal>(())
/// ```
pub fn replace(
    shape: Shape,
    r: u32,
    table: &mut [u32],
    scratch: &mut [u32],
    block: u32,
) -> Result<u32, Refusal> {
    // SAFETY: pointers and lengths are those of live slices, and neither overlaps the other.
    let answer = unsafe {
        ffi::tb_spare_replace(
            shape,
            r,
            table.as_mut_ptr(),
            table.len(),
            scratch.as_mut_ptr(),
            scratch.len(),
            block,
        )
    };
    answered(answer.refusal, answer.place)
}

/// How many descriptors of each code a table has.
#[derive(Clone, Copy, Debug, PartialEq, Eq, Hash)]
pub struct Census {
    pub free: u32,
    /// Allocated at the block's primary place.
    pub primary: u32,
    /// Allocated at another place.
    pub elsewhere: u32,
    /// Bad in the first table, or left by a block that was replaced again.
    pub unusable: u32,
    /// Past the last spare.
    pub null: u32,
}

/// Counts the descriptors of each code.
///
/// Checks: [`OutOfRange`](Refusal::OutOfRange) for shape, `r` and the number of spares;
/// [`NoRoom`](Refusal::NoRoom) for `scratch`; [`BadTable`](Refusal::BadTable).
pub fn census(shape: Shape, r: u32, table: &[u32], scratch: &mut [u32]) -> Result<Census, Refusal> {
    // SAFETY: pointers and lengths are those of live slices, and scratch overlaps nothing.
    let answer = unsafe {
        ffi::tb_spare_census(
            shape,
            r,
            table.as_ptr(),
            table.len(),
            scratch.as_mut_ptr(),
            scratch.len(),
        )
    };
    answered(
        answer.refusal,
        Census {
            free: answer.free,
            primary: answer.primary,
            elsewhere: answer.elsewhere,
            unusable: answer.unusable,
            null: answer.null,
        },
    )
}

/// Makes a drive's first table from its list of bad sectors, in the first places of `room`, and
/// answers the table's length: the spares among them are unusable, then the homes are given spares,
/// the lowest block first. It is lent no table and takes no scratch.
///
/// Checks: [`OutOfRange`](Refusal::OutOfRange) for shape, `r` and the number of spares;
/// [`TooLong`](Refusal::TooLong), then [`NotRising`](Refusal::NotRising) or
/// [`Outside`](Refusal::Outside) at the lowest place at fault; [`NoRoom`](Refusal::NoRoom);
/// [`NoSpare`](Refusal::NoSpare) where the bad homes outnumber the good spares.
pub fn first_table(shape: Shape, r: u32, list: &[u32], room: &mut [u32]) -> Result<u32, Refusal> {
    // SAFETY: pointers and lengths are those of live slices, and the room overlaps nothing.
    let answer = unsafe {
        ffi::tb_spare_first(shape, r, list.as_ptr(), list.len(), room.as_mut_ptr(), room.len())
    };
    answered(answer.refusal, answer.length)
}
