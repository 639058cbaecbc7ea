//! A read of a revectored block from the image of its home track and that of its spare's track.
//!
//! [`tracks`] names the two tracks. Once their images are fetched, [`judge`] judges the block in them, and
//! [`data`] hands back its data. If both are one track, its image may be lent as both.
//!
//! `size` is that of the drive's sectors, as in [`image`](crate::image). Any other than the two is
//! [`OutOfRange`](Refusal::OutOfRange), before all else, and leaves all of `scratch` as it was. [`tracks`]
//! takes no size.
//!
//! A block lies in one image, and no byte of the other is looked at. For a block at home the second image may
//! be any of the right length. The header must say the block, and the code that the table says: that of the
//! block's descriptor, or [`AT_HOME`](crate::AT_HOME) for a block at home. Each call checks the table whole,
//! and takes `scratch` for that and leaves it as the calls of [`spares`](crate::spares) do.

// The parameters are those of the C face, one by one.
#![allow(clippy::too_many_arguments)]

use crate::ffi;
use crate::refusal::{answered, Refusal};
use crate::shape::Shape;

/// A track of the drive, by its cylinder and head.
#[derive(Clone, Copy, Debug, PartialEq, Eq, Hash)]
pub struct TrackAddress {
    pub cylinder: u32,
    pub head: u32,
}

/// The tracks to fetch for a read of a block.
#[derive(Clone, Copy, Debug, PartialEq, Eq, Hash)]
pub struct Tracks {
    /// The block's home track.
    pub home: TrackAddress,
    /// The track that the block lies on, which for a block at home is the home track too.
    pub there: TrackAddress,
    /// The cylinders from the first to the second, negative toward cylinder 0, as
    /// [`shift`](crate::spares::shift) answers them.
    pub shift: i32,
}

/// The tracks to fetch for a read of `block`.
///
/// Checks: those of [`sector_of`](crate::spares::sector_of).
///
/// ```
/// use tautberry::reading::{self, TrackAddress};
/// use tautberry::{spares, Shape};
///
/// let shape = Shape::ungrouped(2, 2, 5);
/// let (mut table, mut scratch) = ([0; 128], [0; 8]);
/// spares::first_table(shape, 2, &[], &mut table)?;
/// for block in [7, 8, 6] {
///     spares::replace(shape, 2, &mut table, &mut scratch, block)?;
/// }
/// let tracks = reading::tracks(shape, 2, &table, &mut scratch, 6)?;
/// assert_eq!(tracks.home, TrackAddress { cylinder: 1, head: 0 });
/// assert_eq!(tracks.there, TrackAddress { cylinder: 0, head: 1 });
/// assert_eq!(tracks.shift, -1);
/// # Ok::<(), tautberry::Refusal>(())
/// ```
pub fn tracks(
    shape: Shape,
    r: u32,
    table: &[u32],
    scratch: &mut [u32],
    block: u32,
) -> Result<Tracks, Refusal> {
    // SAFETY: pointers and lengths are those of live slices, and scratch overlaps nothing.
    let answer = unsafe {
        ffi::tb_read_tracks(
            shape,
            r,
            table.as_ptr(),
            table.len(),
            scratch.as_mut_ptr(),
            scratch.len(),
            block,
        )
    };
    let home = TrackAddress { cylinder: answer.home_cylinder, head: answer.home_head };
    let there = TrackAddress { cylinder: answer.cylinder, head: answer.head };
    answered(answer.refusal, Tracks { home, there, shift: answer.shift })
}

/// One of the two track images that a read is lent.
#[derive(Clone, Copy, Debug, PartialEq, Eq, Hash)]
pub enum Track {
    Home,
    Spare,
}

/// Where a block's data lie: the image, and the offset of the `size` bytes in it.
#[derive(Clone, Copy, Debug, PartialEq, Eq, Hash)]
pub struct Spot {
    pub track: Track,
    pub offset: u32,
}

/// Accepts where the image of `block` is good.
///
/// Checks: [`OutOfRange`](Refusal::OutOfRange) for `size`, shape, `r` and the number of spares;
/// [`NoRoom`](Refusal::NoRoom) for `scratch`; [`BadTable`](Refusal::BadTable);
/// [`NoSuchBlock`](Refusal::NoSuchBlock); [`WrongLength`](Refusal::WrongLength) where either image has not
/// [`track_length`](crate::track_length)`(size, sectors)` bytes; [`NoAddress`](Refusal::NoAddress);
/// [`OtherBlock`](Refusal::OtherBlock), also for another code; [`ForcedError`](Refusal::ForcedError) or
/// [`BadCode`](Refusal::BadCode).
pub fn judge(
    size: u32,
    shape: Shape,
    r: u32,
    table: &[u32],
    scratch: &mut [u32],
    block: u32,
    home: &[u8],
    spare: &[u8],
) -> Result<(), Refusal> {
    // SAFETY: pointers and lengths are those of live slices, and scratch overlaps nothing.
    let answer = unsafe {
        ffi::tb_read_judge(
            size,
            shape,
            r,
            table.as_ptr(),
            table.len(),
            scratch.as_mut_ptr(),
            scratch.len(),
            block,
            home.as_ptr(),
            home.len(),
            spare.as_ptr(),
            spare.len(),
        )
    };
    answered(answer.refusal, ())
}

/// Where the data of a good image of `block` lie.
///
/// Checks: those of [`judge`].
pub fn spot(
    size: u32,
    shape: Shape,
    r: u32,
    table: &[u32],
    scratch: &mut [u32],
    block: u32,
    home: &[u8],
    spare: &[u8],
) -> Result<Spot, Refusal> {
    // SAFETY: pointers and lengths are those of live slices, and scratch overlaps nothing.
    let answer = unsafe {
        ffi::tb_read_data(
            size,
            shape,
            r,
            table.as_ptr(),
            table.len(),
            scratch.as_mut_ptr(),
            scratch.len(),
            block,
            home.as_ptr(),
            home.len(),
            spare.as_ptr(),
            spare.len(),
        )
    };
    let track = match answer.image {
        0 => Track::Home,
        _ => Track::Spare,
    };
    answered(answer.refusal, Spot { track, offset: answer.offset })
}

/// The `size` bytes of data of a good image of `block`, where they lie in `home` or in `spare`. They
/// belong to the images, and neither to the table nor to the scratch.
///
/// Checks: those of [`judge`].
///
/// The part lives no longer than the images:
///
/// ```compile_fail,E0597
/// use tautberry::{reading, Shape};
///
/// let shape = Shape::ungrouped(1, 1, 2);
/// let (table, mut scratch) = ([0; 128], [0; 1]);
/// let part = {
///     let home = [0; 2 * 530];
///     let spare = [0; 2 * 530];
///     reading::data(512, shape, 1, &table, &mut scratch, 0, &home, &spare)
/// };
/// assert!(part.is_err());
/// ```
pub fn data<'a>(
    size: u32,
    shape: Shape,
    r: u32,
    table: &[u32],
    scratch: &mut [u32],
    block: u32,
    home: &'a [u8],
    spare: &'a [u8],
) -> Result<&'a [u8], Refusal> {
    let spot = spot(size, shape, r, table, scratch, block, home, spare)?;
    let image = match spot.track {
        Track::Home => home,
        Track::Spare => spare,
    };
    let start = spot.offset as usize;
    Ok(&image[start..start + size as usize])
}
