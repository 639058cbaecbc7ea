//! A drive's shape: sector number to cylinder, head and sector, and back; the angle of a sector.

use crate::ffi;
use crate::refusal::{answered, Refusal};

/// How a drive is laid out. Its heads stand in groups, and each group starts some sectors after the one
/// before it.
///
/// A shape is [`OutOfRange`](Refusal::OutOfRange) where one of its numbers is, and where groups × tracks
/// is not the number of heads.
#[derive(Clone, Copy, Debug, PartialEq, Eq, Hash)]
#[repr(C)]
pub struct Shape {
    /// Cylinders, 1 to 4,096.
    pub cylinders: u32,
    /// Heads, 1 to 64.
    pub heads: u32,
    /// Sectors of a track, 2 to 64.
    pub sectors: u32,
    /// Groups of heads, 1 to 64.
    pub groups: u32,
    /// Tracks of a group, 1 to 64, so that groups × tracks is the number of heads.
    pub tracks: u32,
    /// Sectors by which each group starts after the one before it, 0 to sectors − 1.
    pub offset: u32,
}

impl Shape {
    /// A drive without groups: one group of all heads, offset 0.
    ///
    /// ```
    /// use tautberry::{shape, Shape};
    ///
    /// let plain = Shape::ungrouped(2, 4, 5);
    /// let grouped = Shape { groups: 2, tracks: 2, offset: 3, ..plain };
    /// let angle = |drive| shape::address_of(drive, 13).map(|at| (at.head, at.sector, at.angle));
    /// assert_eq!(angle(plain), Ok((2, 3, 3)));
    /// assert_eq!(angle(grouped), Ok((2, 3, 1)));
    /// ```
    pub const fn ungrouped(cylinders: u32, heads: u32, sectors: u32) -> Shape {
        Shape { cylinders, heads, sectors, groups: 1, tracks: heads, offset: 0 }
    }
}

/// A place on the drive, and the angle at which it lies.
#[derive(Clone, Copy, Debug, PartialEq, Eq, Hash)]
#[repr(C)]
pub struct Address {
    pub cylinder: u32,
    pub head: u32,
    pub sector: u32,
    /// (sector + offset × group) mod the sectors of a track, with group = head / tracks, the remainder
    /// dropped. Calls answer it and none takes it: cylinder, head and sector name the place.
    pub angle: u32,
}

/// The sector number of a place.
///
/// Checks: [`OutOfRange`](Refusal::OutOfRange) for the shape; [`NoSuchSector`](Refusal::NoSuchSector)
/// where cylinder, head or sector is not on the drive.
pub fn sector_of(shape: Shape, cylinder: u32, head: u32, sector: u32) -> Result<u32, Refusal> {
    // SAFETY: only numbers are passed.
    let answer = unsafe { ffi::tb_shape_sector(shape, cylinder, head, sector) };
    answered(answer.refusal, answer.sector)
}

/// The place of a sector number, with its angle.
///
/// Checks: [`OutOfRange`](Refusal::OutOfRange) for the shape; [`NoSuchSector`](Refusal::NoSuchSector).
pub fn address_of(shape: Shape, sector: u32) -> Result<Address, Refusal> {
    // SAFETY: only numbers are passed.
    let answer = unsafe { ffi::tb_shape_address(shape, sector) };
    answered(answer.refusal, answer.address)
}
