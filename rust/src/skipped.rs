//! A skipped drive by its shape: block to place, place to block.

use crate::ffi;
use crate::refusal::{answered, named, Refusal};
use crate::shape::{Address, Shape};

/// The place of `block` on a skipped drive, with its angle.
///
/// Checks: [`OutOfRange`](Refusal::OutOfRange) for the shape; [`TooLong`](Refusal::TooLong), then
/// [`NotRising`](Refusal::NotRising) or [`Outside`](Refusal::Outside) at the lowest place at fault;
/// [`NoSuchBlock`](Refusal::NoSuchBlock).
pub fn address_of(shape: Shape, list: &[u32], block: u32) -> Result<Address, Refusal> {
    // SAFETY: the pointer and length are those of a live slice.
    let answer = unsafe { ffi::tb_skipped_address(shape, list.as_ptr(), list.len(), block) };
    answered(answer.refusal, answer.address)
}

/// The block at a place of a skipped drive, or none for a bad sector.
///
/// Checks: [`OutOfRange`](Refusal::OutOfRange) for the shape; [`TooLong`](Refusal::TooLong), then
/// [`NotRising`](Refusal::NotRising) or [`Outside`](Refusal::Outside) at the lowest place at fault;
/// [`NoSuchSector`](Refusal::NoSuchSector) where cylinder, head or sector is not on the drive.
pub fn block_at(
    shape: Shape,
    list: &[u32],
    cylinder: u32,
    head: u32,
    sector: u32,
) -> Result<Option<u32>, Refusal> {
    // SAFETY: the pointer and length are those of a live slice.
    let answer =
        unsafe { ffi::tb_skipped_block(shape, list.as_ptr(), list.len(), cylinder, head, sector) };
    answered(answer.refusal, named(answer.found, answer.block))
}
