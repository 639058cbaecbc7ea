//! Skipping over a list of bad sectors: block to sector, sector to block, and the job cursor.

use crate::ffi;
use crate::refusal::{answered, named, of_answer, Refusal};

/// The sector that `block` lies on, over `n` sectors of which those in `list` are bad.
///
/// Checks: [`OutOfRange`](Refusal::OutOfRange) for `n`; [`TooLong`](Refusal::TooLong), then
/// [`NotRising`](Refusal::NotRising) or [`Outside`](Refusal::Outside) at the lowest place at fault;
/// [`NoSuchBlock`](Refusal::NoSuchBlock).
pub fn sector_of(n: u32, list: &[u32], block: u32) -> Result<u32, Refusal> {
    // SAFETY: the pointer and length are those of a live slice.
    let answer = unsafe { ffi::tb_skip_sector(n, list.as_ptr(), list.len(), block) };
    answered(answer.refusal, answer.sector)
}

/// The block that lies on `sector`, or none for a bad sector.
///
/// Checks: [`OutOfRange`](Refusal::OutOfRange) for `n`; [`TooLong`](Refusal::TooLong), then
/// [`NotRising`](Refusal::NotRising) or [`Outside`](Refusal::Outside) at the lowest place at fault;
/// [`NoSuchSector`](Refusal::NoSuchSector).
pub fn block_on(n: u32, list: &[u32], sector: u32) -> Result<Option<u32>, Refusal> {
    // SAFETY: the pointer and length are those of a live slice.
    let answer = unsafe { ffi::tb_skip_block(n, list.as_ptr(), list.len(), sector) };
    answered(answer.refusal, named(answer.found, answer.block))
}

/// Where a job stands: the next block, and how many entries lie below the sector of the block before.
#[derive(Clone, Copy, Debug, PartialEq, Eq, Hash, Default)]
#[repr(C)]
pub struct Cursor {
    /// The block that the next step answers.
    pub block: u32,
    /// The entries below the sector of the block before `block`; 0 at block 0.
    pub skipped: u32,
}

impl Cursor {
    /// Opens a job at `block`.
    ///
    /// Checks: [`OutOfRange`](Refusal::OutOfRange) for `n`; [`TooLong`](Refusal::TooLong), then
    /// [`NotRising`](Refusal::NotRising) or [`Outside`](Refusal::Outside) at the lowest place at
    /// fault; [`NoSuchBlock`](Refusal::NoSuchBlock).
    pub fn start(n: u32, list: &[u32], block: u32) -> Result<Cursor, Refusal> {
        // SAFETY: the pointer and length are those of a live slice.
        let answer = unsafe { ffi::tb_job_start(n, list.as_ptr(), list.len(), block) };
        answered(answer.refusal, answer.next)
    }

    /// The cursor itself where it belongs to the list; the cursor after the last block belongs too.
    ///
    /// Checks: [`OutOfRange`](Refusal::OutOfRange) for `n`; [`TooLong`](Refusal::TooLong), then
    /// [`NotRising`](Refusal::NotRising) or [`Outside`](Refusal::Outside) at the lowest place at
    /// fault; [`StrayCursor`](Refusal::StrayCursor).
    pub fn check(self, n: u32, list: &[u32]) -> Result<Cursor, Refusal> {
        // SAFETY: the pointer and length are those of a live slice.
        let answer = unsafe { ffi::tb_job_check(self, n, list.as_ptr(), list.len()) };
        answered(answer.refusal, answer.next)
    }

    /// The sector of the cursor's block and the cursor for the block after it; a refused step hands
    /// back the cursor it was given.
    ///
    /// Checks: [`OutOfRange`](Refusal::OutOfRange) for `n`; [`TooLong`](Refusal::TooLong), then
    /// [`NotRising`](Refusal::NotRising) or [`Outside`](Refusal::Outside) at the lowest place at
    /// fault; [`StrayCursor`](Refusal::StrayCursor); [`NoSuchBlock`](Refusal::NoSuchBlock) after the
    /// last block.
    pub fn step(self, n: u32, list: &[u32]) -> Result<(u32, Cursor), (Refusal, Cursor)> {
        // SAFETY: the pointer and length are those of a live slice.
        let answer = unsafe { ffi::tb_job_step(self, n, list.as_ptr(), list.len()) };
        match answer.refusal {
            0 => Ok((answer.sector, answer.next)),
            number => Err((of_answer(number), answer.next)),
        }
    }
}
