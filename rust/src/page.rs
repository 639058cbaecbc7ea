//! The list page: a defect list as bytes.

use crate::ffi;
use crate::refusal::{answered, Refusal};

/// What a page says beside its entries.
#[derive(Clone, Copy, Debug, PartialEq, Eq, Hash)]
pub struct Page {
    /// 0 for the manufacturer's list, 1 for the grown one.
    pub kind: u32,
    /// The number of sectors.
    pub n: u32,
    /// How many entries were written to the room.
    pub entries: u32,
}

/// Reads a page and writes its entries to the first places of `room`.
///
/// Checks: [`BadPage`](Refusal::BadPage) for the whole layout, the last word too;
/// [`NotRising`](Refusal::NotRising) or [`Outside`](Refusal::Outside) at the lowest place at fault;
/// [`NoRoom`](Refusal::NoRoom).
pub fn read(page: &[u8], room: &mut [u32]) -> Result<Page, Refusal> {
    // SAFETY: pointers and lengths are those of live slices, and the room overlaps nothing.
    let answer =
        unsafe { ffi::tb_page_read(page.as_ptr(), page.len(), room.as_mut_ptr(), room.len()) };
    answered(answer.refusal, Page { kind: answer.kind, n: answer.n, entries: answer.entries })
}

/// Writes a list as a page to the first bytes of `room` and answers the page's length.
///
/// Checks: [`OutOfRange`](Refusal::OutOfRange) for `n`; [`BadPage`](Refusal::BadPage) for the kind;
/// [`TooLong`](Refusal::TooLong), then [`NotRising`](Refusal::NotRising) or
/// [`Outside`](Refusal::Outside) at the lowest place at fault; [`NoRoom`](Refusal::NoRoom).
pub fn write(n: u32, kind: u32, list: &[u32], room: &mut [u8]) -> Result<u32, Refusal> {
    // SAFETY: pointers and lengths are those of live slices, and the room overlaps nothing.
    let answer = unsafe {
        ffi::tb_page_write(n, kind, list.as_ptr(), list.len(), room.as_mut_ptr(), room.len())
    };
    answered(answer.refusal, answer.length)
}
