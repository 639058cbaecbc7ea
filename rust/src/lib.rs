//! Safe calls of Tautberry, the proved library for the controller board of a bench recorder.
//!
//! A skipped drive passes over its bad sectors ([`skip`], [`skipped`]), a revectored drive sends a
//! bad block to a spare ([`spares`], [`reading`]). Defect lists travel as pages ([`page`]), a scan's
//! findings become the next night's lists ([`format`](mod@format)), and a sector is kept as an image
//! with its code ([`image`]). Which of two sizes the sectors of a drive have, its mode sector says
//! ([`mode`]).
//!
//! Every call takes any input and either answers or refuses with a [`Refusal`]. A refused call leaves
//! what it was lent as it was, but for the scratch that goes with a table ([`spares`] says what is left
//! in it). An accepted call fills the first places of the room it was lent and leaves the rest. Each
//! call names its checks in order; the first that fails is the refusal.
//!
//! Slices are lent for the call and never kept. An empty slice goes with the pointer that Rust gives
//! it, which is not null and points nowhere; the library reads nothing through it.
//!
//! ```
//! use tautberry::{skip, Refusal};
//!
//! let list = [3, 7, 60, 61];
//! assert_eq!(skip::sector_of(848, &list, 58), Ok(62));
//! assert_eq!(skip::block_on(848, &list, 61), Ok(None));
//! assert_eq!(skip::sector_of(848, &list, 844), Err(Refusal::NoSuchBlock));
//! ```

mod ffi;

pub mod format;
pub mod image;
pub mod mode;
pub mod page;
pub mod reading;
mod refusal;
pub mod shape;
pub mod skip;
pub mod skipped;
pub mod spares;

pub use refusal::Refusal;
pub use shape::{Address, Shape};
pub use skip::Cursor;

/// The most sectors, or other units, that a space may have.
pub const UNITS_MOST: u32 = 16_777_216;
/// The most cylinders of a shape.
pub const CYLINDERS_MOST: u32 = 4_096;
/// The most heads of a shape, and so the most groups and the most tracks of a group.
pub const HEADS_MOST: u32 = 64;
/// The fewest sectors of a track.
pub const SECTORS_LEAST: u32 = 2;
/// The most sectors of a track.
pub const SECTORS_MOST: u32 = 64;
/// The most entries of a list.
pub const LIST_MOST: usize = 65_536;
/// The most spares of a revectored drive.
pub const SPARES_MOST: u32 = 65_536;
/// The descriptors of one table block.
pub const TABLE_BLOCK: usize = 128;
/// The bytes of a sector's data: one of the two sizes, and that of every sector of the XBN area.
pub const DATA_SIZE: u32 = 512;
/// The bytes of a sector's data: the other size.
pub const WIDE_SIZE: u32 = 576;
/// The bytes of a sector image before its data: four copies of the number that says a code and a block.
pub const HEADER_SIZE: usize = 16;
/// The bytes of a sector image beside its data.
pub const IMAGE_EXTRA: usize = 18;
/// The code of no data.
pub const START_CODE: u16 = 0x5A3C;
/// A word, a descriptor or the number of a header, is its code times this and its number, which is below it.
pub const CODE_UNIT: u32 = 268_435_456;
/// The code of a header whose block is at home.
pub const AT_HOME: u32 = 0;
/// The code of a header or a descriptor whose block is replaced, on its primary spare.
pub const AT_PRIMARY: u32 = 2;
/// The code of a header or a descriptor whose block is replaced, on any other spare.
pub const ELSEWHERE: u32 = 3;
/// The bytes of a list page beside its entries.
pub const PAGE_FRAME: usize = 14;
/// The bytes of an entry of a page.
pub const ENTRY_SIZE: usize = 4;
/// The bytes of the longest list page.
pub const PAGE_MOST: usize = page_length(LIST_MOST);
/// The last kind of a page.
pub const KIND_MOST: u32 = 1;
/// The last option of Format.
pub const OPTION_MOST: u32 = 7;
/// The last space.
pub const SPACE_MOST: u32 = 3;

/// The code of a word.
pub const fn code_of(word: u32) -> u32 {
    word / CODE_UNIT
}

/// The number of a word: the block, in a header or in a descriptor that names one.
pub const fn number_of(word: u32) -> u32 {
    word % CODE_UNIT
}

/// The bytes of a page with so many entries.
pub const fn page_length(entries: usize) -> usize {
    PAGE_FRAME + ENTRY_SIZE * entries
}

/// The bytes of the image of a sector of this size.
pub const fn image_length(size: u32) -> usize {
    size as usize + IMAGE_EXTRA
}

/// The bytes of the image of a track with so many sectors of this size.
pub const fn track_length(size: u32, sectors: usize) -> usize {
    image_length(size) * sectors
}

/// The descriptors of a table for so many spares.
pub const fn table_length(spares: usize) -> usize {
    TABLE_BLOCK * spares.div_ceil(TABLE_BLOCK)
}
