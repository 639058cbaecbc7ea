//! The refusals by name and number.

use std::error::Error;
use std::fmt;

/// Why a call refused. Its number is the one of the C face.
#[derive(Clone, Copy, Debug, PartialEq, Eq, Hash, PartialOrd, Ord)]
#[repr(u32)]
pub enum Refusal {
    /// A number of the drive is out of its range: of the shape, of its sectors or of its spares; the heads
    /// of a shape are not its groups × tracks; the size of a sector's data is neither of the two; or copies of
    /// the format table lie 0 sectors apart.
    OutOfRange = 1,
    /// A list is longer than [`LIST_MOST`](crate::LIST_MOST) entries, or a list to be made would be.
    TooLong = 2,
    /// An entry of a list does not exceed its neighbour before it.
    NotRising = 3,
    /// An entry of a list is no unit of its space.
    Outside = 4,
    /// The drive has no block of this number, or the block to write is
    /// [`CODE_UNIT`](crate::CODE_UNIT) or more.
    NoSuchBlock = 5,
    /// The drive has no sector of this number, or no such cylinder, head or sector of a track.
    NoSuchSector = 6,
    /// The result does not fit into the room, or the scratch has fewer numbers than the drive has spares.
    NoRoom = 7,
    /// The bytes are no page, or there is no such kind of page to write.
    BadPage = 8,
    /// The cursor does not belong to this N and list.
    StrayCursor = 9,
    /// Format's option is above 7, its space above 3, or a list comes with an option that takes none.
    BadOption = 10,
    /// The table is not one of this drive, a descriptor breaks a rule, or a free place comes before a
    /// block's own in its search order.
    BadTable = 11,
    // 12 is no longer given, and no other refusal takes it.
    /// No spare is free, or a first table would need more good spares than there are.
    NoSpare = 13,
    /// Data or an image is not as long as it must be for the size of the sectors.
    WrongLength = 14,
    /// Fewer than three copies in the header agree.
    NoAddress = 15,
    /// The header says another block or another code than it must, or a code that no header may have.
    OtherBlock = 16,
    /// The stored code is the complement: the data was bad when it was written.
    ForcedError = 17,
    /// The stored code is neither the data's nor its complement.
    BadCode = 18,
    // 19 and 20 are given by no call of this library.
    /// No copy of the format table says the size of the sectors.
    NoMode = 21,
    /// The code to write is none of the three that a header may have.
    UnknownCode = 22,
}

impl Refusal {
    /// Every refusal, by rising number.
    pub const ALL: [Refusal; 19] = [
        Refusal::OutOfRange,
        Refusal::TooLong,
        Refusal::NotRising,
        Refusal::Outside,
        Refusal::NoSuchBlock,
        Refusal::NoSuchSector,
        Refusal::NoRoom,
        Refusal::BadPage,
        Refusal::StrayCursor,
        Refusal::BadOption,
        Refusal::BadTable,
        Refusal::NoSpare,
        Refusal::WrongLength,
        Refusal::NoAddress,
        Refusal::OtherBlock,
        Refusal::ForcedError,
        Refusal::BadCode,
        Refusal::NoMode,
        Refusal::UnknownCode,
    ];

    /// The refusal's number: 1 to 18 without 12, 21 or 22.
    pub const fn number(self) -> u32 {
        self as u32
    }

    /// The refusal of a number, none where no refusal has it.
    pub fn of_number(number: u32) -> Option<Refusal> {
        Refusal::ALL.into_iter().find(|each| each.number() == number)
    }

    /// The refusal's name in words.
    pub const fn name(self) -> &'static str {
        match self {
            Refusal::OutOfRange => "out of range",
            Refusal::TooLong => "too long",
            Refusal::NotRising => "not rising",
            Refusal::Outside => "outside",
            Refusal::NoSuchBlock => "no such block",
            Refusal::NoSuchSector => "no such sector",
            Refusal::NoRoom => "no room",
            Refusal::BadPage => "bad page",
            Refusal::StrayCursor => "stray cursor",
            Refusal::BadOption => "bad option",
            Refusal::BadTable => "bad table",
            Refusal::NoSpare => "no spare",
            Refusal::WrongLength => "wrong length",
            Refusal::NoAddress => "no address",
            Refusal::OtherBlock => "other block",
            Refusal::ForcedError => "forced error",
            Refusal::BadCode => "bad code",
            Refusal::NoMode => "no mode",
            Refusal::UnknownCode => "unknown code",
        }
    }
}

impl fmt::Display for Refusal {
    fn fmt(&self, f: &mut fmt::Formatter<'_>) -> fmt::Result {
        write!(f, "refused {}: {}", self.number(), self.name())
    }
}

impl Error for Refusal {}

/// `value` where the C face answered 0, else the refusal of the number it answered.
pub(crate) fn answered<T>(number: u32, value: T) -> Result<T, Refusal> {
    match number {
        0 => Ok(value),
        _ => Err(of_answer(number)),
    }
}

/// The refusal of a number other than 0 that the C face answered.
pub(crate) fn of_answer(number: u32) -> Refusal {
    Refusal::of_number(number).unwrap_or_else(|| panic!("the library answered number {number}"))
}

/// The block of an answer that may be "no block".
pub(crate) fn named(found: u32, block: u32) -> Option<u32> {
    (found != 0).then_some(block)
}
