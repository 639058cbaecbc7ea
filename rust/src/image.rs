//! A sector's image: four copies of a number that says a code and a block, the data, the code of the data.
//!
//! `size` is how many bytes of data the sectors of the drive have, [`DATA_SIZE`](crate::DATA_SIZE) or
//! [`WIDE_SIZE`](crate::WIDE_SIZE), and [`mode::find`](crate::mode::find) finds it. Any other is
//! [`OutOfRange`](Refusal::OutOfRange), before all else. An image has
//! [`image_length`](crate::image_length)`(size)` bytes, 530 or 594, and what has the length of the other size
//! is [`WrongLength`](Refusal::WrongLength).
//!
//! The code of a header tells where the block is: [`AT_HOME`](crate::AT_HOME),
//! [`AT_PRIMARY`](crate::AT_PRIMARY) or [`ELSEWHERE`](crate::ELSEWHERE). The one to write for a replaced
//! block is that of its descriptor, [`code_of`](crate::code_of)`(table[place])` with the place that
//! [`replace`](crate::spares::replace) answers. Any other code is unknown, and no header may have it.

use crate::ffi;
use crate::refusal::{answered, Refusal};
use crate::HEADER_SIZE;

/// What a header says: one of the three codes, and a block.
#[derive(Clone, Copy, Debug, PartialEq, Eq, Hash)]
pub struct Head {
    pub code: u32,
    pub block: u32,
}

/// Writes the image of `block` with `code` to the first bytes of `room` and answers its length; a forced
/// image says that the data was bad when it was written.
///
/// Checks: [`OutOfRange`](Refusal::OutOfRange) for `size`; [`WrongLength`](Refusal::WrongLength) where `data`
/// is not `size` bytes; [`NoSuchBlock`](Refusal::NoSuchBlock) where `block` is
/// [`CODE_UNIT`](crate::CODE_UNIT) or more; [`UnknownCode`](Refusal::UnknownCode);
/// [`NoRoom`](Refusal::NoRoom) where the image does not fit.
pub fn write(
    size: u32,
    block: u32,
    code: u32,
    data: &[u8],
    forced: bool,
    room: &mut [u8],
) -> Result<u32, Refusal> {
    // SAFETY: pointers and lengths are those of live slices, and the room overlaps nothing.
    let answer = unsafe {
        ffi::tb_image_write(
            size,
            block,
            code,
            data.as_ptr(),
            data.len(),
            forced,
            room.as_mut_ptr(),
            room.len(),
        )
    };
    answered(answer.refusal, answer.length)
}

/// The code and the block that the header says.
///
/// Checks: [`OutOfRange`](Refusal::OutOfRange) for `size`; [`WrongLength`](Refusal::WrongLength) where
/// `image` has not the length of an image; [`NoAddress`](Refusal::NoAddress);
/// [`OtherBlock`](Refusal::OtherBlock) where the code is unknown.
pub fn header(size: u32, image: &[u8]) -> Result<Head, Refusal> {
    // SAFETY: the pointer and length are those of a live slice.
    let answer = unsafe { ffi::tb_image_header(size, image.as_ptr(), image.len()) };
    answered(answer.refusal, Head { code: answer.code, block: answer.block })
}

/// Accepts a good image of `block` with `code`. No header says an unknown code, nor a block of
/// [`CODE_UNIT`](crate::CODE_UNIT) or more: where one is expected, every number that stands in the header
/// is refused [`OtherBlock`](Refusal::OtherBlock).
///
/// Checks: [`OutOfRange`](Refusal::OutOfRange) for `size`; [`WrongLength`](Refusal::WrongLength) where
/// `image` has not the length of an image; [`NoAddress`](Refusal::NoAddress);
/// [`OtherBlock`](Refusal::OtherBlock), also for another code; [`ForcedError`](Refusal::ForcedError) or
/// [`BadCode`](Refusal::BadCode).
pub fn judge(size: u32, image: &[u8], block: u32, code: u32) -> Result<(), Refusal> {
    // SAFETY: the pointer and length are those of a live slice.
    let answer = unsafe { ffi::tb_image_judge(size, image.as_ptr(), image.len(), block, code) };
    answered(answer.refusal, ())
}

/// The `size` bytes of data of a good image of `block` with `code`, where they lie in `image`.
///
/// Checks: those of [`judge`].
pub fn data(size: u32, image: &[u8], block: u32, code: u32) -> Result<&[u8], Refusal> {
    judge(size, image, block, code)?;
    Ok(&image[HEADER_SIZE..HEADER_SIZE + size as usize])
}
