//! The mode sector: which of the two sizes the sectors of a drive have.
//!
//! The format table of a drive says it, in several copies in the XBN area. The sectors of that area always
//! have [`DATA_SIZE`](crate::DATA_SIZE) bytes of data, whatever size the others have. The first sector of a
//! copy is the mode sector, and its first word, the high byte first, is the size.

use crate::ffi;
use crate::refusal::{answered, Refusal};

/// The size of the first copy that says one: [`DATA_SIZE`](crate::DATA_SIZE) or
/// [`WIDE_SIZE`](crate::WIDE_SIZE). It goes as it is into the calls of [`image`](crate::image) and
/// [`reading`](crate::reading) that take a size.
///
/// `images` are the sector images of the XBN area one after another from XBN 0 on, 530 bytes each, as many as
/// were read. Copies begin at XBN 0, `apart`, 2 × `apart` and so on. A copy says its size where its first
/// sector is good, headed by its XBN with code [`AT_HOME`](crate::AT_HOME), and where the word is one of the
/// two sizes. Any other copy is passed over.
///
/// Checks: [`OutOfRange`](Refusal::OutOfRange) where `apart` is 0; [`NoMode`](Refusal::NoMode) where no copy
/// says a size.
///
/// ```
/// use tautberry::{image, mode, Refusal, AT_HOME, DATA_SIZE, WIDE_SIZE};
///
/// let mut data = [0; 512];
/// data[..2].copy_from_slice(&(WIDE_SIZE as u16).to_be_bytes());
/// let mut images = [0; 3 * 530];
/// // XBN 0 says that its data was lost, and XBN 2 is good.
/// image::write(DATA_SIZE, 0, AT_HOME, &data, true, &mut images[..530])?;
/// image::write(DATA_SIZE, 2, AT_HOME, &data, false, &mut images[2 * 530..])?;
/// assert_eq!(mode::find(&images, 2), Ok(WIDE_SIZE));
/// assert_eq!(mode::find(&images, 3), Err(Refusal::NoMode));
/// # Ok::<(), Refusal>(())
/// ```
pub fn find(images: &[u8], apart: u32) -> Result<u32, Refusal> {
    // SAFETY: the pointer and length are those of a live slice.
    let answer = unsafe { ffi::tb_mode(images.as_ptr(), images.len(), apart) };
    answered(answer.refusal, answer.size)
}
