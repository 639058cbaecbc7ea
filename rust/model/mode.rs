//! The mode sector of the XBN area, whose sectors have 512 bytes of data.

use super::image::{self, HOME};
use super::numbers::{refuse, Answer};

/// The sector images of the area by their XBN, of which the last may be cut short: those that a copy of the
/// format table begins with, so many sectors apart.
pub fn copies(images: &[u8], apart: u32) -> impl Iterator<Item = (u32, &[u8])> {
    let sectors = images.chunks(530).enumerate();
    sectors.step_by(apart as usize).map(|(xbn, sector)| (xbn as u32, sector))
}

/// The size that the first sector of a copy says, if any.
fn said((xbn, sector): (u32, &[u8])) -> Option<u32> {
    match image::data(512, sector, xbn, HOME) {
        Ok([0x02, 0x00, ..]) => Some(512),
        Ok([0x02, 0x40, ..]) => Some(576),
        _ => None,
    }
}

/// The size of the first copy that says one.
pub fn find(images: &[u8], apart: u32) -> Answer<u32> {
    refuse(apart == 0, 1)?;
    copies(images, apart).find_map(said).ok_or(21)
}
