//! Format: the next night's grown list and the list of the space then in use.

use crate::ffi;
use crate::refusal::{answered, Refusal};

/// What a Format answers.
#[derive(Clone, Copy, Debug, PartialEq, Eq, Hash)]
pub struct Formatted {
    /// How many entries of the new grown list were written.
    pub grown: u32,
    /// How many entries of the new space's list were written.
    pub list: u32,
    /// The new space.
    pub space: u32,
}

/// Formats a drive of `n` sectors with lists `p` and `g`, the space in use and the supplied list `d`.
/// The new grown list goes to `grown`, the list of the new space to `list`.
///
/// Checks: [`OutOfRange`](Refusal::OutOfRange) for `n`; `p`, then `g`
/// ([`TooLong`](Refusal::TooLong), then [`NotRising`](Refusal::NotRising) or
/// [`Outside`](Refusal::Outside) at the lowest place at fault); [`BadOption`](Refusal::BadOption);
/// `TooLong` for the list in use; `d`, whose size is the number of blocks for options 1 and 3;
/// `TooLong` for the new grown list, then for the new space's list; [`NoRoom`](Refusal::NoRoom) where
/// either room is too short, and then neither is written.
// The parameters are those of the C face, one by one.
#[allow(clippy::too_many_arguments)]
pub fn format(
    n: u32,
    p: &[u32],
    g: &[u32],
    space: u32,
    option: u32,
    d: &[u32],
    grown: &mut [u32],
    list: &mut [u32],
) -> Result<Formatted, Refusal> {
    // SAFETY: pointers and lengths are those of live slices, and the rooms overlap nothing.
    let answer = unsafe {
        ffi::tb_format(
            n,
            p.as_ptr(),
            p.len(),
            g.as_ptr(),
            g.len(),
            space,
            option,
            d.as_ptr(),
            d.len(),
            grown.as_mut_ptr(),
            grown.len(),
            list.as_mut_ptr(),
            list.len(),
        )
    };
    answered(
        answer.refusal,
        Formatted { grown: answer.grown, list: answer.list, space: answer.space },
    )
}
