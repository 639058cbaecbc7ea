//! The shape, the sector number and the angle.

use super::numbers::{refuse, Answer};

/// Cylinders C, heads H, sectors of a track S. The heads are g groups of t tracks, and each group starts
/// `offset` sectors after the one before it.
#[derive(Clone, Copy, Debug)]
pub struct Shape {
    pub c: u32,
    pub h: u32,
    pub s: u32,
    pub g: u32,
    pub t: u32,
    pub offset: u32,
}

/// C 1 to 4,096, H 1 to 64, S 2 to 64; their product is then at most 16,777,216. g × t is H, so that
/// neither is 0 nor above 64; the offset is 0 to S − 1.
pub fn check(shape: Shape) -> Answer<()> {
    refuse(shape.c < 1 || shape.c > 4_096, 1)?;
    refuse(shape.h < 1 || shape.h > 64, 1)?;
    refuse(shape.s < 2 || shape.s > 64, 1)?;
    refuse(u64::from(shape.g) * u64::from(shape.t) != u64::from(shape.h), 1)?;
    refuse(shape.offset >= shape.s, 1)
}

/// N of a checked shape.
pub fn sectors(shape: Shape) -> u32 {
    shape.c * shape.h * shape.s
}

/// Each number of an address against its own bound.
pub fn check_address(shape: Shape, address: (u32, u32, u32)) -> Answer<()> {
    let (cylinder, head, sector) = address;
    refuse(cylinder >= shape.c || head >= shape.h || sector >= shape.s, 6)
}

/// The sector number of an address.
pub fn join(shape: Shape, address: (u32, u32, u32)) -> u32 {
    let (cylinder, head, sector) = address;
    (cylinder * shape.h + head) * shape.s + sector
}

/// The address of a sector number: the track that holds it is looked for.
pub fn split(shape: Shape, number: u32) -> (u32, u32, u32) {
    for cylinder in 0..shape.c {
        for head in 0..shape.h {
            let first = join(shape, (cylinder, head, 0));
            if first <= number && number < first + shape.s {
                return (cylinder, head, number - first);
            }
        }
    }
    panic!("no track holds sector {number}")
}

/// The angle so many sectors further on: one by one, and 0 comes after the last of the track.
fn further(shape: Shape, angle: u32, sectors: u32) -> u32 {
    let mut angle = angle;
    for _ in 0..sectors {
        angle += 1;
        if angle == shape.s {
            angle = 0;
        }
    }
    angle
}

/// The angle at which a head's tracks start: 0 in the first group, and after the t tracks of a group it
/// moves on by the offset.
fn start(shape: Shape, head: u32) -> u32 {
    let mut angle = 0;
    let mut passed = 0;
    for _ in 0..head {
        passed += 1;
        if passed == shape.t {
            angle = further(shape, angle, shape.offset);
            passed = 0;
        }
    }
    angle
}

/// The address of a sector number, and its angle.
pub fn located(shape: Shape, number: u32) -> (u32, u32, u32, u32) {
    let (cylinder, head, sector) = split(shape, number);
    (cylinder, head, sector, further(shape, start(shape, head), sector))
}

pub fn sector_of(shape: Shape, address: (u32, u32, u32)) -> Answer<u32> {
    check(shape)?;
    check_address(shape, address)?;
    Ok(join(shape, address))
}

pub fn address_of(shape: Shape, sector: u32) -> Answer<(u32, u32, u32, u32)> {
    check(shape)?;
    refuse(sector >= sectors(shape), 6)?;
    Ok(located(shape, sector))
}
