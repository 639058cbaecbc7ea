//! Sector images, and the read of a revectored block from two track images.

use super::numbers::{check_data_size, fill, refuse, Answer};
use super::shape::Shape;
use super::spares::{checked_block, ELSEWHERE, PRIMARY};

/// The code of a header whose block is at home.
pub const HOME: u32 = 0;

/// The codes that a header may have.
pub fn is_known(code: u32) -> bool {
    [HOME, PRIMARY, ELSEWHERE].contains(&code)
}

/// As many blocks as the 28 bits of a header below its code can name.
pub const BLOCKS_MOST: u32 = 268_435_456;

/// The bytes of the image of a sector of this size: four copies of four bytes, the data, and two bytes.
pub fn image_length(size: u32) -> usize {
    size as usize + 18
}

/// The code of a sector's data, as a sum without carries: what it starts with is turned left once for each
/// word, and a word once for each word after it.
pub fn data_code(data: &[u8]) -> u16 {
    let turned = |word: u16, times: usize| word.rotate_left(times as u32 % 16);
    let mut code = turned(0x5A3C, data.len() / 2);
    for (after, pair) in data.chunks(2).rev().enumerate() {
        code ^= turned(u16::from_be_bytes([pair[0], pair[1]]), after);
    }
    code
}

/// One copy of a header: the code is the upper half of its first byte, the block all else.
pub fn copy(code: u32, block: u32) -> [u8; 4] {
    let [first, second, third, fourth] = block.to_be_bytes();
    [code as u8 * 16 + first, second, third, fourth]
}

/// The code and the block of a copy.
pub fn said(copy: [u8; 4]) -> (u32, u32) {
    let [first, second, third, fourth] = copy;
    (u32::from(first / 16), u32::from_be_bytes([first % 16, second, third, fourth]))
}

/// The bytes of a whole image with this copy in its header.
pub fn bytes(copy: [u8; 4], data: &[u8], forced: bool) -> Vec<u8> {
    let mut image = copy.repeat(4);
    image.extend(data);
    let good = data_code(data);
    let stored = if forced { 0xFFFF - good } else { good };
    image.extend(stored.to_be_bytes());
    image
}

/// The length of the image written to the room.
pub fn write(
    size: u32,
    block: u32,
    code: u32,
    data: &[u8],
    forced: bool,
    room: &mut [u8],
) -> Answer<u32> {
    check_data_size(size)?;
    refuse(data.len() != size as usize, 14)?;
    refuse(block >= BLOCKS_MOST, 5)?;
    refuse(!is_known(code), 22)?;
    let image = bytes(copy(code, block), data, forced);
    refuse(room.len() < image.len(), 7)?;
    fill(room, &image);
    Ok(image.len() as u32)
}

/// The copy that is there three times among the four that an image begins with.
pub fn standing(image: &[u8]) -> Answer<[u8; 4]> {
    let copies = [0, 4, 8, 12].map(|at| [image[at], image[at + 1], image[at + 2], image[at + 3]]);
    for copy in copies {
        if copies.iter().filter(|other| **other == copy).count() >= 3 {
            return Ok(copy);
        }
    }
    Err(15)
}

/// The code and the block that the header says.
pub fn header(size: u32, image: &[u8]) -> Answer<(u32, u32)> {
    check_data_size(size)?;
    refuse(image.len() != image_length(size), 14)?;
    let (code, block) = said(standing(image)?);
    refuse(!is_known(code), 16)?;
    Ok((code, block))
}

pub fn judge(size: u32, image: &[u8], block: u32, code: u32) -> Answer<()> {
    data(size, image, block, code).map(|_| ())
}

/// The data of a good image: what is left of it without the header and the code.
pub fn data(size: u32, image: &[u8], block: u32, code: u32) -> Answer<&[u8]> {
    refuse(header(size, image)? != (code, block), 16)?;
    let (data, stored) = image[16..].split_at(size as usize);
    let good = data_code(data);
    refuse(stored == (0xFFFF - good).to_be_bytes(), 17)?;
    refuse(stored != good.to_be_bytes(), 18)?;
    Ok(data)
}

/// What a read of a revectored block is given beside its scratch.
#[derive(Clone, Copy)]
pub struct Read<'a> {
    pub size: u32,
    pub shape: Shape,
    pub r: u32,
    pub table: &'a [u32],
    pub block: u32,
    pub home: &'a [u8],
    pub spare: &'a [u8],
}

/// The image that the block lies on (0 home, 1 spare), the sector in it, and the code of its header: checks
/// 1, 7, 11, 5 and 14. In a table that was checked a block's code is 2 where its place is its primary.
fn seat(read: Read, scratch: &mut [u32]) -> Answer<(u32, u32, u32)> {
    check_data_size(read.size)?;
    let drive = checked_block(read.shape, read.r, read.table, scratch, read.block)?;
    let track = read.shape.s as usize * image_length(read.size);
    refuse(read.home.len() != track || read.spare.len() != track, 14)?;
    Ok(match drive.place_of(read.table, read.block) {
        None => (0, read.block % drive.l, HOME),
        Some(place) => {
            let at_primary = place as usize == drive.primary(read.block);
            let code = if at_primary { PRIMARY } else { ELSEWHERE };
            (1, drive.l + place % drive.r, code)
        }
    })
}

/// Where the data of a good image lie: the image and the offset of the data in it. The track falls into the
/// images of its sectors, one after another.
pub fn spot(read: Read, scratch: &mut [u32]) -> Answer<(u32, u32)> {
    let (image, sector, code) = seat(read, scratch)?;
    let track = if image == 0 { read.home } else { read.spare };
    let length = image_length(read.size);
    let sectors: Vec<&[u8]> = track.chunks(length).collect();
    judge(read.size, sectors[sector as usize], read.block, code)?;
    Ok((image, sector * length as u32 + 16))
}

pub fn judge_read(read: Read, scratch: &mut [u32]) -> Answer<()> {
    spot(read, scratch).map(|_| ())
}

/// The data themselves.
pub fn read_data<'a>(read: Read<'a>, scratch: &mut [u32]) -> Answer<&'a [u8]> {
    let (image, offset) = spot(read, scratch)?;
    let track = if image == 0 { read.home } else { read.spare };
    Ok(&track[offset as usize..][..read.size as usize])
}
