//! Drawn sector images.

use crate::draw::Draw;
use crate::model::image::{bytes, copy, image_length, BLOCKS_MOST, HOME};
use crate::model::spares::{ELSEWHERE, PRIMARY};

/// The codes that a header may have.
pub const CODES: [u32; 3] = [HOME, PRIMARY, ELSEWHERE];

/// The sizes that a sector may have.
pub const SIZES: [u32; 2] = [512, 576];

/// Numbers that are no size: about the two, between them, as far as may be, and such as are one of the two
/// where only some of their bits or bytes are looked at.
pub const NO_SIZES: [u32; 12] =
    [0, 1, 511, 513, 544, 575, 577, 1_024, 1_088, 65_536 + 512, 65_536 + 576, u32::MAX];

/// The other of the two sizes.
pub fn other_size(size: u32) -> u32 {
    SIZES[0] + SIZES[1] - size
}

/// The size that is given to a call, and the size that what is lent was made for.
#[derive(Clone, Copy, Debug)]
pub struct Size {
    pub given: u32,
    pub made: u32,
}

impl Draw {
    /// Something made for either size, and mostly the same size to give; at times the other one, or none.
    pub fn any_sector_size(&mut self) -> Size {
        let made = self.of_these(&SIZES);
        let given = match self.below(14) {
            0 => self.of_these(&NO_SIZES),
            1 => other_size(made),
            _ => made,
        };
        Size { given, made }
    }

    /// The data of a sector of this size: without order, all zero, or zero but for one byte.
    pub fn data(&mut self, size: u32) -> Vec<u8> {
        let size = size as usize;
        match self.below(4) {
            0 => vec![0; size],
            1 => {
                let mut data = vec![0; size];
                data[self.place(size)] = self.any() as u8;
                data
            }
            _ => self.bytes(size),
        }
    }

    /// A block to write or to expect: below 2²⁸, about it, or any number of 32 bits.
    pub fn any_block(&mut self) -> u32 {
        match self.below(4) {
            0 => self.below(1_000),
            1 => self.any(),
            _ => self.near(BLOCKS_MOST),
        }
    }

    /// A code to write or to expect: one of the three, any of four bits, or one that needs more bits.
    pub fn any_code(&mut self) -> u32 {
        match self.below(8) {
            0..=3 => self.of_these(&CODES),
            4..=6 => self.below(16),
            _ => {
                let any = self.any();
                self.of_these(&[16, 18, 19, BLOCKS_MOST, u32::MAX, any])
            }
        }
    }

    /// What a header says: mostly one of the three codes, else any of four bits; and a block.
    pub fn any_said(&mut self) -> (u32, u32) {
        let code = if self.one_in(3) { self.below(16) } else { self.of_these(&CODES) };
        (code, self.any_block() % BLOCKS_MOST)
    }

    /// A code and a block to expect of a header that says these: mostly the same, else with one of the two or
    /// both otherwise.
    pub fn any_expected(&mut self, said: (u32, u32)) -> (u32, u32) {
        let (code, block) = said;
        match self.below(10) {
            0 | 1 => (self.any_code(), block),
            2 => (code, self.any_block()),
            3 => (self.any_code(), self.any_block()),
            4 => self.alias(said),
            _ => said,
        }
    }

    /// A code and a block that no header says, and that come to the same word as these where 2²⁸ times the
    /// code, plus the block, is kept in 32 bits: with a block too high and a code as much lower, or with a
    /// code of more than four bits.
    fn alias(&mut self, (code, block): (u32, u32)) -> (u32, u32) {
        if self.one_in(4) {
            return (code + 16 * self.within(1, 9), block);
        }
        let higher = self.within(1, 15);
        ((16 + code - higher) % 16, block + higher * BLOCKS_MOST)
    }

    /// The copy of a header that must say this code and this block: at times with another code or block.
    pub fn any_copy(&mut self, code: u32, block: u32) -> [u8; 4] {
        let (code, block) = match self.below(12) {
            0 | 1 => (self.of_these(&CODES), block),
            2 => (self.below(16), block),
            3 => (code, self.any_block()),
            _ => (code, block),
        };
        copy(code, block % BLOCKS_MOST)
    }

    /// An image of this size with this copy in its header, good or forced.
    fn image(&mut self, size: u32, copy: [u8; 4]) -> Vec<u8> {
        let data = self.data(size);
        let forced = self.one_in(4);
        bytes(copy, &data, forced)
    }

    /// The same with none, one or several faults, its length right.
    pub fn any_image(&mut self, size: u32, copy: [u8; 4]) -> Vec<u8> {
        let mut image = self.image(size, copy);
        while self.one_in(2) {
            self.damage_image(&mut image);
        }
        image
    }

    /// One fault more in an image of either size.
    pub fn damage_image(&mut self, image: &mut [u8]) {
        let bit = 1 << self.below(8);
        let end = image.len() - 2;
        match self.below(9) {
            0 | 1 => image[self.place(16)] ^= bit,
            2 => image[16 + self.place(end - 16)] ^= bit,
            // In the last 64 bytes, which an image of 576 has beyond 512.
            3 => image[end - 64 + self.place(64)] ^= bit,
            4 => image[end + self.place(2)] ^= bit,
            5 => image[end..].iter_mut().for_each(|byte| *byte = !*byte),
            6 => self.rename(image),
            7 => {
                // Halves agree in three copies, the whole number in none.
                image[0] ^= bit;
                image[7] ^= bit;
            }
            _ => image[self.place(image.len())] = self.any() as u8,
        }
    }

    /// Writes another code and block to some of the four copies, or another code alone.
    fn rename(&mut self, image: &mut [u8]) {
        let (code, block) = self.any_said();
        let mut other = copy(code, block);
        if self.one_in(2) {
            other = [code as u8 * 16 + image[0] % 16, image[1], image[2], image[3]];
        }
        let copies = self.any();
        for copy in 0..4 {
            if copies >> copy & 1 == 1 {
                image[4 * copy..4 * copy + 4].copy_from_slice(&other);
            }
        }
    }

    /// Now and then cuts or lengthens bytes that should have a certain length, at times to the length that
    /// they have at the other size.
    pub fn any_length(&mut self, bytes: &mut Vec<u8>, at_other_size: usize, often: u32) {
        if self.one_in(often) {
            let length = bytes.len();
            let lengths = [
                0,
                1,
                length - 1,
                length + 1,
                2 * length,
                length / 2,
                at_other_size,
                at_other_size,
            ];
            bytes.resize(self.of_these(&lengths), 0);
        }
    }

    /// The same for an image of this size.
    pub fn any_image_length(&mut self, image: &mut Vec<u8>, size: u32, often: u32) {
        self.any_length(image, image_length(other_size(size)), often);
    }
}
