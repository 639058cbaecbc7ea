//! Drawn XBN areas, with copies of the format table.

use crate::draw::Draw;
use crate::drawn_images::CODES;
use crate::model::image::{bytes, copy, BLOCKS_MOST};

/// The sector images of an XBN area one after another, and how many sectors its copies lie apart.
pub struct Area {
    pub images: Vec<u8>,
    pub apart: u32,
}

impl Draw {
    /// Some sectors, with a copy at XBN 0 and at each `apart` sectors from there on. Mostly copies do not say
    /// a size, so that the later ones count. At times the last sector is cut short, `apart` is 0, or it is so
    /// large that there is one copy alone.
    pub fn area(&mut self) -> Area {
        let apart = self.within(1, 4);
        let sectors = self.below(10);
        let mut images = Vec::new();
        for xbn in 0..sectors {
            let is_copy = xbn % apart == 0;
            let image =
                if is_copy { self.copy_of_table(xbn, apart) } else { self.mode_sector(xbn) };
            images.extend(image);
        }
        if self.one_in(3) {
            let cut = self.of_these(&[1, 1, 2, 16, 17, 529, 528]).min(images.len());
            images.truncate(images.len() - cut);
        }
        let apart = match self.below(12) {
            0 => 0,
            1 => self.of_these(&[530, 65_536, BLOCKS_MOST, 1 << 31, u32::MAX]),
            2 => self.within(1, 12),
            _ => apart,
        };
        Area { images, apart }
    }

    /// A good sector of the area that says one of the two sizes and is headed by its XBN.
    fn mode_sector(&mut self, xbn: u32) -> Vec<u8> {
        let word = self.of_these(&[0x0200, 0x0240]);
        bytes(copy(0, xbn), &self.table_of(word), false)
    }

    /// The first sector of a copy of the format table: good, forced, damaged, headed otherwise, with a word
    /// that is no size, or noise.
    fn copy_of_table(&mut self, xbn: u32, apart: u32) -> Vec<u8> {
        let good = self.mode_sector(xbn);
        match self.below(10) {
            0 | 1 => good,
            2 | 3 => {
                let any = self.any() as u16;
                let words = [0, 2, 0x01FF, 0x0201, 0x023F, 0x0241, 0x0400, 0x4002, 0xFFFF, any];
                let word = self.of_these(&words);
                bytes(copy(0, xbn), &self.table_of(word), false)
            }
            4 | 5 => bytes(copy(0, xbn), &good[16..528], true),
            6 => {
                // By the number of the copy, by its neighbours, by the first sector, or by any other.
                let any = self.any_block() % BLOCKS_MOST;
                let others = [xbn / apart, xbn + 1, xbn.saturating_sub(1), 0, any];
                bytes(copy(0, self.of_these(&others)), &good[16..528], false)
            }
            7 => {
                let code = if self.one_in(2) { self.of_these(&CODES) } else { self.below(16) };
                bytes(copy(code, xbn), &good[16..528], false)
            }
            8 => {
                let mut damaged = good;
                self.damage_image(&mut damaged);
                damaged
            }
            _ => self.bytes(530),
        }
    }

    /// 512 bytes that begin with this word.
    fn table_of(&mut self, word: u16) -> Vec<u8> {
        let mut data = self.data(512);
        data[..2].copy_from_slice(&word.to_be_bytes());
        data
    }
}
