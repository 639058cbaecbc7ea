//! Drawn pages.

use tautberry::{LIST_MOST, PAGE_MOST};

use crate::draw::Draw;
use crate::model;

impl Draw {
    /// A page whose list is proper or not, with none, one or several faults of layout.
    pub fn any_page(&mut self) -> Vec<u8> {
        let n = self.size();
        let mut list = self.any_list(n);
        if !self.one_in(4) {
            list.truncate(LIST_MOST);
        }
        let n = self.any_size(n);
        let kind = self.below(2) as u8;
        let mut page = model::page::bytes(n, kind, &list);
        while self.one_in(5) {
            self.damage_page(&mut page);
        }
        page
    }

    fn damage_page(&mut self, page: &mut Vec<u8>) {
        let length = page.len() as u32;
        match self.below(8) {
            0 => set_length(page, self.of_these(&[0, 14, length + 1, length + 4, u32::MAX])),
            1 => self.resize(page),
            2 => set(page, 4, self.of_these(&[0, 2, 255])),
            3 => set(page, 5, self.of_these(&[2, 128, 255])),
            4 => set(page, 6 + self.place(4), self.any() as u8),
            5 => {
                let from_end = 1 + self.place(4);
                let at = page.len().saturating_sub(from_end);
                set(page, at, self.of_these(&[0xFE, 0x7F, 0]));
            }
            6 => {
                let at = self.place(page.len().max(1));
                set(page, at, self.any() as u8);
            }
            _ => {
                let length = self.of_these(&[0, 1, 13, 14, 15, 18]);
                *page = self.bytes(length);
            }
        }
    }

    /// Another length; the length field says so or not.
    fn resize(&mut self, page: &mut Vec<u8>) {
        let length = page.len();
        let fewer = [0, 13, 14, length.saturating_sub(1), length.saturating_sub(4)];
        let more = [length + 1, length + 2, length + 4];
        let about_the_most = [PAGE_MOST, PAGE_MOST + 1, PAGE_MOST + 4];
        let other = match self.below(20) {
            0 => self.of_these(&about_the_most),
            1..=9 => self.of_these(&more),
            _ => self.of_these(&fewer),
        };
        page.resize(other, 0xFF);
        if self.one_in(2) {
            set_length(page, other as u32);
        }
    }
}

/// Sets a byte that the page has.
fn set(page: &mut [u8], at: usize, byte: u8) {
    if let Some(found) = page.get_mut(at) {
        *found = byte;
    }
}

fn set_length(page: &mut [u8], length: u32) {
    if let Some(field) = page.get_mut(..4) {
        field.copy_from_slice(&length.to_be_bytes());
    }
}
