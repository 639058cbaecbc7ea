//! Drawn sizes and lists.

use std::collections::BTreeSet;

use crate::draw::Draw;
use crate::model::numbers::{LIST_MOST, UNITS_MOST};

impl Draw {
    /// N in its range: mostly small, so that entries and blocks meet; at times some thousands, or about
    /// the longest list; now and then as large as it may be.
    pub fn size(&mut self) -> u32 {
        match self.below(400) {
            0 => self.of_these(&[UNITS_MOST, UNITS_MOST - 1]),
            1 => self.within(1, UNITS_MOST),
            2 => self.within(LIST_MOST as u32 - 100, LIST_MOST as u32 + 100),
            3..=9 => self.within(4_000, 4_200),
            10..=99 => self.within(1, 600),
            _ => self.within(1, 24),
        }
    }

    /// `count` different numbers below `size`, rising; they come in runs, or what is left out does.
    pub fn rising(&mut self, size: u32, count: usize) -> Vec<u32> {
        let others = size as usize - count;
        if others < count {
            let left_out = self.in_runs(size, others);
            return (0..size).filter(|number| !left_out.contains(number)).collect();
        }
        self.in_runs(size, count).into_iter().collect()
    }

    fn in_runs(&mut self, size: u32, count: usize) -> BTreeSet<u32> {
        let mut drawn = BTreeSet::new();
        while drawn.len() < count {
            let first = self.below(size);
            let run = self.within(1, 4);
            for number in first..size.min(first + run) {
                if drawn.len() < count {
                    drawn.insert(number);
                }
            }
        }
        drawn
    }

    /// A proper list over `size`: empty, short, any length, or as long as may be.
    pub fn list(&mut self, size: u32) -> Vec<u32> {
        let most = (size as usize).min(LIST_MOST) as u32;
        let count = match self.below(8) {
            0 => 0,
            1..=4 => self.within(0, most.min(12)),
            5 | 6 => self.within(0, most),
            _ => most,
        };
        self.rising(size, count as usize)
    }

    /// Makes one fault in a list over `size`, or several.
    pub fn damage_list(&mut self, list: &mut Vec<u32>, size: u32) {
        if self.one_in(30) {
            return self.lengthen(list);
        }
        if list.is_empty() {
            list.push(self.outside(size));
            return;
        }
        let place = self.place(list.len());
        match self.below(5) {
            0 => list[place] = self.outside(size),
            1 => *list.last_mut().expect("an entry") = self.outside(size),
            2 => list.insert(place, list[place]),
            3 => list[place] = self.below(size.max(1)),
            _ => list.swap(0, place),
        }
    }

    /// A number that is not below `size`.
    fn outside(&mut self, size: u32) -> u32 {
        self.of_these(&[size, size.saturating_add(1), u32::MAX])
    }

    /// Makes a list longer than may be, by one or more, rising where it can.
    fn lengthen(&mut self, list: &mut Vec<u32>) {
        let length = LIST_MOST + self.of_these(&[1, 1, 2, 100]);
        while list.len() < length {
            let last = list.last().copied().unwrap_or(0);
            list.push(last.saturating_add(1));
        }
    }

    /// A list over `size`, proper three times of four, else with a fault or two.
    pub fn any_list(&mut self, size: u32) -> Vec<u32> {
        let mut list = self.list(size);
        if self.one_in(4) {
            self.damage_list(&mut list, size);
            if self.one_in(3) {
                self.damage_list(&mut list, size);
            }
        }
        list
    }

    /// N, or now and then a number outside its range.
    pub fn any_size(&mut self, n: u32) -> u32 {
        if self.one_in(20) {
            self.of_these(&[0, UNITS_MOST + 1, u32::MAX])
        } else {
            n
        }
    }

    /// N and a list, each at times at fault.
    pub fn space(&mut self) -> (u32, Vec<u32>) {
        let n = self.size();
        let list = self.any_list(n);
        (self.any_size(n), list)
    }
}
