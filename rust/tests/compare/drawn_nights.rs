//! Drawn inputs of Format.

use crate::draw::Draw;
use crate::model::format::{list_of, Night};
use crate::model::numbers::{LIST_MOST, UNITS_MOST};

/// A night that owns its lists.
#[derive(Clone, Debug)]
pub struct Drawn {
    pub n: u32,
    pub p: Vec<u32>,
    pub g: Vec<u32>,
    pub space: u32,
    pub option: u32,
    pub d: Vec<u32>,
}

impl Drawn {
    pub fn lent(&self) -> Night<'_> {
        Night {
            n: self.n,
            p: &self.p,
            g: &self.g,
            space: self.space,
            option: self.option,
            d: &self.d,
        }
    }
}

impl Draw {
    /// A night in its ranges, mostly short; one in three hundred with as many entries as a list may have,
    /// or a few more.
    pub fn night(&mut self) -> Drawn {
        let option = self.below(8);
        let space = self.below(4);
        if self.one_in(300) {
            return self.long_night(space, option);
        }
        let n = self.of_these(&[1, 6, 20, 24, 300]).min(self.within(1, 300));
        let (p, g) = (self.list(n), self.list(n));
        let d = self.supplied(n, &p, &g, space, option);
        Drawn { n, p, g, space, option, d }
    }

    /// A night, now and then with faults in any of its parts.
    pub fn any_night(&mut self) -> Drawn {
        let mut night = self.night();
        while self.one_in(5) {
            self.damage_night(&mut night);
        }
        night
    }

    /// A list D for the option: blocks of the space in use, sectors, or none.
    fn supplied(&mut self, n: u32, p: &[u32], g: &[u32], space: u32, option: u32) -> Vec<u32> {
        let size = match option {
            1 | 3 => n - list_of(space, p, g).len() as u32,
            5 | 7 => n,
            _ => 0,
        };
        if size == 0 {
            Vec::new()
        } else {
            self.list(size)
        }
    }

    /// About as many entries in all as a list may have, dealt out to P, G and D, some to two of them.
    fn long_night(&mut self, space: u32, option: u32) -> Drawn {
        let n = self.of_these(&[70_000, 100_000, 400_000]);
        let n = if self.one_in(20) { UNITS_MOST } else { n };
        let in_all = LIST_MOST - 2 + self.of_these(&[0, 1, 2, 2, 3, 4, 1_000]);
        let (mut p, mut g, mut sectors) = (Vec::new(), Vec::new(), Vec::new());
        let shares = self.of_these(&[[1, 1, 1], [1, 3, 4], [3, 3, 1], [1, 1, 0], [0, 1, 1]]);
        for sector in self.rising(n, in_all) {
            let mut dealt = self.below(shares.iter().sum());
            for (list, share) in [&mut p, &mut g, &mut sectors].into_iter().zip(shares) {
                if dealt < share || self.one_in(40) {
                    list.push(sector);
                }
                dealt = dealt.checked_sub(share).unwrap_or(u32::MAX);
            }
        }
        let d = match option {
            1 | 3 => blocks_on(&list_of(space, &p, &g), &sectors),
            5 | 7 => sectors,
            _ => Vec::new(),
        };
        Drawn { n, p, g, space, option, d }
    }

    fn damage_night(&mut self, night: &mut Drawn) {
        let n = night.n;
        match self.below(8) {
            0 => self.damage_list(&mut night.p, n),
            1 => self.damage_list(&mut night.g, n),
            2 | 3 => self.damage_list(&mut night.d, n),
            4 => night.n = self.any_size(n),
            5 => night.space = self.of_these(&[4, 5, u32::MAX, 256]),
            6 => night.option = self.of_these(&[8, 9, u32::MAX, 256]),
            _ => night.option = self.below(8),
        }
    }
}

/// The blocks of the space that skips `used` that lie on these sectors.
pub fn blocks_on(used: &[u32], sectors: &[u32]) -> Vec<u32> {
    let good = sectors.iter().filter(|sector| used.binary_search(sector).is_err());
    good.map(|sector| sector - used.partition_point(|entry| entry < sector) as u32).collect()
}
