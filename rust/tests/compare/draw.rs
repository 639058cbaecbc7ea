//! A small generator of numbers: a seed always gives the same input.

use std::thread;

/// Draws numbers from a seed, and names the seed if a test fails while it is in use.
pub struct Draw {
    seed: u64,
    state: u64,
}

impl Draw {
    pub fn of(seed: u64) -> Draw {
        Draw { seed, state: seed }
    }

    /// A 64-bit number (the steps of splitmix64).
    fn long(&mut self) -> u64 {
        self.state = self.state.wrapping_add(0x9E37_79B9_7F4A_7C15);
        let mut mixed = self.state;
        mixed = (mixed ^ (mixed >> 30)).wrapping_mul(0xBF58_476D_1CE4_E5B9);
        mixed = (mixed ^ (mixed >> 27)).wrapping_mul(0x94D0_49BB_1331_11EB);
        mixed ^ (mixed >> 31)
    }

    /// Any 32-bit number.
    pub fn any(&mut self) -> u32 {
        (self.long() >> 32) as u32
    }

    /// A number below `bound`, which is not 0.
    pub fn below(&mut self, bound: u32) -> u32 {
        assert!(bound > 0, "nothing lies below 0");
        ((u64::from(self.any()) * u64::from(bound)) >> 32) as u32
    }

    /// A number from `least` to `most`.
    pub fn within(&mut self, least: u32, most: u32) -> u32 {
        least + self.below(most - least + 1)
    }

    /// True one time in `times`.
    pub fn one_in(&mut self, times: u32) -> bool {
        self.below(times) == 0
    }

    /// One of the choices.
    pub fn of_these<T: Copy>(&mut self, choices: &[T]) -> T {
        choices[self.below(choices.len() as u32) as usize]
    }

    /// A place in a slice of `length`, which is not 0.
    pub fn place(&mut self, length: usize) -> usize {
        self.below(length as u32) as usize
    }

    /// A number asked for where `count` are there: mostly below it, often at its edge.
    pub fn near(&mut self, count: u32) -> u32 {
        match self.below(14) {
            0 => 0,
            1 => count.saturating_sub(1),
            2 => count,
            3 => count.saturating_add(1),
            4 => self.of_these(&[u32::MAX, self.state as u32]),
            _ => self.below(count.max(1)),
        }
    }

    /// Bytes without any order.
    pub fn bytes(&mut self, length: usize) -> Vec<u8> {
        let mut bytes = Vec::with_capacity(length + 8);
        while bytes.len() < length {
            bytes.extend(self.long().to_le_bytes());
        }
        bytes.truncate(length);
        bytes
    }

    /// A room of `length` words.
    pub fn word_room(&mut self, length: usize) -> Room<u32> {
        let cells = length + 2 * GUARD;
        Room::of((0..cells).map(|_| self.any()).collect())
    }

    /// A room of `length` bytes.
    pub fn byte_room(&mut self, length: usize) -> Room<u8> {
        Room::of(self.bytes(length + 2 * GUARD))
    }

    /// The length of a room for `needed` cells: often too short, often too long.
    pub fn room_length(&mut self, needed: usize) -> usize {
        match self.below(8) {
            0 => 0,
            1 => needed.saturating_sub(1),
            2 => self.below(needed as u32 + 1) as usize,
            3 => needed + self.place(9),
            _ => needed,
        }
    }

    /// Scratch for so many spares, at least one: short one time in eight, at times longer than it must be;
    /// full of ones, or of numbers without any order.
    pub fn scratch(&mut self, spares: u32) -> Room<u32> {
        let length = match self.below(16) {
            0 => spares - 1,
            1 => self.below(spares),
            2..=5 => spares + self.within(1, 9),
            _ => spares,
        };
        if self.one_in(3) {
            Room::full_of_ones(length as usize)
        } else {
            self.word_room(length as usize)
        }
    }
}

impl Drop for Draw {
    fn drop(&mut self) {
        if thread::panicking() {
            eprintln!("the input was drawn from seed {}", self.seed);
        }
    }
}

/// Cells on either side of a lent room that nobody may touch.
const GUARD: usize = 16;

/// A room to lend, between guards.
#[derive(Clone, Debug, PartialEq)]
pub struct Room<T> {
    cells: Vec<T>,
}

impl Room<u32> {
    /// A room of `length` words in which every bit is on.
    pub fn full_of_ones(length: usize) -> Room<u32> {
        Room::of(vec![u32::MAX; length + 2 * GUARD])
    }
}

impl<T: Copy + PartialEq> Room<T> {
    fn of(cells: Vec<T>) -> Room<T> {
        Room { cells }
    }

    /// The room itself.
    pub fn lent(&mut self) -> &mut [T] {
        let end = self.cells.len() - GUARD;
        &mut self.cells[GUARD..end]
    }

    /// What the room holds.
    pub fn held(&self) -> &[T] {
        &self.cells[GUARD..self.cells.len() - GUARD]
    }

    /// Whether all but the first `written` places of the room are as they were in `before`.
    pub fn kept(&self, before: &Room<T>, written: usize) -> bool {
        self.cells.len() == before.cells.len()
            && self.cells[..GUARD] == before.cells[..GUARD]
            && self.cells[GUARD + written..] == before.cells[GUARD + written..]
    }
}

/// Scratch as it was lent, and as the library and the model leave it.
pub struct Scratch {
    before: Room<u32>,
    pub library: Room<u32>,
    pub model: Room<u32>,
}

impl Scratch {
    /// The same scratch for both sides.
    pub fn of(before: Room<u32>) -> Scratch {
        Scratch { library: before.clone(), model: before.clone(), before }
    }

    /// Whether the library has written to it.
    pub fn written(&self) -> bool {
        self.library != self.before
    }

    /// Whether its last number still is what it was, and is not 0.
    pub fn end_stands(&self) -> bool {
        let last = self.library.held().last();
        last == self.before.held().last() && last.is_some_and(|number| *number != 0)
    }
}
