//! Drawn shapes, with and without spares, in groups and not.

use tautberry::Shape;

use crate::draw::Draw;
use crate::model;

/// The most spares of a drawn drive that is asked again and again.
pub const FEW_SPARES: u32 = 1_024;
/// A customer's drive and its r: 14,080 spares, and 732,160 blocks, 52 of a track.
pub const CUSTOMERS: (Shape, u32) = (Shape::ungrouped(880, 16, 53), 1);

/// The model's form of a shape.
pub fn paper(shape: Shape) -> model::shape::Shape {
    let Shape { cylinders, heads, sectors, groups, tracks, offset } = shape;
    model::shape::Shape { c: cylinders, h: heads, s: sectors, g: groups, t: tracks, offset }
}

/// A drive without groups, in three numbers.
pub fn shape(cylinders: u32, heads: u32, sectors: u32) -> Shape {
    Shape::ungrouped(cylinders, heads, sectors)
}

/// The same drive with other groups.
pub fn grouped(shape: Shape, (groups, tracks, offset): (u32, u32, u32)) -> Shape {
    Shape { groups, tracks, offset, ..shape }
}

/// So many heads as groups and tracks of a group, in every way.
pub fn groupings(heads: u32) -> Vec<(u32, u32)> {
    let pairs = (1..=heads).map(|groups| (groups, heads / groups));
    pairs.filter(|(groups, tracks)| groups * tracks == heads).collect()
}

/// A shape in its range with each fault in its groups: its three ranges stay right.
pub fn misgrouped(shape: Shape) -> Vec<Shape> {
    let Shape { heads, sectors, groups, tracks, offset, .. } = shape;
    let mut faults = vec![
        (0, tracks, offset),
        (groups, 0, offset),
        (groups + 1, tracks, offset),
        (groups, tracks + 1, offset),
        (groups - 1, tracks, offset),
        (groups, tracks - 1, offset),
        (groups, tracks, sectors),
        (groups, tracks, u32::MAX),
        // The product is 0 in 32 bits.
        (65_536, 65_536, offset),
        // It is H in 32 bits, for any H.
        (heads.wrapping_mul(0xFFFF_0001), 0x1_0001, offset),
    ];
    if heads % 4 == 0 {
        // It is H in 32 bits, and one of the two is in its range.
        let many = (1 << 30) + heads / 4;
        faults.extend([(many, 4, offset), (4, many, offset)]);
    }
    faults.into_iter().map(|groups| grouped(shape, groups)).collect()
}

impl Draw {
    /// A shape in its range: mostly small, now and then the largest; in any groups.
    pub fn shape(&mut self) -> Shape {
        let shape = match self.below(300) {
            0 => shape(4_096, 64, 64),
            1 => shape(self.within(1, 4_096), self.within(1, 64), self.within(2, 64)),
            2..=40 => shape(self.within(1, 40), self.within(1, 8), self.within(2, 64)),
            _ => shape(self.within(1, 4), self.within(1, 6), self.within(2, 6)),
        };
        self.in_groups(shape)
    }

    /// The same drive in groups: as many as divide its heads, starting one after the other at any offset.
    fn in_groups(&mut self, shape: Shape) -> Shape {
        let (groups, tracks) = self.of_these(&groupings(shape.heads));
        grouped(shape, (groups, tracks, self.below(shape.sectors)))
    }

    /// A shape in its range, or now and then one with a number or two outside their ranges, or with a
    /// fault in its groups.
    pub fn any_shape(&mut self, mut shape: Shape) -> Shape {
        if self.one_in(20) {
            shape = self.of_these(&misgrouped(shape));
        }
        while self.one_in(20) {
            match self.below(4) {
                0 => shape.cylinders = self.of_these(&[0, 4_097, u32::MAX, 0x1_0000]),
                1 => shape.heads = self.of_these(&[0, 65, u32::MAX, 0x100]),
                2 => shape = self.too_many_heads(shape),
                _ => shape.sectors = self.of_these(&[0, 1, 65, u32::MAX]),
            }
        }
        shape
    }

    /// The same drive with more heads than may be, in groups that are right for them.
    fn too_many_heads(&mut self, shape: Shape) -> Shape {
        let (groups, tracks) = self.of_these(&[(5, 13), (13, 5), (64, 64)]);
        Shape { heads: groups * tracks, groups, tracks, ..shape }
    }

    /// The numbers of an address, each about its bound.
    pub fn any_address(&mut self, shape: Shape) -> (u32, u32, u32) {
        let mut number = |bound: u32| {
            if self.one_in(8) {
                self.near(bound)
            } else {
                self.below(bound.max(1))
            }
        };
        (number(shape.cylinders), number(shape.heads), number(shape.sectors))
    }

    /// A shape and r of a revectored drive in their ranges, in any groups: one in a hundred has many
    /// spares, and a few of a long run have about as many as may be.
    pub fn drive(&mut self) -> (Shape, u32) {
        let (shape, r) = match self.below(1_000) {
            0 => self.most_spares(),
            1..=10 => self.many_spares(),
            _ => self.few_spares(),
        };
        (self.in_groups(shape), r)
    }

    /// The same with at most [`FEW_SPARES`].
    pub fn drive_of_few_spares(&mut self) -> (Shape, u32) {
        let (shape, r) = self.few_spares();
        (self.in_groups(shape), r)
    }

    fn few_spares(&mut self) -> (Shape, u32) {
        match self.below(200) {
            // T × r is the most of these drives, by many tracks or by many spares of a track.
            0..=2 => self.of_these(&[
                (shape(64, 16, 64), 1),
                (shape(64, 16, 2), 1),
                (shape(256, 1, 5), 4),
                (shape(32, 2, 17), 16),
                (shape(32, 1, 64), 32),
            ]),
            3..=40 => {
                let sectors = self.within(2, 20);
                let r = self.within(1, sectors - 1);
                let heads = self.within(1, 8);
                let most = FEW_SPARES / (r * heads);
                (shape(self.within(1, most.max(1)), heads, sectors), r)
            }
            // 32 blocks a spare or more: past 32 one bit of the scratch stands for two blocks.
            41..=80 => {
                let (cylinders, heads) = (self.within(1, 5), self.within(1, 6));
                (shape(cylinders, heads, self.within(33, 64)), 1)
            }
            // Two table blocks or three, the last of them mostly in part.
            81..=120 => {
                let (heads, r) = (self.within(1, 4), self.within(1, 3));
                let least = 128 / (heads * r) + 1;
                (shape(self.within(least, 3 * least - 3), heads, self.within(r + 1, r + 5)), r)
            }
            _ => {
                let sectors = self.within(2, 7);
                let r = self.within(1, sectors - 1);
                (shape(self.within(1, 5), self.within(1, 6), sectors), r)
            }
        }
    }

    /// T × r from just above [`FEW_SPARES`] to some thousands, or the customer's drive.
    fn many_spares(&mut self) -> (Shape, u32) {
        if self.one_in(3) {
            return self.of_these(&[
                (shape(41, 25, 4), 1),
                (shape(205, 1, 8), 5),
                (shape(25, 1, 42), 41),
                CUSTOMERS,
            ]);
        }
        let sectors = self.within(2, 64);
        let r = self.within(1, (sectors - 1).min(4));
        let heads = self.within(1, 64);
        let least = FEW_SPARES / (r * heads) + 1;
        (shape(self.within(least, 3 * least), heads, sectors), r)
    }

    /// T × r at its limit or just below it, by many tracks or by many spares of a track.
    fn most_spares(&mut self) -> (Shape, u32) {
        self.of_these(&[
            (shape(4_096, 16, 64), 1),
            (shape(4_096, 16, 2), 1),
            (shape(4_096, 1, 64), 16),
            (shape(64, 64, 33), 16),
            (shape(257, 51, 7), 5),
            (shape(1_057, 62, 40), 1),
        ])
    }

    /// A shape and r, now and then with a number outside its range, or with too many spares.
    pub fn any_drive(&mut self, shape: Shape, r: u32) -> (Shape, u32) {
        let shape = self.any_shape(shape);
        if !self.one_in(20) {
            return (shape, r);
        }
        match self.below(3) {
            0 => (shape, self.of_these(&[0, shape.sectors, shape.sectors.saturating_add(1)])),
            1 => (shape, u32::MAX),
            _ => self.too_many_spares(),
        }
    }

    /// A drive whose T × r is just above its limit, or far above.
    fn too_many_spares(&mut self) -> (Shape, u32) {
        self.of_these(&[
            (shape(1_986, 33, 4), 1),
            (shape(331, 18, 12), 11),
            (shape(331, 6, 34), 33),
            (shape(2_260, 29, 64), 1),
            (shape(4_096, 64, 64), 63),
        ])
    }
}
