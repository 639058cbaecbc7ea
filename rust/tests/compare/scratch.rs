//! The scratch that is lent with a table, asked of every call that takes it: when it is too short, and what
//! is left in it.

use tautberry::Shape;

use crate::drawn_images::NO_SIZES;
use crate::drawn_shapes::{paper, shape, CUSTOMERS};
use crate::drawn_tables::descriptor;
use crate::model::spares::{drive, word, FREE, UNUSABLE};
use crate::shape_calls::{every_call_gives, every_read_gives, every_table_call_gives, reads, Rest};

/// Drives with one table block, with a part of a second one, and the customer's.
fn drives() -> [(Shape, u32); 3] {
    [(shape(2, 2, 5), 2), (shape(4, 9, 64), 4), CUSTOMERS]
}

/// What every call accepts on a drive of this size of sectors, with so many numbers more of scratch than spares.
fn proper(size: u32, (shape, r): (Shape, u32), more: usize) -> Rest {
    let mut rest = Rest::of_size(size, shape, r);
    rest.scratch.extend(vec![u32::MAX; more]);
    rest
}

/// The number of spares, as the scratch must have it.
fn spares((shape, r): (Shape, u32)) -> usize {
    (shape.cylinders * shape.heads * r) as usize
}

/// Tables of a drive that are refused 11: one too short, one too long, one with a word that may not stand
/// there in its first place and one in its last; tables that name a block twice and have no free place, the
/// first and the last block of the drive, in neighbouring places and as far apart as may be; and tables with
/// one hole, before the first block and before the last.
fn broken_tables((shape, r): (Shape, u32)) -> Vec<Vec<u32>> {
    let drive = drive(paper(shape), r).expect("a drive in its range");
    let last_place = drive.spares() - 1;
    let last = drive.blocks() - 1;
    let good = Rest::proper(shape, r).table;
    let mut unusable = good.clone();
    unusable[..drive.spares() as usize].fill(word(UNUSABLE, 0));
    let with = |table: &[u32], words: &[(u32, u32)]| {
        let mut table = table.to_vec();
        for (place, word) in words {
            table[*place as usize] = *word;
        }
        table
    };
    let at = |place: u32, block: u32| (place, descriptor(drive, place, block));
    let naming =
        |block: u32, one: u32, other: u32| with(&unusable, &[at(one, block), at(other, block)]);
    let hole = |block: u32, place: u32, hole: u32| {
        with(&unusable, &[at(place, block), (hole, word(FREE, 0))])
    };
    vec![
        good[1..].to_vec(),
        [&good[..], &[0; 128]].concat(),
        with(&good, &[(0, 1)]),
        with(&good, &[(good.len() as u32 - 1, word(15, 0))]),
        naming(0, 0, 1),
        naming(0, 0, last_place),
        naming(last, last_place - 1, last_place),
        naming(last, 0, last_place),
        hole(0, 1, 0),
        hole(0, last_place, last_place - 1),
        hole(last, 0, last_place),
    ]
}

/// Too short by one, and with none at all, whatever else is at fault: 7, and the scratch is kept.
#[test]
fn scratch_that_is_too_short() {
    for drive in drives() {
        for length in [0, spares(drive) - 1] {
            let mut good = proper(512, drive, 0);
            good.scratch.truncate(length);
            let mut rests = vec![Rest { asked: u32::MAX, ..good.clone() }, good.clone()];
            for table in broken_tables(drive) {
                rests.push(Rest { table, ..good.clone() });
            }
            for rest in rests {
                every_table_call_gives(drive.0, &rest, |_| 7, &good.scratch);
            }
        }
    }
}

/// Where the drive is out of range no scratch is looked at: 1, and what there is of it is kept.
#[test]
fn scratch_of_a_drive_out_of_range() {
    let wrong = [(shape(1_986, 33, 4), 1), (shape(2, 2, 5), 5), (shape(2, 0, 5), 2)];
    for (drive, r) in wrong {
        for scratch in [vec![], vec![u32::MAX; 9]] {
            let rest = Rest { scratch: scratch.clone(), ..Rest::faulty(r) };
            every_table_call_gives(drive, &rest, |_| 1, &scratch);
        }
    }
}

/// Where the size of a sector is none, no read looks at the scratch, and all of it is kept: with no other
/// fault, and with all of them. The other calls take no size.
#[test]
fn scratch_of_a_sector_of_no_size() {
    let drive = shape(2, 2, 5);
    for size in NO_SIZES {
        let well = Rest { size, ..proper(512, (drive, 2), 3) };
        every_call_gives(drive, &well, |call| if reads(call) { 1 } else { 0 });
        for (wrong, r) in [(drive, 2), (drive, 5), (shape(2, 0, 5), 2)] {
            for scratch in [vec![], vec![u32::MAX; 7], vec![u32::MAX; 11]] {
                let faulty = Rest { size, scratch: scratch.clone(), ..Rest::faulty(r) };
                every_read_gives(wrong, &faulty, 1, &scratch);
            }
        }
        every_read_gives(drive, &well, 1, &well.scratch);
    }
}

/// Scratch full of ones, as long as it must be or three numbers longer: after every answer it has a zero for
/// each spare, and the three numbers stand. The sectors have either size.
#[test]
fn scratch_full_of_ones() {
    for drive in drives() {
        for (more, size) in [(0, 512), (3, 576)] {
            let good = proper(size, drive, more);
            let mut left = vec![0; spares(drive)];
            left.resize(spares(drive) + more, u32::MAX);
            let gives = |rest: &Rest, expected: &dyn Fn(&str) -> u32| {
                every_table_call_gives(drive.0, rest, expected, &left);
            };
            gives(&good, &|_| 0);
            for table in broken_tables(drive) {
                gives(&Rest { table, ..good.clone() }, &|_| 11);
            }
            let too_high = Rest { asked: u32::MAX, ..good.clone() };
            gives(&too_high, &|call| match call {
                "spares::block_on" | "spares::block_at" => 6,
                "spares::census" => 0,
                _ => 5,
            });
            let mut no_spare = good.clone();
            no_spare.table[..spares(drive)].fill(word(UNUSABLE, 0));
            gives(&no_spare, &|call| if call == "spares::replace" { 13 } else { 0 });
            let mut short_image = good.clone();
            short_image.spare.pop();
            gives(&short_image, &|call| if reads(call) { 14 } else { 0 });
            // One image of the right length, and one of the other size.
            let mut other_size = good.clone();
            other_size.spare = proper(512 + 576 - size, drive, 0).spare;
            gives(&other_size, &|call| if reads(call) { 14 } else { 0 });
            let mut no_address = good.clone();
            (no_address.home[0], no_address.home[4]) = (1, 2);
            gives(&no_address, &|call| if reads(call) { 15 } else { 0 });
            // Block 0 is at home, and its header says that it is replaced.
            let mut other_code = good.clone();
            other_code.home[..16].copy_from_slice(&[0x20, 0, 0, 0].repeat(4));
            gives(&other_code, &|call| if reads(call) { 16 } else { 0 });
        }
    }
}
