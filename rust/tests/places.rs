//! Where the parts lie that the data calls hand back, and what they belong to.

use tautberry::image::{self, Head};
use tautberry::reading::{self, TrackAddress};
use tautberry::{image_length, mode, spares, track_length, Shape};
use tautberry::{AT_HOME, AT_PRIMARY, DATA_SIZE, ELSEWHERE, WIDE_SIZE};

const SHAPE: Shape = Shape::ungrouped(2, 2, 5);
const SPARES: u32 = 2;
const SIZES: [u32; 2] = [DATA_SIZE, WIDE_SIZE];

/// A track image with the image of `block` with `code` on one sector and nothing else.
fn track(size: u32, block: u32, code: u32, sector: usize) -> Vec<u8> {
    let mut track = vec![0; track_length(size, 5)];
    let data: Vec<u8> = (0..size as usize).map(|at| (at * 3 + sector) as u8).collect();
    let room = &mut track[sector * image_length(size)..];
    image::write(size, block, code, &data, false, room).expect("data of the size and room");
    track
}

/// The image of a track that no read looks at.
fn noise(size: u32) -> Vec<u8> {
    vec![0xFF; track_length(size, 5)]
}

/// The table of the drive with block 7 on place 4, which is sector 3 of its track, and scratch for it.
fn table_and_scratch() -> (Vec<u32>, [u32; 8]) {
    let (mut table, mut scratch) = (vec![0; 128], [0; 8]);
    spares::first_table(SHAPE, SPARES, &[], &mut table).expect("no bad sector");
    assert_eq!(spares::replace(SHAPE, SPARES, &mut table, &mut scratch, 7), Ok(4));
    (table, scratch)
}

/// The data of a block of the drive, from images that hold a good one.
fn data<'a>(size: u32, block: u32, home: &'a [u8], spare: &'a [u8]) -> &'a [u8] {
    let (table, mut scratch) = table_and_scratch();
    let part = reading::data(size, SHAPE, SPARES, &table, &mut scratch, block, home, spare);
    part.expect("a good image")
}

/// The same bytes at the same place: the data of a sector of a track of this size.
fn lies_at(part: &[u8], whole: &[u8], size: u32, sector: usize) -> bool {
    let offset = sector * image_length(size) + 16;
    std::ptr::eq(part, &whole[offset..offset + size as usize])
}

#[test]
fn data_of_a_block_at_home_lie_in_the_home_image() {
    for size in SIZES {
        // Block 8 is sector 2 of its track.
        let (home, any) = (track(size, 8, AT_HOME, 2), noise(size));
        assert!(lies_at(data(size, 8, &home, &any), &home, size, 2));
    }
}

#[test]
fn data_of_a_replaced_block_lie_in_the_spare_image() {
    for size in SIZES {
        let (any, spare) = (noise(size), track(size, 7, AT_PRIMARY, 3));
        assert!(lies_at(data(size, 7, &any, &spare), &spare, size, 3));
    }
}

/// Home and spare may be one image, lent twice.
#[test]
fn one_image_serves_as_both() {
    for size in SIZES {
        let both = track(size, 7, AT_PRIMARY, 3);
        assert!(lies_at(data(size, 7, &both, &both), &both, size, 3));
    }
}

/// The images of the tracks that are named hold the block: of the four tracks of the drive each other is noise.
#[test]
fn data_lie_in_the_tracks_that_are_named() {
    let (mut table, mut scratch) = table_and_scratch();
    for (block, place) in [(8, 5), (6, 3)] {
        assert_eq!(spares::replace(SHAPE, SPARES, &mut table, &mut scratch, block), Ok(place));
    }
    // The block and its code, the track and the sector that it lies on, and whether in the second image.
    let rows = [
        (1, AT_HOME, (0, 0), 1, false),
        (11, AT_HOME, (1, 1), 2, false),
        (7, AT_PRIMARY, (1, 0), 3, true),
        (8, ELSEWHERE, (1, 0), 4, true),
        (6, ELSEWHERE, (0, 1), 4, true),
    ];
    for (size, (block, code, (cylinder, head), sector, in_spare)) in
        SIZES.into_iter().flat_map(|size| rows.map(|row| (size, row)))
    {
        let tracks = reading::tracks(SHAPE, SPARES, &table, &mut scratch, block);
        let tracks = tracks.expect("a block of the drive");
        assert_eq!(tracks.there, TrackAddress { cylinder, head }, "block {block}");
        let fetched = |from: TrackAddress| match from {
            from if from == tracks.there => track(size, block, code, sector),
            _ => noise(size),
        };
        let (home, spare) = (fetched(tracks.home), fetched(tracks.there));
        let part = reading::data(size, SHAPE, SPARES, &table, &mut scratch, block, &home, &spare);
        let whole = if in_spare { &spare } else { &home };
        assert!(lies_at(part.expect("a good image"), whole, size, sector), "block {block}");
    }
}

/// The part outlives the table and the scratch: it belongs to the images alone.
#[test]
fn the_part_belongs_to_the_images() {
    let size = WIDE_SIZE;
    let (home, spare) = (noise(size), track(size, 7, AT_PRIMARY, 3));
    let part = {
        let (table, mut scratch) = table_and_scratch();
        let part = reading::data(size, SHAPE, SPARES, &table, &mut scratch, 7, &home, &spare);
        scratch.fill(1);
        part.expect("a good image")
    };
    assert!(lies_at(part, &spare, size, 3));
}

#[test]
fn data_of_a_sector_image_lie_after_its_header() {
    for size in SIZES {
        let track = track(size, 9, AT_HOME, 0);
        let image = &track[..image_length(size)];
        let part = image::data(size, image, 9, AT_HOME).expect("a good image");
        assert!(lies_at(part, image, size, 0));
    }
}

/// An image may lie at any byte, and so may the images of the XBN area.
#[test]
fn images_at_odd_addresses() {
    for size in SIZES {
        let image = &track(size, 9, AT_PRIMARY, 0)[..image_length(size)];
        let mut area = vec![0; image_length(DATA_SIZE)];
        let mut mode_data = vec![0; DATA_SIZE as usize];
        mode_data[..2].copy_from_slice(&(size as u16).to_be_bytes());
        image::write(DATA_SIZE, 0, AT_HOME, &mode_data, false, &mut area).expect("512 bytes");
        for start in 0..8 {
            let moved = |image: &[u8]| [&vec![0xFF; start], image].concat();
            let (image_moved, area_moved) = (moved(image), moved(&area));
            let head = Head { code: AT_PRIMARY, block: 9 };
            assert_eq!(image::header(size, &image_moved[start..]), Ok(head));
            let part = image::data(size, &image_moved[start..], 9, AT_PRIMARY);
            assert_eq!(part, Ok(&image[16..16 + size as usize]));
            assert_eq!(mode::find(&area_moved[start..], 1), Ok(size));
        }
    }
}
