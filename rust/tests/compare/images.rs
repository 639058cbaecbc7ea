//! Sector images against the model.

use std::collections::BTreeMap;

use tautberry::image::{self, Head};
use tautberry::Refusal;

use crate::draw::Draw;
use crate::drawn_images::{other_size, Size, CODES, SIZES};
use crate::model::image::{copy, image_length, is_known, said, standing, BLOCKS_MOST};
use crate::model::{self, spares::word};
use crate::order::number;
use crate::tally::Tally;

const SEEDS: u64 = 30_000;

/// Each code must have been written, or read, so often with each number that it can be given.
const CODES_LEAST: u32 = 25;

/// Each code of four bits, and all larger ones as 16, must have been given its numbers and no others.
#[test]
fn image_write() {
    let mut tally = Tally::of("image::write");
    let mut by_code = BTreeMap::new();
    let (mut last, mut first_beyond) = (0, 0);
    for seed in tally.seeds(SEEDS) {
        let mut draw = Draw::of(seed);
        let size = draw.any_sector_size();
        let (block, code) = (draw.any_block(), draw.any_code());
        let mut data = draw.data(size.made);
        draw.any_length(&mut data, other_size(size.made) as usize, 8);
        let forced = draw.one_in(2);
        let length = draw.room_length(image_length(size.made));
        let before = draw.byte_room(length);
        let (mut ours, mut theirs) = (before.clone(), before.clone());
        let library = image::write(size.given, block, code, &data, forced, ours.lent());
        let model = model::image::write(size.given, block, code, &data, forced, theirs.lent());
        let written = model.unwrap_or(0) as usize;
        let given = number(library);
        tally.count_size(size, given);
        *by_code.entry((code.min(16), given)).or_insert(0) += 1;
        last += u32::from(block == BLOCKS_MOST - 1 && given == 0);
        first_beyond += u32::from(block == BLOCKS_MOST && given == 5);
        tally.same(seed, library, model);
        tally.same_room(seed, &before, &ours, &theirs, written);
    }
    tally.saw(&[0, 1, 5, 7, 14, 22]);
    let numbers = |code: u32| -> &[u32] {
        if is_known(code) {
            &[0, 1, 5, 7, 14]
        } else {
            &[1, 5, 14, 22]
        }
    };
    let pairs = (0..=16).flat_map(|code| numbers(code).iter().map(move |number| (code, *number)));
    assert!(by_code.keys().copied().eq(pairs), "{by_code:?}");
    assert!(by_code.values().all(|seen| *seen >= CODES_LEAST), "{by_code:?}");
    assert!(last >= CODES_LEAST && first_beyond >= CODES_LEAST, "{last} and {first_beyond}");
}

/// Each code of four bits must have been read, or refused.
#[test]
fn image_header() {
    let mut tally = Tally::of("image::header");
    let mut codes = [0; 16];
    for seed in tally.seeds(SEEDS) {
        let mut draw = Draw::of(seed);
        let (size, image, _) = sized_image(&mut draw);
        let library = image::header(size.given, &image);
        let given = number(library);
        if let 0 | 16 = given {
            let (code, _) = said(standing(&image).expect("a number in the header"));
            codes[code as usize] += 1;
        }
        tally.count_size(size, given);
        let library = library.map(|Head { code, block }| (code, block));
        tally.same(seed, library, model::image::header(size.given, &image));
    }
    tally.saw(&[0, 1, 14, 15, 16]);
    assert!(codes.iter().all(|seen| *seen >= CODES_LEAST), "{codes:?}");
}

/// Holds a verdict on an image, with a block and a code to expect, to the model, over so many seeds.
pub fn judges_like_the_model(
    call: &'static str,
    seeds: u64,
    judge: impl Fn(u32, &[u8], u32, u32) -> Result<(), u32>,
) {
    let mut tally = Tally::of(call);
    for seed in tally.seeds(seeds) {
        let (size, image, (code, block)) = image_and_expected(seed);
        let answer = judge(size.given, &image, block, code);
        let model = model::image::judge(size.given, &image, block, code);
        tally.same_numbers(seed, answer, model);
        tally.count_size(size, answer.err().unwrap_or(0));
        tally.count_header(&image, (code, block), answer.err().unwrap_or(0));
    }
    tally.saw(&[0, 1, 14, 15, 16, 17, 18]);
}

/// An image of any damage, its size, and the code and the block that its header was made with.
fn sized_image(draw: &mut Draw) -> (Size, Vec<u8>, (u32, u32)) {
    let size = draw.any_sector_size();
    let (code, block) = draw.any_said();
    let mut image = draw.any_image(size.made, copy(code, block));
    draw.any_image_length(&mut image, size.made, 10);
    (size, image, (code, block))
}

/// An image of any damage, its size, and the code and the block that are expected of it.
fn image_and_expected(seed: u64) -> (Size, Vec<u8>, (u32, u32)) {
    let mut draw = Draw::of(seed);
    let (size, image, said) = sized_image(&mut draw);
    (size, image, draw.any_expected(said))
}

#[test]
fn image_judge() {
    judges_like_the_model("image::judge", SEEDS, |size, image, block, code| {
        image::judge(size, image, block, code).map_err(Refusal::number)
    });
}

#[test]
fn image_data() {
    let mut tally = Tally::of("image::data");
    for seed in tally.seeds(SEEDS) {
        let (size, image, (code, block)) = image_and_expected(seed);
        let part = image::data(size.given, &image, block, code);
        let model = model::image::data(size.given, &image, block, code);
        let same_place = match (part, model) {
            (Ok(ours), Ok(theirs)) => ours.as_ptr() == theirs.as_ptr(),
            _ => true,
        };
        assert!(same_place, "image::data lies elsewhere at seed {seed}");
        tally.same(seed, part, model);
        tally.count_size(size, number(part));
        tally.count_header(&image, (code, block), number(part));
    }
    tally.saw(&[0, 1, 14, 15, 16, 17, 18]);
}

/// A written image is good or forced as it was written, and one changed bit makes it neither. Its header
/// says its code and its block, and the image is that of no other pair. At the other size it is no image.
#[test]
fn image_there_and_back() {
    for seed in 0..3_000 {
        let mut draw = Draw::of(seed);
        let size = draw.of_these(&SIZES);
        let (code, block) = (draw.of_these(&CODES), draw.any_block() % BLOCKS_MOST);
        let data = draw.data(size);
        let mut image = vec![0; image_length(size)];
        let write = |image: &mut [u8], forced: bool| {
            let written = image::write(size, block, code, &data, forced, image);
            assert_eq!(written, Ok(image_length(size) as u32), "seed {seed}");
        };
        let judge = |image: &[u8]| image::judge(size, image, block, code);
        write(&mut image, false);
        assert_eq!(image::header(size, &image), Ok(Head { code, block }), "seed {seed}");
        assert_eq!(image::data(size, &image, block, code), Ok(&data[..]), "seed {seed}");
        assert_eq!(image[..16], word(code, block).to_be_bytes().repeat(4), "seed {seed}");
        let at_other = image::data(other_size(size), &image, block, code);
        assert_eq!(at_other, Err(Refusal::WrongLength), "seed {seed}");

        for _ in 0..8 {
            let (other, another) = draw.any_expected((code, block));
            let expected =
                if (other, another) == (code, block) { Ok(()) } else { Err(Refusal::OtherBlock) };
            assert_eq!(image::judge(size, &image, another, other), expected, "seed {seed}");
        }

        image[16 + draw.place(size as usize)] ^= 1 << draw.below(8);
        assert_eq!(judge(&image), Err(Refusal::BadCode), "seed {seed}");

        write(&mut image, true);
        assert_eq!(judge(&image), Err(Refusal::ForcedError), "seed {seed}");
        assert_eq!(image::header(size, &image), Ok(Head { code, block }), "seed {seed}");
    }
}

/// Each bit of an image of either size counts: with one bit of the data or of the code turned over, it is
/// good no more, nor forced.
#[test]
fn each_bit_of_an_image() {
    for size in SIZES {
        let data = Draw::of(u64::from(size)).bytes(size as usize);
        let mut image = vec![0; image_length(size)];
        let written = image::write(size, 7, 2, &data, false, &mut image);
        assert_eq!(written, Ok(size + 18));
        assert_eq!(image::judge(size, &image, 7, 2), Ok(()));
        for at in 16..image.len() {
            for bit in 0..8 {
                image[at] ^= 1 << bit;
                let judged = image::judge(size, &image, 7, 2);
                assert_eq!(judged, Err(Refusal::BadCode), "bit {bit} of byte {at} of {size}");
                image[at] ^= 1 << bit;
            }
        }
    }
}
