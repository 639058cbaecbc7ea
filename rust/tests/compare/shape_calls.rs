//! Every call that takes a shape, asked one after the other.

use std::fs;

use tautberry::{reading, shape as shapes, skipped, spares, table_length, track_length};
use tautberry::{Shape, LIST_MOST};

use crate::drawn_shapes::{paper, shape};
use crate::model::image::Read;
use crate::model::spares::{word, FREE, NULL};
use crate::model::{self, skipping};
use crate::order::{number, paper_number};

/// What the calls are given beside the shape.
#[derive(Clone)]
pub struct Rest {
    /// The size of a sector, for the calls that read one.
    pub size: u32,
    pub r: u32,
    pub list: Vec<u32>,
    pub table: Vec<u32>,
    pub scratch: Vec<u32>,
    /// The length of the room for a first table.
    pub room: usize,
    /// The block, the sector, or each number of the place that is asked for.
    pub asked: u32,
    pub home: Vec<u8>,
    pub spare: Vec<u8>,
}

impl Rest {
    /// What every call accepts on a drive of these cylinders, heads and sectors, whatever its groups: no
    /// sector is bad, the scratch is full of ones, the sectors have 512 bytes, and block 0 is asked for.
    pub fn proper(shape: Shape, r: u32) -> Rest {
        Rest::of_size(512, shape, r)
    }

    /// The same where the sectors have this size.
    pub fn of_size(size: u32, Shape { cylinders, heads, sectors, .. }: Shape, r: u32) -> Rest {
        let spares = (cylinders * heads * r) as usize;
        let mut table = vec![word(FREE, 0); table_length(spares)];
        table[spares..].fill(word(NULL, 0));
        let track = track_length(size, sectors as usize);
        let mut home = model::image::bytes([0; 4], &vec![0; size as usize], false);
        home.resize(track, 0);
        Rest {
            size,
            r,
            list: vec![],
            room: table.len(),
            table,
            scratch: vec![u32::MAX; spares],
            asked: 0,
            home,
            spare: vec![0; track],
        }
    }

    /// A fault in all but the size and r.
    pub fn faulty(r: u32) -> Rest {
        Rest {
            size: 512,
            r,
            list: vec![0; LIST_MOST + 1],
            table: vec![1; 5],
            scratch: vec![],
            room: 0,
            asked: u32::MAX,
            home: vec![],
            spare: vec![],
        }
    }
}

/// What a call gives, 0 for accepted, where it is lent this scratch if it takes any.
type Ask<'a> = &'a dyn Fn(&mut [u32]) -> u32;

/// What a call gave, library and model, and what both left of the scratch.
struct Given {
    call: &'static str,
    library: u32,
    model: u32,
    scratch: Vec<u32>,
}

/// Asks every call. Library and model must leave the same scratch.
fn ask(drive: Shape, rest: &Rest) -> Vec<Given> {
    let Rest { size, r, list, table, scratch, room, asked, home, spare } = rest;
    let (size, r, asked) = (*size, *r, *asked);
    let paper = paper(drive);
    let read = Read { size, shape: paper, r, table, block: asked, home, spare };
    let calls: [(&'static str, Ask, Ask); 16] = [
        ("shape::sector_of", &|_| number(shapes::sector_of(drive, asked, asked, asked)), &|_| {
            paper_number(model::shape::sector_of(paper, (asked, asked, asked)))
        }),
        ("shape::address_of", &|_| number(shapes::address_of(drive, asked)), &|_| {
            paper_number(model::shape::address_of(paper, asked))
        }),
        ("skipped::address_of", &|_| number(skipped::address_of(drive, list, asked)), &|_| {
            paper_number(skipping::address_of(paper, list, asked))
        }),
        (
            "skipped::block_at",
            &|_| number(skipped::block_at(drive, list, asked, asked, asked)),
            &|_| paper_number(skipping::block_at(paper, list, (asked, asked, asked))),
        ),
        (
            "spares::sector_of",
            &|lent| number(spares::sector_of(drive, r, table, lent, asked)),
            &|lent| paper_number(model::spares::sector_of(paper, r, table, lent, asked)),
        ),
        (
            "spares::address_of",
            &|lent| number(spares::address_of(drive, r, table, lent, asked)),
            &|lent| paper_number(model::spares::address_of(paper, r, table, lent, asked)),
        ),
        ("spares::shift", &|lent| number(spares::shift(drive, r, table, lent, asked)), &|lent| {
            paper_number(model::spares::shift(paper, r, table, lent, asked))
        }),
        (
            "spares::block_on",
            &|lent| number(spares::block_on(drive, r, table, lent, asked)),
            &|lent| paper_number(model::spares::block_on(paper, r, table, lent, asked)),
        ),
        (
            "spares::block_at",
            &|lent| number(spares::block_at(drive, r, table, lent, asked, asked, asked)),
            &|lent| {
                let address = (asked, asked, asked);
                paper_number(model::spares::block_at(paper, r, table, lent, address))
            },
        ),
        (
            "spares::replace",
            &|lent| number(spares::replace(drive, r, &mut table.clone(), lent, asked)),
            &|lent| paper_number(model::spares::replace(paper, r, &mut table.clone(), lent, asked)),
        ),
        ("spares::census", &|lent| number(spares::census(drive, r, table, lent)), &|lent| {
            paper_number(model::spares::census(paper, r, table, lent))
        }),
        (
            "spares::first_table",
            &|_| number(spares::first_table(drive, r, list, &mut vec![0; *room])),
            &|_| paper_number(model::spares::first_table(paper, r, list, &mut vec![0; *room])),
        ),
        (
            "reading::tracks",
            &|lent| number(reading::tracks(drive, r, table, lent, asked)),
            &|lent| paper_number(model::spares::tracks(paper, r, table, lent, asked)),
        ),
        (
            "reading::judge",
            &|lent| number(reading::judge(size, drive, r, table, lent, asked, home, spare)),
            &|lent| paper_number(model::image::judge_read(read, lent)),
        ),
        (
            "reading::spot",
            &|lent| number(reading::spot(size, drive, r, table, lent, asked, home, spare)),
            &|lent| paper_number(model::image::spot(read, lent)),
        ),
        (
            "reading::data",
            &|lent| number(reading::data(size, drive, r, table, lent, asked, home, spare)),
            &|lent| paper_number(model::image::read_data(read, lent)),
        ),
    ];
    let given = calls.map(|(call, library, model)| {
        let (mut ours, mut theirs) = (scratch.clone(), scratch.clone());
        let (library, model) = (library(&mut ours), model(&mut theirs));
        assert!(ours == theirs, "{call} leaves other scratch than the model on {drive:?}");
        Given { call, library, model, scratch: ours }
    });
    given.into()
}

/// Every call must give the number that is expected of it, and so must the model.
pub fn every_call_gives(drive: Shape, rest: &Rest, expected: impl Fn(&str) -> u32) {
    for Given { call, library, model, .. } in ask(drive, rest) {
        let expected = expected(call);
        assert_eq!((library, model), (expected, expected), "{call} on {drive:?}");
    }
}

/// Whether a call reads a sector, and so takes its size.
pub fn reads(call: &str) -> bool {
    call.starts_with("reading::") && call != "reading::tracks"
}

/// Whether a call is lent a table, and so takes scratch.
pub fn is_lent_a_table(call: &str) -> bool {
    call.starts_with("reading::") || call.starts_with("spares::") && call != "spares::first_table"
}

/// Every call that is lent a table must give the number that is expected of it, and leave this of the
/// scratch.
pub fn every_table_call_gives(
    drive: Shape,
    rest: &Rest,
    expected: impl Fn(&str) -> u32,
    left: &[u32],
) {
    these_calls_give(is_lent_a_table, drive, rest, expected, left);
}

/// Every call that reads a sector must give this number, and leave this of the scratch.
pub fn every_read_gives(drive: Shape, rest: &Rest, expected: u32, left: &[u32]) {
    these_calls_give(reads, drive, rest, |_| expected, left);
}

fn these_calls_give(
    these: impl Fn(&str) -> bool,
    drive: Shape,
    rest: &Rest,
    expected: impl Fn(&str) -> u32,
    left: &[u32],
) {
    for Given { call, library, model, scratch } in ask(drive, rest) {
        if these(call) {
            let expected = expected(call);
            assert_eq!((library, model), (expected, expected), "{call} on {drive:?}");
            assert!(scratch == left, "{call} leaves other scratch on {drive:?}, {expected}");
        }
    }
}

/// How often the crate's files have a text, `src/ffi.rs` left out.
fn count_in_wrappers(text: &str) -> usize {
    let files = fs::read_dir("src").expect("the crate's folder").map(|file| file.expect("a file"));
    let wrappers = files.map(|file| file.path()).filter(|path| !path.ends_with("ffi.rs"));
    let counts = wrappers.map(|path| {
        let file = fs::read_to_string(path).expect("a source file");
        file.matches(text).count()
    });
    counts.sum()
}

/// No call of the crate that takes a shape is left out, and none that takes scratch.
#[test]
fn every_call_with_a_shape_is_asked() {
    let drive = shape(2, 2, 5);
    let given = ask(drive, &Rest::proper(drive, 2));
    assert_eq!(count_in_wrappers("shape: Shape"), given.len());
    let tables = given.iter().filter(|given| is_lent_a_table(given.call)).count();
    assert_eq!(count_in_wrappers("scratch: &mut [u32]"), tables);
}
