//! The proved library against plain Rust: the same inputs and the same checks, both optimised, in one
//! run. `cargo bench --offline` prints the table.
//!
//! A round times one side, then the other. The best of a side is its fastest round, the spread says
//! how much longer its slowest took. The ratio is the library's best by plain Rust's best: 1.00 is as
//! fast, 2.00 twice as slow. Before it is timed, each job is run once by both sides and the answers
//! compared.

use std::fmt::Debug;
use std::hint::black_box;
use std::process::exit;
use std::time::{Duration, Instant};

use tautberry::{
    format, image, image_length, mode, page, page_length, reading, skip, spares, table_length,
    Cursor, Refusal, Shape, AT_HOME, AT_PRIMARY, DATA_SIZE, ELSEWHERE, LIST_MOST, UNITS_MOST,
    WIDE_SIZE,
};

#[path = "../plain/mod.rs"]
mod plain;

/// Rounds of each side.
const ROUNDS: usize = 7;
/// Entries of a long list.
const ENTRIES: usize = 4_096;

fn main() {
    if cfg!(not(target_arch = "x86_64")) {
        eprintln!(
            "The proved library runs under an emulator here, and its times would say nothing."
        );
        exit(1);
    }
    println!(
        "{:<45} {:>11} {:>7} {:>11} {:>7} {:>6}  per",
        "job", "library", "spread", "plain", "spread", "ratio"
    );
    translations();
    steps();
    look_ups();
    tracks();
    long_look_ups();
    checks();
    verdicts(DATA_SIZE);
    verdicts(WIDE_SIZE);
    modes();
    pages_read();
    pages_written();
    night();
    println!(
        "Best of {ROUNDS} rounds a side; the spread is what the slowest round took longer. Rooms and \
         scratch are allocated and cleared once, then lent as the last call left them."
    );
}

/// Times both sides of a job of `units` and prints its row; both must answer the same.
fn compare<T: PartialEq + Debug>(
    job: &str,
    unit: &str,
    units: u64,
    mut library: impl FnMut() -> T,
    mut plain: impl FnMut() -> T,
) {
    assert_eq!(library(), plain(), "{job}: the sides differ");
    let (mut ours, mut theirs) = (Vec::new(), Vec::new());
    for _ in 0..ROUNDS {
        ours.push(timed(&mut library));
        theirs.push(timed(&mut plain));
    }
    let (best, spread) = best_and_spread(&ours);
    let (plain_best, plain_spread) = best_and_spread(&theirs);
    println!(
        "{job:<45} {:>8.1} ns {spread:>6.0}% {:>8.1} ns {plain_spread:>6.0}% {:>6.2}  {unit}",
        nanoseconds(best, units),
        nanoseconds(plain_best, units),
        best.as_secs_f64() / plain_best.as_secs_f64()
    );
}

fn timed<T>(job: &mut impl FnMut() -> T) -> Duration {
    let start = Instant::now();
    black_box(job());
    start.elapsed()
}

fn best_and_spread(rounds: &[Duration]) -> (Duration, f64) {
    let best = rounds.iter().min().expect("a round");
    let worst = rounds.iter().max().expect("a round");
    (*best, (worst.as_secs_f64() / best.as_secs_f64() - 1.0) * 100.0)
}

fn nanoseconds(time: Duration, units: u64) -> f64 {
    time.as_secs_f64() * 1e9 / units as f64
}

/// A list of 4,096 entries in runs of four, spread over the space.
fn long_list() -> Vec<u32> {
    (0..ENTRIES as u32).map(|entry| entry / 4 * 1_000 + entry % 4).collect()
}

/// Translations of the first and of the last block over the longest list; each checks the whole list.
fn translations() {
    let list: Vec<u32> = (0..LIST_MOST as u32).map(|entry| entry * 256).collect();
    let last = UNITS_MOST - LIST_MOST as u32 - 1;
    let asked = 512;
    for (job, block) in [("first block, list of 65,536", 0), ("last block, list of 65,536", last)] {
        let library = || {
            let translate = |_| {
                let answer = skip::sector_of(UNITS_MOST, black_box(&list), black_box(block));
                answer.map_err(Refusal::number)
            };
            sum((0..asked).map(translate), 0)
        };
        let plain = || {
            let translate = |_| plain::sector_of(UNITS_MOST, black_box(&list), black_box(block));
            sum((0..asked).map(translate), 0)
        };
        compare(job, "block", asked, library, plain);
    }
}

/// A job of 4,096 steps along a long list; each step checks the whole list and the cursor.
fn steps() {
    let list = long_list();
    let steps = 4_096;
    let first = 500_000;
    let start = Cursor::start(UNITS_MOST, &list, first).expect("a block of the space");
    let library = || {
        let (mut cursor, mut sum) = (black_box(start), 0u64);
        for _ in 0..steps {
            let (sector, next) =
                cursor.step(UNITS_MOST, black_box(&list)).expect("a block is left");
            sum += u64::from(sector);
            cursor = next;
        }
        sum
    };
    let plain = || {
        let start = black_box(start);
        let mut cursor = plain::Cursor { block: start.block, skipped: start.skipped };
        let mut sum = 0u64;
        for _ in 0..steps {
            let answer = plain::step(cursor, UNITS_MOST, black_box(&list));
            let (sector, next) = answer.expect("a block is left");
            sum += u64::from(sector);
            cursor = next;
        }
        sum
    };
    compare("step by cursor, list of 4,096", "step", steps, library, plain);
}

/// A drive, its r, and the number of its spares in words.
type Drive = (Shape, u32, &'static str);

/// Drives from the fewest spares to the most.
const DRIVES: [Drive; 3] = [
    (Shape::ungrouped(64, 4, 32), 4, "1,024"),
    (Shape::ungrouped(880, 16, 53), 1, "14,080"),
    (Shape::ungrouped(4_096, 16, 64), 1, "65,536"),
];

/// The table of a drive with all but eight of its spares used, by blocks of their own track and of others.
fn nearly_full((shape, r, _): Drive) -> Vec<u32> {
    let tracks = shape.cylinders * shape.heads;
    let homes = shape.sectors - r;
    // The step has no divisor in common with the number of blocks, so no block comes twice.
    let step = 1_237;
    let bad = (0..u64::from(tracks * r - 8)).map(|nth| nth * step % u64::from(tracks * homes));
    let mut list: Vec<u32> =
        bad.map(|block| block as u32 / homes * shape.sectors + block as u32 % homes).collect();
    list.sort();
    let mut table = vec![0; table_length((tracks * r) as usize)];
    spares::first_table(shape, r, &list, &mut table).expect("a spare for each bad home");
    table
}

/// The table of a drive whose first spare is unusable and whose last eight are free. Each spare between them
/// holds a block of the track of the spare before it, so that no block lies at its primary place.
fn full_but_its_end((shape, r, _): Drive) -> Vec<u32> {
    let spares = shape.cylinders * shape.heads * r;
    let homes = shape.sectors - r;
    let mut table = vec![0; table_length(spares as usize)];
    table[spares as usize..].fill(8 << 28);
    table[0] = 4 << 28;
    for before in 0..spares - 9 {
        table[before as usize + 1] = 3 << 28 | (before / r * homes + before % r);
    }
    table
}

/// Times the look-ups of these blocks in a table; each checks the whole table, and must give this number, 0 for
/// accepted. Plain Rust keeps a bit for each block in the scratch, then for each place the next free one.
fn compare_on_table(
    (job, unit): (&str, &str),
    (shape, r, _): Drive,
    table: &[u32],
    asked: &[u32],
    number: u32,
) {
    let scratch = || vec![0; (shape.cylinders * shape.heads * r) as usize];
    let (mut our_scratch, mut plain_scratch) = (scratch(), scratch());
    let library = || {
        let mut look_up = |block: &u32| {
            let scratch = black_box(&mut our_scratch);
            let answer = spares::sector_of(shape, r, black_box(table), scratch, *block);
            answer.map_err(Refusal::number)
        };
        sum(asked.iter().map(&mut look_up), number)
    };
    let plain_shape = plain::Shape::from(shape);
    let plain = || {
        let mut look_up = |block: &u32| {
            let scratch = black_box(&mut plain_scratch);
            plain::spare_sector(plain_shape, r, black_box(table), scratch, *block)
        };
        sum(asked.iter().map(&mut look_up), number)
    };
    compare(job, unit, asked.len() as u64, library, plain);
}

/// Times the naming of the tracks of these blocks in a table; each checks the whole table, too.
fn compare_tracks(job: &str, (shape, r, _): Drive, table: &[u32], asked: &[u32]) {
    let scratch = || vec![0; (shape.cylinders * shape.heads * r) as usize];
    let (mut our_scratch, mut plain_scratch) = (scratch(), scratch());
    // One number of all five, so that they are all used.
    let joined = |(home, there, shift): (plain::Track, plain::Track, i32)| {
        home.0 + home.1 + 3 * there.0 + 5 * there.1 + 7 * shift.unsigned_abs()
    };
    let library = || {
        let mut name = |block: &u32| {
            let scratch = black_box(&mut our_scratch);
            let answer = reading::tracks(shape, r, black_box(table), scratch, *block);
            let numbers = answer.map(|tracks| {
                let (home, there) = (tracks.home, tracks.there);
                ((home.cylinder, home.head), (there.cylinder, there.head), tracks.shift)
            });
            numbers.map(joined).map_err(Refusal::number)
        };
        sum(asked.iter().map(&mut name), 0)
    };
    let plain_shape = plain::Shape::from(shape);
    let plain = || {
        let mut name = |block: &u32| {
            let scratch = black_box(&mut plain_scratch);
            plain::read_tracks(plain_shape, r, black_box(table), scratch, *block).map(joined)
        };
        sum(asked.iter().map(&mut name), 0)
    };
    compare(job, "block", asked.len() as u64, library, plain);
}

/// The sum of what was answered; every call must have given this number, 0 for accepted.
fn sum(answers: impl Iterator<Item = Result<u32, u32>>, number: u32) -> u64 {
    let answered = answers.map(|answer| {
        assert_eq!(answer.err().unwrap_or(0), number);
        u64::from(answer.unwrap_or(0))
    });
    answered.sum()
}

/// Blocks at home and on spares all over a drive.
fn all_over((shape, r, _): Drive) -> Vec<u32> {
    let blocks = shape.cylinders * shape.heads * (shape.sectors - r);
    (0..512).map(|ask| ask * 8_009 % blocks).collect()
}

/// Look-ups of blocks all over the drive.
fn look_ups() {
    let jobs = [
        "look-up, 1,016 of 1,024 spares used",
        "look-up, 14,072 of 14,080 spares used",
        "look-up, 65,528 of 65,536 spares used",
    ];
    for (job, drive) in jobs.into_iter().zip(DRIVES) {
        compare_on_table((job, "look-up"), drive, &nearly_full(drive), &all_over(drive), 0);
    }
}

/// The tracks to fetch for reads of the same blocks.
fn tracks() {
    let jobs = [
        "tracks, 1,016 of 1,024 spares used",
        "tracks, 14,072 of 14,080 spares used",
        "tracks, 65,528 of 65,536 spares used",
    ];
    for (job, drive) in jobs.into_iter().zip(DRIVES) {
        compare_tracks(job, drive, &nearly_full(drive), &all_over(drive));
    }
}

/// Look-ups of blocks at home on the first tracks of the largest drive. Its free places lie in the last table
/// block, so that each look-up goes through all 512.
fn long_look_ups() {
    let drive = DRIVES[2];
    let (shape, r, _) = drive;
    let asked: Vec<u32> =
        (0..512).map(|ask| ask % 128 * (shape.sectors - r) + 1 + ask / 128).collect();
    let job = ("look-up through 512 table blocks", "look-up");
    compare_on_table(job, drive, &full_but_its_end(drive), &asked, 0);
}

/// Checks of a table without holes, where the look-up of block 0 then ends at its second place, and of one with
/// a hole before its last block alone.
fn checks() {
    for drive in DRIVES {
        let (shape, r, spares) = drive;
        let mut table = full_but_its_end(drive);
        let job = format!("check, {spares} spares, no hole");
        compare_on_table((&job, "check"), drive, &table, &[0; 512], 0);
        let last = (shape.cylinders * shape.heads * r - 9) as usize;
        table[last - 1] = 0;
        let job = format!("check, {spares} spares, a hole");
        compare_on_table((&job, "check"), drive, &table, &[0; 512], 11);
    }
}

/// Verdicts on as many whole sectors of this size as 64 MiB of data fill, one image after the other and with each
/// code in turn.
fn verdicts(size: u32) {
    let length = image_length(size);
    let count = 64 * 1_024 * 1_024 / size as usize;
    let code = |block: usize| [AT_HOME, AT_PRIMARY, ELSEWHERE][block % 3];
    let mut images = vec![0; count * length];
    let mut data = vec![0; size as usize];
    for (block, image) in images.chunks_exact_mut(length).enumerate() {
        for (at, byte) in data.iter_mut().enumerate() {
            *byte = (at * 31 + block * 7) as u8;
        }
        let written = image::write(size, block as u32, code(block), &data, block % 16 == 0, image);
        written.expect("data of the size, a block and a code");
    }
    let library = || {
        let (size, images) = (black_box(size), black_box(&images).chunks_exact(length));
        let good = |(block, image): &(usize, &[u8])| {
            image::judge(size, image, *block as u32, code(*block)).is_ok()
        };
        images.enumerate().filter(good).count()
    };
    let plain = || {
        let (size, images) = (black_box(size), black_box(&images).chunks_exact(length));
        let good = |(block, image): &(usize, &[u8])| {
            plain::judge(size, image, *block as u32, code(*block)).is_ok()
        };
        images.enumerate().filter(good).count()
    };
    let job = format!("verdicts on 64 MiB in sectors of {size}");
    compare(&job, "sector", count as u64, library, plain);
}

/// The mode from the last of 64 copies that lie 8 sectors apart. The data of the others is damaged, so that each
/// is judged to its end.
fn modes() {
    let (copies, apart) = (64, 8);
    let mut images = vec![0; ((copies - 1) * apart + 1) * image_length(DATA_SIZE)];
    let mut data = vec![0; DATA_SIZE as usize];
    data[..2].copy_from_slice(&(WIDE_SIZE as u16).to_be_bytes());
    for (xbn, image) in images.chunks_exact_mut(image_length(DATA_SIZE)).enumerate() {
        let written = image::write(DATA_SIZE, xbn as u32, AT_HOME, &data, false, image);
        written.expect("512 bytes and an XBN");
        image[100] ^= u8::from(xbn < (copies - 1) * apart);
    }
    let finds = 1_000;
    let apart = apart as u32;
    let library = || {
        let find = |_| mode::find(black_box(&images), black_box(apart)).map_err(Refusal::number);
        sum((0..finds).map(find), 0)
    };
    let plain = || {
        let find = |_| plain::find_mode(black_box(&images), black_box(apart));
        sum((0..finds).map(find), 0)
    };
    compare("mode from the last of 64 copies", "find", finds, library, plain);
}

const PAGES: u64 = 1_000;

fn pages_read() {
    let list = long_list();
    let mut page = vec![0; page_length(ENTRIES)];
    page::write(UNITS_MOST, 1, &list, &mut page).expect("a proper list");
    let (mut our_room, mut plain_room) = (vec![0; ENTRIES], vec![0; ENTRIES]);
    let library = || {
        let mut entries = 0;
        for _ in 0..PAGES {
            let read = page::read(black_box(&page), black_box(&mut our_room));
            entries += read.expect("a proper page").entries;
        }
        (entries, our_room[ENTRIES - 1])
    };
    let plain = || {
        let mut entries = 0;
        for _ in 0..PAGES {
            let read = plain::read_page(black_box(&page), black_box(&mut plain_room));
            entries += read.expect("a proper page").2;
        }
        (entries, plain_room[ENTRIES - 1])
    };
    compare("page of 4,096 entries read", "page", PAGES, library, plain);
}

fn pages_written() {
    let list = long_list();
    let length = page_length(ENTRIES);
    let (mut our_room, mut plain_room) = (vec![0; length], vec![0; length]);
    let library = || {
        let mut bytes = 0;
        for _ in 0..PAGES {
            let written = page::write(UNITS_MOST, 1, black_box(&list), black_box(&mut our_room));
            bytes += written.expect("a proper list");
        }
        (bytes, our_room[length - 5])
    };
    let plain = || {
        let mut bytes = 0;
        for _ in 0..PAGES {
            let written =
                plain::write_page(UNITS_MOST, 1, black_box(&list), black_box(&mut plain_room));
            bytes += written.expect("a proper list");
        }
        (bytes, plain_room[length - 5])
    };
    compare("page of 4,096 entries written", "page", PAGES, library, plain);
}

/// Option 1 in space 3: 1,024 entries in P, 1,024 in G, 2,048 blocks found; the new list has 4,096.
fn night() {
    let p: Vec<u32> = (0..1_024).map(|entry| entry * 8_000).collect();
    let g: Vec<u32> = (0..1_024).map(|entry| entry * 8_000 + 1 + entry % 3).collect();
    let d: Vec<u32> = (0..2_048).map(|entry| entry * 4_000 + 2_000).collect();
    let nights = 200;
    let rooms = || (vec![0; ENTRIES], vec![0; ENTRIES]);
    let ((mut our_grown, mut our_list), (mut plain_grown, mut plain_list)) = (rooms(), rooms());
    let mut on_the_way = plain::Rooms::new();
    let library = || {
        let mut entries = 0;
        for _ in 0..nights {
            let night = format::format(
                UNITS_MOST,
                black_box(&p),
                black_box(&g),
                3,
                1,
                black_box(&d),
                black_box(&mut our_grown),
                black_box(&mut our_list),
            );
            let night = night.expect("a long night");
            entries += night.grown + night.list;
        }
        (entries, our_grown[3_071], our_list[ENTRIES - 1])
    };
    let plain = || {
        let mut entries = 0;
        for _ in 0..nights {
            let night = plain::format(
                UNITS_MOST,
                black_box(&p),
                black_box(&g),
                3,
                1,
                black_box(&d),
                black_box(&mut plain_grown),
                black_box(&mut plain_list),
                black_box(&mut on_the_way),
            );
            let (grown, list, _) = night.expect("a long night");
            entries += grown + list;
        }
        (entries, plain_grown[3_071], plain_list[ENTRIES - 1])
    };
    compare("Format of a long night, 4,096 entries", "night", nights, library, plain);
}
