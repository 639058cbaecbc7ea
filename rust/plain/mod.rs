//! What the benchmark measures the library against: the same calls with the same checks, in ordinary
//! fast Rust. A test holds them to the model.

const UNITS_MOST: u32 = 16_777_216;
const LIST_MOST: usize = 65_536;
const SPARES_MOST: u32 = 65_536;
const TABLE_BLOCK: usize = 128;
/// Bytes of an image before its data, and all that are no data.
const HEADER: usize = 16;
const EXTRA: usize = 18;
/// Bytes of a sector image of the XBN area.
const XBN_IMAGE: usize = 512 + EXTRA;

/// What a call gives: its values, or the number of its refusal.
pub type Answer<T> = Result<T, u32>;

fn refuse(fault: bool, number: u32) -> Answer<()> {
    if fault {
        Err(number)
    } else {
        Ok(())
    }
}

fn check_size(n: u32) -> Answer<()> {
    refuse(!(1..=UNITS_MOST).contains(&n), 1)
}

fn check_list(size: u32, list: &[u32]) -> Answer<()> {
    refuse(list.len() > LIST_MOST, 2)?;
    let Some(&first) = list.first() else { return Ok(()) };
    refuse(first >= size, 4)?;
    for pair in list.windows(2) {
        refuse(pair[1] <= pair[0], 3)?;
        refuse(pair[1] >= size, 4)?;
    }
    Ok(())
}

fn check_space(n: u32, list: &[u32]) -> Answer<()> {
    check_size(n)?;
    check_list(n, list)
}

/// The sector that a block of a skipped drive lies on.
pub fn sector_of(n: u32, list: &[u32], block: u32) -> Answer<u32> {
    check_space(n, list)?;
    refuse(block >= n - list.len() as u32, 5)?;
    let (mut least, mut most) = (0, list.len());
    while least < most {
        let middle = least + (most - least) / 2;
        if list[middle] > block + middle as u32 {
            most = middle;
        } else {
            least = middle + 1;
        }
    }
    Ok(block + least as u32)
}

/// The job cursor: the next block, and the entries below the sector of the block before.
#[derive(Clone, Copy, Debug, PartialEq, Eq)]
pub struct Cursor {
    pub block: u32,
    pub skipped: u32,
}

/// The sector of the block before the cursor's lies just after `skipped` entries, and on none.
fn belongs(cursor: Cursor, blocks: u32, list: &[u32]) -> bool {
    let skipped = cursor.skipped as usize;
    if cursor.block == 0 {
        return skipped == 0;
    }
    if cursor.block > blocks || skipped > list.len() {
        return false;
    }
    let before = cursor.block - 1 + cursor.skipped;
    let passed = skipped == 0 || list[skipped - 1] < before;
    let ahead = list.get(skipped).is_none_or(|&entry| entry > before);
    passed && ahead
}

/// One step of a job; a refused step hands back the cursor.
pub fn step(cursor: Cursor, n: u32, list: &[u32]) -> Result<(u32, Cursor), (u32, Cursor)> {
    check_space(n, list).map_err(|number| (number, cursor))?;
    let blocks = n - list.len() as u32;
    if !belongs(cursor, blocks, list) {
        return Err((9, cursor));
    }
    if cursor.block == blocks {
        return Err((5, cursor));
    }
    let mut skipped = cursor.skipped;
    for &entry in &list[skipped as usize..] {
        if entry > cursor.block + skipped {
            break;
        }
        skipped += 1;
    }
    let next = Cursor { block: cursor.block + 1, skipped };
    Ok((cursor.block + skipped, next))
}

#[derive(Clone, Copy, Debug)]
pub struct Shape {
    pub cylinders: u32,
    pub heads: u32,
    pub sectors: u32,
    pub groups: u32,
    pub tracks: u32,
    pub offset: u32,
}

impl From<tautberry::Shape> for Shape {
    fn from(shape: tautberry::Shape) -> Shape {
        let tautberry::Shape { cylinders, heads, sectors, groups, tracks, offset } = shape;
        Shape { cylinders, heads, sectors, groups, tracks, offset }
    }
}

/// A checked revectored drive.
struct Drive {
    heads: u32,
    sectors: u32,
    spares_of_track: u32,
    homes_of_track: u32,
    spares: u32,
    blocks: u32,
}

fn check_shape(shape: Shape) -> Answer<()> {
    refuse(!(1..=4_096).contains(&shape.cylinders), 1)?;
    refuse(!(1..=64).contains(&shape.heads), 1)?;
    refuse(!(2..=64).contains(&shape.sectors), 1)?;
    refuse(shape.groups.checked_mul(shape.tracks) != Some(shape.heads), 1)?;
    refuse(shape.offset >= shape.sectors, 1)
}

fn check_drive(shape: Shape, r: u32) -> Answer<Drive> {
    check_shape(shape)?;
    refuse(r < 1 || r >= shape.sectors, 1)?;
    let tracks = shape.cylinders * shape.heads;
    refuse(tracks * r > SPARES_MOST, 1)?;
    Ok(Drive {
        heads: shape.heads,
        sectors: shape.sectors,
        spares_of_track: r,
        homes_of_track: shape.sectors - r,
        spares: tracks * r,
        blocks: tracks * (shape.sectors - r),
    })
}

/// The number of a word, below its code.
const NUMBER: u32 = 0x0FFF_FFFF;

/// Whether a descriptor names a block.
fn names_block(word: u32) -> bool {
    matches!(word >> 28, 2 | 3)
}

/// Whether two descriptors name one block: a bit of `marks` is kept for each block, for as many blocks at
/// a time as it has bits.
fn named_twice(drive: &Drive, table: &[u32], marks: &mut [u32]) -> bool {
    let window = u32::BITS * marks.len() as u32;
    (0..drive.blocks).step_by(window as usize).any(|first| {
        marks.fill(0);
        table.iter().any(|&word| {
            let at = (word & NUMBER).wrapping_sub(first);
            if !names_block(word) || at >= window {
                return false;
            }
            let (mark, bit) = (&mut marks[(at / u32::BITS) as usize], 1 << (at % u32::BITS));
            let marked = *mark & bit != 0;
            *mark |= bit;
            marked
        })
    })
}

/// The primary place of a block.
fn primary_of(drive: &Drive, block: u32) -> usize {
    (block / drive.homes_of_track * drive.spares_of_track) as usize
}

/// Where the table block of a place starts.
fn block_start(place: usize) -> usize {
    place / TABLE_BLOCK * TABLE_BLOCK
}

/// Whether a free place comes before a block's place in the block's search order: `next` gets for each place
/// the first free one from there on, or the table's length where none is.
fn has_hole(drive: &Drive, table: &[u32], next: &mut [u32]) -> bool {
    let used = &table[..next.len()];
    let mut free = table.len() as u32;
    for (place, &word) in used.iter().enumerate().rev() {
        if word == 0 {
            free = place as u32;
        }
        next[place] = free;
    }
    let free_within = |from: usize, to: usize| (next[from] as usize) < to;
    used.iter().enumerate().any(|(place, &word)| {
        if word >> 28 != 3 {
            return false;
        }
        let primary = primary_of(drive, word & NUMBER);
        let start = block_start(primary);
        let end = start + TABLE_BLOCK;
        if place >= end {
            free_within(start, place)
        } else if place < start {
            free_within(start, table.len()) || free_within(0, place)
        } else if place > primary {
            let below = (primary + 1).saturating_sub(place - primary);
            free_within(below.max(start), place)
        } else {
            let above = primary + (primary - place) + 1;
            free_within(place + 1, above.min(end))
        }
    })
}

fn check_table(drive: &Drive, table: &[u32], scratch: &mut [u32]) -> Answer<()> {
    let spares = drive.spares as usize;
    refuse(table.len() != spares.next_multiple_of(TABLE_BLOCK), 11)?;
    let (used, tail) = table.split_at(spares);
    for (place, &word) in used.iter().enumerate() {
        if names_block(word) {
            let block = word & NUMBER;
            refuse(block >= drive.blocks, 11)?;
            refuse((word >> 28 == 2) != (primary_of(drive, block) == place), 11)?;
        } else {
            refuse(word != 0 && word != 4 << 28, 11)?;
        }
    }
    refuse(tail.iter().any(|&word| word != 8 << 28), 11)?;
    refuse(named_twice(drive, used, scratch), 11)?;
    refuse(has_hole(drive, table, scratch), 11)
}

/// The place that names a block, in a table without holes: the search ends at the first free place.
fn place_of(drive: &Drive, table: &[u32], block: u32) -> Option<usize> {
    let primary = primary_of(drive, block);
    let start = block_start(primary);
    let end = start + TABLE_BLOCK;
    let ends = |&word: &u32| word == 0 || names_block(word) && word & NUMBER == block;
    let place = outward(&table[start..end], primary - start, ends)
        .map(|at| start + at)
        .or_else(|| table[end..].iter().position(ends).map(|at| end + at))
        .or_else(|| table[..start].iter().position(ends))?;
    (table[place] != 0).then_some(place)
}

/// The first place of a table block that passes, outward from an offset and above before below.
fn outward(block: &[u32], offset: usize, passes: impl Fn(&u32) -> bool) -> Option<usize> {
    if passes(&block[offset]) {
        return Some(offset);
    }
    for away in 1..TABLE_BLOCK {
        let above = offset + away;
        if block.get(above).is_some_and(&passes) {
            return Some(above);
        }
        if away <= offset && passes(&block[offset - away]) {
            return Some(offset - away);
        }
    }
    None
}

/// Checks the drive, its table and the block, and leaves zeros in the scratch.
fn check_block(
    shape: Shape,
    r: u32,
    table: &[u32],
    scratch: &mut [u32],
    block: u32,
) -> Answer<Drive> {
    let drive = check_drive(shape, r)?;
    let scratch = scratch.get_mut(..drive.spares as usize).ok_or(7u32)?;
    let checked = check_table(&drive, table, scratch);
    scratch.fill(0);
    checked?;
    refuse(block >= drive.blocks, 5)?;
    Ok(drive)
}

/// The sector that a block of a revectored drive lies on.
pub fn spare_sector(
    shape: Shape,
    r: u32,
    table: &[u32],
    scratch: &mut [u32],
    block: u32,
) -> Answer<u32> {
    let drive = check_block(shape, r, table, scratch, block)?;
    let (track, sector) = match place_of(&drive, table, block) {
        Some(place) => {
            let spare = place as u32;
            (spare / r, drive.homes_of_track + spare % r)
        }
        None => (block / drive.homes_of_track, block % drive.homes_of_track),
    };
    Ok(track * drive.sectors + sector)
}

/// A track by its cylinder and head.
pub type Track = (u32, u32);

/// The home track of a block, the track that it lies on, and the cylinders from the first to the second.
pub fn read_tracks(
    shape: Shape,
    r: u32,
    table: &[u32],
    scratch: &mut [u32],
    block: u32,
) -> Answer<(Track, Track, i32)> {
    let drive = check_block(shape, r, table, scratch, block)?;
    let home = block / drive.homes_of_track;
    let there = place_of(&drive, table, block).map_or(home, |place| place as u32 / r);
    let at = |track: u32| (track / drive.heads, track % drive.heads);
    let (home, there) = (at(home), at(there));
    Ok((home, there, there.0 as i32 - home.0 as i32))
}

fn data_code(data: &[u8]) -> u16 {
    data.chunks_exact(2).fold(0x5A3C, |code: u16, pair| {
        code.rotate_left(1) ^ u16::from_be_bytes([pair[0], pair[1]])
    })
}

fn word_at(bytes: &[u8], at: usize) -> u32 {
    u32::from_be_bytes([bytes[at], bytes[at + 1], bytes[at + 2], bytes[at + 3]])
}

/// The number that three of the four header copies agree on.
fn header(image: &[u8]) -> Answer<u32> {
    let [a, b, c, d] = [0, 4, 8, 12].map(|at| word_at(image, at));
    if (a == b && (a == c || a == d)) || (a == c && a == d) {
        Ok(a)
    } else if b == c && b == d {
        Ok(b)
    } else {
        Err(15)
    }
}

/// The verdict on a sector image of a block with a code.
pub fn judge(size: u32, image: &[u8], block: u32, code: u32) -> Answer<()> {
    refuse(size != 512 && size != 576, 1)?;
    let end = HEADER + size as usize;
    refuse(image.len() != size as usize + EXTRA, 14)?;
    let word = header(image)?;
    refuse(word >> 28 != code || word & NUMBER != block || !matches!(code, 0 | 2 | 3), 16)?;
    let found = data_code(&image[HEADER..end]);
    match u16::from_be_bytes([image[end], image[end + 1]]) {
        stored if stored == found => Ok(()),
        stored if stored == !found => Err(17),
        _ => Err(18),
    }
}

/// The size of the first copy of the format table that says one.
pub fn find_mode(images: &[u8], apart: u32) -> Answer<u32> {
    refuse(apart == 0, 1)?;
    for (xbn, image) in images.chunks_exact(XBN_IMAGE).enumerate().step_by(apart as usize) {
        if judge(512, image, xbn as u32, 0).is_ok() {
            let word = u32::from(u16::from_be_bytes([image[HEADER], image[HEADER + 1]]));
            if word == 512 || word == 576 {
                return Ok(word);
            }
        }
    }
    Err(21)
}

const PAGE_FRAME: usize = 14;

/// Reads a page: kind, N and the number of entries.
pub fn read_page(page: &[u8], room: &mut [u32]) -> Answer<(u32, u32, u32)> {
    let lengths = PAGE_FRAME..=PAGE_FRAME + 4 * LIST_MOST;
    refuse(!lengths.contains(&page.len()), 8)?;
    refuse(word_at(page, 0) as usize != page.len(), 8)?;
    refuse(page.len() % 4 != PAGE_FRAME % 4, 8)?;
    refuse(page[4] != 1 || page[5] > 1, 8)?;
    let n = word_at(page, 6);
    check_size(n).map_err(|_| 8u32)?;
    let (body, last) = page[10..].split_at(page.len() - PAGE_FRAME);
    refuse(last != [0xFF; 4], 8)?;
    let mut least = 0;
    for entry in entries(body) {
        refuse(entry < least, 3)?;
        refuse(entry >= n, 4)?;
        least = entry + 1;
    }
    let count = body.len() / 4;
    refuse(room.len() < count, 7)?;
    for (place, entry) in room.iter_mut().zip(entries(body)) {
        *place = entry;
    }
    Ok((u32::from(page[5]), n, count as u32))
}

/// The big-endian words of a page's body.
fn entries(body: &[u8]) -> impl Iterator<Item = u32> + '_ {
    body.chunks_exact(4).map(|bytes| u32::from_be_bytes([bytes[0], bytes[1], bytes[2], bytes[3]]))
}

/// Writes a page and answers its length.
pub fn write_page(n: u32, kind: u32, list: &[u32], room: &mut [u8]) -> Answer<u32> {
    check_size(n)?;
    refuse(kind > 1, 8)?;
    check_list(n, list)?;
    let length = PAGE_FRAME + 4 * list.len();
    refuse(room.len() < length, 7)?;
    room[..4].copy_from_slice(&(length as u32).to_be_bytes());
    room[4] = 1;
    room[5] = kind as u8;
    room[6..10].copy_from_slice(&n.to_be_bytes());
    for (bytes, entry) in room[10..length - 4].chunks_exact_mut(4).zip(list) {
        bytes.copy_from_slice(&entry.to_be_bytes());
    }
    room[length - 4..length].fill(0xFF);
    Ok(length as u32)
}

/// Two rising runs as one, each number once.
struct Union<'a> {
    left: &'a [u32],
    right: &'a [u32],
}

impl Iterator for Union<'_> {
    type Item = u32;

    fn next(&mut self) -> Option<u32> {
        let least = match (self.left.first(), self.right.first()) {
            (Some(&left), Some(&right)) => left.min(right),
            (Some(&one), None) | (None, Some(&one)) => one,
            (None, None) => return None,
        };
        if self.left.first() == Some(&least) {
            self.left = &self.left[1..];
        }
        if self.right.first() == Some(&least) {
            self.right = &self.right[1..];
        }
        Some(least)
    }
}

/// Rooms for the lists that Format makes on its way, which the caller lends.
pub struct Rooms {
    used: Vec<u32>,
    found: Vec<u32>,
    grown: Vec<u32>,
    list: Vec<u32>,
}

impl Rooms {
    /// Rooms that are long enough for any list.
    pub fn new() -> Rooms {
        let room = || vec![0; LIST_MOST];
        Rooms { used: room(), found: room(), grown: room(), list: room() }
    }
}

/// The union of two lists in the first places of a room, or refusal 2 where it is too long.
fn united<'a>(left: &[u32], right: &[u32], room: &'a mut [u32]) -> Answer<&'a [u32]> {
    let mut length = 0;
    for entry in (Union { left, right }) {
        refuse(length == LIST_MOST, 2)?;
        room[length] = entry;
        length += 1;
    }
    Ok(&room[..length])
}

/// The list of a space, 0 to 3, or refusal 2; a union is made in the room.
fn list_of<'a>(space: u32, p: &'a [u32], g: &'a [u32], room: &'a mut [u32]) -> Answer<&'a [u32]> {
    match space {
        0 => Ok(&[]),
        1 => Ok(p),
        2 => Ok(g),
        _ => united(p, g, room),
    }
}

/// The sectors of the blocks `d`, in the space that skips `used`, in the first places of a room.
fn mapped<'a>(used: &[u32], d: &[u32], room: &'a mut [u32]) -> &'a [u32] {
    let mut skipped = 0;
    for (sector, &block) in room.iter_mut().zip(d) {
        while skipped < used.len() && used[skipped] <= block + skipped as u32 {
            skipped += 1;
        }
        *sector = block + skipped as u32;
    }
    &room[..d.len()]
}

/// A row of Format: what the new grown list is made of, and the new space, if another.
enum Grown {
    Kept,
    Joined,
    Emptied,
    Supplied,
}

const ROWS: [(Grown, Option<u32>); 8] = [
    (Grown::Kept, None),
    (Grown::Joined, Some(3)),
    (Grown::Kept, Some(2)),
    (Grown::Joined, Some(2)),
    (Grown::Emptied, Some(1)),
    (Grown::Supplied, Some(3)),
    (Grown::Emptied, Some(0)),
    (Grown::Supplied, Some(2)),
];

/// Format: the lengths of the new grown list and of the new space's list, and the new space. What `rooms`
/// hold before and after does not matter.
#[allow(clippy::too_many_arguments)]
pub fn format(
    n: u32,
    p: &[u32],
    g: &[u32],
    space: u32,
    option: u32,
    d: &[u32],
    grown_room: &mut [u32],
    list_room: &mut [u32],
    rooms: &mut Rooms,
) -> Answer<(u32, u32, u32)> {
    check_size(n)?;
    check_list(n, p)?;
    check_list(n, g)?;
    refuse(option > 7 || space > 3 || (option & 1 == 0 && !d.is_empty()), 10)?;
    let used = list_of(space, p, g, &mut rooms.used)?;
    let (source, new_space) = &ROWS[option as usize];
    let new_space = new_space.unwrap_or(space);
    let size = match source {
        Grown::Joined => n - used.len() as u32,
        _ => n,
    };
    check_list(size, d)?;
    let grown = match source {
        Grown::Kept => g,
        Grown::Emptied => &[],
        Grown::Supplied => d,
        Grown::Joined => united(g, mapped(used, d, &mut rooms.found), &mut rooms.grown)?,
    };
    let list = list_of(new_space, p, grown, &mut rooms.list)?;
    refuse(grown_room.len() < grown.len() || list_room.len() < list.len(), 7)?;
    grown_room[..grown.len()].copy_from_slice(grown);
    list_room[..list.len()].copy_from_slice(list);
    Ok((grown.len() as u32, list.len() as u32, new_space))
}
