//! The C face of the proved library, as `include/tautberry.h` declares it; a test holds the two together.
//!
//! A slice goes as a pointer and then its length. The library reads and writes only inside what it
//! is lent, keeps no pointer after the call, and takes an empty slice with any pointer: Rust's own
//! empty slices point nowhere in particular and are never null, C's may be null. What is lent to be
//! written must overlap nothing else that is lent; a caller in Rust cannot lend it otherwise.

use crate::{Address, Cursor, Shape};

#[repr(C)]
pub struct Placed {
    pub refusal: u32,
    pub sector: u32,
}

#[repr(C)]
pub struct Named {
    pub refusal: u32,
    pub found: u32,
    pub block: u32,
}

#[repr(C)]
pub struct Job {
    pub refusal: u32,
    pub sector: u32,
    pub next: Cursor,
}

#[repr(C)]
pub struct Located {
    pub refusal: u32,
    pub address: Address,
}

#[repr(C)]
pub struct Paged {
    pub refusal: u32,
    pub kind: u32,
    pub n: u32,
    pub entries: u32,
}

#[repr(C)]
pub struct Written {
    pub refusal: u32,
    pub length: u32,
}

#[repr(C)]
pub struct Formatted {
    pub refusal: u32,
    pub grown: u32,
    pub list: u32,
    pub space: u32,
}

#[repr(C)]
pub struct Shifted {
    pub refusal: u32,
    pub shift: i32,
}

#[repr(C)]
pub struct Replaced {
    pub refusal: u32,
    pub place: u32,
}

#[repr(C)]
pub struct Counted {
    pub refusal: u32,
    pub free: u32,
    pub primary: u32,
    pub elsewhere: u32,
    pub unusable: u32,
    pub null: u32,
}

#[repr(C)]
pub struct Headed {
    pub refusal: u32,
    pub code: u32,
    pub block: u32,
}

#[repr(C)]
pub struct Judged {
    pub refusal: u32,
}

// It is named after its C name, as the others are. No trait is meant in this module.
#[repr(C)]
pub struct Sized {
    pub refusal: u32,
    pub size: u32,
}

#[repr(C)]
pub struct Tracks {
    pub refusal: u32,
    pub home_cylinder: u32,
    pub home_head: u32,
    pub cylinder: u32,
    pub head: u32,
    pub shift: i32,
}

#[repr(C)]
pub struct Spotted {
    pub refusal: u32,
    pub image: u32,
    pub offset: u32,
}

extern "C" {
    pub fn tb_skip_sector(n: u32, list: *const u32, list_length: usize, block: u32) -> Placed;
    pub fn tb_skip_block(n: u32, list: *const u32, list_length: usize, sector: u32) -> Named;

    pub fn tb_job_start(n: u32, list: *const u32, list_length: usize, block: u32) -> Job;
    pub fn tb_job_check(cursor: Cursor, n: u32, list: *const u32, list_length: usize) -> Job;
    pub fn tb_job_step(cursor: Cursor, n: u32, list: *const u32, list_length: usize) -> Job;

    pub fn tb_shape_sector(shape: Shape, cylinder: u32, head: u32, sector: u32) -> Placed;
    pub fn tb_shape_address(shape: Shape, sector: u32) -> Located;

    pub fn tb_skipped_address(
        shape: Shape,
        list: *const u32,
        list_length: usize,
        block: u32,
    ) -> Located;
    pub fn tb_skipped_block(
        shape: Shape,
        list: *const u32,
        list_length: usize,
        cylinder: u32,
        head: u32,
        sector: u32,
    ) -> Named;

    pub fn tb_page_read(
        page: *const u8,
        page_length: usize,
        room: *mut u32,
        room_length: usize,
    ) -> Paged;
    pub fn tb_page_write(
        n: u32,
        kind: u32,
        list: *const u32,
        list_length: usize,
        room: *mut u8,
        room_length: usize,
    ) -> Written;

    pub fn tb_format(
        n: u32,
        p: *const u32,
        p_length: usize,
        g: *const u32,
        g_length: usize,
        space: u32,
        option: u32,
        d: *const u32,
        d_length: usize,
        grown: *mut u32,
        grown_length: usize,
        list: *mut u32,
        list_length: usize,
    ) -> Formatted;

    pub fn tb_spare_sector(
        shape: Shape,
        r: u32,
        table: *const u32,
        table_length: usize,
        scratch: *mut u32,
        scratch_length: usize,
        block: u32,
    ) -> Placed;
    pub fn tb_spare_address(
        shape: Shape,
        r: u32,
        table: *const u32,
        table_length: usize,
        scratch: *mut u32,
        scratch_length: usize,
        block: u32,
    ) -> Located;
    pub fn tb_spare_shift(
        shape: Shape,
        r: u32,
        table: *const u32,
        table_length: usize,
        scratch: *mut u32,
        scratch_length: usize,
        block: u32,
    ) -> Shifted;
    pub fn tb_spare_block(
        shape: Shape,
        r: u32,
        table: *const u32,
        table_length: usize,
        scratch: *mut u32,
        scratch_length: usize,
        sector: u32,
    ) -> Named;
    pub fn tb_spare_block_at(
        shape: Shape,
        r: u32,
        table: *const u32,
        table_length: usize,
        scratch: *mut u32,
        scratch_length: usize,
        cylinder: u32,
        head: u32,
        sector: u32,
    ) -> Named;
    pub fn tb_spare_replace(
        shape: Shape,
        r: u32,
        table: *mut u32,
        table_length: usize,
        scratch: *mut u32,
        scratch_length: usize,
        block: u32,
    ) -> Replaced;
    pub fn tb_spare_census(
        shape: Shape,
        r: u32,
        table: *const u32,
        table_length: usize,
        scratch: *mut u32,
        scratch_length: usize,
    ) -> Counted;
    pub fn tb_spare_first(
        shape: Shape,
        r: u32,
        list: *const u32,
        list_length: usize,
        room: *mut u32,
        room_length: usize,
    ) -> Written;

    pub fn tb_image_write(
        size: u32,
        block: u32,
        code: u32,
        data: *const u8,
        data_length: usize,
        forced: bool,
        room: *mut u8,
        room_length: usize,
    ) -> Written;
    pub fn tb_image_header(size: u32, image: *const u8, image_length: usize) -> Headed;
    pub fn tb_image_judge(
        size: u32,
        image: *const u8,
        image_length: usize,
        block: u32,
        code: u32,
    ) -> Judged;

    pub fn tb_mode(images: *const u8, images_length: usize, apart: u32) -> Sized;

    pub fn tb_read_tracks(
        shape: Shape,
        r: u32,
        table: *const u32,
        table_length: usize,
        scratch: *mut u32,
        scratch_length: usize,
        block: u32,
    ) -> Tracks;
    pub fn tb_read_judge(
        size: u32,
        shape: Shape,
        r: u32,
        table: *const u32,
        table_length: usize,
        scratch: *mut u32,
        scratch_length: usize,
        block: u32,
        home: *const u8,
        home_length: usize,
        spare: *const u8,
        spare_length: usize,
    ) -> Judged;
    pub fn tb_read_data(
        size: u32,
        shape: Shape,
        r: u32,
        table: *const u32,
        table_length: usize,
        scratch: *mut u32,
        scratch_length: usize,
        block: u32,
        home: *const u8,
        home_length: usize,
        spare: *const u8,
        spare_length: usize,
    ) -> Spotted;
}
