//! The calls and types of `include/globe.h`, which says what each of them does.
//! The safe crate `globe` is what most programs want.
#![no_std]
#![allow(non_camel_case_types)]

/// The library that is linked: the path of its archive, for tools that measure or link it.
pub const ARCHIVE: &str = env!("GLOBE_ARCHIVE");

/// The limits of the header.
pub const GLOBE_POOL_WORDS: usize = 6707;
pub const GLOBE_TEXT_BYTES: usize = 65536;
pub const GLOBE_PARTS_BYTES: usize = 4194304;
pub const GLOBE_VALUES: usize = 3072;
pub const GLOBE_STRING: usize = 60;

/// The numbers of answers; 5 is not given any more.
pub const GLOBE_OK: u32 = 0;
pub const GLOBE_LABEL_HELD: u32 = 1;
pub const GLOBE_TEXT_TOO_LONG: u32 = 2;
pub const GLOBE_LINE_TOO_LONG: u32 = 3;
pub const GLOBE_BAD_BYTE: u32 = 4;
pub const GLOBE_NUMBER: u32 = 6;
pub const GLOBE_NO_ROOM: u32 = 7;
pub const GLOBE_NOT_HELD: u32 = 8;
pub const GLOBE_EPOCH: u32 = 9;
pub const GLOBE_UNKNOWN_BODY: u32 = 10;
pub const GLOBE_INCOMPLETE: u32 = 11;
pub const GLOBE_WRONG_COUNT: u32 = 12;
pub const GLOBE_NO_VARIABLE: u32 = 13;
pub const GLOBE_SHORT_BUFFER: u32 = 14;
pub const GLOBE_DAMAGED_POOL: u32 = 15;
pub const GLOBE_MIXED_KIND: u32 = 16;
pub const GLOBE_BAD_NAME: u32 = 17;
pub const GLOBE_NO_OPERATOR: u32 = 18;
pub const GLOBE_BAD_VALUE: u32 = 19;
pub const GLOBE_OPEN_LIST: u32 = 20;
pub const GLOBE_REST_OF_LINE: u32 = 21;
pub const GLOBE_TEXT_OPEN: u32 = 22;
pub const GLOBE_BAD_DEGREE: u32 = 23;
pub const GLOBE_BAD_RADIUS: u32 = 24;
pub const GLOBE_BAD_RING: u32 = 25;
pub const GLOBE_BAD_POSITION: u32 = 26;

/// Done, or refused.
#[repr(C)]
#[derive(Clone, Copy, Debug, PartialEq, Eq)]
pub struct globe_reply {
    pub number: u32,
    pub line: u32,
    pub column: u32,
}

/// How many values, or bytes of a string, were written to the buffer.
#[repr(C)]
#[derive(Clone, Copy, Debug, PartialEq, Eq)]
pub struct globe_fetched {
    pub number: u32,
    pub line: u32,
    pub column: u32,
    pub count: u32,
}

/// How many texts, statements and values are held.
#[repr(C)]
#[derive(Clone, Copy, Debug, PartialEq, Eq)]
pub struct globe_counts {
    pub number: u32,
    pub line: u32,
    pub column: u32,
    pub texts: u32,
    pub statements: u32,
    pub values: u32,
}

/// Pole, meridian and the matrix from inertial to body-fixed axes; all zeros if the number is a
/// refusal's.
#[repr(C)]
#[derive(Clone, Copy, Debug, PartialEq)]
pub struct globe_oriented {
    pub number: u32,
    pub line: u32,
    pub column: u32,
    pub ra: f64,
    pub dec: f64,
    pub w: f64,
    pub m11: f64,
    pub m12: f64,
    pub m13: f64,
    pub m21: f64,
    pub m22: f64,
    pub m23: f64,
    pub m31: f64,
    pub m32: f64,
    pub m33: f64,
}

/// Three radii; all zeros if the number is a refusal's.
#[repr(C)]
#[derive(Clone, Copy, Debug, PartialEq)]
pub struct globe_axes {
    pub number: u32,
    pub line: u32,
    pub column: u32,
    pub a: f64,
    pub b: f64,
    pub c: f64,
}

/// Where a motor should stand on its ring; 0 if the number is a refusal's.
#[repr(C)]
#[derive(Clone, Copy, Debug, PartialEq, Eq)]
pub struct globe_position {
    pub number: u32,
    pub line: u32,
    pub column: u32,
    pub position: u32,
}

/// Where a motor should stand on its ring, and its way there; zeros if the number is a refusal's.
#[repr(C)]
#[derive(Clone, Copy, Debug, PartialEq, Eq)]
pub struct globe_motion {
    pub number: u32,
    pub line: u32,
    pub column: u32,
    pub target: u32,
    pub r#move: i32,
}

unsafe extern "C" {
    pub safe fn globe_pool_words() -> usize;
    pub fn globe_make_empty(pool: *mut u64, words: usize) -> globe_reply;
    pub fn globe_load(
        pool: *mut u64,
        words: usize,
        label: u32,
        text: *const u8,
        bytes: usize,
    ) -> globe_reply;
    pub fn globe_open(pool: *mut u64, words: usize, label: u32) -> globe_reply;
    pub fn globe_feed(pool: *mut u64, words: usize, part: *const u8, bytes: usize) -> globe_reply;
    pub fn globe_close(pool: *mut u64, words: usize) -> globe_reply;
    pub fn globe_drop(pool: *mut u64, words: usize) -> globe_reply;
    pub fn globe_remove(pool: *mut u64, words: usize, label: u32) -> globe_reply;
    pub fn globe_clear(pool: *mut u64, words: usize) -> globe_reply;
    pub fn globe_fetch(
        pool: *const u64,
        words: usize,
        name: *const u8,
        name_bytes: usize,
        buffer: *mut f64,
        room: usize,
    ) -> globe_fetched;
    pub fn globe_fetch_string(
        pool: *const u64,
        words: usize,
        name: *const u8,
        name_bytes: usize,
        place: usize,
        buffer: *mut u8,
        room: usize,
    ) -> globe_fetched;
    pub fn globe_totals(pool: *const u64, words: usize) -> globe_counts;
    pub fn globe_orientation(
        pool: *const u64,
        words: usize,
        body: u32,
        epoch: f64,
    ) -> globe_oriented;
    pub safe fn globe_builtin_orientation(body: u32, epoch: f64) -> globe_oriented;
    pub fn globe_radii(pool: *const u64, words: usize, body: u32) -> globe_axes;
    pub safe fn globe_builtin_radii(body: u32) -> globe_axes;
    pub fn globe_drive_position(
        pool: *const u64,
        words: usize,
        body: u32,
        epoch: f64,
        ring: u32,
    ) -> globe_position;
    pub safe fn globe_drive_builtin_position(body: u32, epoch: f64, ring: u32) -> globe_position;
    pub fn globe_drive_move(
        pool: *const u64,
        words: usize,
        body: u32,
        epoch: f64,
        ring: u32,
        present: u32,
    ) -> globe_motion;
    pub safe fn globe_drive_builtin_move(
        body: u32,
        epoch: f64,
        ring: u32,
        present: u32,
    ) -> globe_motion;
}
