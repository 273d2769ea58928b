//! The functions of the static library, as include/lavandol.h declares them.

use core::mem::{offset_of, size_of};

/// A refusal, the first field of every answer; number 0 where the call is answered. The glyph
/// is `Refusal::GLYPH_NONE` where there is none to name.
#[repr(C)]
#[derive(Clone, Copy)]
pub struct LavRefusal {
    pub number: u32,
    pub glyph: u32,
    pub place: u64,
}

#[repr(C)]
pub struct LavFont {
    pub refusal: LavRefusal,
    pub kind: u32,
    pub count: usize,
    pub height: usize,
    pub width: usize,
    pub table: usize,
    pub entries: usize,
    pub bitmaps: usize,
    pub size: usize,
    pub end: usize,
}

#[repr(C)]
pub struct LavPart {
    pub refusal: LavRefusal,
    pub offset: usize,
    pub length: usize,
}

#[repr(C)]
pub struct LavMetrics {
    pub refusal: LavRefusal,
    pub up: i32,
    pub down: i32,
    pub left: i32,
    pub right: i32,
    pub logical: i32,
}

#[repr(C)]
pub struct LavItem {
    pub refusal: LavRefusal,
    pub kind: u32,
    pub value: u32,
}

#[repr(C)]
pub struct LavNumber {
    pub refusal: LavRefusal,
    pub number: usize,
}

#[repr(C)]
pub struct LavDifferences {
    pub refusal: LavRefusal,
    pub font: u32,
    pub count: usize,
}

/// The bytes of a header, an entry, a value or a mark that has not come whole.
#[repr(C)]
#[derive(Debug, Clone, PartialEq, Eq)]
pub struct LavHeld {
    pub len: usize,
    pub bytes: [u8; 32],
}

#[repr(C)]
#[derive(Debug, Clone, PartialEq, Eq)]
pub struct LavSums {
    pub broken: usize,
    pub height: usize,
    pub width: usize,
}

#[repr(C)]
#[derive(Debug, Clone, PartialEq, Eq)]
pub struct LavStanding {
    pub ended: usize,
    pub opened: usize,
    pub halted: usize,
    pub place: usize,
}

/// A loader's state; the library's own, and no field of it is read or set here.
#[repr(C)]
#[derive(Debug, Clone, PartialEq, Eq)]
pub struct LavLoader {
    pub total: usize,
    pub closed: usize,
    pub header: [u8; 32],
    pub held: LavHeld,
    pub sums: LavSums,
    pub standing: LavStanding,
}

/// A struct's size and where its fields stand.
macro_rules! laid_out {
    ($($kind:ty: $size:literal bytes, $($field:ident $at:literal),*;)*) => {
        const _: () = {
            $(assert!(size_of::<$kind>() == $size);
            $(assert!(offset_of!($kind, $field) == $at);)*)*
        };
    };
}

// What the header asserts too.
laid_out! {
    LavRefusal: 16 bytes, number 0, glyph 4, place 8;
    LavFont: 88 bytes, refusal 0, kind 16, count 24, height 32, width 40, table 48, entries 56,
        bitmaps 64, size 72, end 80;
    LavPart: 32 bytes, refusal 0, offset 16, length 24;
    LavMetrics: 40 bytes, refusal 0, up 16, down 20, left 24, right 28, logical 32;
    LavItem: 24 bytes, refusal 0, kind 16, value 20;
    LavNumber: 24 bytes, refusal 0, number 16;
    LavDifferences: 32 bytes, refusal 0, font 16, count 24;
    LavHeld: 40 bytes, len 0, bytes 8;
    LavSums: 24 bytes, broken 0, height 8, width 16;
    LavStanding: 32 bytes, ended 0, opened 8, halted 16, place 24;
    LavLoader: 144 bytes, total 0, closed 8, header 16, held 48, sums 88, standing 112;
}

extern "C" {
    pub fn lav_check(file: *const u8, len: usize) -> LavFont;
    pub fn lav_glyph(file: *const u8, len: usize, g: usize) -> LavPart;
    pub fn lav_row(file: *const u8, len: usize, g: usize, y: usize) -> LavPart;
    pub fn lav_pixel(file: *const u8, len: usize, g: usize, y: usize, x: usize) -> LavNumber;
    pub fn lav_metrics(file: *const u8, len: usize, g: usize) -> LavMetrics;
    pub fn lav_item(file: *const u8, len: usize, g: usize, k: usize) -> LavItem;
    pub fn lav_find_value(file: *const u8, len: usize, v: u32) -> LavNumber;
    pub fn lav_find_sequence(
        file: *const u8,
        len: usize,
        values: *const u32,
        count: usize,
    ) -> LavNumber;
    pub fn lav_psf1_to_psf2(file: *const u8, len: usize, out: *mut u8, room: usize) -> LavNumber;
    pub fn lav_psf2_to_psf1(file: *const u8, len: usize, out: *mut u8, room: usize) -> LavNumber;
    pub fn lav_psf2_to_vfont2(file: *const u8, len: usize, out: *mut u8, room: usize) -> LavNumber;
    pub fn lav_vfont2_to_psf2(file: *const u8, len: usize, out: *mut u8, room: usize) -> LavNumber;
    pub fn lav_add_mapping(buffer: *mut u8, room: usize, len: usize, g: usize, v: u32)
        -> LavNumber;
    pub fn lav_drop_mapping(
        buffer: *mut u8,
        room: usize,
        len: usize,
        g: usize,
        v: u32,
    ) -> LavNumber;
    pub fn lav_differences(
        first: *const u8,
        first_len: usize,
        second: *const u8,
        second_len: usize,
        pairs: *mut u32,
        room: usize,
    ) -> LavDifferences;
    pub fn lav_loader_fresh() -> LavLoader;
    pub fn lav_loader_feed(loader: *mut LavLoader, piece: *const u8, len: usize) -> LavRefusal;
    pub fn lav_loader_close(loader: *mut LavLoader) -> LavFont;
}
