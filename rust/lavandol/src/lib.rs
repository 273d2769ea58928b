//! Bitmap fonts in the formats PSF1, PSF2 and vfont2, read from a slice: a safe
//! wrapper over the proved library `lavandol`. A call answers, or gives one
//! refusal with its place and, where it is one glyph's, that glyph. Nothing is
//! allocated, and `std` is not needed.
//!
//! ```
//! # let file = lavandol::SMALL;
//! let font = lavandol::check(file)?;
//! let g = lavandol::find_value(file, 0xC5)?;
//! assert_eq!((font.count, g), (2, 1));
//! assert_eq!(lavandol::glyph(file, g)?, [0xE0, 0x20]);
//! assert_eq!(lavandol::metrics(file, g)?.logical, 3);
//! let refusal = lavandol::find_value(file, 0x42).unwrap_err();
//! assert_eq!(refusal.reason, lavandol::Reason::Unmapped);
//! assert_eq!(refusal.to_string(), "question: no glyph lists it (refusal 15)");
//! let cut = lavandol::check(&file[..44]).unwrap_err();
//! assert_eq!((cut.reason, cut.place, cut.glyph), (lavandol::Reason::TableCut, 44, Some(1)));
//! # Ok::<(), lavandol::Refusal>(())
//! ```
#![no_std]

use core::ops::Range;

mod boundary;
mod differences;
mod loader;
mod refusal;
use boundary::*;
pub use differences::{differences, Difference, Differences, NotCompared, Which};
pub use loader::Loader;
pub use refusal::{Reason, Refusal};

#[derive(Debug, Clone, Copy, PartialEq, Eq)]
pub enum Kind {
    Psf1,
    Psf2,
    Vfont2,
}

/// What a sound font's header says. Offsets are in the file.
#[derive(Debug, Clone, Copy, PartialEq, Eq)]
pub struct Font {
    pub kind: Kind,
    pub count: usize,
    /// The greatest height and width of a glyph.
    pub height: usize,
    pub width: usize,
    /// Whether the font has a Unicode table. PSF1: where bit 1 or bit 2 of the mode is set,
    /// modes 2 to 5.
    pub table: bool,
    /// Where the dispatch table begins (vfont2), else the bitmaps.
    pub entries: usize,
    pub bitmaps: usize,
    /// Bytes per glyph (PSF1, PSF2) or of all bitmaps (vfont2).
    pub size: usize,
    /// Where the bitmaps end and the Unicode table begins.
    pub end: usize,
}

/// A glyph's metrics, in pixels. Each may be negative; up + down and left + right are its
/// bitmap's height and width, 1 to 255.
#[derive(Debug, Clone, Copy, PartialEq, Eq)]
pub struct Metrics {
    /// Rows above the baseline point and below it.
    pub up: i32,
    pub down: i32,
    /// Columns left of the baseline point and right of it.
    pub left: i32,
    pub right: i32,
    /// From this glyph's baseline point to the next one's.
    pub logical: i32,
}

/// An item of a glyph's description.
#[derive(Debug, Clone, Copy, PartialEq, Eq)]
pub enum Item {
    Single(u32),
    Start,
    Value(u32),
    End,
}

fn unless_refused<T>(r: LavRefusal, answer: T) -> Result<T, Refusal> {
    match r.number {
        0 => Ok(answer),
        number => Err(Refusal {
            reason: Reason::of(number),
            place: r.place as usize,
            glyph: Refusal::glyph_of(r.glyph as usize),
        }),
    }
}

/// What a check of a font answers.
fn font(f: LavFont) -> Result<Font, Refusal> {
    let kind = match f.kind {
        1 => Kind::Psf1,
        2 => Kind::Psf2,
        _ => Kind::Vfont2,
    };
    let font = Font {
        kind,
        count: f.count,
        height: f.height,
        width: f.width,
        table: f.table != 0,
        entries: f.entries,
        bitmaps: f.bitmaps,
        size: f.size,
        end: f.end,
    };
    unless_refused(f.refusal, font)
}

/// A part's end is no greater than the file's length, so the sum can't overflow.
fn part(p: LavPart) -> Result<Range<usize>, Refusal> {
    unless_refused(p.refusal, p.offset..p.offset + p.length)
}

fn number(n: LavNumber) -> Result<usize, Refusal> {
    unless_refused(n.refusal, n.number)
}

/// Checks a font. Refusals: 1 to 12, in their order.
pub fn check(file: &[u8]) -> Result<Font, Refusal> {
    // SAFETY (here and below): the library reads the slices it is lent, writes to
    // none but a conversion's `out` and an edit's `buffer`, within their lengths and
    // during the call only, and asks nothing of its arguments.
    font(unsafe { lav_check(file.as_ptr(), file.len()) })
}

/// Where glyph g's bytes stand in the file. Refusals: 1 to 12, ASK, NO GLYPH.
pub fn glyph_part(file: &[u8], g: usize) -> Result<Range<usize>, Refusal> {
    part(unsafe { lav_glyph(file.as_ptr(), file.len(), g) })
}

/// Glyph g's bytes. Refusals: as `glyph_part`.
pub fn glyph(file: &[u8], g: usize) -> Result<&[u8], Refusal> {
    Ok(&file[glyph_part(file, g)?])
}

/// Where row y of glyph g stands. Refusals: 1 to 12, ASK for the glyph, NO GLYPH,
/// ASK for the row.
pub fn row_part(file: &[u8], g: usize, y: usize) -> Result<Range<usize>, Refusal> {
    part(unsafe { lav_row(file.as_ptr(), file.len(), g, y) })
}

/// The bytes of row y of glyph g. Refusals: as `row_part`.
pub fn row(file: &[u8], g: usize, y: usize) -> Result<&[u8], Refusal> {
    Ok(&file[row_part(file, g, y)?])
}

/// Whether the pixel of row y and column x of glyph g is drawn. Refusals: as
/// `row_part`, and ASK for the column.
pub fn pixel(file: &[u8], g: usize, y: usize, x: usize) -> Result<bool, Refusal> {
    let bit = number(unsafe { lav_pixel(file.as_ptr(), file.len(), g, y, x) })?;
    Ok(bit == 1)
}

/// The metrics of glyph g: a vfont2 entry's own; (height, 0, 0, width, width) in PSF1 and
/// PSF2. Refusals: 1 to 12, ASK, NO GLYPH.
pub fn metrics(file: &[u8], g: usize) -> Result<Metrics, Refusal> {
    let m = unsafe { lav_metrics(file.as_ptr(), file.len(), g) };
    let LavMetrics { refusal, up, down, left, right, logical } = m;
    unless_refused(refusal, Metrics { up, down, left, right, logical })
}

/// Item k of glyph g's description, in the order of the file; the end mark comes
/// last. Each call checks the font and goes to the item from the table's start, so a
/// walk over all items takes time quadratic in the table's length. Refusals: 1 to 12,
/// NO TABLE, ASK.
pub fn item(file: &[u8], g: usize, k: usize) -> Result<Item, Refusal> {
    let i = unsafe { lav_item(file.as_ptr(), file.len(), g, k) };
    let item = match i.kind {
        1 => Item::Single(i.value),
        2 => Item::Start,
        3 => Item::Value(i.value),
        _ => Item::End,
    };
    unless_refused(i.refusal, item)
}

/// The lowest glyph that lists v as a single. Refusals: 1 to 12, NO TABLE, ASK,
/// UNMAPPED.
pub fn find_value(file: &[u8], v: u32) -> Result<usize, Refusal> {
    number(unsafe { lav_find_value(file.as_ptr(), file.len(), v) })
}

/// The lowest glyph that lists the sequence. Refusals: 1 to 12, NO TABLE, ASK,
/// UNMAPPED.
pub fn find_sequence(file: &[u8], values: &[u32]) -> Result<usize, Refusal> {
    number(unsafe { lav_find_sequence(file.as_ptr(), file.len(), values.as_ptr(), values.len()) })
}

/// PSF1 to PSF2, to the front of `out`: how many bytes were written. A refused call
/// leaves `out` as it was; ROOM's place is the size needed. Refusals: 1 to 12, WRONG KIND,
/// VALUE, SIZE, ROOM.
pub fn psf1_to_psf2(file: &[u8], out: &mut [u8]) -> Result<usize, Refusal> {
    number(unsafe { lav_psf1_to_psf2(file.as_ptr(), file.len(), out.as_mut_ptr(), out.len()) })
}

/// PSF2 to PSF1, to the front of `out`: how many bytes were written. A refused call
/// leaves `out` as it was; ROOM's place is the size needed. Refusals: 1 to 12, WRONG KIND,
/// GLYPHS, VALUE, SIZE, ROOM. The mode written is 0 to 3: a PSF1 file of mode 4 or 5 comes
/// back from PSF2 as mode 2 or 3, with its other bytes as they were.
pub fn psf2_to_psf1(file: &[u8], out: &mut [u8]) -> Result<usize, Refusal> {
    number(unsafe { lav_psf2_to_psf1(file.as_ptr(), file.len(), out.as_mut_ptr(), out.len()) })
}

/// PSF2 to vfont2, to the front of `out`: how many bytes were written. A refused call
/// leaves `out` as it was; ROOM's place is the size needed. Refusals: 1 to 12, WRONG KIND,
/// SIZE, ROOM.
pub fn psf2_to_vfont2(file: &[u8], out: &mut [u8]) -> Result<usize, Refusal> {
    number(unsafe { lav_psf2_to_vfont2(file.as_ptr(), file.len(), out.as_mut_ptr(), out.len()) })
}

/// vfont2 to PSF2, to the front of `out`: how many bytes were written. A refused call
/// leaves `out` as it was; ROOM's place is the size needed. Refusals: 1 to 12, WRONG KIND,
/// GLYPHS, SIZE, ROOM.
pub fn vfont2_to_psf2(file: &[u8], out: &mut [u8]) -> Result<usize, Refusal> {
    number(unsafe { lav_vfont2_to_psf2(file.as_ptr(), file.len(), out.as_mut_ptr(), out.len()) })
}

/// Adds v to glyph g of the PSF2 font in the first `len` bytes of `buffer`, as its last
/// single: the font's new length. The font is changed in place; its header, its bitmaps, every
/// other item of every description and the bytes behind the font as it is then stay. A refused
/// call leaves `buffer` as it was; ROOM's place is the size needed. Refusals: ASK for a `len`
/// above the buffer's, 1 to 12, WRONG KIND, NO TABLE, ASK for the glyph and for a value above
/// 10FFFF, a surrogate or a noncharacter, HAVE, SIZE, ROOM.
///
/// ```
/// # let (file, mut buffer) = (lavandol::SMALL, [0; 64]);
/// buffer[..file.len()].copy_from_slice(file);
/// let len = lavandol::add_mapping(&mut buffer, file.len(), 1, 0x212B)?;
/// assert_eq!(lavandol::find_value(&buffer[..len], 0x212B), Ok(1));
/// assert_eq!(lavandol::drop_mapping(&mut buffer, len, 1, 0x212B)?, file.len());
/// assert_eq!(&buffer[..file.len()], file);
/// # Ok::<(), lavandol::Refusal>(())
/// ```
pub fn add_mapping(buffer: &mut [u8], len: usize, g: usize, v: u32) -> Result<usize, Refusal> {
    number(unsafe { lav_add_mapping(buffer.as_mut_ptr(), buffer.len(), len, g, v) })
}

/// Drops the first listing of v as a single of glyph g, in the PSF2 font in the first `len`
/// bytes of `buffer`: the font's new length. The font is changed in place, and the bytes that
/// are freed become 0; all else stays, as in `add_mapping`. A refused call leaves `buffer` as
/// it was. Refusals: ASK for a `len` above the buffer's, 1 to 12, WRONG KIND, NO TABLE, ASK for
/// the glyph and for a value above 10FFFF or a surrogate, NOT THERE (also for a noncharacter).
pub fn drop_mapping(buffer: &mut [u8], len: usize, g: usize, v: u32) -> Result<usize, Refusal> {
    number(unsafe { lav_drop_mapping(buffer.as_mut_ptr(), buffer.len(), len, g, v) })
}

/// A font of 45 bytes: glyph 0 lists A, glyph 1 lists Å and the sequence A, ring
/// above.
pub const SMALL: &[u8] = &[
    0x72, 0xB5, 0x4A, 0x86, 0, 0, 0, 0, 32, 0, 0, 0, 1, 0, 0, 0, 2, 0, 0, 0, 2, 0, 0, 0, 2, 0, 0,
    0, 3, 0, 0, 0, 0xA0, 0x40, 0xE0, 0x20, 0x41, 0xFF, 0xC3, 0x85, 0xFE, 0x41, 0xCC, 0x8A, 0xFF,
];
