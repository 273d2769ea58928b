//! Questions on a font. Each gives the font's own refusal first.

use crate::table::{sequences, singles, Placed};
use crate::*;

/// The bitmap of one glyph: where it stands and its own height and width.
pub(crate) struct Bitmap {
    pub offset: usize,
    pub height: usize,
    pub width: usize,
}

impl Bitmap {
    pub fn row_bytes(&self) -> usize {
        self.width.div_ceil(8)
    }

    pub fn length(&self) -> usize {
        self.height * self.row_bytes()
    }
}

/// The bitmap of glyph g, which must be below the count; none for an entry of
/// size 0.
pub(crate) fn bitmap(font: &Font, g: usize) -> Option<Bitmap> {
    match font.kind {
        Kind::Psf1 | Kind::Psf2 => {
            let mut b = Bitmap { offset: 0, height: font.height, width: font.width };
            b.offset = font.bitmaps_at + g * b.length();
            Some(b)
        }
        Kind::Vfont2 => {
            let entry = font.entries[g];
            entry.has_glyph().then(|| Bitmap {
                offset: font.bitmaps_at + entry.address as usize,
                height: entry.height() as usize,
                width: entry.width() as usize,
            })
        }
    }
}

/// ASK for the glyph, then NO GLYPH.
fn bitmap_of(file: &[u8], g: u64) -> Result<Bitmap, Refusal> {
    let font = check(file)?;
    if g >= font.count as u64 {
        return refuse(ASK, 0);
    }
    match bitmap(&font, g as usize) {
        Some(b) => Ok(b),
        None => refuse(NO_GLYPH, 0),
    }
}

/// Offset and length of a glyph's bytes. Refusals: 1 to 12, ASK, NO GLYPH.
pub fn glyph(file: &[u8], g: u64) -> Result<(usize, usize), Refusal> {
    let b = bitmap_of(file, g)?;
    Ok((b.offset, b.length()))
}

/// Offset and length of a row's bytes. Refusals: 1 to 12, ASK for the glyph,
/// NO GLYPH, ASK for the row.
pub fn row(file: &[u8], g: u64, row: u64) -> Result<(usize, usize), Refusal> {
    let b = bitmap_of(file, g)?;
    if row >= b.height as u64 {
        return refuse(ASK, 0);
    }
    Ok((b.offset + row as usize * b.row_bytes(), b.row_bytes()))
}

/// Whether a pixel is drawn. Refusals: as `row`, and ASK for the column.
pub fn pixel(file: &[u8], g: u64, row: u64, col: u64) -> Result<bool, Refusal> {
    let b = bitmap_of(file, g)?;
    if row >= b.height as u64 || col >= b.width as u64 {
        return refuse(ASK, 0);
    }
    let (row, col) = (row as usize, col as usize);
    let byte = file[b.offset + row * b.row_bytes() + col / 8];
    let bits: Vec<bool> = format!("{byte:08b}").chars().map(|c| c == '1').collect();
    Ok(bits[col % 8])
}

/// A glyph's metrics: up, down, left, right, logical width. Those of vfont2 are the
/// entry's own; a PSF1 or PSF2 glyph has all its rows above the line and its columns
/// right of the origin. Refusals: 1 to 12, ASK, NO GLYPH.
pub fn metrics(file: &[u8], g: u64) -> Result<[i32; 5], Refusal> {
    let font = check(file)?;
    if g >= font.count as u64 {
        return refuse(ASK, 0);
    }
    match font.kind {
        Kind::Psf1 | Kind::Psf2 => {
            let (height, width) = (font.height as i32, font.width as i32);
            Ok([height, 0, 0, width, width])
        }
        Kind::Vfont2 => {
            let e = font.entries[g as usize];
            if !e.has_glyph() {
                return refuse(NO_GLYPH, 0);
            }
            Ok([e.up, e.down, e.left, e.right, e.logical_width].map(|m| m as i32))
        }
    }
}

/// The font with its table, or NO TABLE.
fn with_table(file: &[u8]) -> Result<Font, Refusal> {
    let font = check(file)?;
    if !font.has_table {
        return refuse(NO_TABLE, 0);
    }
    Ok(font)
}

/// Item k of glyph g's description. Refusals: 1 to 12, NO TABLE, ASK.
pub fn walk(file: &[u8], g: u64, k: u64) -> Result<Item, Refusal> {
    let font = with_table(file)?;
    if g >= font.count as u64 || k >= font.reading[g as usize].len() as u64 {
        return refuse(ASK, 0);
    }
    Ok(font.reading[g as usize][k as usize].item)
}

/// The lowest glyph whose description is listed so, or UNMAPPED.
fn lowest(font: &Font, lists: impl Fn(&[Placed]) -> bool) -> Result<usize, Refusal> {
    match font.reading.iter().position(|d| lists(d)) {
        Some(g) => Ok(g),
        None => refuse(UNMAPPED, 0),
    }
}

/// The lowest glyph that lists v as a single. Refusals: 1 to 12, NO TABLE, ASK,
/// UNMAPPED.
pub fn find_value(file: &[u8], v: u32) -> Result<usize, Refusal> {
    let font = with_table(file)?;
    if v > 0x10FFFF {
        return refuse(ASK, 0);
    }
    lowest(&font, |d| singles(d).contains(&v))
}

/// The lowest glyph that lists the sequence. Refusals: 1 to 12, NO TABLE, ASK,
/// UNMAPPED.
pub fn find_sequence(file: &[u8], wanted: &[u32]) -> Result<usize, Refusal> {
    let font = with_table(file)?;
    if wanted.is_empty() || wanted.iter().any(|&v| v > 0x10FFFF) {
        return refuse(ASK, 0);
    }
    lowest(&font, |d| sequences(d).iter().any(|s| s == wanted))
}
