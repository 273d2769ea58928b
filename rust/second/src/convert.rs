//! The four conversions. Each gives the font's own refusal first, then 17 to 21
//! in order. A refused one leaves the buffer untouched.

use crate::ask::bitmap;
use crate::table::{Coding, Placed};
use crate::*;

/// The font, if it is of the wanted kind.
pub(crate) fn source(file: &[u8], kind: Kind) -> Result<Font, Refusal> {
    let font = check(file)?;
    if font.kind != kind {
        return refuse(WRONG_KIND, 0);
    }
    Ok(font)
}

/// VALUE at the first value, single or in a sequence, that the target can't hold, and the
/// glyph that lists it.
fn values_fit(font: &Font, fits: impl Fn(u32) -> bool) -> Result<(), Refusal> {
    for (g, description) in font.reading.iter().enumerate() {
        for placed in description {
            if let Item::Single(v) | Item::Value(v) = placed.item {
                if !fits(v) {
                    return refuse_glyph(VALUE, font.table_at + placed.at, g);
                }
            }
        }
    }
    Ok(())
}

/// Bytes of an item in a coding that can hold it.
fn item_bytes(coding: Coding, placed: &Placed) -> Vec<u8> {
    match coding {
        Coding::Units => {
            let unit = match placed.item {
                Item::Single(v) | Item::Value(v) => v as u16,
                Item::Start => 0xFFFE,
                Item::End => 0xFFFF,
            };
            unit.to_le_bytes().to_vec()
        }
        Coding::Utf8 => match placed.item {
            Item::Single(v) | Item::Value(v) => {
                let c = char::from_u32(v).expect("a value that UTF-8 can hold");
                c.to_string().into_bytes()
            }
            Item::Start => vec![0xFE],
            Item::End => vec![0xFF],
        },
    }
}

/// The whole table in a coding that can hold it; nothing for a bare font.
pub(crate) fn table_bytes(font: &Font, coding: Coding) -> Vec<u8> {
    font.reading.iter().flatten().flat_map(|p| item_bytes(coding, p)).collect()
}

/// The glyphs' bitmaps in their order, each of which must be there.
fn all_bitmaps(font: &Font, file: &[u8]) -> Vec<u8> {
    let mut bytes = Vec::new();
    for g in 0..font.count {
        let b = bitmap(font, g).expect("every glyph has a bitmap");
        bytes.extend_from_slice(&file[b.offset..b.offset + b.length()]);
    }
    bytes
}

/// A header of 32 bytes.
fn long_header(kind: Kind, font: &Font, bytes: usize) -> Vec<u8> {
    let mut header = kind.magic().to_vec();
    let flags = font.has_table as usize;
    for number in [0, 32, flags, font.count, bytes, font.height, font.width] {
        header.extend_from_slice(&(number as u32).to_le_bytes());
    }
    header
}

/// SIZE, ROOM, then the output at the buffer's front. `size` is worked out by
/// the paper's sum, `output` builds the bytes.
pub(crate) fn deliver(
    size: usize,
    out: &mut [u8],
    output: impl FnOnce() -> Vec<u8>,
) -> Result<usize, Refusal> {
    if size > LIMIT {
        return refuse(SIZE, 0);
    }
    if out.len() < size {
        return refuse(ROOM, size);
    }
    let bytes = output();
    assert_eq!(bytes.len(), size, "the output is as long as the paper says");
    out[..size].copy_from_slice(&bytes);
    Ok(size)
}

/// Bytes of a glyph in a font whose glyphs all have its height and width.
fn glyph_bytes(font: &Font) -> usize {
    font.height * font.width.div_ceil(8)
}

/// PSF1 to PSF2. VALUE at the first surrogate.
pub fn psf1_to_psf2(file: &[u8], out: &mut [u8]) -> Result<usize, Refusal> {
    let font = source(file, Kind::Psf1)?;
    values_fit(&font, |v| !(0xD800..=0xDFFF).contains(&v))?;
    let c = glyph_bytes(&font);
    let table = table_bytes(&font, Coding::Utf8);
    deliver(32 + font.count * c + table.len(), out, || {
        [long_header(Kind::Psf2, &font, c), all_bitmaps(&font, file), table].concat()
    })
}

/// PSF2 to PSF1. GLYPHS for the count, then the width; VALUE above FFFF.
pub fn psf2_to_psf1(file: &[u8], out: &mut [u8]) -> Result<usize, Refusal> {
    let font = source(file, Kind::Psf2)?;
    if font.count != 256 && font.count != 512 {
        return refuse(GLYPHS, 16);
    }
    if font.width != 8 {
        return refuse(GLYPHS, 28);
    }
    values_fit(&font, |v| v <= 0xFFFF)?;
    let c = glyph_bytes(&font);
    let table = table_bytes(&font, Coding::Units);
    deliver(4 + font.count * c + table.len(), out, || {
        let mode = if font.count == 512 { 1 } else { 0 } + if font.has_table { 2 } else { 0 };
        let header = vec![0x36, 0x04, mode, font.height as u8];
        [header, all_bitmaps(&font, file), table].concat()
    })
}

/// PSF2 to vfont2.
pub fn psf2_to_vfont2(file: &[u8], out: &mut [u8]) -> Result<usize, Refusal> {
    let font = source(file, Kind::Psf2)?;
    let (n, c) = (font.count, glyph_bytes(&font));
    let table = table_bytes(&font, Coding::Utf8);
    deliver(32 + 18 * n + n * c + table.len(), out, || {
        let mut entries = Vec::new();
        for i in 0..n {
            entries.extend_from_slice(&((i * c) as u32).to_le_bytes());
            entries.extend_from_slice(&(c as u32).to_le_bytes());
            // up, down, left, right, logical width
            for metric in [font.height, 0, 0, font.width, font.width] {
                entries.extend_from_slice(&(metric as i16).to_le_bytes());
            }
        }
        let header = long_header(Kind::Vfont2, &font, n * c);
        [header, entries, all_bitmaps(&font, file), table].concat()
    })
}

/// vfont2 to PSF2. GLYPHS at the first entry without glyph or with other metrics
/// than (greatest height, 0, 0, greatest width, greatest width).
pub fn vfont2_to_psf2(file: &[u8], out: &mut [u8]) -> Result<usize, Refusal> {
    let font = source(file, Kind::Vfont2)?;
    let (height, width) = (font.height as i64, font.width as i64);
    for (i, e) in font.entries.iter().enumerate() {
        let metrics = (e.up, e.down, e.left, e.right, e.logical_width);
        if !e.has_glyph() || metrics != (height, 0, 0, width, width) {
            return refuse_glyph(GLYPHS, font.header_end + 18 * i, i);
        }
    }
    let c = glyph_bytes(&font);
    let table = table_bytes(&font, Coding::Utf8);
    deliver(32 + font.count * c + table.len(), out, || {
        [long_header(Kind::Psf2, &font, c), all_bitmaps(&font, file), table].concat()
    })
}
