//! What differs between two fonts of any kinds. From document 02, "What changed since
//! Friday?". Each font is turned into plain content, and the two contents are compared glyph
//! by glyph.

use crate::*;

/// A font's refusal, or ROOM, and which font it is of: 1 or 2, 0 for ROOM.
#[derive(Debug, Clone, Copy, PartialEq, Eq)]
pub struct NotCompared {
    pub font: u32,
    pub refusal: Refusal,
}

/// The kinds of pair.
pub const ONLY_IN_FIRST: u32 = 1;
pub const ONLY_IN_SECOND: u32 = 2;
pub const METRICS_DIFFER: u32 = 3;
pub const PIXELS_DIFFER: u32 = 4;
pub const ITEMS_DIFFER: u32 = 5;
pub const TABLE_DIFFERS: u32 = 6;

/// A glyph that is there: its metrics, and its pixels row by row, no filler among them.
#[derive(PartialEq)]
struct Drawn {
    metrics: [i64; 5],
    rows: Vec<Vec<bool>>,
}

/// What of a font counts.
struct Content {
    /// None where an entry has no glyph.
    glyphs: Vec<Option<Drawn>>,
    /// None in a font without a table.
    descriptions: Option<Vec<Vec<Item>>>,
}

fn metrics_of(font: &Font, g: usize) -> [i64; 5] {
    match font.entries.get(g) {
        Some(e) => [e.up, e.down, e.left, e.right, e.logical_width],
        None => {
            let (height, width) = (font.height as i64, font.width as i64);
            [height, 0, 0, width, width]
        }
    }
}

fn content(file: &[u8]) -> Result<Content, Refusal> {
    let font = check(file)?;
    let drawn = |g: usize| {
        let b = ask::bitmap(&font, g)?;
        let bytes = &file[b.offset..b.offset + b.length()];
        let bit = |byte: u8, x: usize| byte & (0x80 >> x) != 0;
        let row = |row: &[u8]| (0..b.width).map(|x| bit(row[x / 8], x % 8)).collect();
        Some(Drawn {
            metrics: metrics_of(&font, g),
            rows: bytes.chunks(b.row_bytes()).map(row).collect(),
        })
    };
    let glyphs = (0..font.count).map(drawn).collect();
    let items = || font.reading.iter().map(|d| d.iter().map(|p| p.item).collect()).collect();
    Ok(Content { glyphs, descriptions: font.has_table.then(items) })
}

/// All pairs of kind and glyph, in their order.
fn pairs(first: &Content, second: &Content) -> Vec<(u32, usize)> {
    let mut pairs = Vec::new();
    if first.descriptions.is_some() != second.descriptions.is_some() {
        pairs.push((TABLE_DIFFERS, 0));
    }
    for g in 0..first.glyphs.len().max(second.glyphs.len()) {
        match (first.glyphs.get(g), second.glyphs.get(g)) {
            (_, None) => pairs.push((ONLY_IN_FIRST, g)),
            (None, _) => pairs.push((ONLY_IN_SECOND, g)),
            (Some(a), Some(b)) => {
                if a.as_ref().map(|d| d.metrics) != b.as_ref().map(|d| d.metrics) {
                    pairs.push((METRICS_DIFFER, g));
                } else if a != b {
                    pairs.push((PIXELS_DIFFER, g));
                }
                if let (Some(a), Some(b)) = (&first.descriptions, &second.descriptions) {
                    if a[g] != b[g] {
                        pairs.push((ITEMS_DIFFER, g));
                    }
                }
            }
        }
    }
    pairs
}

/// Writes the pairs to the buffer's front, two numbers each, and gives how many there are.
/// Refusals: the first font's, the second's, ROOM with the count of numbers. A refused call
/// leaves the buffer untouched.
pub fn differences(first: &[u8], second: &[u8], out: &mut [u32]) -> Result<usize, NotCompared> {
    let of = |font| move |refusal| NotCompared { font, refusal };
    let (a, b) = (content(first).map_err(of(1))?, content(second).map_err(of(2))?);
    let pairs = pairs(&a, &b);
    let numbers: Vec<u32> = pairs.iter().flat_map(|&(kind, g)| [kind, g as u32]).collect();
    if out.len() < numbers.len() {
        return refuse(ROOM, numbers.len()).map_err(of(0));
    }
    out[..numbers.len()].copy_from_slice(&numbers);
    Ok(pairs.len())
}
