//! The checks on a font, in their order.

use crate::table::{ended, judge, read, Coding, Description, Verdict};
use crate::*;

#[derive(Debug, Clone, Copy, PartialEq, Eq)]
pub enum Kind {
    Psf1,
    Psf2,
    Vfont2,
}

impl Kind {
    pub fn name(self) -> &'static str {
        match self {
            Kind::Psf1 => "psf1",
            Kind::Psf2 => "psf2",
            Kind::Vfont2 => "vfont2",
        }
    }

    pub fn magic(self) -> &'static [u8] {
        match self {
            Kind::Psf1 => &[0x36, 0x04],
            Kind::Psf2 => &[0x72, 0xB5, 0x4A, 0x86],
            Kind::Vfont2 => &[0x27, 0x5B, 0xA4, 0x68],
        }
    }

    /// The header's length without extra bytes.
    pub fn header_length(self) -> usize {
        match self {
            Kind::Psf1 => 4,
            Kind::Psf2 | Kind::Vfont2 => 32,
        }
    }

    pub fn coding(self) -> Coding {
        match self {
            Kind::Psf1 => Coding::Units,
            Kind::Psf2 | Kind::Vfont2 => Coding::Utf8,
        }
    }
}

/// A vfont2 dispatch entry, its numbers as whole numbers.
#[derive(Debug, Clone, Copy, PartialEq, Eq)]
pub struct Entry {
    pub address: i64,
    pub size: i64,
    pub up: i64,
    pub down: i64,
    pub left: i64,
    pub right: i64,
    pub logical_width: i64,
}

/// A font that passed all checks.
#[derive(Debug, Clone, PartialEq, Eq)]
pub struct Font {
    pub kind: Kind,
    pub count: usize,
    /// Height and width; the greatest ones in vfont2.
    pub height: usize,
    pub width: usize,
    pub has_table: bool,
    /// Offset behind the header, extra bytes included.
    pub header_end: usize,
    /// Offset of the first bitmap byte.
    pub bitmaps_at: usize,
    /// Offset behind the bitmaps, of the table if there is one.
    pub table_at: usize,
    /// The dispatch entries of a vfont2 font, else none.
    pub entries: Vec<Entry>,
    /// The table's descriptions, glyph 0's first; none in a bare font.
    pub reading: Vec<Description>,
}

pub const ENTRY_LENGTH: usize = 18;

fn u32_at(bytes: &[u8], at: usize) -> i64 {
    u32::from_le_bytes([bytes[at], bytes[at + 1], bytes[at + 2], bytes[at + 3]]) as i64
}

fn i16_at(bytes: &[u8], at: usize) -> i64 {
    i16::from_le_bytes([bytes[at], bytes[at + 1]]) as i64
}

/// Bytes of a bitmap of this height and width.
pub(crate) fn bitmap_bytes(height: i64, width: i64) -> i64 {
    height * ((width + 7) / 8)
}

impl Entry {
    pub(crate) fn at(file: &[u8], at: usize) -> Entry {
        Entry {
            address: u32_at(file, at),
            size: u32_at(file, at + 4),
            up: i16_at(file, at + 8),
            down: i16_at(file, at + 10),
            left: i16_at(file, at + 12),
            right: i16_at(file, at + 14),
            logical_width: i16_at(file, at + 16),
        }
    }

    pub fn has_glyph(&self) -> bool {
        self.size != 0
    }

    pub fn height(&self) -> i64 {
        self.up + self.down
    }

    pub fn width(&self) -> i64 {
        self.left + self.right
    }

    /// Whether the entry keeps the rules in a font of this bitmap total.
    fn keeps_rules(&self, total: i64) -> bool {
        let side = 1..=255;
        !self.has_glyph()
            || (side.contains(&self.height())
                && side.contains(&self.width())
                && self.size == bitmap_bytes(self.height(), self.width())
                && self.address + self.size <= total)
    }
}

/// Checks a font: refusals 1 to 12, the first that applies.
pub fn check(file: &[u8]) -> Result<Font, Refusal> {
    if file.len() > LIMIT {
        return refuse(TOO_LONG, LIMIT);
    }
    let kinds = [Kind::Psf1, Kind::Psf2, Kind::Vfont2];
    let Some(kind) = kinds.into_iter().find(|k| file.starts_with(k.magic())) else {
        return refuse(KIND, 0);
    };
    if file.len() < kind.header_length() {
        return refuse(HEADER_CUT, file.len());
    }
    let mut font = match kind {
        Kind::Psf1 => psf1(file)?,
        Kind::Psf2 => psf2(file)?,
        Kind::Vfont2 => vfont2(file)?,
    };
    let tail = &file[font.table_at..];
    if !font.has_table {
        return if tail.is_empty() { Ok(font) } else { refuse(TRAILING, font.table_at) };
    }
    match judge(kind.coding(), font.count, tail) {
        Verdict::Cut => refuse_glyph(TABLE_CUT, file.len(), ended(kind.coding(), tail)),
        Verdict::Bad(at) => {
            refuse_glyph(TABLE_BAD, font.table_at + at, ended(kind.coding(), &tail[..at]))
        }
        Verdict::Trailing(at) => refuse(TRAILING, font.table_at + at),
        Verdict::Complete => {
            let reading = read(kind.coding(), font.count, tail);
            font.reading = reading.expect("a complete table has a reading");
            Ok(font)
        }
    }
}

/// PSF1 up to the bitmaps' end.
fn psf1(file: &[u8]) -> Result<Font, Refusal> {
    let (mode, size) = (file[2], file[3]);
    if mode > 5 {
        return refuse(VERSION, 2);
    }
    if size == 0 {
        return refuse(SHAPE, 3);
    }
    let count = if mode & 1 != 0 { 512 } else { 256 };
    // "A table is there when either bit is set": bit 1 or bit 2
    let has_table = mode & 0b010 != 0 || mode & 0b100 != 0;
    let font = Font {
        kind: Kind::Psf1,
        count,
        height: size as usize,
        width: 8,
        has_table,
        header_end: 4,
        bitmaps_at: 4,
        table_at: 4 + count * size as usize,
        entries: Vec::new(),
        reading: Vec::new(),
    };
    if file.len() < font.table_at {
        return refuse(BODY_CUT, file.len());
    }
    Ok(font)
}

/// VERSION, HEADER SIZE and COUNT, alike in PSF2 and vfont2: gives header size,
/// table flag and n.
fn common(file: &[u8]) -> Result<(i64, bool, i64), Refusal> {
    let (version, header, flags, n) =
        (u32_at(file, 4), u32_at(file, 8), u32_at(file, 12), u32_at(file, 16));
    if version != 0 {
        return refuse(VERSION, 4);
    }
    if flags > 1 {
        return refuse(VERSION, 12);
    }
    if !(32..=4096).contains(&header) {
        return refuse(HEADER_SIZE, 8);
    }
    if !(1..=4096).contains(&n) {
        return refuse(COUNT, 16);
    }
    Ok((header, flags == 1, n))
}

/// PSF2 up to the bitmaps' end.
fn psf2(file: &[u8]) -> Result<Font, Refusal> {
    let (header, has_table, n) = common(file)?;
    let (bytes, height, width) = (u32_at(file, 20), u32_at(file, 24), u32_at(file, 28));
    if !(1..=255).contains(&height) {
        return refuse(SHAPE, 24);
    }
    if !(1..=255).contains(&width) {
        return refuse(SHAPE, 28);
    }
    if bytes != bitmap_bytes(height, width) {
        return refuse(SHAPE, 20);
    }
    let table_at = header + n * bytes;
    if (file.len() as i64) < table_at {
        return refuse(BODY_CUT, file.len());
    }
    Ok(Font {
        kind: Kind::Psf2,
        count: n as usize,
        height: height as usize,
        width: width as usize,
        has_table,
        header_end: header as usize,
        bitmaps_at: header as usize,
        table_at: table_at as usize,
        entries: Vec::new(),
        reading: Vec::new(),
    })
}

/// vfont2 up to the bitmaps' end, with its entries.
fn vfont2(file: &[u8]) -> Result<Font, Refusal> {
    let (header, has_table, n) = common(file)?;
    let (total, height, width) = (u32_at(file, 20), u32_at(file, 24), u32_at(file, 28));
    if height > 255 {
        return refuse(SHAPE, 24);
    }
    if width > 255 {
        return refuse(SHAPE, 28);
    }
    let bitmaps_at = header + n * ENTRY_LENGTH as i64;
    let table_at = bitmaps_at + total;
    if (file.len() as i64) < table_at {
        return refuse(BODY_CUT, file.len());
    }
    let start = |i: usize| header as usize + i * ENTRY_LENGTH;
    let entries: Vec<Entry> = (0..n as usize).map(|i| Entry::at(file, start(i))).collect();
    if let Some(i) = entries.iter().position(|e| !e.keeps_rules(total)) {
        return refuse_glyph(ENTRY, start(i), i);
    }
    let drawn = || entries.iter().filter(|e| e.has_glyph());
    if height != drawn().map(Entry::height).max().unwrap_or(0) {
        return refuse(ENTRY, 24);
    }
    if width != drawn().map(Entry::width).max().unwrap_or(0) {
        return refuse(ENTRY, 28);
    }
    Ok(Font {
        kind: Kind::Vfont2,
        count: n as usize,
        height: height as usize,
        width: width as usize,
        has_table,
        header_end: header as usize,
        bitmaps_at: bitmaps_at as usize,
        table_at: table_at as usize,
        entries,
        reading: Vec::new(),
    })
}
