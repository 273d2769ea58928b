//! Builds fonts, sound ones and ones to be damaged.

/// A repeatable generator of random numbers (xorshift).
pub struct Random(pub u64);

impl Random {
    pub fn below(&mut self, n: usize) -> usize {
        self.0 ^= self.0 << 13;
        self.0 ^= self.0 >> 7;
        self.0 ^= self.0 << 17;
        ((self.0 >> 11) % n as u64) as usize
    }

    pub fn of<T: Copy>(&mut self, some: &[T]) -> T {
        some[self.below(some.len())]
    }

    pub fn byte(&mut self) -> u8 {
        self.below(256) as u8
    }
}

/// A description: singles and sequences.
#[derive(Clone, Default)]
pub struct Text {
    pub singles: Vec<u32>,
    pub sequences: Vec<Vec<u32>>,
}

pub fn text(singles: &[u32], sequences: &[&[u32]]) -> Text {
    Text { singles: singles.to_vec(), sequences: sequences.iter().map(|s| s.to_vec()).collect() }
}

/// UTF-8 of a value by arithmetic, ill-formed values too.
pub fn utf8(v: u32) -> Vec<u8> {
    let low = |shift: u32| 0x80 | (v >> shift & 0x3F) as u8;
    match v {
        0..=0x7F => vec![v as u8],
        0x80..=0x7FF => vec![0xC0 | (v >> 6) as u8, low(0)],
        0x800..=0xFFFF => vec![0xE0 | (v >> 12) as u8, low(6), low(0)],
        _ => vec![0xF0 | (v >> 18) as u8, low(12), low(6), low(0)],
    }
}

fn unit(v: u32) -> Vec<u8> {
    (v as u16).to_le_bytes().to_vec()
}

fn coded(texts: &[Text], value: fn(u32) -> Vec<u8>, start: &[u8], end: &[u8]) -> Vec<u8> {
    let mut bytes = Vec::new();
    for t in texts {
        bytes.extend(t.singles.iter().flat_map(|&v| value(v)));
        for s in &t.sequences {
            bytes.extend_from_slice(start);
            bytes.extend(s.iter().flat_map(|&v| value(v)));
        }
        bytes.extend_from_slice(end);
    }
    bytes
}

/// A table in UTF-8.
pub fn table(texts: &[Text]) -> Vec<u8> {
    coded(texts, utf8, &[0xFE], &[0xFF])
}

/// A table of PSF1.
pub fn units(texts: &[Text]) -> Vec<u8> {
    coded(texts, unit, &[0xFE, 0xFF], &[0xFF, 0xFF])
}

/// These descriptions at the given glyphs of n, the others empty.
pub fn spread(n: usize, some: &[(usize, Text)]) -> Vec<Text> {
    let mut texts = vec![Text::default(); n];
    for (g, t) in some {
        texts[*g] = t.clone();
    }
    texts
}

pub fn u32s(numbers: &[u32]) -> Vec<u8> {
    numbers.iter().flat_map(|n| n.to_le_bytes()).collect()
}

/// A byte pattern that differs from row to row.
pub fn pattern(length: usize) -> Vec<u8> {
    (0..length).map(|i| (i * 37 + 0xA5) as u8).collect()
}

pub const PSF2: [u8; 4] = [0x72, 0xB5, 0x4A, 0x86];
pub const VFONT2: [u8; 4] = [0x27, 0x5B, 0xA4, 0x68];

/// Bytes of a bitmap.
pub fn area(height: usize, width: usize) -> usize {
    height * ((width + 7) / 8)
}

/// A PSF1 font with bitmaps of one byte value.
pub fn psf1(mode: u8, size: u8, bitmap: u8, table: &[u8]) -> Vec<u8> {
    let n = if mode & 1 == 1 { 512 } else { 256 };
    let mut file = vec![0x36, 0x04, mode, size];
    file.resize(4 + n * size as usize, bitmap);
    file.extend_from_slice(table);
    file
}

/// Whether a PSF1 font of a mode has a table: bit 1 or bit 2 is set.
pub fn mode_has_table(mode: u8) -> bool {
    mode & 6 != 0
}

/// A PSF2 font with header size 32.
pub fn psf2(
    n: usize,
    height: usize,
    width: usize,
    bitmaps: &[u8],
    table: Option<&[u8]>,
) -> Vec<u8> {
    psf2_wide(32, n, height, width, bitmaps, table)
}

/// A PSF2 font whose header has extra bytes.
pub fn psf2_wide(
    header: usize,
    n: usize,
    height: usize,
    width: usize,
    bitmaps: &[u8],
    table: Option<&[u8]>,
) -> Vec<u8> {
    let mut file = PSF2.to_vec();
    let c = area(height, width);
    let numbers = [0, header, table.is_some() as usize, n, c, height, width];
    file.extend(u32s(&numbers.map(|n| n as u32)));
    file.resize(header.max(32), 0xEE);
    file.extend_from_slice(bitmaps);
    file.extend_from_slice(table.unwrap_or(&[]));
    file
}

/// Address, size; up, down, left, right, logical width.
pub type Entry = (u32, u32, [i16; 5]);

/// An entry whose size fits its metrics, with the sum left + right as logical
/// width.
pub fn entry(address: usize, up: i16, down: i16, left: i16, right: i16) -> Entry {
    let height = up as i64 + down as i64;
    let width = left as i64 + right as i64;
    let size = height * ((width + 7) / 8);
    (address as u32, size as u32, [up, down, left, right, width as i16])
}

/// An entry without a glyph.
pub const NONE: Entry = (0, 0, [0; 5]);

pub fn entry_bytes(e: &Entry) -> Vec<u8> {
    let mut bytes = u32s(&[e.0, e.1]);
    bytes.extend(e.2.iter().flat_map(|m| m.to_le_bytes()));
    bytes
}

/// A vfont2 font whose greatest height and width are worked out from its entries,
/// but at most 255, so that a sum above is the entry's fault.
pub fn vfont2(header: usize, entries: &[Entry], bitmaps: &[u8], table: Option<&[u8]>) -> Vec<u8> {
    let drawn = || entries.iter().filter(|e| e.1 != 0).map(|e| e.2.map(|m| m as i64));
    let height = drawn().map(|m| m[0] + m[1]).max().unwrap_or(0).min(255);
    let width = drawn().map(|m| m[2] + m[3]).max().unwrap_or(0).min(255);
    let mut file = VFONT2.to_vec();
    let flags = table.is_some() as u32;
    file.extend(u32s(&[0, header as u32, flags, entries.len() as u32, bitmaps.len() as u32]));
    file.extend(u32s(&[height as u32, width as u32]));
    file.resize(header.max(32), 0xEE);
    file.extend(entries.iter().flat_map(entry_bytes));
    file.extend_from_slice(bitmaps);
    file.extend_from_slice(table.unwrap_or(&[]));
    file
}

/// The font of 45 bytes.
pub fn worked() -> Vec<u8> {
    let texts = [text(&[0x41], &[]), text(&[0xC5], &[&[0x41, 0x30A]])];
    let file = psf2(2, 2, 3, &[0xA0, 0x40, 0xE0, 0x20], Some(&table(&texts)));
    assert_eq!(file.len(), 45);
    file
}

/// The same as vfont2, 81 bytes.
pub fn worked_vfont2() -> Vec<u8> {
    let mut out = vec![0; 81];
    second::psf2_to_vfont2(&worked(), &mut out).unwrap();
    out
}

/// Values at the edges of codings and of the questions.
pub const EDGES: [u32; 20] = [
    0, 1, 0x41, 0x7F, 0x80, 0xFE, 0xFF, 0x7FF, 0x800, 0xD7FF, 0xE000, 0xFDCF, 0xFDF0, 0xFEFF,
    0xFFFC, 0xFFFD, 0x10000, 0x1F600, 0x1FFFD, 0x10FFFD,
];

/// The noncharacters, all 66.
pub fn noncharacters() -> Vec<u32> {
    let last_two = |plane: u32| [plane << 16 | 0xFFFE, plane << 16 | 0xFFFF];
    (0xFDD0..=0xFDEF).chain((0..=16).flat_map(last_two)).collect()
}

/// The values that have a noncharacter beside them.
pub fn neighbours() -> Vec<u32> {
    let planes = (0..=16).flat_map(|plane| [plane << 16 | 0xFFFD, (plane + 1) << 16]);
    [0xFDCF, 0xFDF0].into_iter().chain(planes).filter(|&v| v <= 0x10FFFF).collect()
}

fn random_value(random: &mut Random, units: bool) -> u32 {
    let v = match random.below(3) {
        0 => random.of(&EDGES),
        1 => 0x41 + random.below(6) as u32,
        _ => random.below(0x3000) as u32,
    };
    if units {
        random.of(&[v, v, v, 0xD800, 0xDFFF, 0xDEAD]).min(0xFFFD)
    } else {
        v
    }
}

pub fn random_text(random: &mut Random, units: bool) -> Text {
    let singles = (0..random.below(4)).map(|_| random_value(random, units)).collect();
    let count = random.of(&[0, 0, 1, 2]);
    let mut sequences: Vec<Vec<u32>> = Vec::new();
    for _ in 0..count {
        let length = 1 + random.below(3);
        sequences.push((0..length).map(|_| random_value(random, units)).collect());
    }
    Text { singles, sequences }
}

fn random_bytes(random: &mut Random, count: usize) -> Vec<u8> {
    (0..count).map(|_| random.byte()).collect()
}

/// A sound font: PSF1 with a few descriptions, the others empty.
pub fn random_psf1(random: &mut Random) -> Vec<u8> {
    let mode = random.of(&[0, 1, 2, 2, 2, 3, 3, 4, 5]);
    let n = if mode & 1 == 1 { 512 } else { 256 };
    let mut texts = vec![Text::default(); n];
    for _ in 0..random.below(8) {
        let g = random.of(&[0, 1, 2, 254, 255, n - 2, n - 1, 77]);
        texts[g] = random_text(random, true);
    }
    let table = if mode_has_table(mode) { units(&texts) } else { Vec::new() };
    let size = 1 + random.below(3) as u8;
    let bitmap = random.byte();
    let mut file = psf1(mode, size, bitmap, &table);
    for _ in 0..6 {
        let at = 4 + random.below(n * size as usize);
        file[at] = random.byte();
    }
    file
}

/// A sound PSF2 font of a few glyphs.
pub fn random_psf2(random: &mut Random) -> Vec<u8> {
    let n = 1 + random.below(6);
    let (height, width) = (1 + random.below(4), random.of(&[1, 3, 7, 8, 9, 15, 16, 17, 20]));
    let header = random.of(&[32, 32, 32, 33, 40]);
    let bitmaps = random_bytes(random, n * area(height, width));
    let texts: Vec<Text> = (0..n).map(|_| random_text(random, false)).collect();
    let table = table(&texts);
    let with = random.below(4) != 0;
    psf2_wide(header, n, height, width, &bitmaps, with.then_some(&table[..]))
}

/// A sound vfont2 font of a few entries.
pub fn random_vfont2(random: &mut Random) -> Vec<u8> {
    let n = 1 + random.below(6);
    let header = random.of(&[32, 32, 32, 35, 50]);
    let alike = random.below(3) == 0;
    let (height, width) = (1 + random.below(5) as i16, 1 + random.below(20) as i16);
    let mut entries = Vec::new();
    let mut total = 0;
    for _ in 0..n {
        if alike {
            entries.push(entry(total, height, 0, 0, width));
        } else if random.below(5) == 0 {
            let free = random.below(70_000) as u32;
            entries.push((free, 0, [random.below(9) as i16 - 4, 3, -3, 4, 5]));
            continue;
        } else {
            let (up, left) = (random.below(20) as i16 - 10, random.below(30) as i16 - 15);
            let height = 1 + random.below(4) as i16;
            let width = random.of(&[1, 7, 8, 9, 16, 17]);
            let mut e = entry(total, up, height - up, left, width - left);
            e.2[4] = random.below(100) as i16 - 50;
            entries.push(e);
        }
        let size = entries.last().unwrap().1 as usize;
        if total > size && random.below(4) == 0 {
            // share bytes with the glyphs before
            entries.last_mut().unwrap().0 = random.below(total - size) as u32;
        } else {
            total += size + random.of(&[0, 0, 0, 1, 3]);
        }
    }
    let rest = random.of(&[0, 0, 2]);
    let bitmaps = random_bytes(random, total + rest);
    let texts: Vec<Text> = (0..n).map(|_| random_text(random, false)).collect();
    let table = table(&texts);
    let with = random.below(4) != 0;
    vfont2(header, &entries, &bitmaps, with.then_some(&table[..]))
}

/// A file with one byte changed.
pub fn with(file: &[u8], at: usize, byte: u8) -> Vec<u8> {
    let mut file = file.to_vec();
    file[at] = byte;
    file
}

/// A named file.
pub type Named = (&'static str, Vec<u8>);

/// Fonts for refusals 2 to 12, made of a sound one of each kind with a table: `size` is one
/// for HEADER SIZE, `entries` those for ENTRY; the vfont2 font's table is cut at `end`, and
/// bad with `bad`'s byte at `bad`'s offset.
pub fn refused(
    [base1, base2, base3]: [&[u8]; 3],
    size: Named,
    entries: &[Named],
    end: usize,
    bad: (usize, u8),
) -> Vec<Named> {
    let cut = |file: &[u8], length: usize| file[..length].to_vec();
    let more = |file: &[u8]| [file, &[0]].concat();
    let mut fonts = vec![
        ("KIND", vec![0; 50]),
        ("KIND, no byte at all", vec![]),
        ("HEADER CUT psf1", cut(base1, 3)),
        ("HEADER CUT psf2", cut(base2, 31)),
        ("HEADER CUT vfont2", cut(base3, 31)),
        ("VERSION psf1", with(base1, 2, 6)),
        ("VERSION psf2", with(base2, 4, 1)),
        ("VERSION vfont2", with(base3, 12, 2)),
        size,
        ("COUNT vfont2", with(base3, 16, 0)),
        ("SHAPE psf1", with(base1, 3, 0)),
        ("SHAPE psf2", with(base2, 20, 3)),
        ("SHAPE vfont2", with(base3, 25, 1)),
        ("BODY CUT psf1", cut(base1, 100)),
        ("BODY CUT psf2", cut(base2, 35)),
        ("BODY CUT vfont2", cut(base3, 71)),
    ];
    fonts.extend_from_slice(entries);
    fonts.extend([
        ("TABLE CUT psf1", cut(base1, 600)),
        ("TABLE CUT psf2", cut(base2, 44)),
        ("TABLE CUT vfont2", cut(base3, end)),
        ("TABLE BAD psf2", with(base2, 36, 0x80)),
        ("TABLE BAD vfont2", with(base3, bad.0, bad.1)),
        ("TRAILING psf1", more(base1)),
        ("TRAILING psf2", more(base2)),
        ("TRAILING vfont2", more(base3)),
    ]);
    fonts
}
