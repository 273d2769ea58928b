//! The fonts compared: sound ones of all kinds, damaged ones, tables of boundary
//! bytes, headers and entries at their limits, large ones. All from fixed seeds.

use crate::make::*;

/// Numbers at the edges of the header's fields.
pub const FIELDS: [u32; 26] = [
    0, 1, 2, 3, 4, 5, 7, 8, 9, 31, 32, 33, 64, 254, 255, 256, 257, 512, 4095, 4096, 4097, 65536,
    0x7FFFFFFF, 0x80000000, 0xFFFFFFFE, 0xFFFFFFFF,
];

/// Bytes at the bounds of Table 3-7's ranges, at the bounds of noncharacters' last bytes, and
/// the marks.
pub const UTF8_EDGES: [u8; 32] = [
    0x00, 0x41, 0x7F, 0x80, 0x81, 0x8F, 0x90, 0x9F, 0xA0, 0xAF, 0xB7, 0xBD, 0xBE, 0xBF, 0xC0, 0xC1,
    0xC2, 0xDF, 0xE0, 0xE1, 0xEC, 0xED, 0xEE, 0xEF, 0xF0, 0xF1, 0xF3, 0xF4, 0xF5, 0xFD, 0xFE, 0xFF,
];

/// Bytes that matter in PSF1's table: of marks, of surrogates, of noncharacters, of others.
pub const UNIT_EDGES: [u8; 13] =
    [0x00, 0x41, 0xCF, 0xD0, 0xD7, 0xD8, 0xDB, 0xDF, 0xE0, 0xEF, 0xFD, 0xFE, 0xFF];

/// Metrics at the edges of an entry's.
const METRICS: [i16; 14] =
    [-32768, -32767, -32512, -255, -1, 0, 1, 2, 127, 128, 254, 255, 256, 32767];

fn put32(file: &mut [u8], at: usize, v: u32) {
    if at + 4 <= file.len() {
        file[at..at + 4].copy_from_slice(&v.to_le_bytes());
    }
}

/// One slip of a writer or of a wire.
fn damage(random: &mut Random, file: &mut Vec<u8>, tail: usize) {
    let length = file.len();
    if length == 0 {
        return;
    }
    let edge = if file[0] == 0x36 { random.of(&UNIT_EDGES) } else { random.of(&UTF8_EDGES) };
    let tail = tail.min(length - 1);
    let in_tail = tail + random.below(length - tail);
    match random.below(12) {
        0 => file[random.below(length)] = edge,
        1 => file.truncate(random.below(length)),
        2 => file.truncate(in_tail),
        3 => file.extend((0..1 + random.below(4)).map(|_| edge)),
        4 | 5 if file[0] == 0x36 && length > 3 => {
            file[2 + random.below(2)] = random.of(&[0, 1, 2, 3, 4, 5, 6, 7, 8, 255])
        }
        4 => put32(file, random.of(&[4, 8, 12, 16, 20, 24, 28]), random.of(&FIELDS)),
        5 => {
            let at = random.of(&[8, 16, 20, 24, 28]);
            if at + 4 <= length {
                let v = u32::from_le_bytes(file[at..at + 4].try_into().unwrap());
                put32(file, at, random.of(&[v.wrapping_add(1), v.wrapping_sub(1)]));
            }
        }
        6 => drop(file.remove(in_tail)),
        7 => file.insert(in_tail, edge),
        8 => file[in_tail] ^= 1 << random.below(8),
        9 => file[in_tail] = edge,
        10 if file[0] == 0x27 && length > 50 => {
            // a metric, the address or the size of one of the first entries
            let at = 32 + 18 * random.below(3) + random.of(&[0, 4, 8, 10, 12, 14, 16]);
            if at + 2 <= length {
                file[at..at + 2].copy_from_slice(&random.of(&METRICS).to_le_bytes());
            }
        }
        _ => {
            let other = tail + random.below(length - tail);
            file.swap(in_tail, other);
        }
    }
}

/// A PSF2 font that PSF1 could have, but for some of its values.
fn random_narrow(random: &mut Random) -> Vec<u8> {
    let n = random.of(&[256, 256, 512]);
    let mut texts = vec![Text::default(); n];
    for _ in 0..random.below(5) {
        let g = random.of(&[0, 1, 254, 255, n - 2, n - 1, 77]);
        texts[g] = random_text(random, false);
        let most = random.of(&[0xFDCF, 0xFFFC, 0xFFFD, 0x10000, 0x10FFFF]);
        let Text { singles, sequences } = &mut texts[g];
        for v in singles.iter_mut().chain(sequences.iter_mut().flatten()) {
            *v = (*v).min(most);
        }
    }
    let with = random.below(4) != 0;
    let width = random.of(&[8, 8, 8, 8, 7, 9]);
    let bitmaps: Vec<u8> = (0..n * area(1, width)).map(|_| random.byte()).collect();
    psf2(n, 1, width, &bitmaps, with.then_some(&table(&texts)[..]))
}

/// A random font, most of them small, about half of them damaged.
pub fn random_font(random: &mut Random) -> Vec<u8> {
    let mut file = match random.below(12) {
        0 => random_psf1(random),
        1 => random_narrow(random),
        2..=6 => random_psf2(random),
        _ => random_vfont2(random),
    };
    let tail = match second::check(&file) {
        Ok(font) => font.table_at,
        Err(_) => 0,
    };
    for _ in 0..random.of(&[0, 0, 0, 1, 1, 1, 2, 3]) {
        damage(random, &mut file, tail);
    }
    file
}

/// A sound header and n glyphs, then a tail of boundary bytes and whole words.
pub fn random_tail(random: &mut Random) -> Vec<u8> {
    let units = random.below(6) == 0;
    let left = 1 + random.below(3);
    let mut file = if units {
        psf1(2, 1, 0, &vec![0xFF; 2 * (256 - left)])
    } else if random.below(2) == 0 {
        psf2(left, 1, 1, &vec![0x80; left], Some(&[]))
    } else {
        vfont2(32, &vec![NONE; left], &[], Some(&[]))
    };
    for _ in 0..random.below(9) {
        match (units, random.below(5)) {
            (true, 0) => file.push(random.of(&UNIT_EDGES)),
            (true, 1) => file.extend([0xFE, 0xFF]),
            (true, 2) => file.extend([0xFF, 0xFF]),
            (true, _) => file.extend([random.of(&UNIT_EDGES), random.of(&UNIT_EDGES)]),
            (false, 0) => file.push(random.of(&UTF8_EDGES)),
            (false, 1) => file.push(random.of(&[0xFE, 0xFF, 0xFF])),
            (false, 2) if random.below(4) == 0 => file.extend(utf8(random.of(&noncharacters()))),
            (false, _) => file.extend(utf8(random.of(&EDGES))),
        }
    }
    // often as many end marks as are missing, if the words before have none
    if random.below(2) == 0 {
        let end: &[u8] = if units { &[0xFF, 0xFF] } else { &[0xFF] };
        for _ in 0..1 + random.below(left) {
            file.extend_from_slice(end);
        }
    }
    file
}

/// Bytes that are hardly a font.
pub fn junk(random: &mut Random) -> Vec<u8> {
    let mut file: Vec<u8> = match random.below(4) {
        0 => vec![],
        1 => vec![0x36, 0x04, random.below(8) as u8, random.below(3) as u8],
        2 => PSF2.to_vec(),
        _ => VFONT2.to_vec(),
    };
    let some = random.below(60);
    file.extend((0..some).map(|_| random.byte()));
    if random.below(3) == 0 {
        file.truncate(random.below(file.len() + 1));
    }
    file
}

/// Small fonts: PSF2 and vfont2 with and without a table, a wider header, no glyph; last
/// two of PSF1.
pub fn bases() -> [Vec<u8>; 8] {
    let two = [text(&[0x41], &[]), text(&[0xC5], &[&[0x41, 0x30A]])];
    let psf1_text = [(0, text(&[0x41, 0xDEAD], &[])), (255, text(&[0xFFFD], &[&[0xFE, 0xFF]]))];
    [
        worked(),
        worked_vfont2(),
        psf2_wide(40, 2, 1, 9, &[1, 2, 3, 4], Some(&table(&two))),
        psf2(2, 1, 9, &[1, 2, 3, 4], None),
        vfont2(33, &[NONE, entry(0, 3, -1, -2, 11)], &[5; 4], Some(&table(&two))),
        vfont2(32, &[NONE, NONE], &[], None),
        psf1(2, 1, 0x55, &units(&spread(256, &psf1_text))),
        psf1(1, 1, 0x55, &[]),
    ]
}

/// Every start of small fonts; every header field at every edge, alone and in pairs.
pub fn headers() -> Vec<Vec<u8>> {
    let mut files = Vec::new();
    let bases = bases();
    for base in &bases {
        for length in 0..=base.len() {
            files.push(base[..length].to_vec());
        }
        for extra in UTF8_EDGES {
            files.push([&base[..], &[extra]].concat());
        }
    }
    for base in &bases[..6] {
        for (i, &at) in [4, 8, 12, 16, 20, 24, 28].iter().enumerate() {
            for v in FIELDS {
                let mut file = base.clone();
                put32(&mut file, at, v);
                for &other in &[4, 8, 12, 16, 20, 24, 28][i + 1..] {
                    for w in [0, 1, 2, 32, 255, 256, 4097, 0xFFFFFFFF] {
                        let mut file = file.clone();
                        put32(&mut file, other, w);
                        files.push(file);
                    }
                }
                files.push(file);
            }
        }
    }
    for base in &bases[6..] {
        for mode in 0..=255 {
            for size in [0, 1, 2, 255] {
                let mut file = base.clone();
                file[2] = mode;
                file[3] = size;
                files.push(file);
            }
        }
    }
    files
}

/// PSF1 fonts of modes 0 to 5, with and without a table: every start of it, bytes of it changed, bytes behind it, and
/// a table for the other count of glyphs; and each that is sound as PSF2.
pub fn modes() -> Vec<Vec<u8>> {
    let mut files = Vec::new();
    for mode in 0..=5 {
        for n in [256, 512] {
            let some = [(0, text(&[0x41], &[&[0x41, 0x30A]])), (255, text(&[0xC5, 0xFFFD], &[]))];
            let table = units(&spread(n, &some));
            let whole = psf1(mode, 1, 0x3C, &table);
            let begin = whole.len() - table.len();
            files.extend((begin..=whole.len()).map(|length| whole[..length].to_vec()));
            for at in (begin..whole.len()).filter(|at| at % 16 < 2 || at - begin < 24) {
                for b in [0x00, 0x41, 0xD8, 0xFE, 0xFF] {
                    let mut file = whole.clone();
                    file[at] = b;
                    files.push(file);
                }
            }
            for rest in
                [&[0x00][..], &[0xFF], &[0xFF, 0xFF], &[0x41, 0x00], &[0xFE, 0xFF], &[0xFF; 512]]
            {
                files.push([&whole, rest].concat());
            }
            let mut other = vec![0; 32 + n + 2 * table.len()];
            if let Ok(length) = second::psf1_to_psf2(&whole, &mut other) {
                files.push(other[..length].to_vec());
            }
        }
    }
    files
}

/// One entry with every pair of edge metrics, its size right or nearly so.
pub fn entries() -> Vec<Vec<u8>> {
    let mut files = Vec::new();
    for a in METRICS {
        for b in METRICS {
            for across in [false, true] {
                let metrics = if across { [1, 0, a, b, b] } else { [a, b, 0, 1, b] };
                let sum = a as i64 + b as i64;
                let size = if across { (sum + 7) / 8 } else { sum };
                let wrapped = (a.wrapping_add(b)) as i64;
                for size in [size, size + 1, size - 1, wrapped, 1, 0] {
                    for (address, total) in [(0, 255), (1, size), (0, size)] {
                        let total = total.clamp(0, 600) as usize;
                        let e = (address, size as u32, metrics);
                        let mut file = vfont2(32, &[e], &vec![0x5A; total], None);
                        files.push(file.clone());
                        // the header agrees with sums that wrap at 16 bits
                        let (height, width) = if across { (1, wrapped) } else { (wrapped, 1) };
                        put32(&mut file, 24, height as u32);
                        put32(&mut file, 28, width as u32);
                        files.push(file);
                    }
                }
            }
        }
    }
    for address in FIELDS {
        for size in FIELDS {
            files.push(vfont2(32, &[(address, size, [8, 0, 0, 8, 8])], &[0x5A; 40], None));
        }
    }
    files
}

/// Values counted up from `first`, past the surrogates, `each` to a glyph.
fn counted(n: usize, each: usize, first: u32) -> Vec<Text> {
    let mut v = first;
    let mut next = || {
        v = if v + 1 == 0xD800 { 0xE000 } else { v + 1 };
        v
    };
    (0..n)
        .map(|_| Text { singles: (0..each).map(|_| next()).collect(), ..Text::default() })
        .collect()
}

/// A large font: number i of the series.
pub fn large(i: usize, random: &mut Random) -> Vec<u8> {
    let limit = second::LIMIT;
    let n = random.of(&[256, 257, 512, 1000, 4095, 4096]);
    let mut file = match i % 8 {
        // at the limit, just below, just above: bare and with a table
        0 => {
            let short = random.below(4);
            let (n, c) = (4096, 240);
            let t = limit + 2 - short - 32 - n * c;
            let mut tail = vec![0x41; t - n];
            tail.extend(vec![0xFF; n]);
            psf2(n, 240, 8, &pattern(n * c), Some(&tail))
        }
        1 => {
            // grows past the limit as PSF2, or not
            let mut texts = vec![Text::default(); 256];
            let v = random.of(&[0x41, 0x7FF, 0x800, 0xFFFD]);
            texts[random.below(256)].singles = vec![v; 330_000 + random.below(30_000)];
            psf1(2, 8, 0x18, &units(&texts))
        }
        2 => {
            let mut texts = vec![Text::default(); 512];
            texts[511].singles = vec![0x41; random.of(&[500_000, 523_000, 524_000, 520_000])];
            psf2(512, 1, 8, &pattern(512), Some(&table(&texts)))
        }
        3 => {
            // as vfont2 near the limit: 50 bytes and the table to a glyph
            let (n, height) = (4096, 200 + random.below(40));
            psf2(n, height, 8, &pattern(n * height), Some(&vec![0xFF; n]))
        }
        4 => {
            let texts = counted(n, 1 + random.below(6), 0x1000);
            psf2(n, 8, 8, &pattern(n * 8), Some(&table(&texts)))
        }
        5 => {
            let mut texts = counted(n, 1, 0x2000);
            for t in texts.iter_mut() {
                let v = t.singles[0];
                t.sequences = vec![vec![0x41, v], vec![v, v + 1, 0x30A]];
            }
            texts[n - 1].sequences.push(vec![0x41; 3000]);
            psf2_wide(4096, n, 4, 9, &pattern(n * 8), Some(&table(&texts)))
        }
        6 => {
            let alike = random.below(2) == 0;
            let side = |random: &mut Random| if alike { 8 } else { 1 + random.below(12) as i16 };
            let (mut entries, mut total) = (Vec::new(), 0);
            for g in 0..n {
                let e = match (alike, g % 7) {
                    (false, 3) => NONE,
                    _ => entry(total, side(random), 0, 0, side(random)),
                };
                total += e.1 as usize;
                entries.push(e);
            }
            vfont2(32, &entries, &pattern(total), Some(&table(&counted(n, 1, 0x3000))))
        }
        _ => {
            let mode = 2 + random.below(2) as u8;
            let n = if mode == 3 { 512 } else { 256 };
            let mut texts = counted(n, 1 + random.below(9), 0x100);
            texts[n - 1].sequences.push(vec![0xFFFD, 0xFE, 0xFEFF]);
            psf1(mode, 255, 0x3C, &units(&texts))
        }
    };
    let tail = file.len() - file.len() / 3;
    if random.below(3) == 0 {
        damage(random, &mut file, tail);
    }
    file
}
