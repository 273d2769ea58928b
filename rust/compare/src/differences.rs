//! What differs between two fonts, asked both ways, in buffers that have just the room, one
//! number less, none and more. Both implementations answer, and the whole buffers are held
//! against each other.

use crate::ask::{Asking, Tally};
use crate::fonts::{bases, large, random_font};
use crate::make::*;
use crate::{jobs_of, run_part, seed, Part, BATCH};
use lavandol::Which;
use second::{Item, Kind};

/// The pairs, or which font a refusal is of, its number, its place and its glyph.
type Told = Result<usize, (u32, u32, usize, usize)>;

/// What stands in a buffer of so many numbers before a call.
fn lent(room: usize) -> Vec<u32> {
    (0..room as u32).map(|i| 0xA5A5_0000 + i).collect()
}

fn ours(first: &[u8], second: &[u8], buffer: &mut [u32]) -> Told {
    let told = lavandol::differences(first, second, buffer);
    told.map(|pairs| pairs.len()).map_err(|e| {
        let font = match e.font {
            Some(Which::First) => 1,
            Some(Which::Second) => 2,
            None => 0,
        };
        (font, e.refusal.number(), e.refusal.place, e.refusal.glyph_number())
    })
}

fn theirs(first: &[u8], second: &[u8], buffer: &mut [u32]) -> Told {
    let told = second::differences(first, second, buffer);
    told.map_err(|e| (e.font, e.refusal.number, e.refusal.place, e.refusal.glyph))
}

/// The library's answer in a buffer of a length, held against one, and the whole buffer.
fn held(
    first: &[u8],
    second: &[u8],
    room: usize,
    (told, left): (Told, Vec<u32>),
    tally: &mut Tally,
) {
    let mut buffer = lent(room);
    let a = ours(first, second, &mut buffer);
    // the first place where the buffers differ, with what stands there
    let at = (0..room).find(|&i| buffer[i] != left[i]);
    let (ours, theirs) = (at.map(|i| (i, buffer[i])), at.map(|i| (i, left[i])));
    Asking { file: first, tally }.same(Ok((a, ours)), Ok((told, theirs)), || {
        let hex: String = second.iter().map(|b| format!("{b:02X}")).collect();
        format!("differences, {room} numbers, second font {hex}")
    });
}

/// Both answer in a buffer of a length; what the second implementation says is given.
fn both(first: &[u8], second: &[u8], room: usize, tally: &mut Tally) -> Told {
    let mut left = lent(room);
    let told = theirs(first, second, &mut left);
    held(first, second, room, (told, left), tally);
    told
}

/// Both answer in buffers of these lengths.
fn each(first: &[u8], second: &[u8], rooms: impl IntoIterator<Item = usize>, tally: &mut Tally) {
    for room in rooms {
        let _ = both(first, second, room, tally);
    }
}

/// Two fonts, the first one first: whether that is sound.
fn one_way(first: &[u8], second: &[u8], more: usize, tally: &mut Tally) -> bool {
    // asked with no room, the second implementation tells how much is needed
    let told = both(first, second, 0, tally);
    match told {
        Err((0, second::ROOM, need, _)) => {
            each(first, second, [need, need + more], tally);
            // shorter buffers stay as they are, whatever their length
            for room in [need - 1, need / 2] {
                held(first, second, room, (told, lent(room)), tally);
            }
        }
        _ => held(first, second, more, (told, lent(more)), tally),
    }
    !matches!(told, Err((1, ..)))
}

/// Two fonts, both ways.
pub fn two(first: &[u8], second: &[u8], more: usize, tally: &mut Tally) {
    tally.files += 2;
    for (first, second) in [(first, second), (second, first)] {
        tally.sound += one_way(first, second, more, tally) as u64;
    }
}

/// The fonts that conversions make of one.
fn conversions(file: &[u8]) -> Vec<Vec<u8>> {
    let calls = [
        second::psf1_to_psf2,
        second::psf2_to_psf1,
        second::psf2_to_vfont2,
        second::vfont2_to_psf2,
    ];
    let made = calls.into_iter().filter_map(|call| {
        let Err(r) = call(file, &mut []) else { return None };
        let mut out = vec![0; if r.number == second::ROOM { r.place } else { 0 }];
        call(file, &mut out).ok().map(|_| out)
    });
    made.collect()
}

fn put(file: &mut [u8], at: usize, bytes: &[u8]) {
    file[at..at + bytes.len()].copy_from_slice(bytes);
}

/// A sound font with one thing changed, which may leave no font: a bit of the bitmaps, pixel or
/// filler; metrics, of which two may be shifted against each other; an entry emptied, or made
/// anew; an item; the last glyph; the table; the header's size; any byte.
fn changed(random: &mut Random, file: &[u8], font: &second::Font) -> Vec<u8> {
    let mut other = file.to_vec();
    let bitmaps = font.table_at - font.bitmaps_at;
    let entry = font.header_end + 18 * random.below(font.count);
    let vfont2 = font.kind == Kind::Vfont2;
    match random.below(12) {
        0..=2 if bitmaps > 0 => {
            let at = font.bitmaps_at + random.below(bitmaps);
            other[at] ^= 1 << random.below(8);
        }
        3 if vfont2 => {
            let at = entry + random.of(&[8, 12]);
            let by = random.of(&[1, 2, -1, 300]);
            let old = |i: usize| i16::from_le_bytes([file[i], file[i + 1]]);
            put(&mut other, at, &old(at).wrapping_add(by).to_le_bytes());
            put(&mut other, at + 2, &old(at + 2).wrapping_sub(by).to_le_bytes());
        }
        4 if vfont2 => {
            put(&mut other, entry + 16, &random.of(&[0i16, 1, 9, -1, 256, -32768]).to_le_bytes());
        }
        5 if vfont2 => {
            put(&mut other, entry + 4, &[0; 4]);
            greatest(&mut other, font.header_end, font.count);
        }
        6 if vfont2 => {
            put(&mut other, entry, &(random.below(bitmaps + 1) as u32).to_le_bytes());
        }
        7 if font.has_table => {
            other.truncate(font.table_at);
            match font.kind {
                Kind::Psf1 => other[2] &= 1,
                _ => other[12] = 0,
            }
        }
        8 if font.kind == Kind::Psf2 && font.count > 1 => {
            let n = font.count - 1;
            let last = font.reading.last().map_or(0, |d| file.len() - font.table_at - d[0].at);
            other.truncate(file.len() - last);
            other.drain(font.bitmaps_at + bitmaps / font.count * n..font.table_at);
            put(&mut other, 16, &(n as u32).to_le_bytes());
        }
        9 if font.kind == Kind::Psf2 => {
            let g = random.below(font.count);
            let v = random.of(&EDGES);
            let listed = font.reading.get(g).and_then(|d| d.first()).map(|p| p.item);
            let length = match (listed, random.below(2)) {
                (Some(Item::Single(v)), 0) => second::drop_mapping(&mut other, file.len(), g, v),
                _ => {
                    other.resize(file.len() + 4, 0);
                    second::add_mapping(&mut other, file.len(), g, v)
                }
            };
            other.truncate(length.unwrap_or(file.len()));
        }
        10 if font.kind != Kind::Psf1 => {
            put(&mut other, 8, &(font.header_end as u32 + 5).to_le_bytes());
            other.splice(font.header_end..font.header_end, [0x5A; 5]);
        }
        11 => {
            let at = random.below(file.len());
            other[at] ^= 1 << random.below(8);
        }
        _ => {
            // a bit of the table, or of whatever comes last
            let at = file.len() - 1 - random.below(file.len() - font.table_at + 1).min(40);
            other[at] ^= 1 << random.below(8);
        }
    }
    other
}

/// The greatest height and width of the entries, put into the header.
fn greatest(file: &mut [u8], entries: usize, n: usize) {
    let number = |at: usize| i16::from_le_bytes([file[at], file[at + 1]]) as i32;
    let drawn = || (0..n).map(|i| entries + 18 * i).filter(|&at| file[at + 4..at + 8] != [0; 4]);
    let height = drawn().map(|at| number(at + 8) + number(at + 10)).max().unwrap_or(0);
    let width = drawn().map(|at| number(at + 12) + number(at + 14)).max().unwrap_or(0);
    put(file, 24, &u32s(&[height as u32, width as u32]));
}

/// A random sound font against itself, its conversions, and six fonts that differ from it or
/// from a conversion in one thing.
fn one_change(job: usize, tally: &mut Tally) {
    let mut random = seed(30, job);
    for i in 0..BATCH / 2 {
        let file = match i % 20 {
            0 => random_psf1(&mut random),
            1..=9 => random_psf2(&mut random),
            _ => random_vfont2(&mut random),
        };
        two(&file, &file, random.below(9), tally);
        let mut fonts = conversions(&file);
        for other in &fonts {
            two(&file, other, random.below(9), tally);
        }
        fonts.push(file.clone());
        for k in 0..6 {
            let base = &fonts[k % fonts.len()];
            let font = second::check(base).expect("a sound font");
            let other = changed(&mut random, base, &font);
            two(&file, &other, random.below(9), tally);
        }
    }
}

/// Random fonts of all kinds, about half of them damaged, against one another.
fn neighbours(job: usize, tally: &mut Tally) {
    let mut random = seed(31, job);
    let mut before = random_font(&mut random);
    for _ in 0..BATCH {
        let file = random_font(&mut random);
        two(&before, &file, random.below(9), tally);
        before = file;
    }
}

/// Words of short tables: values of 1 and 2 bytes, one that differs from the first in its upper
/// bits alone, the two marks.
const WORDS: [u32; 5] = [0x41, 0xC5, 0x10041, START, END];
const START: u32 = u32::MAX - 1;
const END: u32 = u32::MAX;
const MOST_WORDS: u32 = 4;

/// The sound ones of all tables of up to `MOST_WORDS` words and an end mark, by their words.
fn short_tables() -> Vec<Vec<u32>> {
    let mut tables = Vec::new();
    for words in 0..=MOST_WORDS {
        for i in 0..WORDS.len().pow(words) {
            let mut table: Vec<u32> =
                (0..words).map(|k| WORDS[i / WORDS.len().pow(k) % WORDS.len()]).collect();
            table.push(END);
            let empty = |pair: &[u32]| pair[0] == START && pair[1] >= START;
            if !table.windows(2).any(empty) {
                tables.push(table);
            }
        }
    }
    tables
}

fn coded(words: &[u32]) -> Vec<u8> {
    let bytes = |&w: &u32| match w {
        START => vec![0xFE],
        END => vec![0xFF],
        v => utf8(v),
    };
    words.iter().flat_map(bytes).collect()
}

const TABLE_JOBS: usize = 16;

/// Each short table against each other, for as many glyphs as there are end marks; one of the
/// two fonts is PSF2, the other PSF2 or vfont2.
fn tables(job: usize, tally: &mut Tally) {
    let fonts: Vec<[Vec<u8>; 2]> = short_tables()
        .iter()
        .map(|words| {
            let n = words.iter().filter(|&&w| w == END).count();
            let table = coded(words);
            let entries = vec![entry(0, 1, 0, 0, 1); n];
            let bitmaps = vec![0x80; n];
            [psf2(n, 1, 1, &bitmaps, Some(&table)), vfont2(32, &entries, &[0x80], Some(&table))]
        })
        .collect();
    for (i, first) in fonts.iter().enumerate().filter(|(i, _)| i % TABLE_JOBS == job) {
        for second in &fonts[i..] {
            if tally.differences > 20 {
                return;
            }
            two(&first[0], &second[i % 2], 3, tally);
        }
    }
}

/// The short tables of one description in PSF1, which has no value above FFFF: against PSF2.
fn units_and_utf8(job: usize, tally: &mut Tally) {
    let one = |words: &&Vec<u32>| words.iter().filter(|&&w| w == END).count() == 1;
    let tables = short_tables();
    let tables: Vec<&Vec<u32>> = tables.iter().filter(one).collect();
    let n = 256;
    let narrow = |words: &[u32]| {
        let words = words.iter().map(|&w| match w {
            START => 0xFFFE,
            END => 0xFFFF,
            // a surrogate in place of what UTF-8 alone has
            0x10041 => 0xDC41,
            v => v as u16,
        });
        let mut table = vec![0xFF; 2 * (n - 1)];
        table.extend(words.flat_map(u16::to_le_bytes));
        psf1(2, 1, 0x18, &table)
    };
    let wide = |words: &[u32]| {
        let table = [vec![0xFF; n - 1], coded(words)].concat();
        psf2(n, 1, 8, &vec![0x18; n], Some(&table))
    };
    let mut random = seed(32, job);
    for (i, words) in tables.iter().enumerate().filter(|(i, _)| i % UNIT_JOBS == job) {
        let first = narrow(words);
        two(&first, &wide(words), 3, tally);
        for k in 0..8 {
            let other = tables[(i + random.below(12) * (k / 2) + k) % tables.len()];
            let second = if k % 2 == 0 { wide(other) } else { narrow(other) };
            two(&first, &second, 3, tally);
        }
    }
}

const UNIT_JOBS: usize = 8;

/// Glyphs of every width, each bit of a row flipped, in PSF2 and in vfont2, where the bitmap may
/// stand at any byte.
fn bits(job: usize, tally: &mut Tally) {
    let height = 1 + job % 3;
    for width in (job + 1..=255).step_by(BIT_JOBS) {
        let c = area(height, width);
        let bitmaps = pattern(2 * c);
        let file = psf2(2, height, width, &bitmaps, None);
        let (h, w) = (height as i16, width as i16);
        let entries = [entry(c + 3, h, 0, 0, w), entry(1, h, 0, 0, w)];
        let moved = [&[9][..], &bitmaps[c..], &[8, 7], &bitmaps[..c]].concat();
        let other = vfont2(33, &entries, &moved, None);
        two(&file, &other, 2, tally);
        let start = file.len() - 2 * c;
        // both ends of a row, and some between
        let row = c / height;
        for x in (0..8 * row).filter(|x| width < 40 || *x < 2 || x % 37 == 0 || x + 9 > 8 * row) {
            let (g, y) = (x % 2, x / 2 % height);
            let at = g * c + y * row + x / 8;
            let flipped = with(&file, start + at, file[start + at] ^ (0x80 >> (x % 8)));
            two(&file, &flipped, 2, tally);
            two(&flipped, &other, 2, tally);
        }
    }
}

const BIT_JOBS: usize = 15;

/// One entry with metrics at their edges against others of the same height and width, of
/// another, and against PSF2.
fn metrics(_: usize, tally: &mut Tally) {
    let ups = [-32512, -256, -1, 0, 1, 2, 255, 256, 32767];
    let lefts = [-32767, -255, -1, 0, 1, 8, 9, 300];
    let sides = [(1, 8), (1, 9), (2, 8)];
    let mut fonts = vec![psf2(1, 1, 8, &[0x5A], None), psf2(1, 2, 8, &[0x5A; 2], None)];
    fonts.push(vfont2(32, &[(7, 0, [1, 0, 0, 8, 8])], &[], None));
    for (k, &up) in ups.iter().enumerate() {
        for (i, &left) in lefts.iter().enumerate() {
            let (height, width) = sides[(k + i) % 3];
            let (down, right) = (height - up as i32, width - left as i32);
            let (Ok(down), Ok(right)) = (i16::try_from(down), i16::try_from(right)) else {
                continue;
            };
            let mut e = entry(0, up, down, left, right);
            e.2[4] = [8, 8, 9, -8][k % 4];
            fonts.push(vfont2(32, &[e], &[0x5A; 2], None));
        }
    }
    for (i, first) in fonts.iter().enumerate() {
        assert!(second::check(first).is_ok());
        for second in &fonts[i..] {
            two(first, second, 1, tally);
        }
    }
}

/// Small fonts of all kinds: every start, with a byte behind, and with each byte changed,
/// against each of them.
fn damaged(job: usize, tally: &mut Tally) {
    let bases = bases();
    let file = &bases[job];
    let more = [&file[..], &[0xFF]].concat();
    for (k, base) in bases.iter().enumerate() {
        two(file, base, 4, tally);
        two(&more, base, 4, tally);
        two(&more, &base[..base.len() - 1], 4, tally);
        // the longer fonts take longer: not each of their starts against each
        let near = |i: &usize| *i < 40 || i + 12 > file.len() || (file.len() < 300 && k < 6);
        for i in (0..file.len()).filter(near) {
            two(&file[..i], base, 4, tally);
            two(&file[..i], &base[..i.min(base.len())], 4, tally);
            two(&with(file, i, file[i] ^ (1 << (i % 8))), base, 4, tally);
        }
    }
}

/// Two fonts with many differences, in buffers of every length up to what is needed, and more.
fn rooms(_: usize, tally: &mut Tally) {
    let bases = bases();
    for first in &bases[..6] {
        for second in &bases[..6] {
            each(first, second, 0..24, tally);
        }
    }
    let long = || (0..520).chain([1000, 1023, 1024, 1025]);
    each(&bases[0], &bases[6], long(), tally);
    each(&bases[7], &bases[1], long(), tally);
}

/// Large fonts against themselves, against the next of the series, and with a bit flipped;
/// 4,096 glyphs that differ in pixels, in items, and in both.
fn much(job: usize, tally: &mut Tally) {
    let mut random = seed(33, job);
    let (first, second) = (large(job, &mut random), large(job + 1, &mut random));
    two(&first, &first, 5, tally);
    two(&first, &second, 5, tally);
    let at = first.len() - 1 - random.below(first.len() / 2);
    two(&first, &with(&first, at, first[at] ^ 0x10), 5, tally);
    let n = [256, 257, 4095, 4096][job % 4];
    let font = |bitmap: u8, text: &[u8]| psf2(n, 2, 5, &vec![bitmap; 2 * n], Some(&text.repeat(n)));
    let base = font(0, b"A\xFF");
    for other in
        [font(0x07, b"A\xFF"), font(0x08, b"A\xFF"), font(0, b"B\xFF"), font(0x80, b"\xFF")]
    {
        two(&base, &other, 5, tally);
    }
}

/// Small fonts first: a difference prints both fonts.
const PARTS: [Part; 9] = [
    (8, damaged),
    (TABLE_JOBS, tables),
    (BIT_JOBS, bits),
    (1, metrics),
    (1, rooms),
    (12, one_change),
    (20, neighbours),
    (UNIT_JOBS, units_and_utf8),
    (8, much),
];

pub const JOBS: usize = jobs_of(&PARTS);

pub fn run(job: usize, tally: &mut Tally) {
    run_part(&PARTS, job, tally)
}
