//! Edits: a value is added to a glyph of a PSF2 font or dropped from it, in a buffer that holds
//! the font at its front. Both implementations answer, and the whole buffers are held against
//! each other. What the papers say of the buffer is asked of the library's alone as well: a
//! refused edit leaves it; a good one changes nothing before the table and nothing behind the
//! longer font, and what a drop frees is 0. An add and the drop of the same value give back the
//! font.

use crate::ask::{ours, theirs, Answer, Asking, Tally};
use crate::fonts::{bases, random_font};
use crate::make::*;
use crate::{jobs_of, run_part, seed, Part, BATCH};
use second::table::{sequences, singles};
use second::{Item, LIMIT};

#[derive(Debug, Clone, Copy, PartialEq)]
enum Edit {
    Add,
    Drop,
}
use Edit::{Add, Drop};

/// The font at the front of a buffer of `room` bytes, or as much of it as there is room for.
fn lent(file: &[u8], room: usize) -> Vec<u8> {
    let front = &file[..room.min(file.len())];
    front.iter().copied().chain((front.len()..room).map(|i| (i * 29 + 7) as u8)).collect()
}

/// The first byte of the buffer that an edit with this answer should have left or cleared. Of a
/// font of `len` bytes that is none, an answer is astray from the start.
fn astray(before: &[u8], after: &[u8], len: usize, answer: Answer<usize>) -> Option<usize> {
    let Ok(new) = answer else { return (0..after.len()).find(|&i| after[i] != before[i]) };
    if len < 32 || len > before.len() {
        return Some(0);
    }
    let field = |at: usize| u32::from_le_bytes(before[at..at + 4].try_into().unwrap()) as usize;
    let table = field(8) + field(16) * field(20);
    let front = (0..table.min(len)).find(|&i| after[i] != before[i]);
    let freed = || (new..len).find(|&i| after[i] != 0);
    let behind = || (len.max(new)..after.len()).find(|&i| after[i] != before[i]);
    front.or_else(freed).or_else(behind)
}

/// One edit of the buffer, which then is as the second implementation leaves it.
fn edit(
    edit: Edit,
    buffer: &mut Vec<u8>,
    len: usize,
    g: usize,
    v: u32,
    tally: &mut Tally,
) -> Answer<usize> {
    let (before, mut other) = (buffer.clone(), buffer.clone());
    let (a, b) = match edit {
        Add => (
            ours(lavandol::add_mapping(buffer, len, g, v)),
            theirs(second::add_mapping(&mut other, len, g, v)),
        ),
        Drop => (
            ours(lavandol::drop_mapping(buffer, len, g, v)),
            theirs(second::drop_mapping(&mut other, len, g, v)),
        ),
    };
    let question = || format!("{edit:?} {g} {v:X}, font of {len} bytes");
    let mut asking = Asking { file: &before, tally };
    // the first place where the buffers differ, with what stands there
    let at =
        if *buffer == other { None } else { (0..other.len()).find(|&i| buffer[i] != other[i]) };
    let [left, right] = [&*buffer, &other].map(|bytes| at.map(|i| (i, bytes[i])));
    asking.same(Ok((a, left)), Ok((b, right)), question);
    asking.same(Ok(astray(&before, buffer, len, a)), Ok(None), question);
    *buffer = other;
    b
}

/// Edits of one font, each of a buffer of its own.
pub struct Editing<'a> {
    pub file: &'a [u8],
    pub tally: &'a mut Tally,
}

impl Editing<'_> {
    fn check(&mut self) -> Option<second::Font> {
        Asking { file: self.file, tally: self.tally }.check()
    }

    /// An edit in a buffer of a length; a good one, whose new length is given, is undone. After
    /// an add the drop gives back the font, with zeros behind it.
    fn once(&mut self, e: Edit, room: usize, len: usize, g: usize, v: u32) -> Option<usize> {
        let before = lent(self.file, room);
        let mut buffer = before.clone();
        let new = edit(e, &mut buffer, len, g, v, self.tally).ok()?;
        let undo = if e == Add { Drop } else { Add };
        let undone = edit(undo, &mut buffer, new, g, v, self.tally);
        if e == Add {
            let back = undone == Ok(len) && buffer[..len] == before[..len];
            let zeros = buffer[len..new].iter().all(|&b| b == 0);
            let mut asking = Asking { file: &before, tally: self.tally };
            asking.same(Ok(back && zeros), Ok(true), || format!("Add, Drop {g} {v:X}"));
        }
        Some(new)
    }

    /// Both edits of the whole font, with room for either and bytes behind it, with no room
    /// but the font, and an add with just the room that it needs and with one byte less.
    pub fn both(&mut self, g: usize, v: u32) {
        let len = self.file.len();
        for e in [Add, Drop] {
            let new = self.once(e, len + 9, len, g, v);
            self.once(e, len, len, g, v);
            let Some(new) = new else { continue };
            if new > len {
                self.once(e, new, len, g, v);
                self.once(e, new - 1, len, g, v);
            }
        }
    }
}

/// Values of 1 to 4 bytes and the marks, of which the tables are made.
const WORDS: [&[u8]; 6] =
    [&[0x41], &[0xC3, 0x85], &[0xE2, 0x84, 0xAB], &[0xF0, 0x9F, 0x98, 0x80], &[0xFE], &[0xFF]];
const LISTED: [u32; 4] = [0x41, 0xC5, 0x212B, 0x1F600];

/// Values that no edit takes; noncharacters, which can't be added and are never there.
const WRONG: [u32; 13] = [
    0xD800,
    0xDBFF,
    0xDC00,
    0xDFFF,
    0x110000,
    0x1000041,
    u32::MAX,
    0xFDD0,
    0xFDEF,
    0xFFFE,
    0xFFFF,
    0x1FFFE,
    0x10FFFF,
];

const MOST_WORDS: u32 = 6;
const TABLE_JOBS: usize = 36;

/// All tables of up to `MOST_WORDS` words and an end mark, for as many glyphs as there are end
/// marks, one more and one fewer.
fn tables(job: usize, tally: &mut Tally) {
    for words in 0..=MOST_WORDS {
        for i in (job..WORDS.len().pow(words)).step_by(TABLE_JOBS) {
            if tally.differences > 20 {
                return;
            }
            let mut table: Vec<u8> = (0..words)
                .flat_map(|k| WORDS[i / WORDS.len().pow(k) % WORDS.len()])
                .copied()
                .collect();
            table.push(0xFF);
            let n = table.iter().filter(|&&b| b == 0xFF).count();
            for n in n.max(2) - 1..=n + 1 {
                let file = psf2_wide(32 + i % 3, n, 1, 1, &vec![0x80; n], Some(&table));
                short_table(&file, WRONG[i % WRONG.len()], tally);
            }
        }
    }
}

fn short_table(file: &[u8], wrong: u32, tally: &mut Tally) {
    let mut editing = Editing { file, tally };
    let Some(font) = editing.check() else { return editing.both(0, 0x41) };
    for g in 0..font.count {
        for v in LISTED.into_iter().chain([0x42]) {
            editing.both(g, v);
        }
        editing.both(g, wrong);
    }
    editing.both(font.count, 0x41);
}

/// Small fonts of all kinds, with buffers and lengths from nothing to more than there is.
fn lengths(job: usize, tally: &mut Tally) {
    let file = &bases()[job];
    let mut editing = Editing { file, tally };
    let n = editing.check().map_or(1, |font| font.count);
    let end = file.len();
    for room in [0, 1, 31, 32, end - 9, end - 1, end, end + 1, end + 4, end + 9] {
        let near = |len: usize| end < 300 || len < 40 || len + 12 > end;
        let lens = (0..room + 3).filter(|&len| near(len));
        for len in lens.chain([1 << 20, 1 << 32, usize::MAX - 3, usize::MAX]) {
            let (last, none) = (n - 1, 0xFFFE);
            for (g, v) in [
                (0, 0x41),
                (last, 0x42),
                (last, 0x10FFFD),
                (n, 0x41),
                (0, 0xDC00),
                (0, none),
                (n, none),
            ] {
                editing.once(Add, room, len, g, v);
                editing.once(Drop, room, len, g, v);
            }
        }
    }
}

/// Fonts of many glyphs, each with a value of its own.
fn many(job: usize, tally: &mut Tally) {
    let n = [257, 300, 512, 600, 4096][job];
    let own = |g: usize| 0x700 + g as u32;
    let texts: Vec<Text> = (0..n).map(|g| text(&[own(g)], &[&[own(g), 0x41]])).collect();
    let file = psf2(n, 1, 8, &pattern(n), Some(&table(&texts)));
    let mut editing = Editing { file: &file, tally };
    editing.check();
    // the last glyphs alone where it would take too long
    let first = [0, 1, 43, 44, 255, 256, 257, 299].into_iter().filter(|_| n < 1000);
    for g in first.chain([n - 1, n, n + 256, 1 << 32, usize::MAX]) {
        for v in [own(g % n), own((g % n + 1) % n), 0x41, 0x10FFFD] {
            editing.both(g, v);
        }
    }
}

/// Fonts at and just below the limit: 128 glyphs of 8,160 bytes and a wide header.
fn limit(job: usize, tally: &mut Tally) {
    let n = 128;
    let mut table = vec![0x61; 60 - job];
    table.extend(vec![0xFF; n]);
    let file = psf2_wide(LIMIT - n * 8160 - n - 60, n, 255, 255, &pattern(n * 8160), Some(&table));
    assert_eq!(file.len(), LIMIT - job);
    let mut editing = Editing { file: &file, tally };
    editing.check();
    for (g, v) in
        [(0, 0x61), (0, 0x41), (31, 0xC5), (63, 0x212B), (127, 0x1F600), (127, 0x61), (127, 0xFFFF)]
    {
        editing.both(g, v);
        editing.once(Add, LIMIT, file.len(), g, v);
        editing.once(Add, LIMIT + 9, LIMIT + 1, g, v);
    }
}

/// A value to be edited: one that the glyph lists, or has in a sequence, or another.
fn value(random: &mut Random, font: Option<&second::Font>, g: usize) -> u32 {
    let items = font.and_then(|f| f.reading.get(g)).map_or(&[][..], |items| &items[..]);
    let some = match random.below(10) {
        0..=3 => singles(items),
        4 | 5 => sequences(items).concat(),
        6 => WRONG.to_vec(),
        7 => vec![random.below(0x110000) as u32],
        _ => EDGES.to_vec(),
    };
    if some.is_empty() {
        random.of(&EDGES)
    } else {
        random.of(&some)
    }
}

/// Random edits, each of a font as it is, with lengths and rooms that are mostly right.
fn random_edits(job: usize, tally: &mut Tally) {
    let mut random = seed(20, job);
    for i in 0..BATCH {
        let file = if i % 4 == 0 { random_font(&mut random) } else { random_psf2(&mut random) };
        let mut editing = Editing { file: &file, tally };
        let font = editing.check();
        let n = font.as_ref().map_or(3, |f| f.count);
        for _ in 0..12 {
            let g = match random.below(10) {
                0 => random.of(&[n, n + 1, n + 256, 1 << 32, usize::MAX]),
                1 => n - 1,
                _ => random.below(n),
            };
            let v = value(&mut random, font.as_ref(), g);
            let end = file.len();
            let room = match random.below(12) {
                0 => random.below(end + 1),
                1 => end + random.below(60),
                _ => end + random.below(6),
            };
            let len = match random.below(12) {
                0 => random.of(&[0, room + 1, end + 1, end.max(1) - 1, usize::MAX]),
                1 => random.below(room + 2),
                _ => end,
            };
            editing.once(random.of(&[Add, Drop]), room, len, g, v);
        }
    }
}

/// Edits in a row on one font, with a few values and little room. The font is sound after all
/// of them, and its items are the ones that were not dropped.
fn in_a_row(job: usize, tally: &mut Tally) {
    let mut random = seed(21, job);
    for _ in 0..BATCH / 10 {
        let file = random_psf2(&mut random);
        let Some(font) = (Editing { file: &file, tally }).check() else { continue };
        let mut buffer = lent(&file, file.len() + random.below(60));
        let mut len = file.len();
        let mut texts: Vec<Vec<Item>> =
            font.reading.iter().map(|d| d.iter().map(|p| p.item).collect()).collect();
        let values: Vec<u32> = (0..6).map(|_| value(&mut random, Some(&font), 0)).collect();
        for _ in 0..60 {
            let (g, v) = (random.below(font.count), random.of(&values));
            let e = random.of(&[Add, Add, Drop]);
            let Ok(new) = edit(e, &mut buffer, len, g, v, tally) else { continue };
            len = new;
            let single = |item: &Item| matches!(item, Item::Single(_));
            match e {
                Add => {
                    let last = texts[g].iter().filter(|i| single(i)).count();
                    texts[g].insert(last, Item::Single(v));
                }
                Drop => {
                    let first = texts[g].iter().position(|i| *i == Item::Single(v));
                    texts[g].remove(first.expect("a listing"));
                }
            }
        }
        let mut asking = Asking { file: &buffer[..len], tally };
        asking.check();
        if !font.has_table {
            continue;
        }
        for (g, items) in texts.iter().enumerate() {
            for (k, &item) in items.iter().enumerate() {
                asking.item(g, k);
                let told = theirs(second::walk(asking.file, g as u64, k as u64));
                asking.same(told, Ok(item), || format!("item {g} {k} after edits"));
            }
            asking.item(g, items.len());
        }
    }
}

/// Small fonts first: a difference prints the whole buffer.
const PARTS: [Part; 6] =
    [(TABLE_JOBS, tables), (8, lengths), (30, random_edits), (40, in_a_row), (5, many), (6, limit)];

pub const JOBS: usize = jobs_of(&PARTS);

pub fn run(job: usize, tally: &mut Tally) {
    run_part(&PARTS, job, tally)
}
