//! Asks both implementations the same question and counts the answers.

use crate::make::{Random, EDGES};
use second::Item;

/// What was compared, and the differences found.
#[derive(Default)]
pub struct Tally {
    pub files: u64,
    pub sound: u64,
    pub answers: u64,
    pub differences: u64,
}

impl Tally {
    pub fn add(&mut self, other: &Tally) {
        self.files += other.files;
        self.sound += other.sound;
        self.answers += other.answers;
        self.differences += other.differences;
    }
}

/// A refusal's number, place and glyph, or the answer.
pub type Answer<T> = Result<T, Told>;
pub type Told = (u32, usize, usize);

pub fn ours<T>(r: Result<T, lavandol::Refusal>) -> Answer<T> {
    r.map_err(|r| (r.number(), r.place, r.glyph_number()))
}

pub fn theirs<T>(r: Result<T, second::Refusal>) -> Answer<T> {
    r.map_err(|r| (r.number, r.place, r.glyph))
}

/// Prints the file whole, so that the difference can be tried again from the text.
#[cold]
fn tell(question: String, file: &[u8], ours: String, theirs: String) {
    let mut text = format!("DIFFERENCE {question}\n  library {ours}\n  second  {theirs}\n  file ");
    for b in file {
        text.push_str(&format!("{b:02X}"));
    }
    println!("{text}");
}

/// Kind, count, height, width, whether there is a table; offsets of entries, bitmaps
/// and their end; size.
pub type Shape = (&'static str, [usize; 3], bool, [usize; 4]);

/// What the library says of a sound font.
pub fn shape(f: lavandol::Font) -> Shape {
    let name = match f.kind {
        lavandol::Kind::Psf1 => "psf1",
        lavandol::Kind::Psf2 => "psf2",
        lavandol::Kind::Vfont2 => "vfont2",
    };
    let places = [f.entries, f.bitmaps, f.end, f.size];
    (name, [f.count, f.height, f.width], f.table, places)
}

/// What both say of a sound font.
pub fn checked(file: &[u8]) -> (Answer<Shape>, Answer<Shape>, Option<second::Font>) {
    let a = ours(lavandol::check(file)).map(shape);
    let font = second::check(file);
    let b = theirs(font.as_ref().map_err(|r| *r)).map(|f| {
        let bytes = f.table_at - f.bitmaps_at;
        let size = if f.kind == second::Kind::Vfont2 { bytes } else { bytes / f.count };
        let places = [f.header_end, f.bitmaps_at, f.table_at, size];
        (f.kind.name(), [f.count, f.height, f.width], f.has_table, places)
    });
    (a, b, font.ok())
}

struct Conversion {
    name: &'static str,
    ours: fn(&[u8], &mut [u8]) -> Result<usize, lavandol::Refusal>,
    theirs: fn(&[u8], &mut [u8]) -> Result<usize, second::Refusal>,
}

const CONVERSIONS: [Conversion; 4] = [
    Conversion { name: "psf1_to_psf2", ours: lavandol::psf1_to_psf2, theirs: second::psf1_to_psf2 },
    Conversion { name: "psf2_to_psf1", ours: lavandol::psf2_to_psf1, theirs: second::psf2_to_psf1 },
    Conversion {
        name: "psf2_to_vfont2",
        ours: lavandol::psf2_to_vfont2,
        theirs: second::psf2_to_vfont2,
    },
    Conversion {
        name: "vfont2_to_psf2",
        ours: lavandol::vfont2_to_psf2,
        theirs: second::vfont2_to_psf2,
    },
];

/// The comparison on one file.
pub struct Asking<'a> {
    pub file: &'a [u8],
    pub tally: &'a mut Tally,
}

impl Asking<'_> {
    pub fn same<T: PartialEq + std::fmt::Debug>(
        &mut self,
        a: Answer<T>,
        b: Answer<T>,
        question: impl FnOnce() -> String,
    ) {
        self.tally.answers += 1;
        if a != b {
            self.tally.differences += 1;
            tell(question(), self.file, format!("{a:?}"), format!("{b:?}"));
        }
    }

    pub fn check(&mut self) -> Option<second::Font> {
        let (a, b, font) = checked(self.file);
        self.same(a, b, || "check".into());
        self.tally.files += 1;
        self.tally.sound += font.is_some() as u64;
        font
    }

    pub fn glyph(&mut self, g: usize) {
        let a = ours(lavandol::glyph_part(self.file, g)).map(|p| (p.start, p.len()));
        let b = theirs(second::glyph(self.file, g as u64));
        self.same(a, b, || format!("glyph {g}"));
    }

    pub fn row(&mut self, g: usize, y: usize) {
        let a = ours(lavandol::row_part(self.file, g, y)).map(|p| (p.start, p.len()));
        let b = theirs(second::row(self.file, g as u64, y as u64));
        self.same(a, b, || format!("row {g} {y}"));
    }

    pub fn pixel(&mut self, g: usize, y: usize, x: usize) {
        let a = ours(lavandol::pixel(self.file, g, y, x));
        let b = theirs(second::pixel(self.file, g as u64, y as u64, x as u64));
        self.same(a, b, || format!("pixel {g} {y} {x}"));
    }

    pub fn metrics(&mut self, g: usize) {
        let a = ours(lavandol::metrics(self.file, g));
        let a = a.map(|m| [m.up, m.down, m.left, m.right, m.logical]);
        let b = theirs(second::metrics(self.file, g as u64));
        self.same(a, b, || format!("metrics {g}"));
    }

    pub fn item(&mut self, g: usize, k: usize) {
        let a = ours(lavandol::item(self.file, g, k)).map(|i| match i {
            lavandol::Item::Single(v) => Item::Single(v),
            lavandol::Item::Start => Item::Start,
            lavandol::Item::Value(v) => Item::Value(v),
            lavandol::Item::End => Item::End,
        });
        let b = theirs(second::walk(self.file, g as u64, k as u64));
        self.same(a, b, || format!("item {g} {k}"));
    }

    pub fn value(&mut self, v: u32) {
        let a = ours(lavandol::find_value(self.file, v));
        let b = theirs(second::find_value(self.file, v));
        self.same(a, b, || format!("value {v:X}"));
    }

    pub fn sequence(&mut self, vs: &[u32]) {
        let a = ours(lavandol::find_sequence(self.file, vs));
        let b = theirs(second::find_sequence(self.file, vs));
        self.same(a, b, || format!("sequence {vs:X?}"));
    }

    /// Each question once: a refused font is refused by all.
    pub fn each_once(&mut self, random: &mut Random) {
        let (g, y) = (random.below(4), random.below(3));
        self.glyph(g);
        self.row(g, y);
        self.pixel(g, y, random.below(9));
        self.metrics(g);
        self.item(g, y);
        self.value(random.of(&EDGES));
        self.sequence(&[random.of(&EDGES)]);
        self.conversions(random);
    }

    /// A sound font's bitmaps: glyphs, rows and pixels around their bounds; metrics, of
    /// vfont2 every glyph's.
    fn bitmaps(&mut self, font: &second::Font, random: &mut Random) {
        let n = font.count;
        for g in 0..font.entries.len() {
            self.metrics(g);
        }
        for g in [random.below(n), random.below(n), n - 1] {
            let (height, width) = match font.entries.get(g) {
                Some(e) if e.size == 0 => (1, 1),
                Some(e) => ((e.up + e.down) as usize, (e.left + e.right) as usize),
                None => (font.height, font.width),
            };
            self.glyph(g);
            if font.entries.is_empty() {
                self.metrics(g);
            }
            for y in [random.below(height), height - 1, height] {
                self.row(g, y);
                self.pixel(g, y, random.below(width));
                self.pixel(g, y, width - 1);
            }
            self.pixel(g, random.below(height), width);
            self.pixel(g, random.below(height), random.of(&[width + 1, 256, usize::MAX]));
            self.row(g, random.of(&[height + 1, 256, 1 << 32, usize::MAX]));
        }
        for g in [n, n + random.below(300), random.of(&[1 << 16, 1 << 32, usize::MAX])] {
            self.glyph(g);
            self.row(g, 0);
            self.pixel(g, 0, 0);
            self.metrics(g);
        }
    }

    /// A sound font's table: items, values and sequences that it lists, and ones near
    /// them.
    fn table(&mut self, font: &second::Font, random: &mut Random) {
        let n = font.count;
        let described: Vec<usize> = (0..n).filter(|&g| font.reading[g].len() > 1).collect();
        for _ in 0..3 {
            let g = if described.is_empty() { random.below(n) } else { random.of(&described) };
            let items = &font.reading[g];
            let values = second::table::singles(items);
            let most = items.len().min(12);
            for k in (0..most).chain(items.len() - 1..items.len() + 2) {
                self.item(g, k);
            }
            if !values.is_empty() {
                let v = random.of(&values);
                self.value(v);
                self.value(v + 1);
                self.sequence(&[v]);
            }
            for s in second::table::sequences(items).iter().take(2) {
                self.sequence(s);
                self.sequence(&s[1..]);
                self.sequence(&s[..s.len() - 1]);
                self.sequence(&[&s[..], &s[..1]].concat());
                self.value(s[0]);
            }
        }
        self.item(random.below(n), 0);
        self.item(n, 0);
        self.item(random.of(&[n + 1, n + 256, usize::MAX]), 0);
        self.item(0, usize::MAX);
        for _ in 0..3 {
            self.value(random.of(&EDGES));
        }
        self.value(random.of(&[0xD800, 0xDFFF, 0xFDD0, 0xFFFE, 0xFFFF, 0x110000, u32::MAX]));
        self.sequence(&[]);
        self.sequence(&[0x41, random.of(&[0x10FFFF, 0x110000, u32::MAX])]);
    }

    /// Everything about a file.
    pub fn all(&mut self, random: &mut Random) {
        let Some(font) = self.check() else {
            return self.each_once(random);
        };
        self.bitmaps(&font, random);
        if font.has_table {
            self.table(&font, random);
        } else {
            self.item(random.below(2), random.below(2));
            self.value(random.of(&[0x41, 0x110000]));
            self.sequence(if random.below(2) == 0 { &[] } else { &[0x41] });
        }
        self.conversions(random);
    }

    /// A few questions about a large file.
    pub fn some(&mut self, random: &mut Random) {
        let Some(font) = self.check() else {
            return self.each_once(random);
        };
        let n = font.count;
        for g in [random.below(n), n - 1] {
            self.glyph(g);
            self.metrics(g);
            self.pixel(g, random.below(font.height.max(1)), random.below(font.width.max(1)));
        }
        self.row(random.below(n), 0);
        if !font.entries.is_empty() {
            // every glyph would take too long
            for g in (0..n).step_by(n / 16 + 1).chain([255, 256, 257, n]) {
                self.metrics(g);
            }
        }
        if font.has_table {
            let g = random.below(n);
            self.item(g, random.below(font.reading[g].len() + 1));
            self.item(n - 1, font.reading[n - 1].len() - 1);
            self.value(0x10FFF0);
            let (g, h) = (random.below(n), random.below(n));
            if let Some(&v) = second::table::singles(&font.reading[g]).last() {
                self.value(v);
            }
            if let Some(s) = second::table::sequences(&font.reading[h]).last() {
                self.sequence(s);
                self.sequence(&s[..s.len() - 1]);
            }
        }
        self.conversions(random);
    }

    /// A conversion into a buffer of a length, and the whole buffer after it.
    fn convert(&mut self, c: &Conversion, room: usize) {
        let before: Vec<u8> = (0..room).map(|i| (i * 29 + 7) as u8).collect();
        let (mut left, mut right) = (before.clone(), before);
        let a = ours((c.ours)(self.file, &mut left));
        let b = theirs((c.theirs)(self.file, &mut right));
        // the first place where the buffers differ, with what stands there
        let at = (0..room).find(|&i| left[i] != right[i]);
        let (left, right) = (at.map(|i| (i, left[i])), at.map(|i| (i, right[i])));
        self.same(Ok((a, left)), Ok((b, right)), || format!("{} {room}", c.name));
    }

    /// Each conversion, into buffers around the length that it needs.
    pub fn conversions(&mut self, random: &mut Random) {
        for c in &CONVERSIONS {
            match (c.theirs)(self.file, &mut []) {
                Err(r) if r.number == second::ROOM => {
                    let need = r.place;
                    for room in [random.below(need), need - 1, need, need + 1 + random.below(40)] {
                        self.convert(c, room);
                    }
                }
                _ => self.convert(c, random.of(&[0, 4, 90])),
            }
        }
    }
}
