//! All short tables: the check of every tail of up to 3 bytes, and of 4 boundary
//! bytes and an end mark, in both codings, where 1 or 2 descriptions are missing.
//! One buffer is reused and only its end is changed. And such tables as they arrive, cut into
//! pieces.

use crate::ask::{checked, ours, Answer, Asking, Tally};
use crate::fonts::{UNIT_EDGES, UTF8_EDGES};
use crate::make::{psf1, psf2, Random};
use lavandol::Loader;
use second::table::{ended, judge, Coding, Verdict};

/// Boundary bytes and the end mark of each coding.
const EDGE_PARTS: [(Coding, &[u8], &[u8]); 2] =
    [(Coding::Utf8, &UTF8_EDGES, &[0xFF]), (Coding::Units, &UNIT_EDGES, &[0xFF, 0xFF])];

/// Jobs of `run_pieces` and of `run_edges`: one for each boundary byte of UTF-8.
pub const EDGE_JOBS: usize = UTF8_EDGES.len();

/// A font up to its last `left` descriptions, behind `before` complete ones.
struct Front {
    coding: Coding,
    before: usize,
    left: usize,
    bytes: Vec<u8>,
}

fn front(coding: Coding, left: usize) -> Front {
    let (before, bytes) = match coding {
        Coding::Utf8 => (0, psf2(left, 1, 1, &vec![0x80; left], Some(&[]))),
        // bare end marks of the glyphs before
        Coding::Units => (256 - left, psf1(2, 1, 0x80, &vec![0xFF; 2 * (256 - left)])),
    };
    Front { coding, before, left, bytes }
}

impl Front {
    /// What the check of the font with this tail must say, from the second
    /// implementation's verdict on the tail alone.
    fn verdict(&self, tail: &[u8]) -> Answer<()> {
        let at = self.bytes.len();
        let glyph = |start: &[u8]| self.before + ended(self.coding, start);
        match judge(self.coding, self.left, tail) {
            Verdict::Complete => Ok(()),
            Verdict::Cut => Err((10, at + tail.len(), glyph(tail))),
            Verdict::Bad(k) => Err((11, at + k, glyph(&tail[..k]))),
            Verdict::Trailing(k) => Err((12, at + k, 4096)),
        }
    }

    /// The check of the whole font against the second implementation's verdict on the
    /// tail alone, which is judged apart from the bytes before. Sound fonts, and one of
    /// about `each` others, picked by their bytes, are asked whole and all about.
    fn try_tail(&self, file: &mut Vec<u8>, tail: &[u8], each: usize, tally: &mut Tally) {
        let at = self.bytes.len();
        file.truncate(at);
        file.extend_from_slice(tail);
        let verdict = self.verdict(tail);
        let a = ours(lavandol::check(file)).map(|_| ());
        let mut asking = Asking { file, tally };
        asking.same(a, verdict, || "check".into());
        asking.tally.files += 1;
        if verdict.is_ok() {
            asking.tally.sound += 1;
            self.ask_items(&mut asking);
        } else if tail.iter().fold(7, |n, &b| n * 31 + b as usize) % each == 0 {
            let (a, b, _) = checked(file);
            asking.same(a, b, || "check".into());
            asking.each_once(&mut Random(0x51ED + tail.len() as u64));
        }
    }

    /// The items of the last glyphs, and the lookup of each value.
    fn ask_items(&self, asking: &mut Asking) {
        let font = second::check(asking.file).expect("a complete table");
        let (a, b, _) = checked(asking.file);
        asking.same(a, b, || "check".into());
        for g in font.count - self.left..font.count {
            for k in 0..=font.reading[g].len() {
                asking.item(g, k);
            }
            for v in second::table::singles(&font.reading[g]) {
                asking.value(v);
            }
            for s in second::table::sequences(&font.reading[g]) {
                asking.sequence(&s);
            }
        }
    }
}

/// Job i of `JOBS`: a part of the tables, by the first byte.
pub const JOBS: usize = 64;

pub fn run(job: usize, tally: &mut Tally) {
    for coding in [Coding::Utf8, Coding::Units] {
        for left in [1, 2] {
            let front = front(coding, left);
            let mut file = front.bytes.clone();
            file.reserve(8);
            if job == 0 {
                front.try_tail(&mut file, &[], 1, tally);
            }
            for a in (0..=255u8).filter(|&a| a as usize % JOBS == job) {
                front.try_tail(&mut file, &[a], 1, tally);
                for b in 0..=255 {
                    front.try_tail(&mut file, &[a, b], 16, tally);
                    for c in 0..=255 {
                        front.try_tail(&mut file, &[a, b, c], 4096, tally);
                    }
                }
            }
        }
    }
}

/// A font that arrives: the loader is fed all before the tail once, and a copy of it each
/// tail in each of the ways that are asked for.
struct Arriving {
    front: Front,
    fed: Loader,
}

impl Arriving {
    fn new(coding: Coding, left: usize) -> Arriving {
        let front = front(coding, left);
        let mut fed = Loader::new();
        fed.feed(&front.bytes).expect("the loader is open");
        Arriving { front, fed }
    }

    /// The tail cut behind each byte whose bit is set in one of the `ways`.
    fn try_tail(&self, tail: &[u8], ways: impl Iterator<Item = usize>, tally: &mut Tally) {
        let verdict = self.front.verdict(tail);
        tally.files += 1;
        tally.sound += verdict.is_ok() as u64;
        let mut asking = Asking { file: tail, tally };
        for way in ways {
            let mut loader = self.fed.clone();
            let mut from = 0;
            for end in (1..=tail.len()).filter(|&k| k == tail.len() || way >> (k - 1) & 1 == 1) {
                asking.same(ours(loader.feed(&tail[from..end])), Ok(()), || "feed".into());
                from = end;
            }
            let a = ours(loader.close()).map(|_| ());
            asking.same(a, verdict, || {
                let Front { coding, left, bytes, .. } = &self.front;
                format!("loader, {coding:?} {left}, after {} bytes, cut {way:b}", bytes.len())
            });
        }
    }
}

/// Tails in pieces, one job for each of the first bytes: of up to 2 bytes all, and of 3
/// boundary bytes and an end mark, cut in every way; of 4 boundary bytes byte by byte.
pub fn run_pieces(job: usize, tally: &mut Tally) {
    for coding in [Coding::Utf8, Coding::Units] {
        for left in [1, 2] {
            let arriving = Arriving::new(coding, left);
            if job == 0 {
                arriving.try_tail(&[], 0..1, tally);
            }
            for a in (0..=255u8).filter(|&a| a as usize % EDGE_JOBS == job) {
                arriving.try_tail(&[a], 0..1, tally);
                for b in 0..=255 {
                    arriving.try_tail(&[a, b], 0..2, tally);
                }
            }
        }
    }
    for (coding, edges, end) in EDGE_PARTS {
        let Some(&a) = edges.get(job) else { continue };
        let arriving = Arriving::new(coding, 1);
        for &b in edges {
            for &c in edges {
                let tail = [&[a, b, c], end].concat();
                arriving.try_tail(&tail, 0..1 << (tail.len() - 1), tally);
                for &d in edges {
                    let tail = [&[a, b, c, d], end].concat();
                    arriving.try_tail(&tail, std::iter::once(usize::MAX), tally);
                }
            }
        }
    }
}

/// Four boundary bytes and an end mark; one job for each of the first bytes.
pub fn run_edges(job: usize, tally: &mut Tally) {
    for (coding, edges, end) in EDGE_PARTS {
        let Some(&a) = edges.get(job) else { continue };
        let front = front(coding, 1);
        let mut file = front.bytes.clone();
        for &b in edges {
            for &c in edges {
                for &d in edges {
                    let tail = [&[a, b, c, d], end].concat();
                    front.try_tail(&mut file, &tail, 256, tally);
                }
            }
        }
    }
}
