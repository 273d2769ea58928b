//! Noncharacters, all 66 of them, and the values beside them, at each place of a description
//! and of a table, in all kinds of fonts: every call. And every number up to 10FFFF as the only
//! value of a font.

use crate::ask::{ours, Answer, Asking, Tally};
use crate::differences::two;
use crate::edits::Editing;
use crate::fonts::bases;
use crate::make::*;
use crate::{jobs_of, run_part, seed, Part};

/// Numbers that are like a noncharacter but for a few bits.
const ALIKE: [u32; 10] =
    [0x7FFE, 0xEFFF, 0xEDD0, 0xFFBE, 0x17FFE, 0x1FDD0, 0x2EFFF, 0x10FDEF, 0x10BFFF, 0x10EFFF];

/// The noncharacters, the values beside them, and others.
fn words() -> Vec<u32> {
    let words: Vec<u32> = noncharacters().into_iter().chain(neighbours()).chain(ALIKE).collect();
    assert_eq!(words.len(), WORDS);
    words
}

/// 66 noncharacters, 35 values beside them.
const WORDS: usize = 66 + 35 + ALIKE.len();

/// A description with v at each place: alone, among the singles, in a sequence of its own, and
/// as each value of a sequence between others.
fn descriptions(v: u32) -> [Text; 9] {
    let one = [0x61, 0x20AC];
    [
        text(&[v], &[]),
        text(&[v, one[0]], &[&one]),
        text(&[one[0], v, one[1]], &[]),
        text(&[one[1], v], &[&[0x62]]),
        text(&[], &[&[v]]),
        text(&[one[0]], &[&[v, 0x62, 0x63], &one]),
        text(&[], &[&[0x62, v, 0x1F600]]),
        text(&[one[1]], &[&one, &[0x62, 0x63, v]]),
        text(&[v], &[&[v, v]]),
    ]
}

#[derive(Clone, Copy, PartialEq)]
enum Form {
    /// PSF2 of three glyphs.
    Small,
    /// PSF2 of 256 glyphs that PSF1 could have.
    Narrow,
    /// vfont2 of three glyphs, which PSF2 could have.
    Vfont2,
    Psf1,
}
use Form::{Narrow, Psf1, Small, Vfont2};

impl Form {
    fn count(self) -> usize {
        if matches!(self, Small | Vfont2) {
            3
        } else {
            256
        }
    }

    /// Three glyphs list something: the first, one between, the last.
    fn described(self) -> [usize; 3] {
        let n = self.count();
        [0, n / 2, n - 1]
    }

    /// The font, and where its table begins. Glyphs that aren't asked about list nothing, or a
    /// value of two bytes.
    fn font(self, at: usize, description: &Text) -> (Vec<u8>, usize) {
        let n = self.count();
        let mut some = self.described().map(|g| (g, text(&[0xC5], &[]))).to_vec();
        some.push((at, description.clone()));
        let texts = spread(n, &some);
        let file = match self {
            Small => psf2(n, 1, 9, &pattern(2 * n), Some(&table(&texts))),
            Narrow => psf2(n, 1, 8, &[0x3C; 256], Some(&table(&texts))),
            Vfont2 => {
                let entries: Vec<Entry> = (0..n).map(|i| entry(2 * i, 2, 0, 0, 7)).collect();
                vfont2(33, &entries, &pattern(2 * n), Some(&table(&texts)))
            }
            Psf1 => psf1(2, 1, 0x3C, &units(&texts)),
        };
        let table = match self {
            Small => 32 + 2 * n,
            Narrow => 32 + n,
            Vfont2 => 33 + 18 * n + 2 * n,
            Psf1 => 4 + n,
        };
        (file, table)
    }
}

/// Every call on the font that has v there; cut at each byte of v, and behind it.
fn ask(form: Form, at: usize, i: usize, v: u32, random: &mut Random, tally: &mut Tally) {
    let description = &descriptions(v)[i];
    let (file, table) = form.font(at, description);
    let mut asking = Asking { file: &file, tally };
    asking.all(random);
    asking.value(v);
    for sequence in [&[v][..], &[v, v], &[0x62, v], &[v, 0x62, 0x63]] {
        asking.sequence(sequence);
    }
    for k in 0..6 {
        asking.item(at, k);
    }
    asking.conversions(random);
    asking.arriving(random);
    // where v stands for the first time
    let word = if form == Psf1 { (v as u16).to_le_bytes().to_vec() } else { utf8(v) };
    let step = if form == Psf1 { 2 } else { 1 };
    let places = (table..file.len() - word.len()).step_by(step);
    let from = places.into_iter().find(|&p| file[p..].starts_with(&word)).expect("v is there");
    asking.cuts(from.max(2) - 2..(from + word.len() + 2).min(file.len()) + 1);
    if form == Small && at != 1 && (i == 0 || i == 6) {
        asking.every_cut();
    }
    for end in from..=from + word.len() {
        let mut asking = Asking { file: &file[..end], tally };
        asking.all(random);
        asking.arriving(random);
    }
    // the same font with another value there
    let (other, _) = form.font(at, &descriptions(0x41)[i]);
    two(&file, &other, random.below(4), tally);
    two(&file, &file, random.below(4), tally);
    let mut editing = Editing { file: &file, tally };
    for g in form.described().into_iter().chain([form.count()]) {
        editing.both(g, v);
    }
    editing.both(at, 0x41);
    Editing { file: &other, tally }.both(at, v);
}

/// One job for each of `words`, at each place of a description and of a table.
fn places(job: usize, tally: &mut Tally) {
    let v = words()[job];
    let mut random = seed(40, job);
    for form in [Small, Narrow, Vfont2, Psf1] {
        // FFFE and FFFF are marks in PSF1
        if form == Psf1 && v > 0xFFFD {
            continue;
        }
        for at in form.described() {
            for i in 0..descriptions(v).len() {
                if tally.differences > 20 {
                    return;
                }
                ask(form, at, i, v, &mut random, tally);
            }
        }
    }
}

/// Small fonts of all kinds, which list none of `words`: lookups and edits of each.
fn small(job: usize, tally: &mut Tally) {
    let file = &bases()[job];
    let n = second::check(file).expect("a sound font").count;
    for v in words() {
        let mut asking = Asking { file, tally };
        asking.value(v);
        for sequence in [&[v][..], &[0x41, v], &[v, 0x30A], &[v, 0x110000]] {
            asking.sequence(sequence);
        }
        let mut editing = Editing { file, tally };
        for g in [0, n - 1, n, usize::MAX] {
            editing.both(g, v);
        }
    }
}

const VALUE_JOBS: usize = 17;

/// What document 02 says of a font whose last description, glyph g's at `at`, is v and an end
/// mark.
fn by_words(none: &[u32], v: u32, g: usize, at: usize, length: usize) -> Answer<()> {
    if none.contains(&v) {
        Err((11, at + length - 1, g))
    } else {
        Ok(())
    }
}

/// Every number up to 10FFFF but the surrogates as the only value of a PSF2 font, and every one
/// up to FFFD of a PSF1 font's last glyph. The check and the lookup are held against document
/// 02's words; of one in about 512, everything against the second implementation.
fn every_value(job: usize, tally: &mut Tally) {
    let none = noncharacters();
    let plane = (job as u32) << 16;
    let mut random = seed(41, job);
    let mut file = psf2(1, 1, 1, &[0x80], Some(&[]));
    let at = file.len();
    for v in (plane..=plane + 0xFFFF).filter(|v| v >> 11 != 0x1B) {
        let word = utf8(v);
        file.truncate(at);
        file.extend_from_slice(&word);
        file.push(0xFF);
        let told = by_words(&none, v, 0, at, word.len());
        only(&file, v, told, 0, tally);
        if random.below(512) == 0 {
            Asking { file: &file, tally }.all(&mut random);
        }
    }
    if job > 0 {
        return;
    }
    let mut file = psf1(2, 1, 0x80, &[0xFF; 510]);
    let at = file.len();
    for v in 0..0xFFFE {
        file.truncate(at);
        file.extend_from_slice(&(v as u16).to_le_bytes());
        file.extend_from_slice(&[0xFF, 0xFF]);
        only(&file, v, by_words(&none, v, 255, at, 2), 255, tally);
        if random.below(512) == 0 {
            Asking { file: &file, tally }.all(&mut random);
        }
    }
}

fn only(file: &[u8], v: u32, told: Answer<()>, g: usize, tally: &mut Tally) {
    tally.files += 1;
    tally.sound += told.is_ok() as u64;
    let mut asking = Asking { file, tally };
    asking.same(ours(lavandol::check(file)).map(|_| ()), told, || format!("check, {v:X} alone"));
    let found = ours(lavandol::find_value(file, v));
    asking.same(found, told.map(|()| g), || format!("value {v:X}, alone"));
}

const PARTS: [Part; 3] = [(WORDS, places), (8, small), (VALUE_JOBS, every_value)];

pub const JOBS: usize = jobs_of(&PARTS);

pub fn run(job: usize, tally: &mut Tally) {
    run_part(&PARTS, job, tally)
}
