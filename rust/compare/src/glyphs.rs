//! Fonts that are refused at a glyph which is known from how they are made: in the table of
//! fonts of 1 to 4,096 glyphs, at an entry, and in conversions. Number, place and glyph are held
//! against document 02's words, and every call, the loader too, against the second
//! implementation.

use crate::ask::{ours, theirs, Answer, Asking, Tally, Told};
use crate::differences::two;
use crate::edits::Editing;
use crate::make::*;
use crate::seed;

/// No glyph's number.
const NONE: usize = 4096;

/// The fonts: which kind, how many glyphs, and what stands before the table. Modes of PSF1.
#[derive(Clone, Copy, PartialEq)]
enum Form {
    Psf1(u8),
    Psf2(usize),
    Vfont2(usize),
}

use Form::*;

const FORMS: [Form; 22] = [
    Psf1(2),
    Psf1(3),
    Psf1(4),
    Psf1(5),
    Psf2(1),
    Psf2(2),
    Psf2(3),
    Psf2(255),
    Psf2(256),
    Psf2(257),
    Psf2(300),
    Psf2(512),
    Psf2(4095),
    Psf2(4096),
    Vfont2(1),
    Vfont2(2),
    Vfont2(3),
    Vfont2(256),
    Vfont2(257),
    Vfont2(300),
    Vfont2(4095),
    Vfont2(4096),
];

pub const JOBS: usize = FORMS.len();

/// An entry of one row of 8 pixels; all share its byte.
const EVEN: Entry = (0, 1, [1, 0, 0, 8, 8]);

impl Form {
    fn count(self) -> usize {
        match self {
            Psf1(mode) => 256 << (mode & 1),
            Psf2(n) | Vfont2(n) => n,
        }
    }

    fn is_units(self) -> bool {
        matches!(self, Psf1(_))
    }

    /// The font with these bytes as its table.
    fn file(self, table: &[u8]) -> Vec<u8> {
        match self {
            Psf1(mode) => psf1(mode, 1, 0x18, table),
            Psf2(n) => psf2(n, 1, 8, &vec![0x18; n], Some(table)),
            Vfont2(n) => vfont2(32, &vec![EVEN; n], &[0x18], Some(table)),
        }
    }

    fn end_mark(self) -> &'static [u8] {
        if self.is_units() {
            &[0xFF, 0xFF]
        } else {
            &[0xFF]
        }
    }

    fn ends(self, count: usize) -> Vec<u8> {
        self.end_mark().repeat(count)
    }

    /// Descriptions of glyphs 0 to g - 1: most of them empty.
    fn before(self, g: usize, random: &mut Random) -> Vec<u8> {
        let mut bytes = Vec::new();
        for _ in 0..g {
            if random.below(20) == 0 {
                let some = [
                    text(&[0x41], &[]),
                    text(&[], &[&[0x42, 0x30A]]),
                    text(&[0xC5, 0xFF], &[&[0x41], &[0x100]]),
                ];
                let one = &some[random.below(3)..][..1];
                bytes.extend(if self.is_units() { units(one) } else { table(one) });
            } else {
                bytes.extend(self.end_mark());
            }
        }
        bytes
    }

    /// Bytes that no description goes on with, and which of them is the first such.
    fn faults(self) -> Vec<(&'static [u8], usize)> {
        if self.is_units() {
            return vec![
                (&[0xFE, 0xFF, 0xFF, 0xFF], 3),
                (&[0xFE, 0xFF, 0xFE, 0xFF], 3),
                (&[0x41, 0, 0xFE, 0xFF, 0x42, 0, 0xFE, 0xFF, 0xFF, 0xFF], 9),
                (&[0xD0, 0xFD], 1),
                (&[0xFE, 0xFF, 0xEF, 0xFD], 3),
                // FF FF straddles two values
                (&[0x41, 0xFF, 0xFF, 0x41, 0xD0, 0xFD], 5),
            ];
        }
        vec![
            (&[0x80], 0),
            (&[0xC0], 0),
            (&[0x41, 0xC3, 0xFF], 2),
            (&[0xE0, 0x80], 1),
            (&[0xF4, 0x90], 1),
            (&[0xEF, 0xBF, 0xBE], 2),
            (&[0xFE, 0xFF], 1),
            (&[0xFE, 0xFE], 1),
            (&[0xC3, 0x85, 0xFE, 0x41, 0xCC, 0x8A, 0xFE, 0xFF], 7),
            (&[0xFE, 0x41, 0xF5], 2),
        ]
    }

    /// A description without its end mark, to be cut at each byte.
    fn described(self) -> Vec<u8> {
        let one = [text(&[0x41, 0xC5, 0x20AC], &[&[0x41, 0x30A], &[0xFFFD]])];
        let mut bytes = if self.is_units() { units(&one) } else { table(&one) };
        bytes.truncate(bytes.len() - self.end_mark().len());
        bytes
    }
}

/// The glyphs that are tried of n: the first, the last, those around 8 bits, and any.
fn glyphs(n: usize, random: &mut Random) -> Vec<usize> {
    let mut some = vec![0, 1, 2, 127, 128, 254, 255, 256, 257, 300, 511, 512, 1023, n - 1, n / 2];
    some.extend([n.saturating_sub(2), random.below(n), random.below(n)]);
    some.retain(|&g| g < n);
    some.sort();
    some.dedup();
    some
}

/// A font that must be refused so, by every call and by every loader.
fn refused(file: &[u8], told: Told, random: &mut Random, tally: &mut Tally) {
    let mut asking = Asking { file, tally };
    let answer: Answer<()> = ours(lavandol::check(file)).map(|_| ());
    asking.same(answer, Err(told), || "check, by document 02".into());
    asking.all(random);
    asking.in_pieces(random, Err(told));
    Editing { file, tally }.both(0, 0x41);
    two(file, &worked(), 3, tally);
}

/// A conversion of a sound font that must be refused so.
fn unconverted(file: &[u8], told: Told, to: Conversion, tally: &mut Tally) {
    let (name, library, second) = to;
    for room in [0, 40, 9000] {
        let (mut left, mut right) = (vec![0xA5; room], vec![0xA5; room]);
        let mut asking = Asking { file, tally };
        asking
            .same(ours(library(file, &mut left)), Err(told), || format!("{name}, by document 02"));
        asking.same(theirs(second(file, &mut right)), Err(told), || format!("{name}, second"));
        asking.same(Ok(left), Ok(right), || format!("{name}, buffer"));
    }
    tally.files += 1;
    tally.sound += 1;
}

type Conversion = (
    &'static str,
    fn(&[u8], &mut [u8]) -> Result<usize, lavandol::Refusal>,
    fn(&[u8], &mut [u8]) -> Result<usize, second::Refusal>,
);

const TO_PSF1: Conversion = ("psf2_to_psf1", lavandol::psf2_to_psf1, second::psf2_to_psf1);
const FROM_PSF1: Conversion = ("psf1_to_psf2", lavandol::psf1_to_psf2, second::psf1_to_psf2);
const FROM_VFONT2: Conversion =
    ("vfont2_to_psf2", lavandol::vfont2_to_psf2, second::vfont2_to_psf2);

/// TABLE BAD and TABLE CUT in glyph g's description.
fn in_table(form: Form, g: usize, random: &mut Random, tally: &mut Tally) {
    let n = form.count();
    let before = form.before(g, random);
    let at = form.file(&before).len();
    let faults = form.faults();
    let large = n > 1000;
    for (i, (words, bad)) in faults.iter().enumerate() {
        // a large font shows one of them
        if large && i != g % faults.len() {
            continue;
        }
        let behind = form.ends(random.below(n - g + 1));
        let file = form.file(&[&before[..], words, &behind].concat());
        refused(&file, (11, at + bad, g), random, tally);
    }
    let described = form.described();
    for cut in 0..=described.len() {
        if large && cut != g % (described.len() + 1) {
            continue;
        }
        let file = form.file(&[&before[..], &described[..cut]].concat());
        refused(&file, (10, at + cut, g), random, tally);
    }
}

/// Bytes behind a complete table.
fn trailing(form: Form, random: &mut Random, tally: &mut Tally) {
    let n = form.count();
    let table = form.before(n, random);
    let at = form.file(&table).len();
    for more in [&[0xFF][..], &[0x41], &[0x80], &[0xFE, 0xFF]] {
        let file = form.file(&[&table[..], more].concat());
        refused(&file, (12, at, NONE), random, tally);
    }
}

/// Bytes behind the bitmaps of a font without a table.
fn bare_trailing(form: Form, random: &mut Random, tally: &mut Tally) {
    let bare = match form {
        Psf1(mode) => psf1(mode & 1, 1, 0x18, &[]),
        Psf2(n) => psf2(n, 1, 8, &vec![0x18; n], None),
        Vfont2(n) => vfont2(32, &vec![EVEN; n], &[0x18], None),
    };
    for more in [&[0xFF][..], &[0x41, 0xFF]] {
        refused(&[&bare[..], more].concat(), (12, bare.len(), NONE), random, tally);
    }
}

/// VALUE in glyph g's description, as a single and in a sequence; a second one stands behind.
fn value(form: Form, g: usize, random: &mut Random, tally: &mut Tally) {
    let (to, word): (Conversion, &[u8]) = match form {
        Psf1(_) => (FROM_PSF1, &[0x00, 0xD8]),
        Psf2(256 | 512) => (TO_PSF1, &[0xF0, 0x90, 0x80, 0x80]),
        _ => return,
    };
    let before = form.before(g, random);
    let at = form.file(&before).len();
    let own = form.described();
    let start: &[u8] = if form.is_units() { &[0xFE, 0xFF] } else { &[0xFE] };
    for front in [&[][..], start, &own] {
        let behind = [word, &form.ends(form.count() - g)].concat();
        let file = form.file(&[&before[..], front, word, &behind].concat());
        unconverted(&file, (19, at + front.len(), g), to, tally);
    }
}

/// ENTRY and GLYPHS at entry g, with another one behind it.
fn entry(n: usize, g: usize, random: &mut Random, tally: &mut Tally) {
    let broken: [Entry; 7] = [
        (0, 2, [1, 0, 0, 8, 8]),
        (1, 1, [1, 0, 0, 8, 8]),
        (u32::MAX, 1, [1, 0, 0, 8, 8]),
        (0, 1, [0, 0, 0, 8, 8]),
        (0, 1, [1, 0, 0, 9, 8]),
        (0, 1, [-32768, -32767, 0, 8, 8]),
        (0, 1, [1, 0, 8, -8, 8]),
    ];
    let uneven: [Entry; 5] = [
        (0, 0, [1, 0, 0, 8, 8]),
        (0, 1, [1, 0, 0, 8, 7]),
        (0, 1, [0, 1, 0, 8, 8]),
        (0, 1, [1, 0, 8, 0, 8]),
        (0, 1, [1, 0, 0, 7, 8]),
    ];
    let with = |e: Entry, random: &mut Random| {
        let mut entries = vec![EVEN; n];
        entries[g] = e;
        if g + 1 < n && random.below(2) == 0 {
            entries[g + 1 + random.below(n - g - 1)] = e;
        }
        let mut file = vfont2(32, &entries, &[0x18], None);
        // the greatest height and width of the others
        file[24..32].copy_from_slice(&u32s(&[1, 8]));
        file
    };
    // a large font shows one of them
    let only = |i: usize, count: usize| n <= 1000 || i == g % count;
    for (_, e) in broken.into_iter().enumerate().filter(|(i, _)| only(*i, 7)) {
        refused(&with(e, random), (9, 32 + 18 * g, g), random, tally);
    }
    // alone, an entry that is empty or narrower has another greatest height or width
    for (_, e) in uneven.into_iter().enumerate().filter(|(i, _)| n > 2 && only(*i, 5)) {
        let file = with(e, random);
        if second::check(&file).is_ok() {
            unconverted(&file, (18, 32 + 18 * g, g), FROM_VFONT2, tally);
        }
    }
}

/// The greatest height and width, which are no one entry's.
fn greatest(n: usize, random: &mut Random, tally: &mut Tally) {
    for (at, byte) in [(24, 0), (24, 2), (28, 7), (28, 9)] {
        let mut file = vfont2(32, &vec![EVEN; n], &[0x18], None);
        file[at] = byte;
        refused(&file, (9, at, NONE), random, tally);
    }
}

/// From PSF2 to PSF1 GLYPHS is of the header.
fn unfit(n: usize, tally: &mut Tally) {
    let table = vec![0xFF; n];
    let narrow = psf2(n, 1, 7, &vec![0x18; n], Some(&table));
    let place = if matches!(n, 256 | 512) { 28 } else { 16 };
    unconverted(&narrow, (18, place, NONE), TO_PSF1, tally);
}

pub fn run(job: usize, tally: &mut Tally) {
    let form = FORMS[job];
    let mut random = seed(51, job);
    for g in glyphs(form.count(), &mut random) {
        in_table(form, g, &mut random, tally);
        value(form, g, &mut random, tally);
        if let Vfont2(n) = form {
            entry(n, g, &mut random, tally);
        }
    }
    trailing(form, &mut random, tally);
    bare_trailing(form, &mut random, tally);
    match form {
        Vfont2(n) => greatest(n, &mut random, tally),
        Psf2(n) => unfit(n, tally),
        Psf1(_) => {}
    }
}
