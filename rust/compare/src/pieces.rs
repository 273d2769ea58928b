//! Fonts as they arrive: the loader is fed a file in pieces, and its close is held against
//! the whole file's check, by the library and by the second implementation. Then every
//! further piece or close is LATE and leaves the loader's state as it was.

use crate::ask::{checked, ours, shape, theirs, Answer, Asking, Shape, Tally};
use crate::make::Random;
use crate::{fonts, jobs_of, run_part, seed, Part, BATCH, FONT_JOBS, JUNK_JOBS, TAIL_JOBS};
use lavandol::Loader;

const LATE: Answer<()> = Err((22, 0, 4096));

/// The longest font that is cut into three pieces in every way.
const SMALL: usize = 300;

impl Asking<'_> {
    /// The check of the whole file by both; what every close must be.
    fn whole(&mut self) -> Answer<Shape> {
        let (a, b, font) = checked(self.file);
        self.same(a, b, || "check".into());
        self.tally.files += 1;
        self.tally.sound += font.is_some() as u64;
        b
    }

    /// Feeds the pieces, of which `how` tells, closes, and goes on after the close.
    fn fed<'p>(
        &mut self,
        mut pieces: impl Iterator<Item = &'p [u8]>,
        whole: Answer<Shape>,
        how: &dyn Fn() -> String,
    ) {
        let mut loader = Loader::new();
        let taken = pieces.try_for_each(|piece| loader.feed(piece));
        self.same(ours(taken), Ok(()), || format!("feed, {}", how()));
        self.same(ours(loader.close()).map(shape), whole, || format!("close, {}", how()));
        let closed = loader.clone();
        let late = || format!("after the close, {}", how());
        self.same(ours(loader.feed(&[])), LATE, late);
        self.same(ours(loader.feed(self.file)), LATE, late);
        self.same(ours(loader.close()).map(|_| ()), LATE, late);
        self.same(Ok(loader), Ok(closed), late);
    }

    /// In equal pieces, the last one shorter.
    fn chunks(&mut self, length: usize, whole: Answer<Shape>) {
        let file = self.file;
        self.fed(file.chunks(length), whole, &|| format!("pieces of {length}"));
    }

    /// In pieces of random lengths, empty ones between them; the second implementation's
    /// loader is fed the same.
    fn random_pieces(&mut self, random: &mut Random, whole: Answer<Shape>) {
        let most = random.of(&[2, 5, 20, 100, 3000]);
        let (mut lengths, mut left) = (Vec::new(), self.file.len());
        while left > 0 {
            let length = random.of(&[0, 0, 1, 2, 3]).max(random.below(most)).min(left);
            lengths.push(if random.below(4) == 0 { 0 } else { length });
            left -= lengths.last().unwrap();
        }
        let file = self.file;
        let pieces = || {
            lengths.iter().scan(0, |from, length| {
                *from += length;
                Some(&file[*from - length..*from])
            })
        };
        self.fed(pieces(), whole, &|| format!("pieces of {lengths:?}"));
        let mut second = second::Loader::new();
        let taken = pieces().try_for_each(|piece| second.feed(piece));
        self.same(theirs(taken), Ok(()), || "feed, second".into());
        let refusal = theirs(second.close()).err();
        self.same(Ok(refusal), Ok(whole.err()), || "close, second".into());
    }

    /// As a wire may bring it: byte by byte, in frames of 64, in random pieces.
    pub fn arriving(&mut self, random: &mut Random) {
        let whole = self.whole();
        self.in_pieces(random, whole);
    }

    /// The same, where it is known what the whole file's check says.
    pub fn in_pieces(&mut self, random: &mut Random, whole: Answer<Shape>) {
        self.chunks(1, whole);
        self.chunks(64, whole);
        self.random_pieces(random, whole);
    }

    /// Every cut into two pieces, and into three; of a font over `SMALL` bytes the first cut
    /// of three goes in steps.
    pub fn every_cut(&mut self) {
        let whole = self.whole();
        let (file, length) = (self.file, self.file.len());
        for a in 0..=length {
            let pieces = [&file[..a], &file[a..]];
            self.fed(pieces.into_iter(), whole, &|| format!("cut at {a}"));
        }
        for a in (0..=length).step_by(length / SMALL + 1) {
            if self.tally.differences > 20 {
                break;
            }
            for b in a..=length {
                self.three(a, b, whole);
            }
        }
    }

    /// In three pieces.
    fn three(&mut self, a: usize, b: usize, whole: Answer<Shape>) {
        let file = self.file;
        let pieces = [&file[..a], &file[a..b], &file[b..]];
        self.fed(pieces.into_iter(), whole, &|| format!("cut at {a} and {b}"));
    }

    /// In three pieces with both cuts among these places.
    pub fn cuts(&mut self, places: std::ops::Range<usize>) {
        let whole = self.whole();
        for a in places.clone() {
            for b in a..places.end {
                self.three(a, b, whole);
            }
        }
    }
}

fn random(series: u64, job: usize, tally: &mut Tally, font: fn(&mut Random) -> Vec<u8>) {
    let mut random = seed(series, job);
    for _ in 0..BATCH {
        let file = font(&mut random);
        Asking { file: &file, tally }.arriving(&mut random);
    }
}

/// The files of a list, shared by `LIST_JOBS` jobs.
const LIST_JOBS: usize = 8;

fn listed(series: u64, job: usize, files: Vec<Vec<u8>>, tally: &mut Tally) {
    let mut random = seed(series, job);
    for file in files.iter().skip(job).step_by(LIST_JOBS) {
        Asking { file, tally }.arriving(&mut random);
    }
}

fn large(job: usize, tally: &mut Tally) {
    let mut random = seed(16, job);
    let file = fonts::large(job, &mut random);
    Asking { file: &file, tally }.arriving(&mut random);
}

/// Every cut of a small font, as it is and damaged.
fn small(job: usize, tally: &mut Tally) {
    let bases = fonts::bases();
    let mut random = seed(17, job);
    let file = match bases.get(job) {
        Some(base) => base.clone(),
        None => loop {
            let file = fonts::random_font(&mut random);
            if (33..=120).contains(&file.len()) {
                break file;
            }
        },
    };
    Asking { file: &file, tally }.every_cut();
}

const PARTS: [Part; 8] = [
    (80, large),
    (600, small),
    (LIST_JOBS, |j, t| listed(14, j, fonts::headers(), t)),
    (LIST_JOBS, |j, t| listed(15, j, fonts::entries(), t)),
    (LIST_JOBS, |j, t| listed(18, j, fonts::modes(), t)),
    (FONT_JOBS, |j, t| random(11, j, t, fonts::random_font)),
    (TAIL_JOBS, |j, t| random(12, j, t, fonts::random_tail)),
    (JUNK_JOBS, |j, t| random(13, j, t, fonts::junk)),
];

pub const JOBS: usize = jobs_of(&PARTS);

pub fn run(job: usize, tally: &mut Tally) {
    run_part(&PARTS, job, tally)
}
