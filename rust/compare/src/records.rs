//! Records that no call has made, lent to the loader as C could lend them: random bytes, and
//! numbers around all that a loader has in it. A call must not write outside the record. It
//! is LATE, and leaves the record, exactly where `closed` is not 0 or the number of unfinished
//! bytes is none that feeding leaves; any other piece is taken, and a close closes.

use crate::ask::{Answer, Asking, Tally};
use crate::fonts::{bases, UTF8_EDGES};
use crate::make::Random;
use crate::{seed, BATCH};

/// lav_loader of include/lavandol.h, the numbers behind the unfinished bytes as one array.
#[repr(C)]
#[derive(Debug, Clone, Copy, PartialEq)]
struct Record {
    total: usize,
    closed: usize,
    header: [u8; 32],
    held: usize,
    bytes: [u8; 32],
    counts: [usize; 7],
}

/// Where `standing.halted` is in `counts`.
const HALTED: usize = 5;

const _: () = assert!(size_of::<Record>() == 144);

#[repr(C)]
struct Refusal {
    number: u32,
    glyph: u32,
    place: u64,
}

/// lav_font.
#[repr(C)]
struct Font {
    refusal: Refusal,
    kind: u32,
    numbers: [usize; 8],
}

extern "C" {
    fn lav_loader_feed(loader: *mut Record, piece: *const u8, len: usize) -> Refusal;
    fn lav_loader_close(loader: *mut Record) -> Font;
}

/// A record with other bytes around it.
#[repr(C)]
struct Lent {
    before: [u8; 64],
    record: Record,
    after: [u8; 64],
}

impl Record {
    fn is_closed(&self) -> bool {
        let held = if self.total < 32 { self.held == self.total } else { self.held <= 17 };
        self.closed != 0 || !held
    }

    /// Whether the number of a refusal that it tells of is one that feeding leaves. Any other
    /// is taken at its word, and nothing is said of the number that a close then answers.
    fn tells_a_refusal(&self) -> bool {
        matches!(self.counts[HALTED], 0 | 11 | 12)
    }

    fn bytes(&self) -> Vec<u8> {
        let mut bytes = [self.total, self.closed].map(usize::to_le_bytes).concat();
        bytes.extend(self.header);
        bytes.extend(self.held.to_le_bytes());
        bytes.extend(self.bytes);
        bytes.extend(self.counts.map(usize::to_le_bytes).concat());
        bytes
    }
}

/// A number at some edge.
fn count(random: &mut Random) -> usize {
    let around = random.of(&[0, 1, 2, 11, 12, 32, 36, 255, 256, 4096, 1 << 20, 1 << 32, 1 << 63]);
    match random.below(4) {
        0 => random.below(1 << 52) << random.below(12),
        1 => usize::MAX - random.below(3),
        _ => (around + random.below(3)).saturating_sub(1),
    }
}

fn record(random: &mut Random) -> Record {
    let mut header = [0; 32];
    match random.below(4) {
        0 => header.fill_with(|| random.byte()),
        1 => header.fill_with(|| random.of(&UTF8_EDGES)),
        _ => header.copy_from_slice(&random.of(&bases().each_ref())[..32]),
    }
    let total = match random.below(3) {
        0 => random.below(40),
        1 => 32 + random.below(900),
        _ => count(random),
    };
    let held = match random.below(4) {
        0 => random.of(&[total.wrapping_sub(1), total, total.wrapping_add(1), 17, 18, 31, 32, 33]),
        1 => count(random),
        _ if total < 32 => total,
        _ => random.below(19),
    };
    let closed = if random.below(5) == 0 { count(random) } else { 0 };
    let mut bytes = [0; 32];
    bytes.fill_with(|| if random.below(2) == 0 { random.byte() } else { random.of(&UTF8_EDGES) });
    let mut counts = [0; 7];
    counts.fill_with(|| if random.below(2) == 0 { 0 } else { count(random) });
    if random.below(4) != 0 {
        counts[HALTED] = random.of(&[0, 11, 12]);
    }
    Record { total, closed, header, held, bytes, counts }
}

/// One call: a piece, or the close.
fn call(lent: &mut Lent, piece: Option<&[u8]>, tally: &mut Tally) {
    let before = lent.record;
    // SAFETY: every bit pattern is a value of the record, and the piece is a slice.
    let (refusal, members) = match piece {
        Some(piece) => {
            let length = piece.len();
            (unsafe { lav_loader_feed(&mut lent.record, piece.as_ptr(), length) }, None)
        }
        None => {
            let font = unsafe { lav_loader_close(&mut lent.record) };
            (font.refusal, Some((font.kind, font.numbers)))
        }
    };
    let answer = (refusal.number, refusal.place, refusal.glyph);
    let bytes = before.bytes();
    let mut asking = Asking { file: &bytes, tally };
    let question = || match piece {
        Some(piece) => format!("record fed {piece:X?}"),
        None => "record closed".into(),
    };
    let around: Answer<_> = Ok((lent.before, lent.after));
    asking.same(around, Ok(([0xA5; 64], [0x5A; 64])), question);
    if before.is_closed() {
        asking.same(Ok((answer, lent.record)), Ok(((22, 0, 4096), before)), question);
        if let Some(members) = members {
            asking.same(Ok(members), Ok((0, [0; 8])), question);
        }
    } else if let Some((kind, numbers)) = members {
        asking.same(Ok(lent.record.is_closed()), Ok(true), question);
        if before.tells_a_refusal() {
            let sound = answer == (0, 0, 4096) && (1..=3).contains(&kind) && numbers[0] != 0;
            // no glyph but of ENTRY, TABLE CUT and TABLE BAD, and no number above all others
            let glyph = match answer.0 {
                9..=11 => answer.2 <= 4096,
                _ => answer.2 == 4096,
            };
            let refused = (1..=12).contains(&answer.0) && (kind, numbers) == (0, [0; 8]);
            asking.same(Ok((answer, sound || refused && glyph)), Ok((answer, true)), question);
        }
    } else {
        asking.same(Ok(answer), Ok((0, 0, 4096)), question);
    }
}

pub const JOBS: usize = 100;

pub fn run(job: usize, tally: &mut Tally) {
    let mut random = seed(19, job);
    for _ in 0..BATCH {
        let record = record(&mut random);
        let mut lent = Lent { before: [0xA5; 64], record, after: [0x5A; 64] };
        for _ in 0..4 {
            let length = random.of(&[0, 1, 2, 17, 18, 31, 32, 33, 64, 300]);
            let piece: Vec<u8> = match random.below(2) {
                0 => (0..length).map(|_| random.byte()).collect(),
                _ => (0..length).map(|_| random.of(&UTF8_EDGES)).collect(),
            };
            call(&mut lent, Some(&piece), tally);
        }
        // the close, and a second one; and the close of the record as it was
        call(&mut lent, None, tally);
        call(&mut lent, None, tally);
        lent.record = record;
        call(&mut lent, None, tally);
    }
}
