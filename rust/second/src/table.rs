//! The Unicode table: n descriptions, each singles, then sequences, then an
//! end mark.
//!
//! Two methods that share no code:
//!
//! - `judge` runs a set of threads over the bytes, one thread per word (value or
//!   mark) that the bytes read so far may be inside of. Every thread can be
//!   finished, and every grammar state leads to an end mark, so a start can still
//!   be completed exactly when a thread is left, or when it is complete itself.
//! - `read` cuts the whole tail at the end marks, each piece at the start marks,
//!   and decodes what is between. It knows nothing of places.

use std::sync::OnceLock;

/// An item of a description.
#[derive(Debug, Clone, Copy, PartialEq, Eq)]
pub enum Item {
    Single(u32),
    Start,
    Value(u32),
    End,
}

/// An item with the offset of its first byte, counted from the tail's start.
#[derive(Debug, Clone, Copy, PartialEq, Eq)]
pub struct Placed {
    pub item: Item,
    pub at: usize,
}

/// The items of one glyph in file order, the end mark last.
pub type Description = Vec<Placed>;

/// How values and marks are written.
#[derive(Debug, Clone, Copy, PartialEq, Eq)]
pub enum Coding {
    /// PSF1: two bytes, little endian.
    Units,
    /// PSF2 and vfont2: UTF-8 with FE and FF as marks.
    Utf8,
}

/// What a tail is.
#[derive(Debug, Clone, Copy, PartialEq, Eq)]
pub enum Verdict {
    Complete,
    /// The whole tail could still be completed.
    Cut,
    /// The longest completable start ends here and isn't complete.
    Bad(usize),
    /// A complete table ends here and bytes follow.
    Trailing(usize),
}

/// The bytes that may stand at one place of a word, as ranges.
type Bytes = &'static [(u8, u8)];

/// A word of the table: what each of its bytes may be.
type Word = &'static [Bytes];

/// Whether a byte is one of these.
fn has(bytes: Bytes, byte: u8) -> bool {
    bytes.iter().any(|&(low, high)| low <= byte && byte <= high)
}

const ANY: Bytes = &[(0x80, 0xBF)];
/// Second bytes of four in all rows, but those before the last 4096 values of a plane.
const NOT_LAST: Bytes = &[(0x80, 0x8E), (0x90, 0x9E), (0xA0, 0xAE), (0xB0, 0xBE)];
const BUT_BF: Bytes = &[(0x80, 0xBE)];
const BUT_BE_BF: Bytes = &[(0x80, 0xBD)];

/// Unicode Standard, Table 3-7, well-formed UTF-8 byte sequences, without the
/// noncharacters: the row of EE and EF and those of four bytes are split where a
/// noncharacter's last byte is.
const UTF8_VALUES: &[Word] = &[
    &[&[(0x00, 0x7F)]],
    &[&[(0xC2, 0xDF)], ANY],
    &[&[(0xE0, 0xE0)], &[(0xA0, 0xBF)], ANY],
    &[&[(0xE1, 0xEC)], ANY, ANY],
    &[&[(0xED, 0xED)], &[(0x80, 0x9F)], ANY],
    &[&[(0xEE, 0xEE)], ANY, ANY],
    // EF B7 90 to EF B7 AF are FDD0 to FDEF; EF BF BE and EF BF BF are FFFE and FFFF
    &[&[(0xEF, 0xEF)], &[(0x80, 0xB6), (0xB8, 0xBE)], ANY],
    &[&[(0xEF, 0xEF)], &[(0xB7, 0xB7)], &[(0x80, 0x8F), (0xB0, 0xBF)]],
    &[&[(0xEF, 0xEF)], &[(0xBF, 0xBF)], BUT_BE_BF],
    // the last two of a plane: a second byte that ends in F, then BF, then BE or BF
    &[&[(0xF0, 0xF0)], &[(0x90, 0x9E), (0xA0, 0xAE), (0xB0, 0xBE)], ANY, ANY],
    &[&[(0xF0, 0xF0)], &[(0x9F, 0x9F), (0xAF, 0xAF), (0xBF, 0xBF)], BUT_BF, ANY],
    &[&[(0xF0, 0xF0)], &[(0x9F, 0x9F), (0xAF, 0xAF), (0xBF, 0xBF)], &[(0xBF, 0xBF)], BUT_BE_BF],
    &[&[(0xF1, 0xF3)], NOT_LAST, ANY, ANY],
    &[&[(0xF1, 0xF3)], &[(0x8F, 0x8F), (0x9F, 0x9F), (0xAF, 0xAF), (0xBF, 0xBF)], BUT_BF, ANY],
    &[
        &[(0xF1, 0xF3)],
        &[(0x8F, 0x8F), (0x9F, 0x9F), (0xAF, 0xAF), (0xBF, 0xBF)],
        &[(0xBF, 0xBF)],
        BUT_BE_BF,
    ],
    &[&[(0xF4, 0xF4)], &[(0x80, 0x8E)], ANY, ANY],
    &[&[(0xF4, 0xF4)], &[(0x8F, 0x8F)], BUT_BF, ANY],
    &[&[(0xF4, 0xF4)], &[(0x8F, 0x8F)], &[(0xBF, 0xBF)], BUT_BE_BF],
];
const UTF8_START: Word = &[&[(0xFE, 0xFE)]];
const UTF8_END: Word = &[&[(0xFF, 0xFF)]];

/// 0000 to FFFD without FDD0 to FDEF, the low byte first: a low byte of D0 to EF needs
/// a high byte other than FD, FE and FF one other than FF, and the rest goes with all.
const UNIT_VALUES: &[Word] = &[
    &[&[(0x00, 0xCF), (0xF0, 0xFD)], &[(0x00, 0xFF)]],
    &[&[(0xD0, 0xEF)], &[(0x00, 0xFC), (0xFE, 0xFF)]],
    &[&[(0xFE, 0xFF)], &[(0x00, 0xFE)]],
];
const UNIT_START: Word = &[&[(0xFE, 0xFE)], &[(0xFF, 0xFF)]];
const UNIT_END: Word = &[&[(0xFF, 0xFF)], &[(0xFF, 0xFF)]];

/// Whether v is a noncharacter: FDD0 to FDEF, and the last two of each plane.
pub fn noncharacter(v: u32) -> bool {
    (0xFDD0..=0xFDEF).contains(&v) || v % 0x10000 >= 0xFFFE
}

/// Where in the grammar a description stands between two words.
#[derive(Debug, Clone, Copy, PartialEq, Eq)]
enum State {
    /// Among the singles, or before them.
    Singles,
    /// Just behind a start mark: a value must come.
    Started,
    /// Behind a value of a sequence.
    InSequence,
    /// Behind an end mark.
    Ended,
}

/// A word that may be under way: `read` of its bytes are behind.
#[derive(Debug, Clone, Copy)]
struct Thread {
    word: Word,
    read: usize,
    then: State,
}

impl Coding {
    fn values(self) -> &'static [Word] {
        match self {
            Coding::Units => UNIT_VALUES,
            Coding::Utf8 => UTF8_VALUES,
        }
    }

    fn marks(self) -> (Word, Word) {
        match self {
            Coding::Units => (UNIT_START, UNIT_END),
            Coding::Utf8 => (UTF8_START, UTF8_END),
        }
    }

    /// The values that begin with a byte.
    fn values_from(self, byte: u8) -> &'static [Word] {
        static BY_BYTE: [OnceLock<Vec<Vec<Word>>>; 2] = [OnceLock::new(), OnceLock::new()];
        let from = |b: u8| self.values().iter().copied().filter(|w| has(w[0], b)).collect();
        &BY_BYTE[self as usize].get_or_init(|| (0..=255).map(from).collect())[byte as usize]
    }

    /// A thread for every word that may come in this state and has this byte first.
    fn begin(self, state: State, byte: u8) -> impl Iterator<Item = Thread> {
        let after_value = match state {
            State::Singles => State::Singles,
            State::Started | State::InSequence => State::InSequence,
            State::Ended => unreachable!("the next description begins with singles"),
        };
        let (start, end) = self.marks();
        let marks = [(start, State::Started), (end, State::Ended)];
        let marks =
            marks.into_iter().filter(move |(w, _)| state != State::Started && has(w[0], byte));
        let values = self.values_from(byte).iter().map(move |&word| (word, after_value));
        values.chain(marks).map(|(word, then)| Thread { word, read: 0, then })
    }
}

/// What the tail is as a table of n descriptions.
pub fn judge(coding: Coding, n: usize, tail: &[u8]) -> Verdict {
    let mut missing = n;
    // words under way, and the state in which another one may begin
    let mut threads: Vec<Thread> = Vec::new();
    let mut fresh = (n > 0).then_some(State::Singles);
    let mut next = Vec::new();
    for (at, &byte) in tail.iter().enumerate() {
        if missing == 0 {
            return Verdict::Trailing(at);
        }
        next.clear();
        let mut finished = None;
        let beginning = fresh.into_iter().flat_map(|state| coding.begin(state, byte));
        for thread in threads.iter().copied().chain(beginning) {
            if has(thread.word[thread.read], byte) {
                let read = thread.read + 1;
                if read < thread.word.len() {
                    next.push(Thread { read, ..thread });
                } else {
                    assert!(finished.is_none(), "two words end at one byte");
                    finished = Some(thread.then);
                }
            }
        }
        fresh = match finished {
            Some(State::Ended) => {
                missing -= 1;
                (missing > 0).then_some(State::Singles)
            }
            other => other,
        };
        if next.is_empty() && fresh.is_none() && missing > 0 {
            return Verdict::Bad(at);
        }
        std::mem::swap(&mut threads, &mut next);
    }
    if missing == 0 {
        Verdict::Complete
    } else {
        Verdict::Cut
    }
}

/// The descriptions that are complete in a start that could still be completed: its end
/// marks. FF is in no value, and units stand at even offsets.
pub fn ended(coding: Coding, start: &[u8]) -> usize {
    match coding {
        Coding::Units => start.chunks_exact(2).filter(|unit| *unit == [0xFF, 0xFF]).count(),
        Coding::Utf8 => start.iter().filter(|byte| **byte == 0xFF).count(),
    }
}

/// The reading of a complete table, or nothing if the tail isn't one.
pub fn read(coding: Coding, n: usize, tail: &[u8]) -> Option<Vec<Description>> {
    let descriptions = match coding {
        Coding::Units => read_units(tail)?,
        Coding::Utf8 => read_utf8(tail)?,
    };
    if descriptions.len() == n {
        Some(descriptions)
    } else {
        None
    }
}

/// Puts a description together from its parts: the singles, then the values of
/// each sequence with the offset of its start mark.
fn describe(parts: Vec<(usize, Vec<(u32, usize)>)>, end_at: usize) -> Option<Description> {
    let mut description = Vec::new();
    for (number, (mark_at, values)) in parts.into_iter().enumerate() {
        if number == 0 {
            for (value, at) in values {
                description.push(Placed { item: Item::Single(value), at });
            }
            continue;
        }
        if values.is_empty() {
            return None;
        }
        description.push(Placed { item: Item::Start, at: mark_at });
        for (value, at) in values {
            description.push(Placed { item: Item::Value(value), at });
        }
    }
    description.push(Placed { item: Item::End, at: end_at });
    Some(description)
}

/// Cuts words of so many bytes at the end marks, each piece at the start marks,
/// and decodes what is between: each value and the words before it in its part.
fn cut<W: PartialEq>(
    words: &[W],
    width: usize,
    start: W,
    end: W,
    values_of: impl Fn(&[W]) -> Option<Vec<(u32, usize)>>,
) -> Option<Vec<Description>> {
    let mut pieces: Vec<&[W]> = words.split(|w| *w == end).collect();
    if !pieces.pop()?.is_empty() {
        return None;
    }
    let mut descriptions = Vec::new();
    let mut at = 0;
    for piece in pieces {
        let mut parts = Vec::new();
        let mut part_at = at;
        for part in piece.split(|w| *w == start) {
            let values = values_of(part)?;
            let placed = values.into_iter().map(|(v, i)| (v, width * (part_at + i))).collect();
            parts.push(((width * part_at).wrapping_sub(width), placed));
            part_at += part.len() + 1;
        }
        descriptions.push(describe(parts, width * (at + piece.len()))?);
        at += piece.len() + 1;
    }
    Some(descriptions)
}

/// The values, unless one is a noncharacter.
fn characters(values: impl Iterator<Item = (u32, usize)>) -> Option<Vec<(u32, usize)>> {
    values.map(|(v, i)| (!noncharacter(v)).then_some((v, i))).collect()
}

/// FE and FF are in no well-formed UTF-8, so every FF ends a description and
/// every FE starts a sequence.
fn read_utf8(tail: &[u8]) -> Option<Vec<Description>> {
    cut(tail, 1, 0xFE, 0xFF, |part| {
        let text = std::str::from_utf8(part).ok()?;
        characters(text.char_indices().map(|(i, c)| (c as u32, i)))
    })
}

/// All words are two bytes long, so the units stand at even offsets.
fn read_units(tail: &[u8]) -> Option<Vec<Description>> {
    if tail.len() % 2 != 0 {
        return None;
    }
    let units: Vec<u16> = tail.chunks(2).map(|b| u16::from_le_bytes([b[0], b[1]])).collect();
    cut(&units, 2, 0xFFFE, 0xFFFF, |part| {
        characters(part.iter().enumerate().map(|(i, &u)| (u as u32, i)))
    })
}

/// The values a description has as singles.
pub fn singles(description: &[Placed]) -> Vec<u32> {
    let single = |p: &Placed| match p.item {
        Item::Single(v) => Some(v),
        _ => None,
    };
    description.iter().filter_map(single).collect()
}

/// The sequences of a description: after each start mark, the values up to the
/// next start or end mark.
pub fn sequences(description: &[Placed]) -> Vec<Vec<u32>> {
    let mut all: Vec<Vec<u32>> = Vec::new();
    for placed in description {
        match placed.item {
            Item::Start => all.push(Vec::new()),
            Item::Value(v) => all.last_mut().expect("a value follows a start mark").push(v),
            Item::Single(_) | Item::End => {}
        }
    }
    all
}
