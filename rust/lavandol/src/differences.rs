//! What differs between two fonts.

use crate::boundary::lav_differences;
use crate::{unless_refused, Reason, Refusal};
use core::fmt;
use core::slice::ChunksExact;

/// A difference between two fonts. The numbers are glyphs.
#[derive(Debug, Clone, Copy, PartialEq, Eq, Hash)]
pub enum Difference {
    /// Just one of the fonts has a Unicode table. Comes before all others, and no `Items` come
    /// then.
    Table,
    /// The number is not below the second font's count.
    OnlyInFirst(usize),
    /// The number is not below the first font's count.
    OnlyInSecond(usize),
    /// The metrics differ, or just one of the fonts has no glyph there (a vfont2 entry of size
    /// 0).
    Metrics(usize),
    /// The metrics agree, a pixel does not.
    Pixels(usize),
    /// The descriptions differ in an item.
    Items(usize),
}

impl Difference {
    /// No two fonts have more: two for each of 4,096 glyphs.
    pub const MOST: usize = 8192;

    fn of(pair: &[u32]) -> Difference {
        let g = pair[1] as usize;
        match pair[0] {
            1 => Difference::OnlyInFirst(g),
            2 => Difference::OnlyInSecond(g),
            3 => Difference::Metrics(g),
            4 => Difference::Pixels(g),
            5 => Difference::Items(g),
            _ => Difference::Table,
        }
    }
}

/// The differences of two fonts, in their order: `Table`, then by glyph, and within one glyph
/// `Metrics` or `Pixels` before `Items`. None where the fonts agree.
#[derive(Debug, Clone)]
pub struct Differences<'a> {
    pairs: ChunksExact<'a, u32>,
}

impl Iterator for Differences<'_> {
    type Item = Difference;

    fn next(&mut self) -> Option<Difference> {
        self.pairs.next().map(Difference::of)
    }

    fn size_hint(&self) -> (usize, Option<usize>) {
        self.pairs.size_hint()
    }
}

impl ExactSizeIterator for Differences<'_> {}

/// One of the two fonts that are compared.
#[derive(Debug, Clone, Copy, PartialEq, Eq, Hash)]
pub enum Which {
    First,
    Second,
}

/// Why two fonts are not compared: a refusal, and the font that it is of; none for ROOM.
#[derive(Debug, Clone, Copy, PartialEq, Eq, Hash)]
pub struct NotCompared {
    pub font: Option<Which>,
    pub refusal: Refusal,
}

/// `first font: ` or `second font: ` and the refusal; ROOM counts numbers, not bytes.
impl fmt::Display for NotCompared {
    fn fmt(&self, f: &mut fmt::Formatter) -> fmt::Result {
        match (self.font, self.refusal.reason) {
            (Some(Which::First), _) => write!(f, "first font: {}", self.refusal),
            (Some(Which::Second), _) => write!(f, "second font: {}", self.refusal),
            (None, Reason::Room) => self.refusal.tell_room(f, "numbers"),
            (None, _) => write!(f, "{}", self.refusal),
        }
    }
}

impl core::error::Error for NotCompared {}

/// What differs between two fonts, of any kinds: nothing exactly where they agree in glyph
/// count, presence of a table, metrics, pixels and items. Glyphs of PSF1 and PSF2 have the
/// metrics (height, 0, 0, width, width); two missing glyphs agree; values are compared as
/// numbers. Bits after a row's last pixel, addresses, the kind of file and its header's size do
/// not count.
///
/// The front of `buffer` takes two numbers for each difference, its other numbers stay; a
/// refused call writes nothing. Refusals: the first font's (1 to 12), the second's, ROOM, whose
/// place is the count of numbers needed.
///
/// ```
/// use lavandol::{differences, Difference, Which};
/// # let old = lavandol::SMALL;
/// let mut new = old.to_vec();
/// new[32] ^= 0x80;
/// let mut buffer = [0; 8];
/// let mut found = differences(old, &new, &mut buffer)?;
/// assert_eq!((found.len(), found.next()), (1, Some(Difference::Pixels(0))));
/// assert_eq!(differences(old, old, &mut buffer)?.len(), 0);
/// let error = differences(old, &new[..44], &mut buffer).unwrap_err();
/// assert_eq!(error.font, Some(Which::Second));
/// let told = "second font: Unicode table: the file ends before it does, at byte 44, \
///             in the description of glyph 1 (refusal 10)";
/// assert_eq!(error.to_string(), told);
/// # Ok::<(), lavandol::NotCompared>(())
/// ```
pub fn differences<'a>(
    first: &[u8],
    second: &[u8],
    buffer: &'a mut [u32],
) -> Result<Differences<'a>, NotCompared> {
    // SAFETY: the library reads the two slices and writes to none but the buffer, within their
    // lengths and during the call only, and asks nothing of its arguments.
    let answer = unsafe {
        lav_differences(
            first.as_ptr(),
            first.len(),
            second.as_ptr(),
            second.len(),
            buffer.as_mut_ptr(),
            buffer.len(),
        )
    };
    let font = match answer.font {
        1 => Some(Which::First),
        2 => Some(Which::Second),
        _ => None,
    };
    let count = unless_refused(answer.refusal, answer.count);
    let count = count.map_err(|refusal| NotCompared { font, refusal })?;
    Ok(Differences { pairs: buffer[..2 * count].chunks_exact(2) })
}
