//! A second implementation of the readers and converters for the bitmap fonts
//! PSF1, PSF2 and vfont2, written from documents 01 and 02 alone. It is meant to be
//! compared with another one, so it prefers the definitions over speed.
//!
//! - `font`: the checks on a font, refusals 1 to 9 and 12 of a bare font
//! - `table`: the Unicode table, refusals 10 to 12, and its reading
//! - `ask`: questions on glyphs and on the table, refusals 13 to 16
//! - `convert`: the four conversions, refusals 17 to 21
//! - `edit`: adding and dropping a mapping, refusals 24 and 25
//! - `differences`: what differs between two fonts
//! - `lister`: the text of the listing program
//! - `loader`: the check of a font that arrives in pieces, refusals 22 and 23, and the
//!   text of the program that reads them

mod ask;
mod convert;
mod differences;
mod edit;
mod font;
mod lister;
mod loader;
pub mod table;

pub use ask::{find_sequence, find_value, glyph, metrics, pixel, row, walk};
pub use convert::{psf1_to_psf2, psf2_to_psf1, psf2_to_vfont2, vfont2_to_psf2};
pub use differences::{
    differences, NotCompared, ITEMS_DIFFER, METRICS_DIFFER, ONLY_IN_FIRST, ONLY_IN_SECOND,
    PIXELS_DIFFER, TABLE_DIFFERS,
};
pub use edit::{add_mapping, drop_mapping};
pub use font::{check, Entry, Font, Kind};
pub use lister::{first_line, list};
pub use loader::{fontload, Loader};
pub use table::Item;

use std::fmt;

/// The longest file read or written.
pub const LIMIT: usize = 1_048_576;

/// The longest input of the lister.
pub const LISTER_LIMIT: usize = 65_536;

/// The longest input of the loading program that is read whole.
pub const LOADER_LIMIT: usize = 4_194_304;

/// The number said back, its place, and which glyph it was: `GLYPH_NONE` where there is none
/// to name.
#[derive(Debug, Clone, Copy, PartialEq, Eq)]
pub struct Refusal {
    pub number: u32,
    pub place: usize,
    pub glyph: usize,
}

impl Refusal {
    /// One that is of no one glyph.
    pub fn new(number: u32, place: usize) -> Refusal {
        Refusal { number, place, glyph: GLYPH_NONE }
    }

    /// The same as this glyph's.
    pub fn of_glyph(self, glyph: usize) -> Refusal {
        Refusal { glyph, ..self }
    }
}

/// Three numbers, as both programs write them.
impl fmt::Display for Refusal {
    fn fmt(&self, f: &mut fmt::Formatter) -> fmt::Result {
        write!(f, "refused {} {} {}", self.number, self.place, self.glyph)
    }
}

/// No glyph's number: a font has 4,096 at most.
pub const GLYPH_NONE: usize = 4_096;

pub const TOO_LONG: u32 = 1;
pub const KIND: u32 = 2;
pub const HEADER_CUT: u32 = 3;
pub const VERSION: u32 = 4;
pub const HEADER_SIZE: u32 = 5;
pub const COUNT: u32 = 6;
pub const SHAPE: u32 = 7;
pub const BODY_CUT: u32 = 8;
pub const ENTRY: u32 = 9;
pub const TABLE_CUT: u32 = 10;
pub const TABLE_BAD: u32 = 11;
pub const TRAILING: u32 = 12;
pub const ASK: u32 = 13;
pub const NO_TABLE: u32 = 14;
pub const UNMAPPED: u32 = 15;
pub const NO_GLYPH: u32 = 16;
pub const WRONG_KIND: u32 = 17;
pub const GLYPHS: u32 = 18;
pub const VALUE: u32 = 19;
pub const SIZE: u32 = 20;
pub const ROOM: u32 = 21;
pub const LATE: u32 = 22;
pub const LINE: u32 = 23;
pub const HAVE: u32 = 24;
pub const NOT_THERE: u32 = 25;

/// A refusal that is of no one glyph, as the error of a call.
pub(crate) fn refuse<T>(number: u32, place: usize) -> Result<T, Refusal> {
    Err(Refusal::new(number, place))
}

/// A refusal that is a glyph's.
pub(crate) fn refuse_glyph<T>(number: u32, place: usize, glyph: usize) -> Result<T, Refusal> {
    Err(Refusal::new(number, place).of_glyph(glyph))
}
