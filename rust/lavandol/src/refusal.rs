//! Why a call is refused, where, and at which glyph.

use core::fmt;

/// The reasons: number, name and words of each, in one table.
macro_rules! reasons {
    ($($(#[$words:meta])* $number:literal $reason:ident $name:literal,)*) => {
        /// Why a call is refused: the refusals of include/lavandol.h. A font's own, 1 to
        /// 12, are tried in this order, and every call on a file gives them before any other
        /// (but an edit `Ask`, where the font's length is above the buffer's).
        #[derive(Debug, Clone, Copy, PartialEq, Eq, Hash)]
        pub enum Reason {
            $($(#[$words])* $reason,)*
            /// A number that this wrapper has no name for: of a later library.
            Unknown(u32),
        }

        impl Reason {
            /// The reason that has a number; every number has one.
            pub const fn of(number: u32) -> Reason {
                match number {
                    $($number => Reason::$reason,)*
                    _ => Reason::Unknown(number),
                }
            }

            /// Its number, as the library and C know it.
            pub const fn number(self) -> u32 {
                match self {
                    $(Reason::$reason => $number,)*
                    Reason::Unknown(number) => number,
                }
            }

            /// Its name, in small letters; "unknown" where the number has none.
            pub const fn name(self) -> &'static str {
                match self {
                    $(Reason::$reason => $name,)*
                    Reason::Unknown(_) => "unknown",
                }
            }
        }
    };
}

reasons! {
    /// The file is over 1,048,576 bytes; place 1048576.
    1 TooLong "too long",
    /// It begins with none of the three magics; place 0.
    2 Kind "kind",
    /// It is shorter than 4 (PSF1) or 32 bytes; place: its length.
    3 HeaderCut "header cut",
    /// Mode above 5 (place 2); version not 0 (4); flags above 1 (12).
    4 Version "version",
    /// Header size below 32 or above 4,096; place 8.
    5 HeaderSize "header size",
    /// No glyph, or over 4,096; place 16.
    6 Count "count",
    /// PSF1 size 0 (place 3); PSF2 height (24), then width (28), not in 1 to 255, then a
    /// wrong byte count (20); vfont2 greatest height (24), then width (28), above 255.
    7 Shape "shape",
    /// The file ends before the bitmaps do; place: its length.
    8 BodyCut "body cut",
    /// A vfont2 entry breaks a rule (place: its start; glyph: its number); then a greatest
    /// height (24), then width (28), is not the entries' (no glyph).
    9 Entry "entry",
    /// The Unicode table could still be completed, but is not complete; place: the file's
    /// length; glyph: the first whose description is not complete.
    10 TableCut "table cut",
    /// No table begins so; place: the end of the longest part that could be completed, so the
    /// last byte of a noncharacter, which is no value; glyph: the one whose description this
    /// byte is in.
    11 TableBad "table bad",
    /// Bytes after a complete table, or after the bitmaps of a font without one; place: the
    /// first of them.
    12 Trailing "trailing",
    /// Glyph, item, row or column number too high, value above 10FFFF, empty sequence; of an
    /// edit also a surrogate, or a font's length above the buffer's; of an add also a
    /// noncharacter; place 0.
    13 Ask "ask",
    /// A walk, lookup or edit on a font without a Unicode table; place 0.
    14 NoTable "no table",
    /// No glyph lists it, as of a noncharacter always; place 0.
    15 Unmapped "unmapped",
    /// A bitmap or metrics asked of a vfont2 entry of size 0; place 0.
    16 NoGlyph "no glyph",
    /// The conversion wants another kind, an edit wants PSF2; place 0.
    17 WrongKind "wrong kind",
    /// The target can't have these glyphs. To PSF1: not 256 or 512 of them (place 16), then
    /// width not 8 (28). From vfont2: an entry that has no glyph, or whose five metrics are
    /// not (greatest height, 0, 0, greatest width, greatest width); place: its start; glyph:
    /// its number.
    18 Glyphs "glyphs",
    /// The target can't have a value: a surrogate (PSF1 to PSF2), above FFFF (to PSF1);
    /// place: its first byte; glyph: the one that lists it.
    19 Value "value",
    /// The output, or the edited font, would be over 1,048,576 bytes; place 0.
    20 Size "size",
    /// The lent buffer is shorter than the output, or than the edited font; place: the size
    /// needed. Of `differences`: it has fewer numbers than are needed; place: their count.
    21 Room "room",
    /// A piece or a close for a loader that is closed, which stays as it was; place 0.
    22 Late "late",
    /// No call gives it: the program `fontload` does, for a line that is no frame; place: the
    /// line's number, from 1.
    23 Line "line",
    /// The glyph lists the value that is to be added as a single already; place 0.
    24 Have "have",
    /// The glyph does not list the value that is to be dropped as a single, as of a
    /// noncharacter always; place 0.
    25 NotThere "not there",
}

/// Why a call is refused, where, and at which glyph.
#[derive(Debug, Clone, Copy, PartialEq, Eq, Hash)]
pub struct Refusal {
    pub reason: Reason,
    /// An offset in the file, 0 where there is nothing to point at, the size needed for
    /// `Reason::Room` (of `differences`: the count of numbers needed).
    pub place: usize,
    /// The glyph that the place belongs to: of `Entry` and of `Glyphs` from vfont2 the entry's
    /// number, of `TableCut`, `TableBad` and `Value` that of the descriptions that are complete
    /// before the place. Of all others there is none, nor of `Entry` and `Glyphs` in the header.
    pub glyph: Option<usize>,
}

impl Refusal {
    /// The glyph's number where there is none, as the library, C and both programs tell it: no
    /// font has a glyph of this number.
    pub const GLYPH_NONE: usize = 4096;

    pub(crate) const fn glyph_of(number: usize) -> Option<usize> {
        match number {
            Refusal::GLYPH_NONE => None,
            g => Some(g),
        }
    }

    /// The reason's number.
    pub const fn number(&self) -> u32 {
        self.reason.number()
    }

    /// The reason's name.
    pub const fn name(&self) -> &'static str {
        self.reason.name()
    }

    /// The glyph's number, `GLYPH_NONE` where there is none.
    pub const fn glyph_number(&self) -> usize {
        match self.glyph {
            Some(g) => g,
            None => Refusal::GLYPH_NONE,
        }
    }

    /// What was wrong; nothing where the number has no name.
    const fn fault(&self) -> &'static str {
        match (self.reason, self.place) {
            (Reason::TooLong, _) => "file: it is over 1,048,576 bytes",
            (Reason::Kind, _) => "file: it begins as no PSF1, PSF2 or vfont2 font does",
            (Reason::HeaderCut, _) => "header: the file ends before it does",
            (Reason::Version, 2) => "header: the mode is above 5",
            (Reason::Version, 4) => "header: the version is not 0",
            (Reason::Version, _) => "header: the flags are above 1",
            (Reason::HeaderSize, _) => "header: its size is not in 32 to 4,096",
            (Reason::Count, _) => "header: the count of glyphs is not in 1 to 4,096",
            (Reason::Shape, 20) => "header: the bytes per glyph are not those of height and width",
            (Reason::Shape, 28) => "header: no font has this width",
            (Reason::Shape, _) => "header: no font has this height",
            (Reason::BodyCut, _) => "bitmaps: the file ends before they do",
            (Reason::Entry, 24) => "header: the greatest height is not the entries'",
            (Reason::Entry, 28) => "header: the greatest width is not the entries'",
            (Reason::Entry, _) => "dispatch table: an entry breaks a rule",
            (Reason::TableCut, _) => "Unicode table: the file ends before it does",
            (Reason::TableBad, _) => "Unicode table: no table begins so",
            (Reason::Trailing, _) => "file: bytes follow the font",
            (Reason::Ask, _) => {
                "question: no such glyph, item, row, column, value, sequence or length"
            }
            (Reason::NoTable, _) => "question: the font has no Unicode table",
            (Reason::Unmapped, _) => "question: no glyph lists it",
            (Reason::NoGlyph, _) => "question: the entry has no glyph",
            (Reason::WrongKind, _) => "font: it is of another kind than the call wants",
            (Reason::Glyphs, 16) => "glyphs: they are not 256 or 512, as PSF1 has",
            (Reason::Glyphs, 28) => "glyphs: they are not 8 wide, as in PSF1",
            (Reason::Glyphs, _) => "glyphs: PSF2 can't have what this entry says",
            (Reason::Value, _) => "value: the font written can't have it",
            (Reason::Size, _) => "output: it would be over 1,048,576 bytes",
            (Reason::Room, _) => "buffer: it is too short",
            (Reason::Late, _) => "loader: it is closed",
            (Reason::Line, _) => "it is no frame",
            (Reason::Have, _) => "edit: the glyph lists the value already",
            (Reason::NotThere, _) => "edit: the glyph does not list the value as a single",
            (Reason::Unknown(_), _) => "refused",
        }
    }

    /// ROOM, the buffer's elements named.
    pub(crate) fn tell_room(&self, f: &mut fmt::Formatter, elements: &str) -> fmt::Result {
        let fault = self.fault();
        write!(f, "{fault}, {} {elements} are needed (refusal {})", self.place, self.number())
    }
}

/// A sentence: what was wrong, where, at which glyph, and the number. `Unicode table: no table
/// begins so, at byte 39, in the description of glyph 1 (refusal 11)`.
impl fmt::Display for Refusal {
    fn fmt(&self, f: &mut fmt::Formatter) -> fmt::Result {
        match self.number() {
            21 => return self.tell_room(f, "bytes"),
            23 => write!(f, "line {}: {}", self.place, self.fault())?,
            1..=12 | 18 | 19 => write!(f, "{}, at byte {}", self.fault(), self.place)?,
            13..=25 => f.write_str(self.fault())?,
            _ => write!(f, "{}, place {}", self.fault(), self.place)?,
        }
        if let Some(g) = self.glyph {
            match self.reason {
                Reason::Entry | Reason::Glyphs => write!(f, ", the entry of glyph {g}")?,
                Reason::TableCut | Reason::TableBad | Reason::Value => {
                    write!(f, ", in the description of glyph {g}")?
                }
                _ => write!(f, ", glyph {g}")?,
            }
        }
        write!(f, " (refusal {})", self.number())
    }
}

impl core::error::Error for Refusal {}
