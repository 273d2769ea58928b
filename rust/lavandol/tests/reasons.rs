//! Numbers and names of the reasons, also those of no reason.

use lavandol::{Reason, Refusal};

#[test]
fn every_number_has_one_reason() {
    for number in (0..1000).chain([u32::MAX - 1, u32::MAX]) {
        let reason = Reason::of(number);
        assert_eq!(reason.number(), number);
        let known = (1..=25).contains(&number);
        assert_eq!(matches!(reason, Reason::Unknown(_)), !known);
        assert_eq!(reason.name() == "unknown", !known);
    }
}

/// The constants of include/lavandol.h have the same numbers and names.
#[test]
fn names_are_those_of_the_header() {
    let header = include_str!("../../../include/lavandol.h");
    for number in 1..=25 {
        let name = Reason::of(number).name().to_uppercase().replace(' ', "_");
        let line = |end| format!("    LAV_{name} = {number}{end}");
        assert!(header.contains(&line(",")) || header.contains(&line(" ")), "{name}");
    }
}

/// Every sentence: what was wrong, where, at which glyph.
#[test]
fn a_refusal_is_told_as_a_sentence() {
    let sentences = [
        (1, 1_048_576, None, "file: it is over 1,048,576 bytes, at byte 1048576"),
        (2, 0, None, "file: it begins as no PSF1, PSF2 or vfont2 font does, at byte 0"),
        (3, 31, None, "header: the file ends before it does, at byte 31"),
        (4, 2, None, "header: the mode is above 5, at byte 2"),
        (4, 4, None, "header: the version is not 0, at byte 4"),
        (4, 12, None, "header: the flags are above 1, at byte 12"),
        (5, 8, None, "header: its size is not in 32 to 4,096, at byte 8"),
        (6, 16, None, "header: the count of glyphs is not in 1 to 4,096, at byte 16"),
        (7, 3, None, "header: no font has this height, at byte 3"),
        (7, 20, None, "header: the bytes per glyph are not those of height and width, at byte 20"),
        (7, 24, None, "header: no font has this height, at byte 24"),
        (7, 28, None, "header: no font has this width, at byte 28"),
        (8, 35, None, "bitmaps: the file ends before they do, at byte 35"),
        (9, 24, None, "header: the greatest height is not the entries', at byte 24"),
        (9, 28, None, "header: the greatest width is not the entries', at byte 28"),
        (9, 50, Some(1), "dispatch table: an entry breaks a rule, at byte 50, the entry of glyph 1"),
        (
            10,
            44,
            Some(0),
            "Unicode table: the file ends before it does, at byte 44, in the description of glyph 0",
        ),
        (11, 39, Some(1), "Unicode table: no table begins so, at byte 39, in the description of glyph 1"),
        (12, 45, None, "file: bytes follow the font, at byte 45"),
        (13, 0, None, "question: no such glyph, item, row, column, value, sequence or length"),
        (14, 0, None, "question: the font has no Unicode table"),
        (15, 0, None, "question: no glyph lists it"),
        (16, 0, None, "question: the entry has no glyph"),
        (17, 0, None, "font: it is of another kind than the call wants"),
        (18, 16, None, "glyphs: they are not 256 or 512, as PSF1 has, at byte 16"),
        (18, 28, None, "glyphs: they are not 8 wide, as in PSF1, at byte 28"),
        (
            18,
            5432,
            Some(300),
            "glyphs: PSF2 can't have what this entry says, at byte 5432, the entry of glyph 300",
        ),
        (
            19,
            550,
            Some(4095),
            "value: the font written can't have it, at byte 550, in the description of glyph 4095",
        ),
        (20, 0, None, "output: it would be over 1,048,576 bytes"),
        (21, 81, None, "buffer: it is too short, 81 bytes are needed"),
        (22, 0, None, "loader: it is closed"),
        (23, 5, None, "line 5: it is no frame"),
        (24, 0, None, "edit: the glyph lists the value already"),
        (25, 0, None, "edit: the glyph does not list the value as a single"),
        (26, 7, None, "refused, place 7"),
        (u32::MAX, usize::MAX, Some(3), "refused, place 18446744073709551615, glyph 3"),
    ];
    for (number, place, glyph, sentence) in sentences {
        let refusal = Refusal { reason: Reason::of(number), place, glyph };
        assert_eq!(refusal.to_string(), format!("{sentence} (refusal {number})"));
    }
    let told: Vec<u32> = sentences.iter().map(|s| s.0).collect();
    assert!((1..=25).all(|number| told.contains(&number)));
}

/// The glyph as C has it.
#[test]
fn a_glyph_s_number() {
    let of = |glyph| Refusal { reason: Reason::Entry, place: 24, glyph }.glyph_number();
    assert_eq!((of(Some(0)), of(Some(4095)), of(None)), (0, 4095, Refusal::GLYPH_NONE));
    let header = include_str!("../../../include/lavandol.h");
    assert!(header.contains(&format!("\n#define LAV_GLYPH_NONE {}\n", Refusal::GLYPH_NONE)));
}

/// `?` takes it where an error of the standard library's kind is wanted.
#[test]
fn a_refusal_is_an_error() {
    let room = Refusal { reason: Reason::Room, place: 81, glyph: None };
    let e: Box<dyn std::error::Error> = room.into();
    assert_eq!(e.to_string(), "buffer: it is too short, 81 bytes are needed (refusal 21)");
}
