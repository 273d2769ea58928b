//! Every call of the wrapper on the sample fonts (examples/fonts), through the static library: answers, each refusal that a sample
//! can meet, and buffers after a refusal.

use lavandol::*;
use std::fmt::Debug;

const LETTERS: &[u8] = include_bytes!("../../../examples/fonts/letters.psf1");
const PSF2: &[u8] = include_bytes!("../../../examples/fonts/small.psf2");
const VFONT2: &[u8] = include_bytes!("../../../examples/fonts/small.vfont2");
const BAD: &[u8] = include_bytes!("../../../examples/fonts/bad-table.psf2");

fn refusal<T: Debug>(r: Result<T, Refusal>) -> (Reason, usize, Option<usize>) {
    let r = r.expect_err("an answer where a refusal is due");
    (r.reason, r.place, r.glyph)
}

type Conversion = fn(&[u8], &mut [u8]) -> Result<usize, Refusal>;
const CONVERSIONS: [Conversion; 4] = [psf1_to_psf2, psf2_to_psf1, psf2_to_vfont2, vfont2_to_psf2];

/// The output of a conversion, from a buffer of just its length and from a longer one.
fn converted(convert: Conversion, file: &[u8]) -> Vec<u8> {
    let (reason, need, none) = refusal(convert(file, &mut []));
    assert_eq!((reason, none), (Reason::Room, None));
    let mut out = vec![0xEE; need + 3];
    assert_eq!(convert(file, &mut out[..need]), Ok(need));
    assert_eq!(convert(file, &mut out), Ok(need));
    assert_eq!(out.split_off(need), [0xEE; 3]);
    out
}

/// small.psf2 with some bytes of its header changed, and nothing behind its bitmaps.
fn bare(changes: &[(usize, u8)]) -> Vec<u8> {
    let mut file = PSF2[..36].to_vec();
    file[12] = 0;
    for &(at, byte) in changes {
        file[at] = byte;
    }
    file
}

#[test]
fn small_is_the_sample() {
    assert_eq!(SMALL, PSF2);
}

#[test]
fn fonts_are_checked() {
    let letters = Font {
        kind: Kind::Psf1,
        count: 256,
        height: 8,
        width: 8,
        table: true,
        entries: 4,
        bitmaps: 4,
        size: 8,
        end: 2052,
    };
    assert_eq!(check(LETTERS), Ok(letters));
    let small = Font {
        kind: Kind::Psf2,
        count: 2,
        height: 2,
        width: 3,
        table: true,
        entries: 32,
        bitmaps: 32,
        size: 2,
        end: 36,
    };
    assert_eq!(check(PSF2), Ok(small));
    assert_eq!(
        check(VFONT2),
        Ok(Font { kind: Kind::Vfont2, bitmaps: 68, size: 4, end: 72, ..small })
    );
    assert_eq!(check(&bare(&[])), Ok(Font { table: false, ..small }));
}

#[test]
fn bitmaps_are_read() {
    for (file, at) in [(PSF2, 32), (VFONT2, 68)] {
        assert_eq!(glyph_part(file, 1), Ok(at + 2..at + 4));
        assert_eq!(glyph(file, 1), Ok(&[0xE0, 0x20][..]));
        assert_eq!(row_part(file, 1, 1), Ok(at + 3..at + 4));
        assert_eq!(row(file, 0, 0), Ok(&[0xA0][..]));
        let drawn: Vec<bool> = (0..3).map(|x| pixel(file, 0, 0, x).unwrap()).collect();
        assert_eq!(drawn, [true, false, true]);
        let m = Metrics { up: 2, down: 0, left: 0, right: 3, logical: 3 };
        assert_eq!(metrics(file, 0), Ok(m));
    }
}

#[test]
fn every_part_stands_in_the_file() {
    for file in [LETTERS, PSF2, VFONT2] {
        let font = check(file).unwrap();
        for g in 0..font.count {
            let whole = glyph_part(file, g).unwrap();
            assert!(whole.end <= file.len());
            for y in 0..font.height {
                let part = row_part(file, g, y).unwrap();
                assert!(whole.start <= part.start && part.end <= whole.end);
            }
        }
    }
}

#[test]
fn descriptions_are_walked() {
    let items = |file, g| (0..).map_while(|k| item(file, g, k).ok()).collect::<Vec<_>>();
    let ring = [Item::Start, Item::Value(0x41), Item::Value(0x30A), Item::End];
    for file in [PSF2, VFONT2] {
        assert_eq!(items(file, 0), [Item::Single(0x41), Item::End]);
        assert_eq!(items(file, 1), [&[Item::Single(0xC5)][..], &ring].concat());
    }
    let singles = [Item::Single(0xC5), Item::Single(0x212B)];
    assert_eq!(items(LETTERS, 0xC5), [&singles[..], &ring].concat());
    assert_eq!(items(LETTERS, 0x80), [Item::End]);
}

#[test]
fn letters_are_found() {
    for v in 0x20..0x7F {
        assert_eq!(find_value(LETTERS, v), Ok(v as usize));
    }
    assert_eq!(find_value(LETTERS, 0x212B), Ok(0xC5));
    assert_eq!(find_sequence(LETTERS, &[0x41, 0x30A]), Ok(0xC5));
    assert_eq!(find_sequence(VFONT2, &[0x41, 0x30A]), Ok(1));
}

#[test]
fn conversions_write_the_samples() {
    assert_eq!(converted(psf2_to_vfont2, PSF2), VFONT2);
    assert_eq!(converted(vfont2_to_psf2, VFONT2), PSF2);
    let wide = converted(psf1_to_psf2, LETTERS);
    assert_eq!(converted(psf2_to_psf1, &wide), LETTERS);
}

/// letters.psf1, of mode 2, as mode 4.
#[test]
fn bit_2_of_the_mode_marks_a_table_too() {
    let mut four = LETTERS.to_vec();
    four[2] = 4;
    assert_eq!(check(&four), check(LETTERS));
    assert_eq!(find_sequence(&four, &[0x41, 0x30A]), Ok(0xC5));
    let wide = converted(psf1_to_psf2, &four);
    assert_eq!(converted(psf2_to_psf1, &wide), LETTERS);
    assert_eq!(refusal(check(&four[..2052])), (Reason::TableCut, 2052, Some(0)));
}

#[test]
fn questions_are_refused() {
    for ask in [refusal(glyph(PSF2, 2)), refusal(row(PSF2, 0, 2)), refusal(pixel(PSF2, 0, 0, 3))] {
        assert_eq!(ask, (Reason::Ask, 0, None));
    }
    for ask in [refusal(metrics(PSF2, usize::MAX)), refusal(item(PSF2, 0, 2))] {
        assert_eq!(ask, (Reason::Ask, 0, None));
    }
    for ask in [refusal(find_value(PSF2, 0x110000)), refusal(find_sequence(PSF2, &[]))] {
        assert_eq!(ask, (Reason::Ask, 0, None));
    }
    assert_eq!(refusal(find_value(PSF2, 0x42)), (Reason::Unmapped, 0, None));
    assert_eq!(refusal(find_sequence(PSF2, &[0x41])), (Reason::Unmapped, 0, None));
    let file = bare(&[]);
    for none in [refusal(find_value(&file, 0x41)), refusal(find_sequence(&file, &[]))] {
        assert_eq!(none, (Reason::NoTable, 0, None));
    }
    assert_eq!(refusal(item(&file, 0, 0)), (Reason::NoTable, 0, None));
}

/// No lookup finds a noncharacter, and no font lists one: TABLE BAD at its last byte.
#[test]
fn noncharacters_are_no_values() {
    for v in [0xFDD0, 0xFDEF, 0xFFFE, 0xFFFF, 0x1FFFE, 0x10FFFF] {
        let word = char::from_u32(v).unwrap().to_string();
        for file in [PSF2, VFONT2, LETTERS] {
            assert_eq!(refusal(find_value(file, v)), (Reason::Unmapped, 0, None));
            assert_eq!(refusal(find_sequence(file, &[0x41, v])), (Reason::Unmapped, 0, None));
        }
        // before A in glyph 0, and in glyph 1's sequence
        for (g, at) in [36, 41].into_iter().enumerate() {
            let file = [&PSF2[..at], word.as_bytes(), &PSF2[at..]].concat();
            assert_eq!(refusal(check(&file)), (Reason::TableBad, at + word.len() - 1, Some(g)));
        }
    }
    let mut units = LETTERS.to_vec();
    let at = 2052 + 2 * 0x20; // the value of glyph 20, behind 20 end marks (hexadecimal)
    for (unit, sound) in [(0xFDCF, true), (0xFDD0, false), (0xFDEF, false), (0xFDF0, true)] {
        units[at..at + 2].copy_from_slice(&u16::to_le_bytes(unit));
        if sound {
            assert_eq!(find_value(&units, unit.into()), Ok(0x20));
        } else {
            assert_eq!(refusal(check(&units)), (Reason::TableBad, at + 1, Some(0x20)));
        }
    }
}

#[test]
fn an_entry_of_size_0_has_no_glyph() {
    let mut file = VFONT2.to_vec();
    file[36..40].fill(0); // the size of entry 0
    assert_eq!(refusal(glyph(&file, 0)), (Reason::NoGlyph, 0, None));
    assert_eq!(refusal(metrics(&file, 0)), (Reason::NoGlyph, 0, None));
    assert_eq!(find_value(&file, 0x41), Ok(0));
    assert_eq!(refusal(vfont2_to_psf2(&file, &mut [])), (Reason::Glyphs, 32, Some(0)));
}

#[test]
fn a_refused_font_is_refused_by_every_call() {
    let bad = (Reason::TableBad, 39, Some(1));
    assert_eq!(refusal(check(BAD)), bad);
    assert_eq!(refusal(glyph(BAD, 9)), bad);
    assert_eq!(refusal(row(BAD, 9, 9)), bad);
    assert_eq!(refusal(pixel(BAD, 9, 9, 9)), bad);
    assert_eq!(refusal(metrics(BAD, 9)), bad);
    assert_eq!(refusal(item(BAD, 9, 9)), bad);
    assert_eq!(refusal(find_value(BAD, u32::MAX)), bad);
    assert_eq!(refusal(find_sequence(BAD, &[])), bad);
    for convert in CONVERSIONS {
        assert_eq!(refusal(convert(BAD, &mut [])), bad);
    }
}

#[test]
fn a_fonts_own_refusals() {
    let told = |file: &[u8]| refusal(check(file));
    assert_eq!(told(&[0; 1_048_577]), (Reason::TooLong, 1_048_576, None));
    assert_eq!(told(&[]), (Reason::Kind, 0, None));
    assert_eq!(told(&PSF2[..31]), (Reason::HeaderCut, 31, None));
    assert_eq!(told(&bare(&[(4, 1)])), (Reason::Version, 4, None));
    assert_eq!(told(&bare(&[(8, 31)])), (Reason::HeaderSize, 8, None));
    assert_eq!(told(&bare(&[(16, 0)])), (Reason::Count, 16, None));
    assert_eq!(told(&bare(&[(24, 0)])), (Reason::Shape, 24, None));
    assert_eq!(told(&PSF2[..35]), (Reason::BodyCut, 35, None));
    let mut entry = VFONT2.to_vec();
    entry[50] = 3; // the address of entry 1: its bitmap would end after the bitmaps
    assert_eq!(told(&entry), (Reason::Entry, 50, Some(1)));
    assert_eq!(told(&PSF2[..44]), (Reason::TableCut, 44, Some(1)));
    assert_eq!(told(&[PSF2, &[0xFF]].concat()), (Reason::Trailing, 45, None));
}

#[test]
fn conversions_are_refused() {
    assert_eq!(refusal(psf1_to_psf2(PSF2, &mut [])), (Reason::WrongKind, 0, None));
    assert_eq!(refusal(psf2_to_psf1(PSF2, &mut [])), (Reason::Glyphs, 16, None));
    let mut surrogate = LETTERS.to_vec();
    let at = 2052 + 2 * 0x20; // the value of glyph 20, behind 20 end marks (hexadecimal)
    surrogate[at..at + 2].copy_from_slice(&[0, 0xD8]);
    assert_eq!(refusal(psf1_to_psf2(&surrogate, &mut [])), (Reason::Value, at, Some(0x20)));
    // FFFD can be in PSF1, 10000 can't: in place of glyph 20's value
    let wide = converted(psf1_to_psf2, LETTERS);
    let at = 2080 + 0x20;
    let with = |v: char| [&wide[..at], v.to_string().as_bytes(), &wide[at + 1..]].concat();
    let back = converted(psf2_to_psf1, &with('\u{FFFD}'));
    assert_eq!(find_value(&back, 0xFFFD), Ok(0x20));
    assert_eq!(refusal(psf2_to_psf1(&with('\u{10000}'), &mut [])), (Reason::Value, at, Some(0x20)));
}

#[test]
fn a_refused_conversion_leaves_the_buffer() {
    let mut out = [0xEE; 80];
    assert_eq!(refusal(psf2_to_vfont2(PSF2, &mut out)), (Reason::Room, 81, None));
    for convert in CONVERSIONS {
        refusal(convert(BAD, &mut out));
    }
    assert_eq!(out, [0xEE; 80]);
}

/// 4,096 glyphs of 255 rows of a byte: with the entries of vfont2 over 1,048,576 bytes.
#[test]
fn an_output_over_the_limit() {
    let mut file = bare(&[(17, 0x10), (16, 0), (20, 255), (24, 255), (28, 1)]);
    file.resize(32 + 4096 * 255, 0);
    assert_eq!(check(&file).map(|f| f.count), Ok(4096));
    assert_eq!(refusal(psf2_to_vfont2(&file, &mut [])), (Reason::Size, 0, None));
}
