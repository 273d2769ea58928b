//! Document 02's "Drawing marks in tables": a noncharacter is no value, in either coding.

mod common;

use common::worked;
use second::table::{judge, noncharacter, read, singles, Coding, Verdict};
use second::*;

/// All 66, plane by plane.
fn all() -> Vec<u32> {
    let of_planes = (0..=16).flat_map(|plane| [plane << 16 | 0xFFFE, plane << 16 | 0xFFFF]);
    (0xFDD0..=0xFDEF).chain(of_planes).collect()
}

fn no(number: u32, place: usize) -> Refusal {
    Refusal::new(number, place)
}

/// A value's UTF-8, a noncharacter's too.
fn utf8(v: u32) -> Vec<u8> {
    char::from_u32(v).unwrap().to_string().into_bytes()
}

/// A PSF2 font of 256 glyphs, 8 wide, whose last description has these bytes before its end.
fn psf2(last: &[u8]) -> Vec<u8> {
    let mut file = vec![0x72, 0xB5, 0x4A, 0x86];
    for number in [0u32, 32, 1, 256, 1, 1, 8] {
        file.extend_from_slice(&number.to_le_bytes());
    }
    file.resize(288, 0x18);
    file.resize(288 + 255, 0xFF);
    file.extend_from_slice(last);
    file.push(0xFF);
    file
}

/// A PSF1 font of 256 glyphs whose last description has these units before its end.
fn psf1(last: &[u32]) -> Vec<u8> {
    let mut file = vec![0x36, 0x04, 2, 1];
    file.resize(260, 0x18);
    file.resize(260 + 510, 0xFF);
    file.extend(last.iter().flat_map(|&v| (v as u16).to_le_bytes()));
    file.extend([0xFF, 0xFF]);
    file
}

#[test]
fn there_are_66() {
    let all = all();
    assert_eq!(all.len(), 66);
    for v in 0..0x110000 {
        assert_eq!(noncharacter(v), all.contains(&v), "{v:X}");
    }
}

/// Each value alone, read and judged: the noncharacters are bad at their last byte.
#[test]
fn every_value_in_both_codings() {
    let all = all();
    for v in (0..=0x10FFFF).filter_map(char::from_u32) {
        let bytes = v.to_string().into_bytes();
        let table = [&bytes[..], &[0xFF]].concat();
        let none = all.contains(&(v as u32));
        let expected = if none { Verdict::Bad(bytes.len() - 1) } else { Verdict::Complete };
        assert_eq!(judge(Coding::Utf8, 1, &table), expected, "{v:?}");
        let reading = read(Coding::Utf8, 1, &table);
        assert_eq!(reading.map(|r| singles(&r[0])), (!none).then_some(vec![v as u32]));
    }
    for v in 0..0xFFFEu16 {
        let table = [v.to_le_bytes(), [0xFF, 0xFF]].concat();
        let none = (0xFDD0..=0xFDEF).contains(&v);
        let expected = if none { Verdict::Bad(1) } else { Verdict::Complete };
        assert_eq!(judge(Coding::Units, 1, &table), expected, "{v:X}");
        let reading = read(Coding::Units, 1, &table);
        assert_eq!(reading.map(|r| singles(&r[0])), (!none).then_some(vec![v as u32]));
    }
}

/// As a single and at each place of a sequence, in all three kinds, whole and cut.
#[test]
fn places() {
    for v in all() {
        let word = utf8(v);
        for before in [&[][..], b"A", b"\xFE", b"A\xFEA", b"\xFEAB\xFEA"] {
            for after in [&[][..], b"A", b"\xFEA"] {
                let table = [before, &word, after, &[0xFF]].concat();
                let bad = before.len() + word.len() - 1;
                assert_eq!(judge(Coding::Utf8, 1, &table), Verdict::Bad(bad));
                assert_eq!(judge(Coding::Utf8, 1, &table[..bad]), Verdict::Cut);
            }
        }
        let file = psf2(&word);
        let bad = no(TABLE_BAD, 288 + 255 + word.len() - 1).of_glyph(255);
        assert_eq!(check(&file).map(|_| ()), Err(bad));
        assert_eq!(find_value(&file, v), Err(bad));
    }
    for v in 0xFDD0..=0xFDEF {
        for (units, place) in [(&[v][..], 1), (&[0x41, v], 3), (&[0xFFFE, 0x41, v, 0x42], 5)] {
            let file = psf1(units);
            let (bad, cut) = (no(TABLE_BAD, 770 + place), no(TABLE_CUT, 770 + place));
            assert_eq!(check(&file).map(|_| ()), Err(bad.of_glyph(255)));
            assert_eq!(check(&file[..770 + place]).map(|_| ()), Err(cut.of_glyph(255)));
        }
    }
    // FFFE and FFFF are the marks that they were
    assert_eq!(list(&psf1(&[0x41, 0xFFFE, 0x42])).lines().last(), Some("255 41 +42"));
}

#[test]
fn questions() {
    let file = worked();
    for v in all() {
        assert_eq!(find_value(&file, v), Err(no(UNMAPPED, 0)));
        for sequence in [&[v][..], &[0x41, v], &[v, 0x30A]] {
            assert_eq!(find_sequence(&file, sequence), Err(no(UNMAPPED, 0)));
        }
        // adding one is ASK, also where there is no room; none is there to be dropped
        for room in [45, 60] {
            let mut buf = file.clone();
            buf.resize(room, 0xA5);
            let before = buf.clone();
            for (g, dropped) in [(0, NOT_THERE), (1, NOT_THERE), (2, ASK)] {
                assert_eq!(add_mapping(&mut buf, 45, g, v), Err(no(ASK, 0)));
                assert_eq!(drop_mapping(&mut buf, 45, g, v), Err(no(dropped, 0)));
            }
            assert_eq!(buf, before);
        }
    }
}

/// VALUE from PSF2 to PSF1 is for values above FFFF: the neighbours below go.
#[test]
fn conversions() {
    for v in [0xFDCF, 0xFDF0, 0xFFFC, 0xFFFD] {
        let (small, wide) = (psf1(&[v]), psf2(&utf8(v)));
        let mut out = vec![0; 2000];
        assert_eq!(psf2_to_psf1(&wide, &mut out), Ok(small.len()));
        assert_eq!(out[..small.len()], small);
        assert_eq!(psf1_to_psf2(&small, &mut out), Ok(wide.len()));
        assert_eq!(out[..wide.len()], wide);
    }
    for v in [0x10000, 0x1FFFD, 0x20000, 0x10FFFD] {
        let mut out = vec![0; 2000];
        let wide = psf2(&[&utf8(0xFFFD)[..], &utf8(v)].concat());
        let value = no(VALUE, 288 + 255 + 3).of_glyph(255);
        assert_eq!(psf2_to_psf1(&wide, &mut out), Err(value));
    }
}
