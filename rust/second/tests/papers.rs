//! What document 01 says by example: P1 to P14, the font of 45 bytes, the
//! lister's text, the round trips, and the places of bad UTF-8.

mod common;

use common::worked;
use second::table::{judge, read, sequences, singles, Coding, Verdict};
use second::*;

fn no(number: u32, place: usize) -> Refusal {
    Refusal::new(number, place)
}

/// A xorshift generator for repeatable random bytes.
struct Random(u64);

impl Random {
    fn below(&mut self, n: u64) -> u64 {
        self.0 ^= self.0 << 13;
        self.0 ^= self.0 >> 7;
        self.0 ^= self.0 << 17;
        (self.0 >> 11) % n
    }
}

fn convert(
    f: fn(&[u8], &mut [u8]) -> Result<usize, Refusal>,
    file: &[u8],
) -> Result<Vec<u8>, Refusal> {
    let mut out = vec![0xA5; LIMIT];
    let length = f(file, &mut out)?;
    assert!(out[length..].iter().all(|&b| b == 0xA5));
    out.truncate(length);
    Ok(out)
}

#[test]
fn small_tables() {
    use Coding::{Units, Utf8};
    use Verdict::*;
    let cases: &[(Coding, usize, &[u8], Verdict)] = &[
        (Utf8, 1, &[0xC3, 0x85, 0xE2, 0x84, 0xAB, 0xFE, 0x41, 0xCC, 0x8A, 0xFF], Complete),
        (Units, 1, &[0xC5, 0, 0x2B, 0x21, 0xFE, 0xFF, 0x41, 0, 0x0A, 3, 0xFF, 0xFF], Complete),
        (Utf8, 1, &[0xFF], Complete),
        (Utf8, 1, &[], Cut),
        (Utf8, 1, &[0xFE, 0xFF], Bad(1)),
        (Utf8, 1, &[0x41, 0xFE, 0x42], Cut),
        (Utf8, 1, &[0xC0, 0x80, 0xFF], Bad(0)),
        (Utf8, 1, &[0xE0, 0x80, 0x80, 0xFF], Bad(1)),
        (Utf8, 1, &[0xED, 0xA0, 0x80, 0xFF], Bad(1)),
        (Utf8, 1, &[0xF4, 0x8F, 0xBF, 0xBF, 0xFF], Bad(3)),
        (Utf8, 1, &[0xF4, 0x90, 0x80, 0x80, 0xFF], Bad(1)),
        (Utf8, 1, &[0xFF, 0xFF], Trailing(1)),
        (Utf8, 2, &[0xFF, 0xFF], Complete),
        (Units, 1, &[0xFE, 0xFF, 0xFE, 0xFF, 0xFF, 0xFF], Bad(3)),
        (Units, 1, &[0x41, 0, 0xFF], Cut),
        // behind a complete table nothing can go on; an end mark can't follow a start mark
        (Utf8, 1, &[0xFF, 0xC0], Trailing(1)),
        (Units, 1, &[0xFF, 0xFF, 0x41], Trailing(2)),
        (Units, 1, &[0xFE, 0xFF, 0xFF], Cut),
        (Units, 1, &[0xFE, 0xFF, 0xFF, 0xFF], Bad(3)),
    ];
    for &(coding, n, tail, verdict) in cases {
        assert_eq!(judge(coding, n, tail), verdict, "{coding:?} {n} {tail:X?}");
        assert_eq!(read(coding, n, tail).is_some(), verdict == Complete);
    }
    for (coding, tail) in [(Utf8, cases[0].2), (Units, cases[1].2)] {
        let reading = read(coding, 1, tail).unwrap();
        assert_eq!(singles(&reading[0]), [0xC5, 0x212B]);
        assert_eq!(sequences(&reading[0]), [[0x41, 0x30A]]);
    }
}

#[test]
fn places_in_a_reading() {
    let tail = [0xC3, 0x85, 0xFE, 0x41, 0xCC, 0x8A, 0xFE, 0x42, 0xFF, 0xFF];
    let reading = read(Coding::Utf8, 2, &tail).unwrap();
    let at: Vec<usize> = reading.iter().flatten().map(|p| p.at).collect();
    assert_eq!(at, [0, 2, 3, 4, 6, 7, 8, 9]);
    let tail = [0xC3, 0x85, 0xFE, 0xFF, 0xCC, 0x8A, 0xFF, 0xFF, 0x00, 0xFE, 0xFF, 0xFF];
    let reading = read(Coding::Units, 2, &tail).unwrap();
    let at: Vec<usize> = reading.iter().flatten().map(|p| p.at).collect();
    assert_eq!(at, [0, 2, 4, 6, 8, 10]);
}

#[test]
fn worked_font() {
    let file = worked();
    assert_eq!(file.len(), 45);
    assert_eq!(list(&file), "psf2 2 2 3 table\n0 41\n1 C5 +41+30A\n");
    assert_eq!(glyph(&file, 0), Ok((32, 2)));
    assert_eq!(glyph(&file, 1), Ok((34, 2)));
    assert_eq!(glyph(&file, 2), Err(no(ASK, 0)));
    assert_eq!(row(&file, 1, 1), Ok((35, 1)));
    assert_eq!(row(&file, 1, 2), Err(no(ASK, 0)));
    let drawn: Vec<bool> = (0..3).map(|c| pixel(&file, 0, 0, c).unwrap()).collect();
    assert_eq!(drawn, [true, false, true]);
    assert_eq!(pixel(&file, 0, 0, 3), Err(no(ASK, 0)));
    let items = [Item::Single(0xC5), Item::Start, Item::Value(0x41), Item::Value(0x30A), Item::End];
    for (k, &item) in items.iter().enumerate() {
        assert_eq!(walk(&file, 1, k as u64), Ok(item));
    }
    assert_eq!(walk(&file, 1, 5), Err(no(ASK, 0)));
    assert_eq!(find_value(&file, 0x41), Ok(0));
    assert_eq!(find_value(&file, 0xC5), Ok(1));
    assert_eq!(find_value(&file, 0x30A), Err(no(UNMAPPED, 0)));
    assert_eq!(find_value(&file, 0x110000), Err(no(ASK, 0)));
    assert_eq!(find_sequence(&file, &[0x41, 0x30A]), Ok(1));
    assert_eq!(find_sequence(&file, &[0x41]), Err(no(UNMAPPED, 0)));
    assert_eq!(find_sequence(&file, &[]), Err(no(ASK, 0)));
    let vfont2 = convert(psf2_to_vfont2, &file).unwrap();
    assert_eq!(vfont2.len(), 81);
    assert_eq!(convert(vfont2_to_psf2, &vfont2), Ok(file.clone()));
    assert_eq!(list(&vfont2), "vfont2 2 2 3 table\n0 41\n1 C5 +41+30A\n");
    let mut out = [0xA5; 80];
    assert_eq!(psf2_to_vfont2(&file, &mut out), Err(no(ROOM, 81)));
    assert_eq!(out, [0xA5; 80]);
    assert_eq!(convert(psf2_to_psf1, &file), Err(no(GLYPHS, 16)));
    assert_eq!(convert(psf1_to_psf2, &file), Err(no(WRONG_KIND, 0)));
}

#[test]
fn lister() {
    assert_eq!(list(&[]), "refused 2 0 4096\n");
    assert_eq!(list(&vec![0; 65_536]), "refused 2 0 4096\n");
    assert_eq!(list(&vec![0; 65_537]), "too big\n");
    let mut bare = worked();
    bare[12] = 0;
    bare.truncate(36);
    assert_eq!(list(&bare), "psf2 2 2 3 bare\n");
    let mut file = worked();
    file.truncate(36);
    file.extend_from_slice(&[0xFF, 0x00, 0xFE, 0x00, 0xFE, 0x41, 0x42, 0xFF]);
    assert_eq!(list(&file), "psf2 2 2 3 table\n0\n1 0 +0 +41+42\n");
    assert_eq!(list(&file[..file.len() - 1]), format!("refused 10 {} 1\n", file.len() - 1));
}

#[test]
fn header_orders() {
    let with = |changes: &[(usize, u8)]| {
        let mut file = worked();
        for &(at, byte) in changes {
            file[at] = byte;
        }
        check(&file).map(|_| ())
    };
    assert_eq!(with(&[]), Ok(()));
    assert_eq!(with(&[(8, 31), (12, 2)]), Err(no(VERSION, 12)));
    assert_eq!(with(&[(4, 1), (12, 2)]), Err(no(VERSION, 4)));
    assert_eq!(with(&[(8, 31), (16, 0)]), Err(no(HEADER_SIZE, 8)));
    assert_eq!(with(&[(20, 9), (24, 0), (28, 0)]), Err(no(SHAPE, 24)));
    assert_eq!(with(&[(20, 9), (28, 0)]), Err(no(SHAPE, 28)));
    assert_eq!(with(&[(20, 9)]), Err(no(SHAPE, 20)));
    assert_eq!(with(&[(16, 9)]), Err(no(BODY_CUT, 45)));
    let file = worked();
    for length in 0..45 {
        let number = match length {
            0..=3 => KIND,
            4..=31 => HEADER_CUT,
            32..=35 => BODY_CUT,
            _ => TABLE_CUT,
        };
        let place = if number == KIND { 0 } else { length };
        // 41 FF are the first description
        let glyph = match length {
            0..=35 => GLYPH_NONE,
            36..=37 => 0,
            _ => 1,
        };
        assert_eq!(check(&file[..length]).map(|_| ()), Err(no(number, place).of_glyph(glyph)));
    }
    assert_eq!(check(&vec![0; LIMIT + 1]).map(|_| ()), Err(no(TOO_LONG, LIMIT)));
}

#[test]
fn sixteen_bit_sums() {
    // up -32768 and down -32767 must not be taken for one row
    let mut file = convert(psf2_to_vfont2, &worked()).unwrap();
    file[40..42].copy_from_slice(&(-32768i16).to_le_bytes());
    file[42..44].copy_from_slice(&(-32767i16).to_le_bytes());
    assert_eq!(check(&file).map(|_| ()), Err(no(ENTRY, 32).of_glyph(0)));
}

/// Where `std` finds the first byte that no well-formed text can have there, or the last
/// byte of the first noncharacter before it.
fn std_place(bytes: &[u8]) -> Option<usize> {
    let error = std::str::from_utf8(bytes).err();
    let at = error.map_or(bytes.len(), |e| e.valid_up_to());
    let text = std::str::from_utf8(&bytes[..at]).unwrap();
    let none = |c: char| matches!(c, '\u{FDD0}'..='\u{FDEF}') || c as u32 & 0xFFFE == 0xFFFE;
    if let Some((i, c)) = text.char_indices().find(|&(_, c)| none(c)) {
        return Some(i + c.len_utf8() - 1);
    }
    // an error without length is an unfinished value at the end
    let length = error?.error_len()?;
    match bytes[at] {
        0xC2..=0xF4 => Some(at + length),
        _ => Some(at),
    }
}

#[test]
fn utf8_places_agree_with_std() {
    let agree = |bytes: &[u8]| {
        let expected = match std_place(bytes) {
            Some(at) => Verdict::Bad(at),
            None => Verdict::Cut,
        };
        assert_eq!(judge(Coding::Utf8, 1, bytes), expected, "{bytes:X?}");
    };
    let edges = [
        0x00, 0x41, 0x7F, 0x80, 0x8F, 0x90, 0x9F, 0xA0, 0xAF, 0xB0, 0xB7, 0xBD, 0xBE, 0xBF, 0xC0,
        0xC1, 0xC2, 0xDF, 0xE0, 0xE1, 0xEC, 0xED, 0xEE, 0xEF, 0xF0, 0xF1, 0xF3, 0xF4, 0xF5, 0xF8,
        0xFC, 0xFD,
    ];
    // every pair of bytes, every triple and quadruple of edges
    for a in 0..=0xFDu8 {
        agree(&[a]);
        for b in 0..=0xFDu8 {
            agree(&[a, b]);
        }
    }
    for a in edges {
        for b in edges {
            for c in edges {
                agree(&[a, b, c]);
                for d in edges {
                    agree(&[a, b, c, d]);
                }
            }
        }
    }
    let mut random = Random(1);
    for _ in 0..100_000 {
        let length = 1 + random.below(12) as usize;
        let bytes: Vec<u8> =
            (0..length).map(|_| edges[random.below(edges.len() as u64) as usize]).collect();
        agree(&bytes);
    }
}

/// Whether some further bytes make the start a complete table, tried out: the
/// rest of a value, or a value where one must come, then end marks.
fn completable(coding: Coding, n: usize, start: &[u8]) -> bool {
    let rests: &[&[u8]] = match coding {
        Coding::Units => &[&[], &[0x00]],
        Coding::Utf8 => {
            &[&[], &[0x80], &[0x80, 0x80], &[0x80, 0x80, 0x80], &[0x90, 0x80, 0x80], &[0xA0, 0x80]]
        }
    };
    let (value, end): (&[u8], &[u8]) = match coding {
        Coding::Units => (&[0x41, 0x00], &[0xFF, 0xFF]),
        Coding::Utf8 => (&[0x41], &[0xFF]),
    };
    for rest in rests {
        for value in [&[][..], value] {
            for ends in 0..=n {
                let whole = [start, rest, value, &end.repeat(ends)].concat();
                if read(coding, n, &whole).is_some() {
                    return true;
                }
            }
        }
    }
    false
}

/// The verdict by the definition's words, from `read` and `completable` alone.
fn by_definition(coding: Coding, n: usize, tail: &[u8]) -> Verdict {
    if read(coding, n, tail).is_some() {
        return Verdict::Complete;
    }
    let longest = (0..=tail.len()).rev().find(|&k| completable(coding, n, &tail[..k])).unwrap();
    if longest == tail.len() {
        Verdict::Cut
    } else if read(coding, n, &tail[..longest]).is_some() {
        Verdict::Trailing(longest)
    } else {
        Verdict::Bad(longest)
    }
}

#[test]
fn verdicts_agree_with_the_definition() {
    let utf8: &[u8] = &[
        0x41, 0x80, 0x8F, 0x90, 0xA0, 0xB7, 0xBE, 0xBF, 0xC2, 0xE0, 0xED, 0xEF, 0xF0, 0xF4, 0xFE,
        0xFF,
    ];
    let units: &[u8] = &[0x00, 0x41, 0xD0, 0xDC, 0xFD, 0xFE, 0xFF];
    for (coding, alphabet, most) in [(Coding::Utf8, utf8, 4), (Coding::Units, units, 6)] {
        let mut tails: Vec<Vec<u8>> = vec![vec![]];
        for length in 0..=most {
            for tail in tails.iter().filter(|t| t.len() == length) {
                for n in 1..=2 {
                    let verdict = judge(coding, n, tail);
                    assert_eq!(verdict, by_definition(coding, n, tail), "{n} {tail:X?}");
                }
            }
            if length < most {
                let last: Vec<Vec<u8>> = tails.drain(..).collect();
                for tail in last {
                    for &byte in alphabet {
                        tails.push([&tail[..], &[byte]].concat());
                    }
                }
            }
        }
    }
    let mut random = Random(2);
    for _ in 0..5_000 {
        for (coding, alphabet) in [(Coding::Utf8, utf8), (Coding::Units, units)] {
            let length = random.below(14) as usize;
            let any = alphabet.len() as u64;
            let tail: Vec<u8> = (0..length).map(|_| alphabet[random.below(any) as usize]).collect();
            let n = 1 + random.below(4) as usize;
            assert_eq!(judge(coding, n, &tail), by_definition(coding, n, &tail), "{n} {tail:X?}");
        }
    }
}

/// A random PSF2 font with values that PSF1 can hold.
fn random_psf2(random: &mut Random, n: usize, width: usize, table: bool) -> Vec<u8> {
    let height = 1 + random.below(4) as usize;
    let c = height * ((width + 7) / 8);
    let mut file = vec![0x72, 0xB5, 0x4A, 0x86];
    for number in [0, 32, table as usize, n, c, height, width] {
        file.extend_from_slice(&(number as u32).to_le_bytes());
    }
    for _ in 0..n * c {
        file.push(random.below(256) as u8);
    }
    let value = |random: &mut Random| {
        let v =
            [0, 0x41, 0x7F, 0x80, 0x7FF, 0x800, 0xD7FF, 0xE000, 0xFFFD][random.below(9) as usize];
        char::from_u32(v).unwrap().to_string().into_bytes()
    };
    if table {
        for _ in 0..n {
            for _ in 0..random.below(3) {
                file.extend(value(random));
            }
            for _ in 0..random.below(3) {
                file.push(0xFE);
                for _ in 0..1 + random.below(3) {
                    file.extend(value(random));
                }
            }
            file.push(0xFF);
        }
    }
    file
}

#[test]
fn round_trips() {
    let mut random = Random(3);
    for turn in 0..40 {
        let n = [256, 512, 1, 17][turn % 4];
        let width = if n > 200 { 8 } else { 1 + random.below(40) as usize };
        let file = random_psf2(&mut random, n, width, turn % 3 != 0);
        let vfont2 = convert(psf2_to_vfont2, &file).unwrap();
        assert_eq!(convert(vfont2_to_psf2, &vfont2), Ok(file.clone()));
        let (a, b) = (check(&file).unwrap(), check(&vfont2).unwrap());
        assert_eq!(
            (a.count, a.height, a.width, &a.reading),
            (b.count, b.height, b.width, &b.reading)
        );
        if n > 200 {
            let psf1 = convert(psf2_to_psf1, &file).unwrap();
            assert_eq!(convert(psf1_to_psf2, &psf1), Ok(file.clone()));
            assert!(psf1[2] <= 3);
            let again = convert(psf1_to_psf2, &psf1).unwrap();
            assert_eq!(convert(psf2_to_psf1, &again), Ok(psf1));
        }
    }
}

#[test]
fn psf1_values() {
    let mut file = vec![0x36, 0x04, 2, 1];
    file.extend([0x81; 256]);
    let table_at = file.len();
    // glyph 0: FFFD and sequence 41 DEAD; the others nothing
    file.extend([0xFD, 0xFF, 0xFE, 0xFF, 0x41, 0x00, 0xAD, 0xDE]);
    file.extend([0xFF; 512]);
    assert_eq!(find_value(&file, 0xFFFD), Ok(0));
    assert_eq!(find_value(&file, 0xFFFE), Err(no(UNMAPPED, 0)));
    assert_eq!(find_value(&file, 0xDEAD), Err(no(UNMAPPED, 0)));
    assert_eq!(find_sequence(&file, &[0x41, 0xDEAD]), Ok(0));
    assert_eq!(convert(psf1_to_psf2, &file), Err(no(VALUE, table_at + 6).of_glyph(0)));
    file[2] = 6;
    assert_eq!(check(&file).map(|_| ()), Err(no(VERSION, 2)));
    file.truncate(table_at);
    file[2] = 0;
    let psf2 = convert(psf1_to_psf2, &file).unwrap();
    assert_eq!(list(&psf2), "psf2 256 1 8 bare\n");
    assert_eq!(convert(psf2_to_psf1, &psf2).unwrap()[2], 0);
}

/// Bits 1 and 2 of the mode: a table is there when either bit is set.
#[test]
fn psf1_modes() {
    for mode in 0..=7u8 {
        let n = if mode & 1 == 1 { 512 } else { 256 };
        let mut file = vec![0x36, 0x04, mode, 1];
        file.resize(4 + n, 0x81);
        let table_at = file.len();
        let judged = |file: &[u8]| check(file).map(|font| font.has_table);
        if mode > 5 {
            assert_eq!(judged(&file), Err(no(VERSION, 2)));
            continue;
        }
        let marked = mode > 1;
        let bare = file.clone();
        if marked {
            assert_eq!(judged(&file), Err(no(TABLE_CUT, table_at).of_glyph(0)));
        } else {
            assert_eq!(judged(&file), Ok(false));
        }
        file.extend([0xFE, 0xFF, 0xFF, 0xFF]);
        let bad = no(TABLE_BAD, table_at + 3).of_glyph(0);
        assert_eq!(judged(&file), Err(if marked { bad } else { no(TRAILING, table_at) }));
        file.truncate(table_at);
        // the last glyph: C5 and sequence 41 30A
        file.resize(table_at + 2 * (n - 1), 0xFF);
        file.extend([0xC5, 0x00, 0xFE, 0xFF, 0x41, 0x00, 0x0A, 0x03, 0xFF, 0xFF]);
        let length = file.len();
        file.push(0xFF);
        assert_eq!(judged(&file), Err(no(TRAILING, if marked { length } else { table_at })));
        file.truncate(length);
        if marked {
            assert_eq!(judged(&file), Ok(true));
            assert_eq!(find_value(&file, 0xC5), Ok(n - 1));
            assert_eq!(find_sequence(&file, &[0x41, 0x30A]), Ok(n - 1));
        }
        // through PSF2 and back: modes 0 to 3 are written, and nothing else is changed
        let mut expected = if marked { file } else { bare };
        let psf2 = convert(psf1_to_psf2, &expected).unwrap();
        let back = convert(psf2_to_psf1, &psf2).unwrap();
        assert_eq!(list(&psf2), list(&expected).replace("psf1", "psf2"));
        expected[2] = [0, 1, 2, 3, 2, 3][mode as usize];
        assert_eq!(back, expected);
    }
}
