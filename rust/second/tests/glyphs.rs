//! Document 02's "Which glyph was it?": the glyph number of every refusal.

mod common;

use common::worked;
use second::table::{ended, judge, read, Coding, Verdict};
use second::*;

fn numbers(magic: [u8; 4], numbers: [usize; 7]) -> Vec<u8> {
    let mut file = magic.to_vec();
    file.extend(numbers.iter().flat_map(|&n| (n as u32).to_le_bytes()));
    file
}

/// A PSF2 font of n glyphs, 8 wide and 1 high, with this table.
fn psf2(n: usize, table: &[u8]) -> Vec<u8> {
    let mut file = numbers([0x72, 0xB5, 0x4A, 0x86], [0, 32, 1, n, 1, 1, 8]);
    file.resize(32 + n, 0x18);
    [&file[..], table].concat()
}

/// A PSF1 font of 512 glyphs, 1 high, with this table.
fn psf1(table: &[u8]) -> Vec<u8> {
    [&[0x36, 0x04, 3, 1][..], &[0x18; 512], table].concat()
}

/// A vfont2 font without a table: n entries that share one byte, with these bytes at offsets
/// of entries.
fn vfont2(n: usize, changes: &[(usize, usize, u8)]) -> Vec<u8> {
    let mut file = numbers([0x27, 0x5B, 0xA4, 0x68], [0, 32, 0, n, 1, 1, 8]);
    for _ in 0..n {
        file.extend([0, 0, 0, 0, 1, 0, 0, 0, 1, 0, 0, 0, 0, 0, 8, 0, 8, 0]);
    }
    file.push(0x18);
    for &(entry, at, byte) in changes {
        file[32 + 18 * entry + at] = byte;
    }
    file
}

fn refusal(file: &[u8]) -> Refusal {
    check(file).unwrap_err()
}

/// The close of a loader that is fed so many bytes at a time says the same.
fn agreed(file: &[u8]) -> Refusal {
    for each in [1, 2, 3, 19, 64] {
        let mut loader = Loader::new();
        file.chunks(each).for_each(|piece| loader.feed(piece).unwrap());
        assert_eq!(loader.close().unwrap_err(), refusal(file));
    }
    refusal(file)
}

fn of(number: u32, place: usize, glyph: usize) -> Refusal {
    Refusal { number, place, glyph }
}

/// In glyph 0, behind an end mark, beyond 255, and in the last glyph of all.
const GLYPHS_OF_4096: [usize; 7] = [0, 1, 255, 256, 257, 300, 4095];

#[test]
fn table_bad_and_cut_in_psf2() {
    for g in GLYPHS_OF_4096 {
        let (at, ends) = (32 + 4096 + g, vec![0xFF; g]);
        for (words, bad) in [
            (&[0x80][..], 0),
            (&[0x41, 0xC0], 1),
            (&[0xE0, 0x80], 1),
            (&[0xFE, 0xFF], 1),
            (&[0xFE, 0xFE], 1),
            (&[0x41, 0xFE, 0x42, 0xFE, 0xFF], 4),
            (&[0xFE, 0x41, 0xC3, 0x41], 3),
            (&[0xEF, 0xBF, 0xBF], 2),
        ] {
            let file = psf2(4096, &[&ends[..], words, &[0xFF; 9]].concat());
            assert_eq!(agreed(&file), of(TABLE_BAD, at + bad, g), "{words:X?}");
            assert_eq!(agreed(&file[..at + bad]), of(TABLE_CUT, at + bad, g), "{words:X?}");
        }
    }
    // the end mark that is missing would end the last glyph
    assert_eq!(refusal(&psf2(3, &[0xFF, 0xFF])), of(TABLE_CUT, 37, 2));
    assert_eq!(refusal(&psf2(1, &[])), of(TABLE_CUT, 33, 0));
}

#[test]
fn table_bad_and_cut_in_psf1() {
    for g in [0, 1, 255, 256, 300, 511] {
        let (at, ends) = (4 + 512 + 2 * g, vec![0xFF; 2 * g]);
        for (words, bad) in [
            (&[0xFE, 0xFF, 0xFE, 0xFF][..], 3),
            (&[0xFE, 0xFF, 0xFF, 0xFF], 3),
            (&[0xD0, 0xFD], 1),
            // FF FF that straddles two values ends nothing
            (&[0x00, 0xFF, 0xFF, 0x00, 0xFE, 0xFF, 0xFE, 0xFF], 7),
        ] {
            let file = psf1(&[&ends[..], words, &[0xFF; 9]].concat());
            assert_eq!(agreed(&file), of(TABLE_BAD, at + bad, g), "{words:X?}");
            assert_eq!(agreed(&file[..at + bad]), of(TABLE_CUT, at + bad, g), "{words:X?}");
        }
        // the first byte of an end mark ends nothing
        assert_eq!(agreed(&psf1(&[&ends[..], &[0xFF]].concat())), of(TABLE_CUT, at + 1, g));
    }
}

/// Bytes behind a complete table are no glyph's, nor are those of a font without one.
#[test]
fn trailing() {
    for n in [1, 2, 256, 4096] {
        let complete = psf2(n, &vec![0xFF; n]);
        let mut bare = complete[..32 + n].to_vec();
        bare[12] = 0;
        for file in [complete, bare] {
            let longer = [&file[..], &[0x41, 0xC0]].concat();
            assert_eq!(agreed(&longer), of(TRAILING, file.len(), 4096));
        }
    }
    assert_eq!(agreed(&psf1(&[0xFF; 1025])), of(TRAILING, 516 + 1024, 4096));
}

#[test]
fn entry() {
    for g in GLYPHS_OF_4096 {
        // a size, an address, up, down, left, right that break a rule
        for (at, byte) in [(4, 2), (0, 1), (8, 0), (11, 0x80), (12, 1), (15, 0x7F)] {
            let file = vfont2(4096, &[(g, at, byte), (4095, 4, 9)]);
            assert_eq!(agreed(&file), of(ENTRY, 32 + 18 * g, g));
        }
    }
    // the greatest height and width are no one entry's
    for at in [24, 28] {
        for byte in [0, 7, 9] {
            let mut file = vfont2(300, &[]);
            file[at] = byte;
            assert_eq!(agreed(&file), of(ENTRY, at, 4096));
        }
    }
}

#[test]
fn glyphs_from_vfont2() {
    let mut out = vec![0; LIMIT];
    for g in GLYPHS_OF_4096 {
        // no glyph; another logical width; the line one row up
        for changes in [&[(g, 4, 0)][..], &[(g, 16, 7)], &[(g, 8, 0), (g, 10, 1)]] {
            let changes = [changes, &[(4095, 16, 9)]].concat();
            let file = vfont2(4096, &changes);
            assert_eq!(vfont2_to_psf2(&file, &mut out), Err(of(GLYPHS, 32 + 18 * g, g)));
        }
    }
}

#[test]
fn glyphs_to_psf1() {
    let mut out = vec![0; LIMIT];
    let mut wide = psf2(256, &[0xFF; 256]);
    wide[28] = 7;
    assert_eq!(psf2_to_psf1(&wide, &mut out), Err(of(GLYPHS, 28, 4096)));
    assert_eq!(psf2_to_psf1(&psf2(1, &[0xFF]), &mut out), Err(of(GLYPHS, 16, 4096)));
}

#[test]
fn value() {
    let mut out = vec![0; LIMIT];
    for g in [0, 1, 255, 256, 300, 511] {
        let (high, rest) = ("\u{10000}".as_bytes(), vec![0xFF; 512 - g]);
        for before in [&b""[..], b"A", b"\xFE", b"A\xFEA", b"\xFEA\xFE"] {
            // the second one is not told
            let table = [&vec![0xFF; g], before, high, b"A", high, &rest].concat();
            let place = 32 + 512 + g + before.len();
            assert_eq!(psf2_to_psf1(&psf2(512, &table), &mut out), Err(of(VALUE, place, g)));
        }
        let rest = vec![0xFF; 2 * (512 - g)];
        for before in [&[][..], &[0x41, 0], &[0xFE, 0xFF], &[0xFE, 0xFF, 0x41, 0]] {
            let table = [&vec![0xFF; 2 * g], before, &[0xFF, 0xDF, 0, 0xD8], &rest].concat();
            let place = 4 + 512 + 2 * g + before.len();
            assert_eq!(psf1_to_psf2(&psf1(&table), &mut out), Err(of(VALUE, place, g)));
        }
    }
}

/// All that are left are of no one glyph, also where the question names one.
#[test]
fn none() {
    let file = worked();
    let changed = |at: usize, byte: u8| {
        let mut file = file.clone();
        file[at] = byte;
        refusal(&file)
    };
    for (refusal, number) in [
        (refusal(&vec![0; LIMIT + 1]), TOO_LONG),
        (changed(0, 0), KIND),
        (refusal(&file[..31]), HEADER_CUT),
        (changed(4, 1), VERSION),
        (changed(8, 31), HEADER_SIZE),
        (changed(16, 0), COUNT),
        (changed(24, 0), SHAPE),
        (refusal(&file[..35]), BODY_CUT),
        (find_value(&file, 0x110000).unwrap_err(), ASK),
        (glyph(&file, 2).unwrap_err(), ASK),
        (walk(&file, 1, 5).unwrap_err(), ASK),
        (walk(&vfont2(2, &[]), 1, 0).unwrap_err(), NO_TABLE),
        (find_value(&file, 0x42).unwrap_err(), UNMAPPED),
        (glyph(&vfont2(2, &[(1, 4, 0)]), 1).unwrap_err(), NO_GLYPH),
        (metrics(&vfont2(2, &[(1, 4, 0)]), 1).unwrap_err(), NO_GLYPH),
        (psf1_to_psf2(&file, &mut []).unwrap_err(), WRONG_KIND),
        (psf2_to_vfont2(&file, &mut []).unwrap_err(), ROOM),
        (add_mapping(&mut file.clone(), 45, 1, 0xC5).unwrap_err(), HAVE),
        (add_mapping(&mut file.clone(), 45, 1, 0x42).unwrap_err(), ROOM),
        (drop_mapping(&mut file.clone(), 45, 1, 0x41).unwrap_err(), NOT_THERE),
        (differences(&file, &psf2(1, &[0xFF]), &mut []).unwrap_err().refusal, ROOM),
    ] {
        assert_eq!((refusal.number, refusal.glyph), (number, 4096));
    }
    let mut loader = Loader::new();
    loader.close().unwrap_err();
    assert_eq!(loader.feed(&file), Err(of(LATE, 0, 4096)));
    assert_eq!(loader.close(), Err(of(LATE, 0, 4096)));
    let mut long = psf2(1, &vec![0x41; LIMIT - 33]);
    long[LIMIT - 1] = 0xFF;
    assert_eq!(psf2_to_vfont2(&long, &mut []), Err(of(SIZE, 0, 4096)));
    assert_eq!(fontload(b"00\n0"), b"refused 23 2 4096\n");
}

/// Every call on a file gives the glyph with the font's refusal.
#[test]
fn every_call() {
    let mut file = worked();
    file[39] = 0x41;
    let bad = of(TABLE_BAD, 39, 1);
    assert_eq!(refusal(&file), bad);
    assert_eq!(list(&file), "refused 11 39 1\n");
    assert_eq!(glyph(&file, 0), Err(bad));
    assert_eq!(row(&file, 0, 0), Err(bad));
    assert_eq!(pixel(&file, 0, 0, 0), Err(bad));
    assert_eq!(metrics(&file, 0), Err(bad));
    assert_eq!(walk(&file, 0, 0), Err(bad));
    assert_eq!(find_value(&file, 0x41), Err(bad));
    assert_eq!(find_sequence(&file, &[0x41]), Err(bad));
    for convert in [psf1_to_psf2, psf2_to_psf1, psf2_to_vfont2, vfont2_to_psf2] {
        assert_eq!(convert(&file, &mut [0; 99]), Err(bad));
    }
    for edit in [add_mapping, drop_mapping] {
        assert_eq!(edit(&mut file.clone(), 45, 0, 0x41), Err(bad));
    }
    let differ = |a: &[u8], b: &[u8]| differences(a, b, &mut [0; 9]).unwrap_err();
    assert_eq!(differ(&file, &[]), NotCompared { font: 1, refusal: bad });
    assert_eq!(differ(&worked(), &file), NotCompared { font: 2, refusal: bad });
}

/// By the papers' words: so many descriptions are the longest complete table that the bytes
/// before the place begin with.
#[test]
fn ended_agrees_with_the_reading() {
    let alphabet: [(Coding, &[u8]); 2] = [
        (Coding::Utf8, &[0x41, 0xC3, 0x85, 0xFE, 0xFF]),
        (Coding::Units, &[0x00, 0xFD, 0xFE, 0xFF]),
    ];
    let mut seen = [0; 4];
    for (coding, bytes) in alphabet {
        let mut tails: Vec<Vec<u8>> = vec![vec![]];
        for _ in 0..7 {
            for tail in &tails {
                for n in 1..=3 {
                    let place = match judge(coding, n, tail) {
                        Verdict::Cut => tail.len(),
                        Verdict::Bad(at) => at,
                        Verdict::Complete | Verdict::Trailing(_) => continue,
                    };
                    let complete =
                        |k: &usize| (0..=place).any(|end| read(coding, *k, &tail[..end]).is_some());
                    let most = (1..=n).rev().find(complete).unwrap_or(0);
                    assert!(most < n);
                    assert_eq!(ended(coding, &tail[..place]), most, "{tail:X?}");
                    seen[most] += 1;
                }
            }
            let longer = |tail: &Vec<u8>| {
                bytes.iter().map(|b| [&tail[..], &[*b]].concat()).collect::<Vec<_>>()
            };
            tails = tails.iter().flat_map(longer).collect();
        }
    }
    assert!(seen[..3].iter().all(|&count| count > 1000), "{seen:?}");
}
