//! The corpus of questions on the glyph number of a refusal: fonts with more than 256 glyphs,
//! refused in the first, in the last and between, at the table, at an entry and by
//! conversions; and refusals that are of no one glyph.

use crate::make::*;
use crate::script::Script;

/// Around 8 bits, of 300 glyphs.
const SOME: [usize; 7] = [0, 1, 2, 255, 256, 257, 299];

pub fn script() -> Vec<u8> {
    let mut s = Script::new();
    utf8_tables(&mut s);
    unit_tables(&mut s);
    most_glyphs(&mut s);
    each_byte(&mut s);
    entries(&mut s);
    most_entries(&mut s);
    wrapped(&mut s);
    values(&mut s);
    surrogates(&mut s);
    uneven(&mut s);
    every_question(&mut s);
    none(&mut s);
    s.bytes
}

/// Bytes in place of all from `at` on.
fn behind(s: &mut Script, at: usize, bytes: &[u8]) {
    s.trim(at);
    s.append(bytes);
}

fn bare_psf2(n: usize) -> Vec<u8> {
    psf2(n, 1, 8, &vec![0x18; n], Some(&[]))
}

/// PSF2, 300 glyphs: what no description goes on with, and each of its starts.
fn utf8_tables(s: &mut Script) {
    s.label("psf2, 300 glyphs: a bad table in one of them");
    s.file(&bare_psf2(300));
    for g in SOME {
        behind(s, 332, &vec![0xFF; g]);
        let faults: [&[u8]; 9] = [
            b"\x80",
            b"A\xC3\x85\xC0",
            b"\xE0\x80",
            b"\xEF\xBF\xBF",
            b"\xFE\xFF",
            b"\xFE\xFE",
            b"A\xFEB\xFE\xFF",
            b"\xFEA\xCC\xFF",
            b"\xFEA\xFEB\xF4\x90",
        ];
        for words in faults {
            behind(s, 332 + g, words);
            s.check();
            s.append(&[0xFF; 12]);
            s.check();
        }
    }
    s.label("psf2, 300 glyphs: a table that is cut in one of them");
    for g in SOME {
        behind(s, 332, &vec![0xFF; g]);
        let words = b"A\xC3\x85\xFEA\xCC\x8A\xFE\xF0\x90\x80\x80";
        for length in 0..=words.len() {
            behind(s, 332 + g, &words[..length]);
            s.check();
        }
    }
    s.label("psf2, 300 glyphs: descriptions that list values before the bad one");
    let listed = |g: usize| text(&[0x41 + g as u32], &[&[0x30A, 0xFFFD]]);
    for g in [3, 257, 299] {
        let texts: Vec<Text> =
            (0..g).map(|i| if g - i < 4 { listed(i) } else { text(&[], &[]) }).collect();
        behind(s, 332, &table(&texts));
        s.check();
        s.append(&[0xFE, 0xFF]);
        s.check();
    }
}

/// PSF1, 512 glyphs, the same; FF FF that straddles two values ends nothing.
fn unit_tables(s: &mut Script) {
    s.label("psf1, 512 glyphs: a bad table in one of them");
    s.file(&psf1(3, 1, 0x0F, &[]));
    for g in [0, 1, 255, 256, 511] {
        behind(s, 516, &vec![0xFF; 2 * g]);
        let faults: [&[u8]; 7] = [
            &[0xFE, 0xFF, 0xFE, 0xFF],
            &[0xFE, 0xFF, 0xFF, 0xFF],
            &[0x41, 0, 0xFE, 0xFF, 0x42, 0, 0xFE, 0xFF, 0xFF, 0xFF],
            &[0xD0, 0xFD],
            &[0xFE, 0xFF, 0x41, 0, 0xEF, 0xFD],
            &[0, 0xFF, 0xFF, 0, 0xD0, 0xFD],
            &[0, 0xFF, 0xFF, 0, 0xFE, 0xFF, 0xFF, 0xFF],
        ];
        for words in faults {
            behind(s, 516 + 2 * g, words);
            s.check();
        }
    }
    s.label("psf1, 512 glyphs: a table that is cut in one of them");
    for g in [0, 1, 255, 256, 511] {
        behind(s, 516, &vec![0xFF; 2 * g]);
        for words in [&[][..], &[0xFF], &[0x41], &[0, 0xFF, 0xFF, 0], &[0xFE, 0xFF, 0xFF]] {
            behind(s, 516 + 2 * g, words);
            s.check();
        }
    }
    s.label("psf1, 512 glyphs: a byte more");
    behind(s, 516, &[0xFF; 1024]);
    s.check();
    s.append(&[0xFF]);
    s.check();
}

/// 4,096 glyphs: the last one has the highest number of all, and bytes behind it none.
fn most_glyphs(s: &mut Script) {
    s.label("psf2, 4096 glyphs");
    s.file(&bare_psf2(4096));
    for g in [300, 4094, 4095] {
        behind(s, 4128, &vec![0xFF; g]);
        s.check();
        s.append(&[0xFE, 0xFE]);
        s.check();
    }
    behind(s, 4128, &[0xFF; 4096]);
    s.check();
    s.append(&[0x80]);
    s.check();
}

/// A small font cut behind each byte around the place, once the fault is known and before.
fn each_byte(s: &mut Script) {
    for (name, table) in [
        ("bad in its last", &b"A\xFF\xFF\xFE\xFE\xFF\xFF"[..]),
        ("bad, ended often behind", b"\xFF\xE0\x80\xFF\xFF\xFF\xFF"),
        ("cut in its last", b"\xFFA\xFF\xC3"),
        ("cut behind an end mark", b"\xFF\xFF"),
        ("trailing", b"\xFF\xFF\xFF\xFE\xFE"),
    ] {
        s.label(&format!("psf2, 3 glyphs, {name}, in three pieces"));
        s.file(&psf2(3, 1, 8, &[1, 2, 3], Some(table)));
        for a in 34..=s.file.len() as u8 {
            for b in 0..3 {
                s.cuts(a, b);
            }
        }
    }
    s.label("vfont2, 3 entries, one or two of them broken, in three pieces");
    s.file(&vfont2(32, &[(0, 1, [1, 0, 0, 8, 8]); 3], &[0x18], None));
    for broken in [&[1][..], &[2], &[1, 2], &[0, 2]] {
        for &g in broken {
            s.set(32 + 18 * g + 4, 2);
        }
        for a in [31, 32, 33, 49, 50, 51, 67, 68, 69, 85, 86, 87] {
            s.cuts(a, 18);
            s.cuts(a, 1);
        }
        for &g in broken {
            s.set(32 + 18 * g + 4, 1);
        }
    }
}

/// 300 entries without a glyph, and one that breaks a rule; two of them: the first.
fn entries(s: &mut Script) {
    s.label("vfont2, 300 entries: one is broken, then also the last");
    s.file(&vfont2(32, &[(0, 0, [0; 5]); 300], &[], None));
    s.check();
    for g in SOME {
        s.set(32 + 18 * g + 4, 1);
        s.check();
        s.set(32 + 18 * 299 + 5, 1);
        s.check();
        s.set(32 + 18 * 299 + 5, 0);
        s.set(32 + 18 * g + 4, 0);
    }
    s.label("vfont2, a header of 40 bytes: the entry's number, not its place");
    s.file(&vfont2(40, &[(0, 0, [0; 5]); 3], &[], None));
    for g in 0..3 {
        s.set(40 + 18 * g + 4, 1);
        s.check();
        s.set(40 + 18 * g + 4, 0);
    }
    s.label("vfont2, 300 entries: the greatest height and width are no entry's");
    s.file(&vfont2(32, &[(0, 0, [0; 5]); 300], &[], None));
    s.check_with(&[(24, &[1])]);
    s.check_with(&[(28, &[8])]);
    s.check_with(&[(24, &[1]), (28, &[8])]);
}

fn most_entries(s: &mut Script) {
    s.label("vfont2, 4096 entries");
    s.file(&vfont2(32, &[(0, 0, [0; 5]); 4096], &[], None));
    for g in [4095, 511, 300] {
        s.set(32 + 18 * g + 4, 1);
        s.check();
    }
}

/// The slip of a height that wraps to 1, far from the first entry.
fn wrapped(s: &mut Script) {
    s.label("vfont2, entry 258 of 300: up + down wraps to 1");
    let mut entries = [(0, 0, [0; 5]); 300];
    entries[258] = (0, 1, [-32768, -32767, 0, 8, 8]);
    s.file(&vfont2(32, &entries, &[0x18], None));
    s.put(24, &u32s(&[1, 8]));
    s.check();
}

/// PSF2 to PSF1: a value above FFFF, as a single and in a sequence, another one behind it.
fn values(s: &mut Script) {
    s.label("psf2 to psf1, 512 glyphs: a value that psf1 can't have in one of them");
    s.file(&bare_psf2(512));
    let high = "\u{10000}".as_bytes();
    for g in [0, 1, 255, 256, 511] {
        for front in [&b""[..], b"A", b"\xFE", b"A\xFEB", b"\xFEA\xFEB"] {
            let table = [&vec![0xFF; g], front, high, b"A", high, &vec![0xFF; 512 - g]].concat();
            behind(s, 544, &table);
            s.convert(1, 100);
        }
    }
    s.label("psf2 to psf1: 300 glyphs, then a width of 7");
    s.file(&psf2(300, 1, 8, &[0x18; 300], Some(&[0xFF; 300])));
    s.convert(1, 2000);
    s.file(&psf2(256, 1, 7, &[0x18; 256], Some(&[0xFF; 256])));
    s.convert(1, 2000);
}

/// PSF1 to PSF2: a surrogate.
fn surrogates(s: &mut Script) {
    s.label("psf1 to psf2, 512 glyphs: a surrogate in one of them");
    s.file(&psf1(3, 1, 0x0F, &[]));
    for g in [0, 1, 255, 256, 511] {
        for front in [&[][..], &[0x41, 0], &[0xFE, 0xFF], &[0xFE, 0xFF, 0x41, 0]] {
            let own = [front, &[0, 0xD8, 0xFF, 0xDF]].concat();
            let table = [&vec![0xFF; 2 * g], &own[..], &vec![0xFF; 2 * (512 - g)]].concat();
            behind(s, 516, &table);
            s.convert(0, 100);
        }
    }
}

/// vfont2 to PSF2: an entry that PSF2 can't have, another one behind it.
fn uneven(s: &mut Script) {
    s.file(&psf2(512, 1, 8, &[0x18; 512], None));
    s.convert_take(2);
    s.convert(3, 100);
    broken(s);
    s.label("vfont2 to psf2, 512 glyphs: an entry that psf2 can't have");
    for g in [0, 1, 255, 256, 510, 511] {
        let at = 32 + 18 * g;
        // its logical width; no glyph; the line one row higher
        for changes in [&[(16, 8, 9)][..], &[(4, 1, 0)], &[(8, 1, 0), (10, 0, 1)]] {
            for &(i, _, new) in changes {
                s.set(at + i, new);
            }
            s.check();
            s.convert(3, 100);
            s.set(32 + 18 * 511 + 17, 1);
            s.convert(3, 3000);
            s.set(32 + 18 * 511 + 17, 0);
            for &(i, old, _) in changes {
                s.set(at + i, old);
            }
        }
    }
}

/// A wrong size, and an end behind the bitmaps, of 512 entries that each have a glyph; then the
/// same where an entry before has none.
fn broken(s: &mut Script) {
    s.label("vfont2, 512 entries: a wrong size, a wrong address");
    for size in [1, 0] {
        s.set(32 + 18 * 3 + 4, size);
        for g in [0, 1, 255, 256, 300, 511] {
            for (i, byte) in [(4, 2), (3, 0x80)] {
                s.check_with(&[(32 + 18 * g + i, &[byte])]);
            }
        }
    }
    s.set(32 + 18 * 3 + 4, 1);
}

/// Every question on a font that is refused at a glyph.
fn every_question(s: &mut Script) {
    let cut = [&bare_psf2(300)[..], &[0xFF; 299]].concat();
    let bad = [&bare_psf2(300)[..], &[0xFF; 256], b"A\xC0"].concat();
    let mut broken = vfont2(32, &[(0, 0, [0; 5]); 300], &[], None);
    broken[32 + 18 * 257 + 4] = 1;
    let trailing = [&bare_psf2(300)[..], &[0xFF; 301]].concat();
    for (name, file) in
        [("cut in 299", cut), ("bad in 256", bad), ("entry 257", broken), ("trailing", trailing)]
    {
        s.label(&format!("every question, {name}"));
        s.file(&worked());
        s.keep();
        s.file(&file);
        s.check();
        s.differences(0, 3);
        s.differences(1, 3);
        s.glyph(0);
        s.row(0, 0);
        s.pixel(0, 0, 0);
        s.metrics(0, [1, 0, 0, 8, 8]);
        s.walk(0, 0);
        s.value(0x41);
        s.sequence(&[0x41]);
        for which in 0..4 {
            s.convert(which, 9);
        }
        s.both_refused(file.len() + 9, file.len(), 0, 0x41);
        s.late();
    }
}

/// Refusals of a question that names a glyph: they are of no one glyph.
fn none(s: &mut Script) {
    s.label("no glyph of 300 is told where the question is at fault");
    s.file(&[&bare_psf2(300)[..], &[0xFF; 300]].concat());
    s.glyph(300);
    s.row(257, 1);
    s.pixel(257, 0, 8);
    s.walk(257, 1);
    s.value(0x41);
    s.value(0x110000);
    s.sequence(&[]);
    s.sequence(&[0x41]);
    s.convert(0, 9);
    s.convert(2, 9);
    s.add(s.file.len(), s.file.len(), 257, 0x41);
    s.add(s.file.len(), s.file.len(), 257, 0xD800);
    s.drop(s.file.len(), s.file.len(), 257, 0x41);
    s.add(s.file.len() + 9, s.file.len(), 257, 0x41);
    s.add(s.file.len() + 9, s.file.len(), 257, 0x41);
    s.label("no glyph in entry 257");
    s.file(&vfont2(32, &[(0, 0, [0; 5]); 300], &[], None));
    s.glyph(257);
    s.row(257, 0);
    s.pixel(257, 0, 0);
    s.metrics(257, [0; 5]);
    s.walk(257, 0);
    s.value(0x41);
}
