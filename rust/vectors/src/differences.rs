//! The corpus of comparisons: what differs between two fonts.

use crate::make::*;
use crate::script::{Script, MOST_NUMBERS};

pub fn script() -> Vec<u8> {
    let mut s = Script::new();
    worked_font(&mut s);
    pixels(&mut s);
    entries(&mut s);
    tables(&mut s);
    codings(&mut s);
    presence(&mut s);
    counts(&mut s);
    two_of_a_glyph(&mut s);
    refused_fonts(&mut s);
    many(&mut s);
    random_pairs(&mut s);
    s.bytes
}

/// The font that is kept, and then changed.
fn keep(s: &mut Script, file: &[u8]) {
    s.file(file);
    s.keep();
}

fn worked_font(s: &mut Script) {
    s.label("the font of 45 bytes and itself, its vfont2 form, and that with itself");
    keep(s, &worked());
    s.compare_rooms();
    s.convert_exact(2);
    s.compare_rooms();
    s.take();
    s.compare();
    s.label("with a wider header");
    keep(s, &worked());
    s.set(8, 40);
    let rest = s.file[32..].to_vec();
    s.trim(32);
    s.append(&[&[0x99; 8], &rest[..]].concat());
    s.compare();
    s.label("pixels and fillers of its first and last row");
    keep(s, &worked());
    for at in [32, 35] {
        for bit in [0x80, 0x40, 0x20, 0x10, 0x01] {
            s.compare_with(&[(at, &[s.file[at] ^ bit])]);
        }
    }
    s.compare_with(&[(32, &[0x40, 0xBF, 0x1F, 0xDF])]);
    s.set(35, 0);
    s.compare_rooms();
}

/// Rows of one byte and of more, with and without fillers.
fn pixels(s: &mut Script) {
    for (width, at) in [(1, 1), (7, 1), (8, 1), (9, 3), (15, 3), (16, 3), (17, 5)] {
        s.label(&format!("pixels and fillers of width {width}"));
        let c = area(2, width);
        keep(s, &psf2(2, 2, width, &pattern(2 * c), None));
        for g in 0..2 {
            // the last byte of glyph g's second row; and the first of its first
            let last = 32 + g * c + at;
            let pixel = 0x80 >> ((width - 1) % 8);
            s.compare_with(&[(last, &[s.file[last] ^ pixel])]);
            if width % 8 != 0 {
                s.compare_with(&[(last, &[s.file[last] ^ (pixel >> 1)])]);
            }
            s.compare_with(&[(32 + g * c, &[s.file[32 + g * c] ^ 0x80])]);
        }
    }
}

/// Metrics, addresses and missing glyphs of vfont2.
fn entries(s: &mut Script) {
    // two glyphs of 2 by 9 and 1 by 8, one of them missing between
    let some = [entry(0, 3, -1, -2, 11), NONE, entry(4, 1, 0, 0, 8)];
    let file = vfont2(32, &some, &pattern(8), None);
    let number = |n: i16| n.to_le_bytes();
    s.label("metrics: each way of the same height and width, the logical width alone");
    keep(s, &file);
    for (at, a, b) in [(40, 2, 0), (40, 0, 2), (44, 0, 9), (44, 9, 0), (44, -3, 12)] {
        s.compare_with(&[(at, &number(a)), (at + 2, &number(b))]);
    }
    for logical in [8, 10, -9, 9 + 256, i16::MIN] {
        s.compare_with(&[(48, &number(logical))]);
    }
    s.compare_with(&[(80, &number(8)), (82, &number(0))]);
    s.label("another height and width, with other bytes then");
    s.compare_with(&[(80, &number(1)), (82, &number(6))]);
    s.compare_with(&[(36, &[2]), (40, &number(2)), (24, &[1])]);
    s.label("addresses: other bytes, and the same ones");
    for address in [0, 5, 6, 7] {
        s.compare_with(&[(68, &[address])]);
    }
    let bytes = file[86 + 4];
    s.compare_with(&[(68, &[7]), (86 + 7, &[bytes])]);
    s.label("a missing glyph, whatever its other fields are; two of them agree");
    s.compare_with(&[(50, &[0xFF; 4]), (58, &[0xFF; 10])]);
    s.compare_with(&[(72, &[0])]);
    s.compare_with(&[(36, &[0]), (24, &[1]), (28, &[8])]);
    s.compare_with(&[(54, &[1]), (58, &[1, 0, 0, 0, 0, 0, 8, 0, 8, 0])]);
    s.label("no glyph at all, against that");
    s.put(36, &[0]);
    s.put(72, &[0]);
    s.put(24, &[0]);
    s.put(28, &[0]);
    s.compare_rooms();
    s.label("vfont2 and the psf2 font with the same glyphs, and nearly the same");
    keep(s, &psf2(2, 2, 9, &pattern(8), None));
    s.file(&vfont2(32, &[entry(0, 2, 0, 0, 9), entry(4, 2, 0, 0, 9)], &pattern(8), None));
    s.compare();
    for (at, n) in [(48, 8), (48, 10), (66, 0)] {
        s.compare_with(&[(at, &number(n))]);
    }
    for (at, a, b) in [(40, 1, 1), (40, 0, 2), (62, 1, 8), (62, -9, 18)] {
        s.compare_with(&[(at, &number(a)), (at + 2, &number(b))]);
    }
    s.compare_with(&[(50, &[0])]);
    s.compare_with(&[(54, &[0])]);
}

/// Descriptions of three glyphs, the one in the middle changed.
fn tables(s: &mut Script) {
    let texts = |t: Text| table(&[text(&[0x41], &[]), t, text(&[], &[&[0x42, 0x43]])]);
    let font = |t: Text| psf2(3, 1, 8, &[1, 2, 3], Some(&texts(t)));
    let others = [
        text(&[], &[]),
        text(&[0x41], &[&[0x41, 0x30A]]),
        text(&[0x41, 0xC5, 0xC5], &[&[0x41, 0x30A]]),
        text(&[0xC5, 0x41], &[&[0x41, 0x30A]]),
        text(&[0x41, 0xC5], &[]),
        text(&[0x41, 0xC5], &[&[0x41]]),
        text(&[0x41, 0xC5], &[&[0x41, 0x30A, 0x30A]]),
        text(&[0x41, 0xC5], &[&[0x41], &[0x30A]]),
        text(&[0x41, 0xC5], &[&[0x41, 0x30A], &[0x41, 0x30A]]),
        text(&[0x41, 0xC5], &[&[0x30A, 0x41]]),
        text(&[0x41, 0xC5, 0x41, 0x30A], &[]),
        text(&[0x41], &[&[0xC5], &[0x41, 0x30A]]),
        text(&[0x41, 0x1C5], &[&[0x41, 0x30A]]),
        text(&[0x41, 0x100C5], &[&[0x41, 0x30A]]),
        text(&[0x41, 0xC5], &[&[0x41, 0x1030A]]),
        text(&[0x42, 0xC5], &[&[0x41, 0x30A]]),
    ];
    s.label("items of the second of three glyphs");
    keep(s, &font(text(&[0x41, 0xC5], &[&[0x41, 0x30A]])));
    for t in others {
        s.trim(35);
        s.append(&texts(t));
        s.compare();
    }
    s.label("a single and a sequence of one value");
    keep(s, &font(text(&[0x41], &[])));
    s.trim(35);
    s.append(&texts(text(&[], &[&[0x41]])));
    s.compare_rooms();
    s.label("the descriptions moved by one glyph");
    s.trim(35);
    s.append(&table(&[text(&[], &[]), text(&[0x41], &[]), text(&[0x41], &[])]));
    s.compare_rooms();
}

/// PSF1 against PSF2 and vfont2: values are numbers.
fn codings(s: &mut Script) {
    let some = |t: Text| spread(256, &[(2, t), (255, text(&[0xFFFD], &[]))]);
    let narrow = |t: Text| psf1(2, 1, 0x18, &units(&some(t)));
    let wide = |t: Text| psf2(256, 1, 8, &[0x18; 256], Some(&table(&some(t))));
    s.label("psf1 and its psf2 and vfont2 forms");
    s.file(&narrow(text(&[0x41, 0x20AC, 0xFE], &[&[0x41, 0x30A], &[0xFEFF]])));
    s.convert_take(0);
    s.convert_exact(2);
    s.compare();
    s.convert_exact(1);
    s.compare();
    s.take();
    s.convert_exact(0);
    s.compare();
    s.label("with another unit, filler or pixel: its rows have no fillers");
    for (at, byte) in [(4 + 255, 0x19), (260 + 4, 0x42), (260 + 5, 0x01), (260 + 18, 0x0B)] {
        s.compare_with(&[(at, &[byte])]);
    }
    s.label("a surrogate in psf1 alone, two of them for a value above FFFF, the same in both");
    for (units, value) in [(&[0xDEAD][..], 0x1EAD), (&[0xD83D, 0xDE00], 0x1F600), (&[], 0xFFFD)] {
        s.file(&wide(text(&[value], &[])));
        s.keep();
        s.file(&narrow(text(units, &[])));
        s.compare();
    }
    keep(s, &narrow(text(&[0xDEAD], &[])));
    s.compare();
    s.label("noncharacters in psf2 and in psf1: refused, first and second");
    s.file(&narrow(text(&[0x41], &[])));
    s.keep();
    for v in [0xFFFE, 0xFDD0, 0x10FFFF] {
        s.file(&wide(text(&[v, 0x41], &[])));
        s.neither_compared();
    }
    s.keep();
    s.file(&narrow(text(&[0xFDEF], &[])));
    s.neither_compared();
    s.label("the values beside them, in psf2 and in psf1");
    for v in [0xFDCF, 0xFDF0, 0xFFFD] {
        s.file(&wide(text(&[v], &[])));
        s.keep();
        s.file(&narrow(text(&[v], &[])));
        s.compare();
    }
    s.file(&narrow(text(&[], &[&[0x41]])));
    s.label("modes 2 and 4");
    s.keep();
    s.set(2, 4);
    s.compare();
}

/// Just one font has a table: first of all, and no items then.
fn presence(s: &mut Script) {
    let bitmaps = [1, 2, 3];
    let listed = psf2(3, 1, 8, &bitmaps, Some(b"A\xFF\xFFB\xFF"));
    let bare = psf2(3, 1, 8, &bitmaps, None);
    s.label("a font without a table against one with one, also one that lists nothing");
    keep(s, &bare);
    s.compare();
    s.file(&listed);
    s.compare_rooms();
    s.compare_with(&[(33, &[0xFF])]);
    s.file(&psf2(3, 1, 8, &bitmaps, Some(&[0xFF; 3])));
    s.compare();
    s.label("and against other kinds, counts and metrics");
    s.file(&vfont2(32, &[entry(0, 1, 0, 0, 8), NONE], &[1], Some(b"A\xFF\xFF")));
    s.compare_rooms();
    s.file(&vfont2(32, &[entry(0, 1, 0, 0, 8), NONE], &[1], None));
    s.compare();
    s.file(&psf2(4, 1, 7, &[1, 2, 3, 4], Some(b"A\xFF\xFFB\xFFC\xFF")));
    s.compare();
    s.label("psf1 with and without a table");
    keep(s, &psf1(2, 1, 0x18, &[0xFF; 512]));
    s.trim(260);
    s.set(2, 0);
    s.compare_rooms();
}

/// Numbers that are not below both counts.
fn counts(s: &mut Script) {
    s.label("fonts of 1 to 4 glyphs");
    let font = |n: usize| {
        let texts: Vec<Text> = (0..n).map(|g| text(&[0x41 + g as u32], &[])).collect();
        psf2(n, 1, 8, &[1, 2, 3, 4][..n], Some(&table(&texts)))
    };
    for n in 1..=4 {
        keep(s, &font(n));
        for m in n + 1..=4 {
            s.file(&font(m));
            s.compare();
        }
    }
    s.label("the second of two glyphs differs, and others follow");
    keep(s, &font(2));
    s.file(&font(4));
    s.put(33, &[9]);
    s.put(38, &[0x5A]);
    s.compare_rooms();
    s.label("missing glyphs above the other's count");
    keep(s, &vfont2(32, &[NONE; 3], &[], None));
    s.file(&vfont2(32, &[NONE], &[], None));
    s.compare_rooms();
}

/// Metrics or pixels before items.
fn two_of_a_glyph(s: &mut Script) {
    s.label("pixels and items, metrics and items");
    keep(s, &psf2(3, 1, 8, &[1, 2, 3], Some(b"A\xFFB\xFFC\xFF")));
    s.file(&psf2(3, 1, 8, &[1, 4, 5], Some(b"B\xFFC\xFFC\xFF")));
    s.compare_rooms();
    s.file(&psf2(3, 1, 7, &[1, 2, 3], Some(b"A\xFFC\xFFB\xFF")));
    s.compare_rooms();
    let drawn = entry(0, 1, 0, 0, 8);
    s.file(&vfont2(32, &[NONE, drawn, NONE], &[2], Some(b"A\xFFA\xFF\xFF")));
    s.compare();
    s.label("two missing glyphs with other items");
    s.keep();
    s.set(s.file.len() - 6, 0x42);
    s.compare();
}

/// The first font's refusal, else the second's, with which it was.
fn refused_fonts(s: &mut Script) {
    let junk = |s: &mut Script| s.file(&[0; 3]);
    s.label("a font that is refused, first and second, against a sound one");
    keep(s, &worked());
    junk(s);
    s.neither_compared();
    s.new_file();
    s.neither_compared();
    s.file(&worked());
    for (at, byte) in
        [(4, 1), (8, 31), (16, 0), (20, 3), (24, 0), (36, 0x80), (44, 0x41), (38, 0), (41, 0xFF)]
    {
        let was = s.file[at];
        s.set(at, byte);
        s.neither_compared();
        s.set(at, was);
    }
    s.append(&[0]);
    for length in [46, 44, 35, 31] {
        s.trim(length);
        s.neither_compared();
    }
    s.file(&with(&worked_vfont2(), 42, 9));
    s.neither_compared();
    s.label("both are refused");
    s.keep();
    s.neither_compared();
    junk(s);
    s.neither_compared();
    s.file(&worked()[..44]);
    s.neither_compared();
    s.label("a sound font against these");
    s.file(&worked());
    s.neither_compared();
    s.label("a font that is too long");
    s.fill(second::LIMIT, 0);
    s.differences(0, 3);
    s.differences(1, 3);
}

/// Glyph numbers of two bytes, and many pairs.
fn many(s: &mut Script) {
    s.label("256 and 512 glyphs of psf1");
    keep(s, &psf1(0, 1, 0x18, &[]));
    s.file(&psf1(1, 1, 0x18, &[]));
    s.compare();
    s.label("300 glyphs: some differ");
    keep(s, &psf2(300, 1, 8, &[0x18; 300], Some(&[0xFF; 300])));
    for g in [0, 43, 254, 255, 256, 299] {
        s.put(32 + g, &[0x19]);
    }
    s.trim(32 + 300 + 256);
    s.append(b"A\xFF");
    s.fill(43, 0xFF);
    s.compare_rooms();
    s.label("4096 glyphs that differ in pixels, eight of them in items too");
    keep(s, &psf2(4096, 1, 1, &[0; 4096], Some(&[0xFF; 4096])));
    s.trim(32);
    s.fill(4096, 0x80);
    for _ in 0..8 {
        s.fill(511, 0xFF);
        s.append(b"A\xFF");
    }
    let need = s.differences(0, MOST_NUMBERS).expect("two sound fonts");
    s.differences(1, need - 1);
}

/// Fonts drawn by lot against others, of the same and of other kinds.
fn random_pairs(s: &mut Script) {
    let mut random = Random(0x5EC0_0D5E_C00D_0006);
    let font = |random: &mut Random| match random.below(2) {
        0 => random_psf2(random),
        _ => random_vfont2(random),
    };
    for turn in 0..5 {
        s.label(&format!("two fonts drawn by lot, {turn}"));
        keep(s, &font(&mut random));
        s.file(&font(&mut random));
        s.compare_rooms();
    }
}
