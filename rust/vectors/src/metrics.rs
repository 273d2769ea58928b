//! The corpus of questions on metrics: up, down, left, right, logical width. A question
//! names five numbers, and the answer is whether they are the glyph's.

use crate::make::*;
use crate::script::Script;
use second::LIMIT;

pub fn script() -> Vec<u8> {
    let mut s = Script::new();
    worked_fonts(&mut s);
    psf1_fonts(&mut s);
    psf2_fonts(&mut s);
    own_numbers(&mut s);
    signs(&mut s);
    no_glyph(&mut s);
    counts(&mut s);
    own_refusal_first(&mut s);
    converted(&mut s);
    random_fonts(&mut s);
    s.bytes
}

/// Glyph numbers too high for every font. The last two times 18 bytes wrap in 64 bits to
/// entry 1 and to byte 2 of entry 0.
const FAR: [u64; 5] = [1 << 32, (1 << 32) + 1, u64::MAX, (1 << 63) + 1, 0x8E38_E38E_38E3_8E39];

/// The numbers as they are, then each of the five changed by one.
fn around(s: &mut Script, g: u64, right: [i16; 5]) {
    s.metrics(g, right);
    for i in 0..5 {
        let mut off = right;
        off[i] = off[i].wrapping_add([1, -1][i % 2]);
        s.metrics(g, off);
    }
}

/// Metrics of a glyph that has all its rows above the line and all its columns right of
/// the origin.
fn plain(height: i16, width: i16) -> [i16; 5] {
    [height, 0, 0, width, width]
}

fn worked_fonts(s: &mut Script) {
    for (name, file) in [("psf2", worked()), ("vfont2", worked_vfont2())] {
        s.label(&format!("metrics of the font of 45 bytes as {name}"));
        s.file(&file);
        s.check();
        s.metrics(0, plain(2, 3));
        around(s, 1, plain(2, 3));
        s.metrics(1, [0; 5]);
        s.metrics(1, [3, 0, 0, 2, 2]);
        s.metrics(2, plain(2, 3));
        for g in FAR {
            s.metrics(g, plain(2, 3));
        }
    }
}

fn psf1_fonts(s: &mut Script) {
    for (mode, size) in [(0, 1), (1, 16), (2, 255), (3, 8), (5, 255)] {
        s.label(&format!("metrics, psf1 of mode {mode} and size {size}"));
        let count = if mode & 1 == 1 { 512 } else { 256 };
        let table = if mode_has_table(mode) { vec![0xFF; 2 * count] } else { Vec::new() };
        s.file(&psf1(mode, size, 0x18, &table));
        s.check();
        let right = plain(size as i16, 8);
        around(s, 0, right);
        for g in [255, 256, 511, 512, 1 << 32, u64::MAX] {
            s.metrics(g, right);
        }
        // the size as a signed byte, and the rows below the line
        s.metrics(0, plain(size as i8 as i16, 8));
        s.metrics(0, [0, size as i16, 0, 8, 8]);
        s.metrics(0, [size as i16, 0, 8, 0, 8]);
        s.metrics(0, [size as i16, 0, 0, 8, 0]);
    }
}

fn psf2_fonts(s: &mut Script) {
    for (height, width) in [(1, 1), (1, 255), (255, 1), (255, 255), (127, 128), (128, 9)] {
        s.label(&format!("metrics, psf2 of height {height} and width {width}"));
        s.file(&psf2(2, height, width, &vec![0x66; 2 * area(height, width)], None));
        s.check();
        let (height, width) = (height as i16, width as i16);
        around(s, 1, plain(height, width));
        s.metrics(0, plain(height, width));
        // the two swapped, as signed bytes, the high byte set, the width in whole bytes
        s.metrics(0, plain(width, height));
        s.metrics(0, plain(height as i8 as i16, width as i8 as i16));
        s.metrics(0, plain(height + 256, width));
        s.metrics(0, plain(height, width + 256));
        s.metrics(0, plain(height, (width + 7) / 8 * 8));
        s.metrics(2, plain(height, width));
    }
    s.label("metrics, psf2 of header sizes 33 and 4096");
    for header in [33, 4096] {
        s.file(&psf2_wide(header, 2, 3, 9, &pattern(12), Some(&[0x41, 0xFF, 0xFF])));
        s.check();
        s.metrics(0, plain(3, 9));
        s.metrics(1, plain(3, 9));
        s.metrics(1, plain(3, 8));
        s.metrics(2, plain(3, 9));
    }
}

/// vfont2: the entry's own numbers, not another's and not the font's greatest.
fn own_numbers(s: &mut Script) {
    let all = [
        entry(0, 1, 0, 0, 3),
        entry(1, 3, -1, -2, 19),
        entry(0, 4, 3, 4, 5),
        (2, 4, [-5, 7, 12, -3, 40]),
        (2, 4, [7, -5, -3, 12, -40]),
    ];
    let bitmaps = pattern(40);
    for header in [32, 4096] {
        s.label(&format!("metrics, vfont2 of header size {header}: each entry's own"));
        s.file(&vfont2(header, &all, &bitmaps, Some(&[0xFF; 5])));
        s.check();
        for g in 0..5 {
            // its own is the only one that is
            for e in &all {
                s.metrics(g, e.2);
            }
        }
        s.metrics(5, all[4].2);
        s.metrics(5, [0; 5]);
        s.metrics(1, plain(7, 17));
        s.metrics(2, plain(7, 9));
    }
    s.label("metrics, vfont2: each number changed by one");
    for (g, e) in all.iter().enumerate() {
        around(s, g as u64, e.2);
    }
    s.label("metrics, vfont2: two numbers swapped");
    let five = [-11, 13, 30, -17, 7];
    s.file(&vfont2(32, &[NONE, (3, 4, five)], &bitmaps[..7], None));
    s.check();
    s.metrics(1, five);
    for i in 0..5 {
        for j in 0..i {
            let mut asked = five;
            asked.swap(i, j);
            s.metrics(1, asked);
        }
    }
    s.label("metrics, vfont2: the address and the size are none of them");
    s.metrics(1, [3, 0, 4, 0, -11]);
    s.metrics(1, [0, 4, 0, -11, 13]);
    s.metrics(1, [4, 0, -11, 13, 30]);
    s.metrics(1, [13, 30, -17, 7, 0]);
    s.label("metrics, vfont2: shared bytes, every logical width its own");
    let alike = [0, 1, -1, 255, -256, 32767, -32768];
    let entries = alike.map(|logical| (0, 4, [2, 0, 0, 9, logical]));
    s.file(&vfont2(32, &entries, &bitmaps[..4], None));
    s.check();
    for g in 0..alike.len() as u64 {
        for logical in alike {
            s.metrics(g, [2, 0, 0, 9, logical]);
        }
        s.metrics(g, plain(2, 9));
    }
}

/// Numbers at the ends of 16 bits, and what comes of a sign lost.
fn signs(s: &mut Script) {
    let all = [
        [-1, 2, -1, 2, -1],
        [-128, 129, -129, 130, -128],
        [-255, 256, -256, 257, -255],
        [-32766, 32767, -32766, 32767, -32766],
        [32767, -32766, 32767, -32766, 32767],
        [-32512, 32767, 32767, -32512, -32768],
        [1, 0, 0, 1, -32768],
    ];
    s.label("metrics, vfont2: negative numbers, up to the ends of 16 bits");
    let entries = all.map(|m| {
        let (_, size, _) = entry(0, m[0], m[1], m[2], m[3]);
        (1, size, m)
    });
    s.file(&vfont2(32, &entries, &vec![0x3C; 8161], None));
    s.check();
    for (g, m) in all.iter().enumerate() {
        let g = g as u64;
        around(s, g, *m);
        // without signs, with all of them turned, the low bytes alone, unsigned and signed,
        // the two bytes of each swapped
        s.metrics(g, m.map(|n| n.wrapping_abs()));
        s.metrics(g, m.map(|n| n.wrapping_neg()));
        s.metrics(g, m.map(|n| n & 255));
        s.metrics(g, m.map(|n| n as i8 as i16));
        s.metrics(g, m.map(|n| n.swap_bytes()));
    }
    s.label("metrics, vfont2: the sums in one of two numbers");
    s.metrics(0, [1, 0, -1, 2, -1]);
    s.metrics(0, [-1, 2, 0, 1, -1]);
    s.metrics(3, plain(1, 1));
}

fn no_glyph(s: &mut Script) {
    let good = entry(0, 2, 0, 0, 9);
    let bitmaps = pattern(4);
    s.label("metrics of an entry of size 0: NO GLYPH, whatever its other fields");
    for free in [[0; 5], [-32768; 5], [32767; 5], [2, 0, 0, 9, 9], [-1, 3, 0, 9, 9]] {
        s.file(&vfont2(32, &[good, (0xFFFFFFFF, 0, free), good], &bitmaps, None));
        s.check();
        s.metrics(0, plain(2, 9));
        s.metrics(1, free);
        s.metrics(1, plain(2, 9));
        s.metrics(1, [0; 5]);
        s.metrics(2, plain(2, 9));
    }
    s.label("metrics: ASK for the glyph before NO GLYPH");
    s.metrics(3, plain(2, 9));
    for g in FAR {
        s.metrics(g, plain(2, 9));
    }
    s.label("metrics of fonts without any glyph");
    for header in [32, 77] {
        s.file(&vfont2(header, &[NONE, (9, 0, [3; 5])], &[], Some(&[0x41, 0xFF, 0xFF])));
        s.check();
        s.metrics(0, [0; 5]);
        s.metrics(1, [3; 5]);
        s.metrics(2, [0; 5]);
        s.metrics(u64::MAX, [0; 5]);
    }
}

/// Glyph numbers of two bytes.
fn counts(s: &mut Script) {
    s.label("metrics, psf2 of 257 and of 4096 glyphs");
    for n in [257, 4096] {
        s.file(&psf2(n, 1, 7, &vec![0x66; n], None));
        s.check();
        for g in [0, 255, 256, 257, n as u64 - 1, n as u64, n as u64 + 256] {
            s.metrics(g, plain(1, 7));
        }
    }
    for n in [256, 257, 4096] {
        s.label(&format!("metrics, vfont2 of {n} entries, a few of them with a glyph"));
        let mut entries = vec![NONE; n];
        for g in [0, 1, 255, 256, 257, 4095] {
            if g < n {
                entries[g] = (0, 1, [g as i16, 1 - g as i16, -2, 9, g as i16]);
            }
        }
        s.file(&vfont2(32, &entries, &[0x5A], None));
        s.check();
        for g in [0, 1, 2, 255, 256, 257, 258, 4094, 4095, 4096, 4351] {
            s.metrics(g, [g as i16, 1 - g as i16, -2, 9, g as i16]);
            // those of the entry that the low byte names
            let low = g as i16 & 255;
            s.metrics(g, [low, 1 - low, -2, 9, low]);
        }
    }
}

/// Metrics of refused fonts: the font's refusal, also where the glyph is too high or
/// where none is there.
fn own_refusal_first(s: &mut Script) {
    let (base1, base2) = (psf1(2, 2, 0x18, &[0xFF; 512]), worked());
    let none = (0, 0, [2, 0, 0, 9, 9]);
    let base3 = vfont2(32, &[none, entry(0, 2, 0, 0, 9)], &pattern(4), Some(&[0xFF; 2]));
    let size = ("HEADER SIZE vfont2", with(&base3, 8, 31));
    let entries = [
        ("ENTRY vfont2", with(&base3, 54, 5)),
        ("ENTRY vfont2, greatest height", with(&base3, 24, 3)),
        ("ENTRY vfont2, greatest width", with(&base3, 28, 8)),
    ];
    let fonts = refused([&base1, &base2, &base3], size, &entries, 73, (73, 0xC0));
    for (name, file) in fonts {
        s.label(&format!("metrics of a refused font: {name}"));
        s.file(&file);
        for g in [0, u64::MAX] {
            s.metrics(g, plain(2, 9));
        }
    }
    s.label("metrics of a refused font: an entry whose sum wraps in 16 bits");
    let wrapped = [-32768, -32767, 0, 8, 8];
    s.file(&vfont2(32, &[entry(0, 1, 0, 0, 8), (0, 1, wrapped)], &[0x5A], None));
    s.metrics(0, plain(1, 8));
    s.metrics(1, wrapped);
    s.label("metrics of a font that is too long");
    s.file(&worked());
    s.fill(LIMIT + 1 - 45, 0);
    s.metrics(0, plain(2, 3));
    s.metrics(u64::MAX, plain(2, 3));
}

/// Metrics on both sides of a conversion.
fn converted(s: &mut Script) {
    s.label("metrics through psf2 to vfont2 and back");
    for (height, width) in [(1, 1), (255, 255), (3, 9)] {
        s.file(&psf2(3, height, width, &vec![0x66; 3 * area(height, width)], None));
        let right = plain(height as i16, width as i16);
        s.metrics(2, right);
        s.convert_take(2);
        around(s, 0, right);
        s.metrics(2, right);
        s.metrics(3, right);
        s.convert_take(3);
        s.metrics(2, right);
    }
    s.label("metrics through psf1 to psf2, vfont2 and back");
    s.file(&psf1(1, 14, 0x18, &[]));
    for which in [0, 2, 3, 1] {
        s.metrics(511, plain(14, 8));
        s.metrics(512, plain(14, 8));
        s.convert_take(which);
    }
    s.metrics(511, plain(14, 8));
    s.label("metrics of vfont2 fonts that psf2 can't have");
    for off in [[1, 1, 0, 9, 9], [2, 0, 1, 8, 9], [2, 0, 0, 9, 8], [3, -1, 0, 9, 9]] {
        s.file(&vfont2(32, &[entry(0, 2, 0, 0, 9), (0, 4, off)], &pattern(4), None));
        s.convert_exact(3);
        s.metrics(0, plain(2, 9));
        s.metrics(1, plain(2, 9));
        s.metrics(1, off);
    }
}

/// Every glyph of fonts drawn by lot (a few of psf1): its numbers, and one of them changed.
fn random_fonts(s: &mut Script) {
    let mut random = Random(0x5EC0_0D5E_C00D_0003);
    for turn in 0..20 {
        let file = match turn % 5 {
            0 if turn < 10 => random_psf1(&mut random),
            0 | 1 => random_psf2(&mut random),
            _ => random_vfont2(&mut random),
        };
        s.label(&format!("metrics of font {turn} drawn by lot"));
        s.file(&file);
        s.check();
        let font = second::check(&file).expect("a sound font");
        let glyphs: Vec<usize> = match font.count {
            n if n < 10 => (0..=n).collect(),
            n => vec![0, random.below(n), n - 1, n],
        };
        for g in glyphs {
            let right = second::metrics(&file, g as u64).map_or([0; 5], |m| m.map(|n| n as i16));
            s.metrics(g as u64, right);
            let mut other = right;
            other[random.below(5)] ^= 1 << random.below(16);
            s.metrics(g as u64, other);
        }
    }
}
