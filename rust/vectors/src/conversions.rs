//! The corpus of conversions. 0: PSF1 to PSF2, 1: PSF2 to PSF1, 2: PSF2 to
//! vfont2, 3: vfont2 to PSF2.

use crate::make::*;
use crate::script::{Script, LONGEST};
use second::LIMIT;

pub fn script() -> Vec<u8> {
    let mut s = Script::new();
    worked_font(&mut s);
    wrong_kind(&mut s);
    refused_fonts(&mut s);
    psf2_to_psf1(&mut s);
    psf1_to_psf2(&mut s);
    psf2_to_vfont2(&mut s);
    vfont2_to_psf2(&mut s);
    orders(&mut s);
    sizes(&mut s);
    round_trips(&mut s);
    random_conversions(&mut s);
    s.bytes
}

fn worked_font(s: &mut Script) {
    s.label("the font of 45 bytes to vfont2 with several buffers");
    s.file(&worked());
    for room in [0, 1, 45, 79, 80, 82, 100, 1000, 81] {
        s.convert(2, room);
    }
    s.label("its 81 bytes, and back to 45");
    s.take();
    s.check();
    for g in 0..2 {
        s.glyph(g);
    }
    s.walk_all(0..2);
    s.value(0xC5);
    s.sequence(&[0x41, 0x30A]);
    for room in [0, 44, 46, 81, 45] {
        s.convert(3, room);
    }
    s.take();
    s.check();
    s.glyph(1);
    s.convert(2, 81);
    s.label("the other conversions of the font of 45 bytes");
    for which in [0, 1, 3] {
        for room in [0, 45, 200] {
            s.convert(which, room);
        }
    }
}

/// A PSF1 font: 256 or 512 glyphs of one row, a few descriptions.
fn units_font(mode: u8, some: &[(usize, Text)]) -> Vec<u8> {
    let n = if mode & 1 == 1 { 512 } else { 256 };
    let table = if mode_has_table(mode) { units(&spread(n, some)) } else { Vec::new() };
    let mut file = psf1(mode, 1, 0x18, &table);
    file[4..8].copy_from_slice(&[0x81, 0x42, 0x24, 0xFF]);
    file[3 + n] = 0x7E;
    file
}

/// A PSF2 font of width 8 with a few descriptions.
fn utf8_font(n: usize, some: &[(usize, Text)]) -> Vec<u8> {
    let mut bitmaps = vec![0x18; n];
    bitmaps[0] = 0x81;
    bitmaps[n - 1] = 0x7E;
    psf2(n, 1, 8, &bitmaps, Some(&table(&spread(n, some))))
}

fn wrong_kind(s: &mut Script) {
    let fonts = [
        ("psf1", units_font(2, &[(3, text(&[0x41], &[]))])),
        ("psf2", utf8_font(256, &[(3, text(&[0x41], &[]))])),
        ("vfont2", worked_vfont2()),
        ("psf1 bare", units_font(0, &[])),
    ];
    for (name, file) in fonts {
        s.label(&format!("every conversion of a {name} font: WRONG KIND but where it fits"));
        s.file(&file);
        for which in 0..4 {
            s.convert(which, 0);
            s.convert_rooms(which);
        }
    }
}

fn refused_fonts(s: &mut Script) {
    let base1 = units_font(2, &[(0, text(&[0x41], &[]))]);
    let (base2, base3) = (worked(), worked_vfont2());
    let size = ("HEADER SIZE psf2", with(&base2, 8, 31));
    let entries = [
        ("ENTRY vfont2", with(&base3, 36, 1)),
        ("ENTRY vfont2, greatest height", with(&base3, 24, 3)),
    ];
    let fonts = refused([&base1, &base2, &base3], size, &entries, 80, (80, 0x41));
    for (name, file) in fonts {
        s.label(&format!("every conversion of a refused font: {name}"));
        s.file(&file);
        for which in 0..4 {
            s.convert(which, [90, 0][which as usize / 2]);
        }
    }
    s.label("every conversion of a font that is too long");
    s.file(&worked());
    s.fill(LIMIT + 1 - 45, 0);
    for which in 0..4 {
        s.convert(which, 50);
    }
}

fn psf2_to_psf1(s: &mut Script) {
    s.label("psf2 to psf1: glyph counts, bare and with a table");
    for n in [1, 2, 255, 256, 257, 511, 512, 513, 4096] {
        s.file(&utf8_font(n, &[(n - 1, text(&[0x20AC], &[&[0x41, 0x30A]]))]));
        s.convert_rooms(1);
        s.file(&psf2(n, 2, 8, &vec![0x66; 2 * n], None));
        s.convert_rooms(1);
    }
    s.label("psf2 to psf1: widths 1, 7, 8, 9, 16, 255 with 256 and 255 glyphs");
    for width in [1, 7, 8, 9, 16, 255] {
        for n in [256, 255] {
            s.file(&psf2(n, 1, width, &vec![0x66; n * area(1, width)], None));
            s.convert_rooms(1);
        }
    }
    s.label("psf2 to psf1: heights 1, 2, 255");
    for height in [1, 2, 255] {
        s.file(&psf2(256, height, 8, &vec![0x3C; 256 * height], Some(&[0xFF; 256])));
        s.convert_rooms(1);
        s.take();
        s.check();
    }
    s.label("psf2 to psf1: single values around FFFF, on glyphs 0, 255, 256, 511");
    for v in [0xD7FF, 0xE000, 0xFDCF, 0xFDF0, 0xFFFD, 0x10000, 0x1FFFD, 0x10FFFD] {
        for g in [0, 255, 256, 511] {
            let some = [(2, text(&[0x41], &[])), (g, text(&[0x20AC, v, 0x42], &[]))];
            s.file(&utf8_font(512, &some));
            s.convert_exact(1);
        }
    }
    s.label("psf2 to psf1: a noncharacter is the font's refusal, also behind a VALUE");
    for v in [0xFDD0, 0xFFFE, 0xFFFF, 0x1FFFE, 0x10FFFF] {
        for singles in [&[v][..], &[0x10000, v]] {
            s.file(&utf8_font(256, &[(100, text(singles, &[]))]));
            s.convert_exact(1);
            s.convert_exact(2);
        }
    }
    s.label("psf2 to psf1: values around FFFF in sequences, first and last of them");
    for v in [0xFDF0, 0xFFFD, 0x10000, 0x1F600, 0x10FFFD] {
        for sequence in [[v, 0x41, 0x42], [0x20AC, 0x41, v]] {
            let some = [(100, text(&[0xE9], &[&[0x41], &sequence, &[0x43]]))];
            s.file(&utf8_font(256, &some));
            s.convert_exact(1);
        }
    }
    s.label("psf2 to psf1: the first of several values too high");
    let some = [(5, text(&[0x41, 0x10001], &[&[0x10000]])), (6, text(&[0x1FFFD], &[]))];
    s.file(&utf8_font(256, &some));
    s.convert_rooms(1);
    let some = [(5, text(&[0x41], &[&[0x10000, 0xFFFD]])), (4, text(&[], &[&[0x41, 0x20000]]))];
    s.file(&utf8_font(256, &some));
    s.convert_rooms(1);
    s.label("psf2 to psf1: header sizes 33, 40, 4096; VALUE's place moves with them");
    for header in [33, 40, 4096] {
        for v in [0xFFFD, 0x10000] {
            let texts = spread(256, &[(0, text(&[0x41, v], &[]))]);
            s.file(&psf2_wide(header, 256, 1, 8, &[0x66; 256], Some(&table(&texts))));
            s.convert_exact(1);
        }
    }
}

fn psf1_to_psf2(s: &mut Script) {
    s.label("psf1 to psf2: modes 0 to 5, and back as modes 0 to 3");
    for mode in 0..=5 {
        let some = [(0, text(&[0, 0x7F, 0x80], &[])), (255, text(&[0x7FF], &[&[0x800, 0xFFFD]]))];
        let file = units_font(mode, &some);
        s.file(&file);
        s.convert_rooms(0);
        s.take();
        s.check();
        s.glyph(0);
        s.value(0x80);
        s.convert_rooms(1);
        s.take();
        s.check();
        s.glyph(0);
        s.value(0x80);
        s.convert_rooms(0);
    }
    s.label("psf1 to psf2: size 255, 256 and 512 glyphs");
    for mode in [0, 1] {
        s.file(&psf1(mode, 255, 0x5A, &[]));
        s.convert_rooms(0);
    }
    s.label("psf1 to psf2: values around the surrogates, as singles");
    for v in [0xD7FF, 0xD800, 0xD801, 0xDBFF, 0xDC00, 0xDEAD, 0xDFFE, 0xDFFF, 0xE000] {
        for g in [0, 255] {
            let some = [(1, text(&[0x41], &[])), (g, text(&[0x42, v], &[]))];
            s.file(&units_font(2, &some));
            s.convert_exact(0);
        }
        s.file(&units_font(3, &[(256, text(&[v], &[]))]));
        s.convert_exact(0);
    }
    s.label("psf1 to psf2: the same in sequences, and as a pair");
    for v in [0xD7FF, 0xD800, 0xDFFF, 0xE000] {
        for sequence in [[v, 0x41], [0x41, v]] {
            s.file(&units_font(2, &[(9, text(&[0x41, 0x42], &[&[0x43], &sequence]))]));
            s.convert_exact(0);
        }
    }
    s.file(&units_font(2, &[(9, text(&[0x41, 0x42], &[&[0xD83D, 0xDE00]]))]));
    s.convert_exact(0);
    s.label("psf1 to psf2: the first of several surrogates");
    let some = [(3, text(&[0x41], &[&[0x42, 0xDC00]])), (4, text(&[0xD800], &[]))];
    s.file(&units_font(2, &some));
    s.convert_rooms(0);
    s.label("psf1 to psf2: bytes of a surrogate that straddle two values");
    s.file(&units_font(2, &[(3, text(&[0x0041, 0x42D8, 0x00DC, 0x4400], &[]))]));
    s.convert_rooms(0);
    s.label("psf1 to psf2: values whose bytes look like marks");
    s.file(&units_font(2, &[(3, text(&[0xFE41, 0x42FF, 0xFF43, 0x00FF, 0xFEFE], &[&[0xFEFF]]))]));
    s.convert_rooms(0);
    s.take();
    s.check();
    s.walk_all(3..4);
}

fn psf2_to_vfont2(s: &mut Script) {
    for (height, width) in [(1, 1), (3, 7), (3, 8), (3, 9), (2, 16), (2, 17), (1, 255), (255, 1)] {
        s.label(&format!("psf2 of height {height} and width {width} to vfont2 and back"));
        let bitmaps = pattern(3 * area(height, width));
        let texts = table(&[text(&[0x41], &[]), text(&[], &[&[0x42, 0x301]]), Text::default()]);
        for table in [None, Some(&texts[..])] {
            s.file(&psf2(3, height, width, &bitmaps, table));
            s.convert_rooms(2);
            s.take();
            s.check();
            s.row(2, 0);
            s.pixel(1, height as u64 - 1, width as u64 - 1);
            s.convert_exact(3);
            s.take();
            s.check();
        }
    }
    s.label("filler bits are carried: psf2 of width 3, all bits set, and none but fillers");
    for byte in [0xFF, 0x1F] {
        s.file(&psf2(2, 2, 3, &[byte; 4], None));
        s.convert_exact(2);
        s.take();
        s.glyph(1);
        s.convert_exact(3);
        s.take();
        s.glyph(1);
    }
    s.label("psf2 to vfont2: header sizes 33, 40, 4096");
    for header in [33, 40, 4096] {
        s.file(&psf2_wide(header, 2, 1, 8, &[0x66, 0x99], Some(&[0x41, 0xFF, 0xFF])));
        s.convert_exact(2);
        s.take();
        s.glyph(1);
        s.convert_take(3);
        s.check();
    }
    s.label("psf2 to vfont2: GLYPHS and VALUE never apply");
    let texts = [text(&EDGES, &[&EDGES]), text(&[0xFFFD, 0x10FFFD], &[])];
    s.file(&psf2(2, 255, 255, &[0xC3; 16320], Some(&table(&texts))));
    s.convert_rooms(2);
    s.take();
    s.check();
    s.values(&EDGES);
    s.convert_rooms(3);
    s.label("psf2 to vfont2: 256, 257 and 4096 glyphs");
    for n in [256, 257, 4096] {
        s.file(&psf2(n, 1, 9, &vec![0x66; 2 * n], None));
        s.convert_rooms(2);
        s.take();
        s.glyph(n as u64 - 1);
        s.convert_rooms(3);
    }
}

fn vfont2_to_psf2(s: &mut Script) {
    let good = |address: usize| entry(address, 2, 0, 0, 9);
    let bitmaps = pattern(40);
    let ask = |s: &mut Script, entries: &[Entry]| {
        s.file(&vfont2(32, entries, &bitmaps, Some(&vec![0xFF; entries.len()])));
        s.convert_rooms(3)
    };
    s.label("vfont2 to psf2: in order, reversed, shared, overlapping, gapped");
    for addresses in [[0, 4, 8], [8, 4, 0], [7, 7, 7], [0, 1, 2], [3, 20, 36], [36, 0, 36]] {
        if ask(s, &addresses.map(good)).is_some() {
            s.take();
            s.check();
            s.glyph(0);
            s.glyph(1);
            s.glyph(2);
        }
    }
    s.label("vfont2 to psf2: one metric off by one, at entries 0, 1 and 2");
    for metric in 0..5 {
        for at in 0..3 {
            let mut entries = [good(0); 3];
            let e = &mut entries[at].2;
            match metric {
                // up and down, left and right shift against each other
                0 => (e[0], e[1]) = (1, 1),
                1 => (e[0], e[1]) = (3, -1),
                2 => (e[2], e[3]) = (1, 8),
                3 => (e[2], e[3]) = (-1, 10),
                _ => e[4] = 8,
            }
            ask(s, &entries);
        }
    }
    s.label("vfont2 to psf2: all entries alike, but other metrics than wanted");
    for metrics in [
        [0, 2, 0, 9, 9],
        [2, 0, 9, 0, 9],
        [2, 0, 0, 9, 0],
        [2, 0, 0, 9, 10],
        [2, 0, 0, 9, -9],
        [1, 1, 4, 5, 9],
        [2, 0, 0, 9, 9],
    ] {
        ask(s, &[(0, 4, metrics); 2]);
    }
    s.label("vfont2 to psf2: a smaller glyph, first or last");
    for small in [entry(0, 1, 0, 0, 9), entry(0, 2, 0, 0, 8), entry(0, 2, 0, 0, 1)] {
        ask(s, &[small, good(0), good(0)]);
        ask(s, &[good(0), good(0), small]);
    }
    s.label("vfont2 to psf2: an entry without glyph, with its metrics right or not");
    for none in [NONE, (0, 0, [2, 0, 0, 9, 9]), (0xFFFFFFFF, 0, [-1; 5])] {
        for at in 0..3 {
            let mut entries = [good(0); 3];
            entries[at] = none;
            ask(s, &entries);
        }
    }
    s.label("vfont2 to psf2: the first of several entries that don't fit");
    let mut off = good(0);
    off.2[4] = 8;
    ask(s, &[good(0), off, NONE, off]);
    ask(s, &[good(0), NONE, off]);
    s.label("vfont2 to psf2: no glyph at all, at header sizes 32, 33, 4096");
    for header in [32, 33, 4096] {
        s.file(&vfont2(header, &[NONE, NONE], &[], None));
        s.convert_rooms(3);
    }
    s.label("vfont2 to psf2: header sizes 33, 50, 4096, with a good and a bad entry 1");
    for header in [33, 50, 4096] {
        s.file(&vfont2(header, &[good(0), good(4)], &bitmaps, Some(&[0x41, 0xFF, 0xFF])));
        s.convert_rooms(3);
        s.file(&vfont2(header, &[good(0), off], &bitmaps, Some(&[0x41, 0xFF, 0xFF])));
        s.convert_rooms(3);
    }
    s.label("vfont2 to psf2: bare and with a table, one glyph of 1 by 1 and of 255 by 255");
    for table in [None, Some(&[0xF4, 0x8F, 0xBF, 0xBF, 0xFE, 0x41, 0xFF][..])] {
        s.file(&vfont2(32, &[entry(0, 1, 0, 0, 1)], &[0x80], table));
        s.convert_rooms(3);
        s.file(&vfont2(32, &[entry(2, 255, 0, 0, 255)], &vec![0x3C; 8163], table));
        s.convert_rooms(3);
    }
    s.label("vfont2 through psf2 and back: addresses in order again");
    s.file(&vfont2(
        40,
        &[good(30), good(5), good(30)],
        &bitmaps,
        Some(&[0x41, 0xFF, 0x42, 0xFF, 0xFF]),
    ));
    s.glyph(0);
    s.glyph(1);
    s.convert_take(3);
    s.glyph(1);
    s.convert_take(2);
    s.check();
    s.glyph(0);
    s.glyph(1);
    s.glyph(2);
    s.value(0x42);
}

/// Two refusals at once: the lower number goes first.
fn orders(s: &mut Script) {
    s.label("GLYPHS at 16 before GLYPHS at 28 before VALUE before ROOM");
    let bad = [(0, text(&[0x10000], &[]))];
    for (n, width, some) in [(255, 9, &bad[..]), (256, 9, &bad), (256, 8, &bad), (256, 8, &[])] {
        let texts = table(&spread(n, some));
        s.file(&psf2(n, 1, width, &vec![0x66; n * area(1, width)], Some(&texts)));
        s.convert(1, 0);
        s.convert(1, 10);
    }
    s.label("VALUE before ROOM, psf1 to psf2");
    s.file(&units_font(2, &[(0, text(&[0xD800], &[]))]));
    s.convert(0, 0);
    s.convert(0, 10);
    s.label("GLYPHS before ROOM, vfont2 to psf2");
    s.file(&vfont2(32, &[NONE], &[], None));
    s.convert(3, 0);
    s.label("WRONG KIND before GLYPHS and VALUE");
    s.convert(1, 0);
    s.file(&units_font(2, &[(0, text(&[0xD800], &[]))]));
    s.convert(1, 0);
    s.convert(3, 0);
}

/// Outputs of 1,048,576 bytes and more.
fn sizes(s: &mut Script) {
    let rooms = |s: &mut Script, which: u8| {
        s.convert(which, 0);
        s.convert(which, LIMIT - 1);
        s.convert(which, LIMIT);
        s.convert(which, LONGEST);
    };
    // 32 + 256 + 3 bytes each of 349344 values + 256 end marks
    let values = (LIMIT - 32 - 256 - 256) / 3;
    s.label("psf1 to psf2: an output of exactly 1048576 bytes");
    s.file(&psf1(2, 1, 0x66, &[]));
    s.fill(2 * values, 0x41);
    s.fill(512, 0xFF);
    rooms(s, 0);
    s.label("one byte more: SIZE, before ROOM, whatever the room");
    s.trim(4 + 256 + 2 * values);
    s.append(&[0x41, 0x00]);
    s.fill(512, 0xFF);
    s.convert(0, 0);
    s.convert(0, LIMIT);
    s.convert(0, LONGEST);
    s.label("VALUE before SIZE");
    s.put(4 + 256 + 2 * values, &[0x00, 0xD8]);
    s.convert(0, LIMIT);

    let values = (LIMIT - 4 - 256 - 512) / 2;
    s.label("psf2 to psf1: an output of exactly 1048576 bytes");
    let head = psf2(256, 1, 8, &[0x66; 256], Some(&[]));
    s.file(&head);
    s.fill(values, 0x41);
    s.fill(256, 0xFF);
    rooms(s, 1);
    s.label("one value more: SIZE, before ROOM, whatever the room");
    s.trim(head.len() + values);
    s.append(&[0x42]);
    s.fill(256, 0xFF);
    s.convert(1, 0);
    s.convert(1, LONGEST);
    s.label("VALUE before SIZE, GLYPHS before both");
    s.trim(head.len() + values);
    s.append(&[0xEF, 0xBF, 0xBE]);
    s.fill(256, 0xFF);
    s.convert(1, LONGEST);
    s.set(28, 7);
    s.convert(1, LONGEST);

    let head = psf2(1, 1, 8, &[0x66], Some(&[]));
    let values = LIMIT - 32 - 18 - 1 - 1;
    s.label("psf2 to vfont2: an output of exactly 1048576 bytes");
    s.file(&head);
    s.fill(values, 0x41);
    s.append(&[0xFF]);
    rooms(s, 2);
    s.label("one byte more: SIZE, before ROOM, whatever the room");
    s.trim(head.len() + values);
    s.append(&[0x41, 0xFF]);
    s.convert(2, 0);
    s.convert(2, LONGEST);
    s.label("psf2 to vfont2: 4096 glyphs of 237 bytes go, of 238 don't");
    for height in [237, 238] {
        s.file(&psf2(4096, height, 8, &[], None));
        s.fill(4096 * height, 0x99);
        s.convert(2, LIMIT);
    }

    s.label("vfont2 to psf2: 128 glyphs of 8160 shared bytes, exactly 1048576");
    let entries = vec![entry(0, 255, 0, 0, 255); 128];
    let mut texts = vec![0x41; LIMIT - 32 - 128 * 8160 - 128];
    texts.resize(texts.len() + 128, 0xFF);
    s.file(&vfont2(32, &entries, &vec![0x3C; 8160], Some(&texts)));
    rooms(s, 3);
    s.label("one byte more: SIZE, before ROOM, whatever the room");
    texts.insert(0, 0x41);
    s.file(&vfont2(32, &entries, &vec![0x3C; 8160], Some(&texts)));
    s.convert(3, 0);
    s.convert(3, LONGEST);
    s.label("GLYPHS before SIZE");
    s.set(32 + 18 * 127 + 16, 254);
    s.convert(3, LONGEST);
    s.label("vfont2 to psf2: 600 glyphs of 8160 shared bytes");
    let entries = vec![entry(0, 255, 0, 0, 255); 600];
    s.file(&vfont2(32, &entries, &vec![0x3C; 8160], None));
    s.convert(3, 0);
    s.convert(3, LIMIT);
}

fn round_trips(s: &mut Script) {
    s.label("psf2 of 256 and 512 glyphs through psf1 and vfont2, its own bytes again");
    for n in [256, 512] {
        let some = [
            (0, text(&[0, 0x7F, 0x80, 0x7FF], &[])),
            (n - 1, text(&[0x800, 0xD7FF, 0xE000], &[&[0xFFFD], &[0x41, 0x30A]])),
        ];
        s.file(&utf8_font(n, &some));
        s.check();
        s.convert_take(1);
        s.check();
        s.walk_all(n - 1..n);
        s.convert_take(0);
        s.check();
        s.convert_take(2);
        s.check();
        s.glyph(n as u64 - 1);
        s.convert_take(3);
        s.check();
        s.walk_all(n - 1..n);
        s.sequence(&[0x41, 0x30A]);
        s.convert_take(1);
        s.convert_take(0);
        s.check();
    }
}

/// All conversions of fonts drawn by lot, taken on where they go.
fn random_conversions(s: &mut Script) {
    let mut random = Random(0x5EC0_0D5E_C00D_0002);
    for turn in 0..60 {
        let file = match turn % 3 {
            0 => random_psf1(&mut random),
            1 => random_psf2(&mut random),
            _ => random_vfont2(&mut random),
        };
        s.label(&format!("font {turn} drawn by lot, converted"));
        s.file(&file);
        s.check();
        let (first, back) = [(0, 1), (2, 3), (3, 2)][turn % 3];
        let room = random.below(2 * file.len());
        s.convert(first, room);
        if s.convert_exact(first).is_some() {
            s.take();
            s.check();
            if s.convert_exact(back).is_some() {
                s.take();
                s.check();
            }
        }
    }
    s.label("fonts of 256 drawn by lot to psf1");
    for _ in 0..20 {
        let some: Vec<(usize, Text)> =
            (0..3).map(|_| (random.below(256), random_text(&mut random, false))).collect();
        s.file(&utf8_font(256, &some));
        s.convert_exact(1);
    }
}
