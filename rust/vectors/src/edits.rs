//! The corpus of edits: a mapping is added to a glyph, or dropped.

use crate::make::*;
use crate::script::{Script, LONGEST};
use second::table::{sequences, singles};
use second::LIMIT;

pub fn script() -> Vec<u8> {
    let mut s = Script::new();
    worked_font(&mut s);
    one_by_one(&mut s);
    lengths(&mut s);
    other_bytes(&mut s);
    refused_fonts(&mut s);
    other_fonts(&mut s);
    asked(&mut s);
    values(&mut s);
    listings(&mut s);
    headers(&mut s);
    glyphs(&mut s);
    limit(&mut s);
    random_edits(&mut s);
    s.bytes
}

/// A glyph number, or a length, that is too high for every font.
const FAR: usize = u32::MAX as usize;

/// Checks the edited font, walks the glyph and looks the value up.
fn look(s: &mut Script, g: usize, v: u32) {
    s.check();
    s.walk_all(g..g + 1);
    s.value(v);
}

fn worked_font(s: &mut Script) {
    s.label("the font of 45 bytes: a value added to each glyph and dropped again");
    s.file(&worked());
    for (g, v) in [(0, 0x42), (1, 0x212B), (0, 0xC5), (1, 0x41), (1, 0x30A), (0, 0x1F600)] {
        s.add_exact(g, v);
        s.check();
        s.value(v);
        s.add(60, s.file.len(), g, v);
        if g == 1 {
            s.walk_all(1..2);
        }
        s.drop_good(g, v);
        s.check();
        s.value(v);
        s.drop(60, 45, g, v);
    }
    s.walk_all(0..2);
    s.label("its own values dropped, each in a buffer as long as the font, and added again");
    for (g, v) in [(0, 0x41), (1, 0xC5)] {
        s.add(45, 45, g, v);
        s.drop(45, 45, g, v);
        look(s, g, v);
        s.add_exact(g, v);
        look(s, g, v);
    }
    s.label("both dropped, and each added to the other glyph");
    s.drop_good(1, 0xC5);
    s.drop_good(0, 0x41);
    s.check();
    s.add_exact(1, 0x41);
    s.add_exact(0, 0xC5);
    s.check();
    s.walk_all(0..2);
    s.sequence(&[0x41, 0x30A]);
    s.sequence(&[0x41]);
}

/// Edits one after the other on one font.
fn one_by_one(s: &mut Script) {
    s.label("six values added to one glyph, dropped from the middle");
    s.file(&worked());
    let six = [0x61, 0xE9, 0x416, 0x20AC, 0x1F600, 0x62];
    for v in six {
        s.add(100, s.file.len(), 1, v);
    }
    s.check();
    s.walk_all(1..2);
    for i in [3, 0, 5, 4, 1, 2] {
        s.value(six[i]);
        s.drop_good(1, six[i]);
        s.check();
        s.value(six[i]);
    }
    s.walk_all(0..2);
    s.label("an edited font to vfont2 and back, edited again");
    s.add_exact(0, 0x416);
    s.convert_take(2);
    s.both_refused(100, s.file.len(), 0, 0x416);
    s.value(0x416);
    s.convert_take(3);
    s.drop_good(0, 0x416);
    s.convert_exact(2);
}

/// The font is the buffer's first so many bytes.
fn lengths(s: &mut Script) {
    s.label("the font of 45 bytes in a buffer of 60: shorter lengths");
    s.file(&worked());
    for len in (0..5).chain(31..45) {
        s.add(60, len, 0, 0x42);
    }
    for len in [0, 3, 4, 31, 32, 35, 36, 38, 44] {
        s.drop(60, len, 0, 0x41);
    }
    s.label("and longer ones, up to the buffer's and beyond");
    for len in [46, 59, 60, 61, 62, 0x1_0000, 0x7FFF_FFFF, 0x8000_0000, FAR] {
        s.both_refused(60, len, 0, 0x41);
    }
    s.both_refused(60, 61, 2, 0xD800);
    s.label("buffers shorter than the font");
    for (room, len) in [(0, 0), (0, 1), (0, 45), (31, 31), (31, 45), (44, 44), (44, 45), (44, FAR)]
    {
        s.both_refused(room, len, 0, 0x42);
    }
    s.label("no byte at all");
    s.new_file();
    for (room, len) in [(0, 0), (0, 1), (9, 0), (9, 9), (9, 10)] {
        s.both_refused(room, len, 0, 0x41);
    }
}

/// Other bytes behind the font: they stay, but those an add takes up.
fn other_bytes(s: &mut Script) {
    let longer = [worked(), pattern(9)].concat();
    let fresh = |s: &mut Script| s.file(&longer);
    s.label("nine other bytes behind the font of 45 bytes");
    for (room, g, v) in [(54, 0, 0x42), (60, 1, 0x20AC), (49, 0, 0x1F600), (46, 1, 0)] {
        fresh(s);
        s.add(room, 45, g, v);
        s.check();
        s.value(v);
    }
    for (room, g, v) in [(54, 0, 0x41), (60, 1, 0xC5), (45, 1, 0xC5)] {
        fresh(s);
        s.drop(room, 45, g, v);
        s.check();
        s.value(v);
    }
    s.label("refused edits leave it");
    fresh(s);
    for len in [54, 46, 44, 55] {
        s.both_refused(54, len, 0, 0x42);
    }
    s.add(54, 45, 0, 0x41);
    s.add(45, 45, 0, 0x42);
    s.add(46, 45, 0, 0xE9);
    s.add(48, 45, 1, 0x1F600);
    s.drop(54, 45, 0, 0x42);
    s.drop(54, 45, 1, 0x41);
}

/// Edits of refused fonts: the font's refusal, also where the question is wrong; but a
/// length beyond the buffer goes first.
fn refused_fonts(s: &mut Script) {
    let (base1, base2) = (psf1(2, 2, 0x18, &[0xFF; 512]), worked());
    let base3 = vfont2(32, &[NONE, entry(0, 2, 0, 0, 9)], &pattern(4), Some(&[0xFF; 2]));
    let size = ("HEADER SIZE psf2", with(&base2, 8, 31));
    let entries = [("ENTRY vfont2", with(&base3, 54, 5))];
    let mut fonts = refused([&base1, &base2, &base3], size, &entries, 73, (73, 0xC0));
    let bare = with(&base2[..36], 12, 0);
    fonts.push(("VERSION psf2 bare", with(&bare, 12, 2)));
    fonts.push(("TRAILING psf2 bare", [&bare[..], &[0xFF]].concat()));
    for (name, file) in fonts {
        s.label(&format!("edits, {name}"));
        s.file(&file);
        let len = file.len();
        s.add(len + 9, len, 0, 0x42);
        s.drop(len, len, FAR, 0xD800);
        s.add(len, len + 1, 0, 0x42);
    }
    s.label("edits of a font that is too long, and of its first 45 bytes");
    s.file(&worked());
    s.fill(LIMIT + 1 - 45, 0);
    s.both_refused(LIMIT + 1, LIMIT + 1, 0, 0x41);
    s.both_refused(LIMIT, LIMIT + 1, 0, 0x41);
    s.drop(LIMIT + 1, 45, 0, 0x41);
    s.check();
}

/// WRONG KIND and NO TABLE, with what comes behind them.
fn other_fonts(s: &mut Script) {
    let files = [
        ("psf1", psf1(2, 1, 0x18, &[0xFF; 512])),
        ("psf1 bare", psf1(1, 1, 0x18, &[])),
        ("vfont2", worked_vfont2()),
        ("vfont2 bare", vfont2(32, &[entry(0, 1, 0, 0, 8)], &[0x5A], None)),
        ("psf2 bare", psf2(2, 1, 8, &[0x5A; 2], None)),
    ];
    for (name, file) in files {
        s.label(&format!("edits of a {name} font"));
        s.file(&file);
        let len = file.len();
        for (g, v) in
            [(0, 0x41), (FAR, 0x41), (0, 0xD800), (0, 0xFFFE), (0, 0x110000), (FAR, u32::MAX)]
        {
            s.both_refused(len + 4, len, g, v);
        }
        s.both_refused(len, len, 0, 0x41);
        s.both_refused(len, len + 1, 0, 0x41);
    }
}

/// ASK for the glyph and the value.
fn asked(s: &mut Script) {
    s.label("glyph numbers too high");
    s.file(&worked());
    for g in [2, 3, 255, 256, 257, 0x1_0000, 0x1_0001, 0x8000_0000, 0x8000_0001, FAR] {
        s.both_refused(60, 45, g, 0x41);
    }
    s.both_refused(60, 45, 2, 0x42);
    s.both_refused(45, 45, 2, 0xC5);
    s.label("surrogates and values above 10FFFF");
    for v in [
        0xD800,
        0xD801,
        0xDBFF,
        0xDC00,
        0xDEAD,
        0xDFFF,
        0x110000,
        0x110041,
        0x1FFFFF,
        0x200041,
        0x8000_0041,
        0xFFFF_FF41,
        0xFFFF_FFFF,
    ] {
        s.both_refused(60, 45, 0, v);
        s.add(45, 45, 1, v);
    }
    s.check();
    s.label("noncharacters: ASK to add, NOT THERE to drop");
    for v in noncharacters() {
        s.both_refused(60, 45, 1, v);
    }
    for v in [0xFDD0, 0xFDEF, 0xFFFE, 0xFFFF, 0x1FFFE, 0x10FFFF] {
        s.both_refused(45, 45, 0, v);
        s.both_refused(60, 45, 2, v);
        s.both_refused(44, 45, 0, v);
        s.both_refused(44, 44, 0, v);
    }
    s.check();
    s.label("the values beside them: added, HAVE, dropped, NOT THERE");
    for v in neighbours() {
        s.add(49, 45, 1, v);
        s.add(s.file.len(), s.file.len(), 1, v);
        s.drop_good(1, v);
        s.drop(45, 45, 1, v);
    }
    s.check();
    s.label("a font that lists one is refused");
    for v in [0xFDD0, 0xFFFE, 0x10FFFF] {
        let texts = [text(&[0x41, v], &[])];
        s.file(&psf2(1, 1, 8, &[0xFF], Some(&table(&texts))));
        s.both_refused(s.file.len() + 4, s.file.len(), 0, v);
        s.both_refused(s.file.len() + 4, s.file.len(), 0, 0x41);
    }
}

/// Values of one to four bytes, at each glyph of three.
fn values(s: &mut Script) {
    let texts = [text(&[0x42], &[&[0x41]]), text(&[], &[]), text(&[0x43, 0x44], &[])];
    s.label("values at the edges of the coding, added and dropped");
    s.file(&psf2(3, 1, 8, &[0xFF, 0xFE, 0x41], Some(&table(&texts))));
    for v in EDGES {
        s.add_exact(1, v);
        s.check();
        s.value(v);
        s.drop_good(1, v);
    }
    for g in [0, 2] {
        for v in [0x7F, 0x7FF, 0xFFFD, 0x10FFFD] {
            s.add_exact(g, v);
            s.drop_good(g, v);
        }
    }
    s.check();
    s.label("all of them in one glyph, and some dropped");
    for v in EDGES {
        s.add(s.file.len() + 4, s.file.len(), 1, v);
    }
    s.check();
    s.walk_all(1..2);
    for v in [0x800, 0, 0x10FFFD, 0xFE, 0xFDCF] {
        s.drop_good(1, v);
        s.check();
        s.value(v);
    }
    s.walk_all(0..3);
}

/// Values listed twice, listed by another glyph, or listed in sequences alone.
fn listings(s: &mut Script) {
    let texts = [
        text(&[0x41, 0x42, 0x41, 0x43, 0x41], &[&[0x41], &[0x41, 0x42], &[0x44]]),
        text(&[0x45, 0x20AC], &[&[0x20AC, 0x20AC]]),
        text(&[0x45, 0x45], &[]),
        text(&[], &[&[0x45], &[0x45, 0x41]]),
        text(&[0x41, 0x20AC, 0x20AC, 0x46], &[]),
    ];
    let file = psf2(5, 1, 8, &[0x41, 0xFE, 0xFF, 0x45, 0x41], Some(&table(&texts)));
    s.label("a value listed three times: the first listing is dropped each time");
    s.file(&file);
    s.add(s.file.len() + 1, s.file.len(), 0, 0x41);
    for _ in 0..3 {
        s.drop_good(0, 0x41);
        look(s, 0, 0x41);
    }
    s.drop(s.file.len(), s.file.len(), 0, 0x41);
    s.label("and comes last again");
    s.add_exact(0, 0x41);
    look(s, 0, 0x41);
    s.label("values in sequences alone aren't there, and can be added");
    for (g, v) in [(0, 0x44), (3, 0x45), (3, 0x41)] {
        s.drop(s.file.len(), s.file.len(), g, v);
        s.add_exact(g, v);
        look(s, g, v);
        s.sequence(&[v]);
        s.drop_good(g, v);
        s.sequence(&[v]);
    }
    s.label("values of other glyphs likewise");
    for (g, v) in [(0, 0x45), (2, 0x46), (4, 0x42), (4, 0x45)] {
        s.drop(s.file.len(), s.file.len(), g, v);
        s.add_exact(g, v);
        look(s, g, v);
    }
    s.label("two listings side by side, of one byte and of three");
    for (g, v) in [(2, 0x45), (4, 0x20AC), (1, 0x20AC)] {
        s.drop_good(g, v);
        look(s, g, v);
        s.add(s.file.len() + 4, s.file.len(), g, v);
    }
    s.check();
    s.walk_all(0..5);
    s.label("HAVE goes before ROOM");
    s.file(&file);
    for (g, v) in [(0, 0x41), (0, 0x43), (1, 0x20AC), (4, 0x46)] {
        s.add(file.len(), file.len(), g, v);
    }
    s.add(file.len(), file.len(), 1, 0x41);
}

/// Extra header bytes and bitmaps that look like a table stay.
fn headers(s: &mut Script) {
    s.label("header sizes 33, 48 and 4096");
    for header in [33, 48, 4096] {
        let bitmaps = [0x41, 0xFF, 0xFE, 0x41, 0xFF, 0xFF];
        s.file(&psf2_wide(header, 2, 3, 7, &bitmaps, Some(&[0x41, 0xFF, 0xFE, 0x41, 0xFF])));
        s.put(32, &[0x41]);
        s.drop_good(0, 0x41);
        s.add_exact(1, 0xE9);
        look(s, 1, 0xE9);
        s.glyph(1);
        s.drop_good(1, 0xE9);
        s.add_exact(0, 0x41);
        s.check();
    }
}

/// Glyph numbers of two bytes.
fn glyphs(s: &mut Script) {
    for (n, some) in [(300, &[0, 43, 255, 256, 299][..]), (4096, &[255, 256, 4094, 4095])] {
        s.label(&format!("{n} glyphs: the first, the last, and some between"));
        s.file(&psf2(n, 1, 8, &vec![0x18; n], Some(&vec![0xFF; n])));
        s.both_refused(s.file.len() + 4, s.file.len(), n, 0x20AC);
        s.both_refused(s.file.len() + 4, s.file.len(), n + 256, 0x20AC);
        for (i, &g) in some.iter().enumerate() {
            // each of another length
            let v = [0x20AC, 0x41, 0x1F600, 0xE9, 0x42][i];
            s.add_exact(g, v);
            s.value(v);
            s.drop(s.file.len(), s.file.len(), g ^ 256, v);
        }
        s.check();
        s.drop_good(some[1], 0x41);
        s.add_exact(some[0], 0x41);
        s.values(&[0x20AC, 0x41, 0x1F600, 0xE9, 0x42]);
        s.check();
    }
}

/// Fonts of 1,048,576 bytes and a few less.
fn limit(s: &mut Script) {
    let (n, left) = (4095, 3);
    // the last glyph lists 42; three bytes are left
    let header = LIMIT - left - 256 * n - 1;
    let table = [&vec![0xFF; n - 1][..], &[0x42, 0xFF]].concat();
    s.label("three bytes below the limit: four are too many, SIZE before ROOM");
    s.file(&psf2_wide(header, n, 255, 8, &vec![0x66; 255 * n], Some(&table)));
    let len = s.file.len();
    s.add(LONGEST, len, 0, 0x10000);
    s.add(len, len, 0, 0x10000);
    s.add(len, len, 0, 0xFFFD);
    s.add(LIMIT - 1, len, 0, 0xFFFD);
    s.label("three fit, and then none; HAVE and ASK before SIZE");
    s.add(LIMIT, len, n - 1, 0xFFFD);
    s.check();
    s.value(0xFFFD);
    s.add(LONGEST, LIMIT, 0, 0x41);
    s.add(LIMIT, LIMIT, n - 2, 0x10FFFD);
    s.both_refused(LIMIT, LIMIT, 0, 0x10FFFF);
    s.add(LIMIT, LIMIT, n - 1, 0x42);
    s.add(LIMIT, LIMIT, n, 0x41);
    s.add(LIMIT, LIMIT, 0, 0xDFFF);
    s.label("a drop makes room for as many bytes");
    s.drop(LONGEST, LIMIT, n - 1, 0x42);
    s.add(LIMIT, LIMIT - 1, 0, 0x80);
    s.add(LIMIT, LIMIT - 1, 0, 0x7F);
    s.check();
    s.label("a table up to the limit: its first value dropped, one added");
    s.file(&psf2(2, 1, 1, &[0x80; 2], Some(&[0xC3, 0xA9])));
    s.fill(LIMIT - 38, 0x41);
    s.append(&[0xFF, 0xFF]);
    s.drop(LIMIT, LIMIT, 0, 0xE9);
    s.add(LIMIT, LIMIT - 2, 1, 0xE8);
    s.check();
    s.value(0xE8);
}

/// Fonts drawn by lot, edited: values that the glyph has somewhere, and others.
fn random_edits(s: &mut Script) {
    let mut random = Random(0x5EC0_0D5E_C00D_0005);
    for turn in 0..8 {
        s.label(&format!("font {turn} drawn by lot, edited"));
        s.file(&random_psf2(&mut random));
        s.check();
        let font = second::check(&s.file).expect("a sound font");
        let edits = if font.has_table { 9 } else { 2 };
        for _ in 0..edits {
            let len = s.file.len();
            let reading = second::check(&s.file).expect("a sound font").reading;
            let g = random.below(font.count);
            let mut known = vec![random.of(&EDGES)];
            if let Some(d) = reading.get(g) {
                known.extend(singles(d));
                known.extend(sequences(d).concat());
            }
            let v = random.of(&known);
            let room = len + random.below(7);
            if random.below(2) == 0 {
                s.add(room, len, g, v);
            } else {
                s.drop(room, len, g, v);
            }
            s.value(v);
        }
        s.check();
        if font.has_table {
            let g = random.below(font.count);
            s.walk_all(g..g + 1);
        }
    }
}
