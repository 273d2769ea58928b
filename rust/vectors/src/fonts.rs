//! The corpus of questions on fonts.

use crate::make::*;
use crate::script::Script;
use second::LIMIT;

pub fn script() -> Vec<u8> {
    let mut s = Script::new();
    worked_fonts(&mut s);
    short_files(&mut s);
    header_refusals(&mut s);
    header_boundaries(&mut s);
    long_files(&mut s);
    entries(&mut s);
    bitmap_questions(&mut s);
    small_tables(&mut s);
    utf8_rows(&mut s);
    utf8_boundaries(&mut s);
    noncharacter_values(&mut s);
    unit_tables(&mut s);
    cut_tables(&mut s);
    trailing(&mut s);
    bit_two(&mut s);
    lookups(&mut s);
    counts(&mut s);
    no_table(&mut s);
    own_refusal_first(&mut s);
    random_fonts(&mut s);
    s.bytes
}

const WIDE: [u64; 4] = [1 << 32, (1 << 32) + 1, 1 << 63, u64::MAX];

/// Every question on the worked font, one beyond each, as PSF2 and as vfont2.
fn worked_fonts(s: &mut Script) {
    for (name, file) in [("psf2", worked()), ("vfont2", worked_vfont2())] {
        s.label(&format!("the font of 45 bytes as {name}, every question"));
        s.file(&file);
        s.check();
        for g in 0..=2 {
            s.glyph(g);
            for row in 0..=2 {
                s.row(g, row);
                for col in 0..=3 {
                    s.pixel(g, row, col);
                }
            }
        }
        s.walk_all(0..3);
        s.values(&[0x41, 0xC5, 0x30A, 0, 0x42, 0xCC, 0x8A, 0x85, 0xFE, 0xFF, 0xFFFF, 0x110000]);
        for sequence in [
            &[0x41, 0x30A][..],
            &[0x41],
            &[0x30A],
            &[0x30A, 0x41],
            &[0x41, 0x30A, 0x41],
            &[0x41, 0x30B],
            &[0xC5],
            &[],
            &[0x110000],
            &[0x41, 0x110000],
        ] {
            s.sequence(sequence);
        }
    }
}

/// A sound PSF1 font: size 2, glyph 0 lists 41, glyph 255 a sequence.
fn base_psf1() -> Vec<u8> {
    let some = [(0, text(&[0x41], &[])), (255, text(&[0xC5], &[&[0x41, 0x30A]]))];
    let mut file = psf1(2, 2, 0x18, &units(&spread(256, &some)));
    file[4..12].copy_from_slice(&[0x81, 0x42, 0x24, 0x18, 0xFF, 0x00, 0x0F, 0xF0]);
    file
}

fn short_files(s: &mut Script) {
    for (name, file) in [("psf1", base_psf1()), ("psf2", worked()), ("vfont2", worked_vfont2())] {
        s.label(&format!("{name} cut to every length from 36 down to 0"));
        s.file(&file[..37]);
        for length in (0..=36).rev() {
            s.trim(length);
            s.check();
        }
    }
    s.label("beginnings that are no magic");
    for bytes in [
        &[0x36, 0x05][..],
        &[0x37, 0x04],
        &[0x04, 0x36],
        &[0x00],
        &[0x36],
        &[0x72, 0xB5],
        &[0x72, 0xB5, 0x4A, 0x87],
        &[0x86, 0x4A, 0xB5, 0x72],
        &[0x27, 0x5B, 0xA4, 0x69],
        &[0x68, 0xA4, 0x5B, 0x27],
        &[0x27, 0x5B, 0x4A, 0x86],
        &[0x00, 0x36, 0x04, 0x00, 0x01],
    ] {
        s.file(bytes);
        s.check();
        s.fill(40, 0);
        s.check();
    }
}

fn number(n: u32) -> [u8; 4] {
    n.to_le_bytes()
}

/// Each refusal of a header once per cause, and which one goes first.
fn header_refusals(s: &mut Script) {
    s.label("psf1: sound");
    s.file(&base_psf1());
    s.check();
    s.label("psf1: magic, mode, size, and two or three at once");
    for changes in [
        &[(0, 0x37)][..],
        &[(1, 0x05)],
        &[(2, 6)],
        &[(3, 0)],
        &[(2, 6), (3, 0)],
        &[(1, 0x05), (2, 6)],
        &[(3, 3)],
        &[(2, 3)],
        &[(2, 7), (3, 255)],
        &[(3, 255)],
        &[(2, 0)],
        &[(2, 1)],
    ] {
        let changes: Vec<(usize, &[u8])> =
            changes.iter().map(|(at, b)| (*at, std::slice::from_ref(b))).collect();
        s.check_with(&changes);
    }
    for (name, file) in [("psf2", worked()), ("vfont2", worked_vfont2())] {
        s.label(&format!("{name}: each header number wrong alone"));
        s.file(&file);
        for at in (4..32).step_by(4) {
            for n in [0, 1, 0x100, 4097, 0x10001, 0x80000000, 0xFFFFFFFF] {
                s.check_with(&[(at, &number(n))]);
            }
        }
        s.check_with(&[(12, &number(2))]);
        s.check_with(&[(12, &number(3))]);
        s.label(&format!("{name}: bad flags and bad header size"));
        s.check_with(&[(8, &number(31)), (12, &number(2))]);
        s.label(&format!("{name}: bad version and bad flags"));
        s.check_with(&[(4, &number(1)), (12, &number(2))]);
        s.label(&format!("{name}: bad version and bad header size"));
        s.check_with(&[(4, &number(1)), (8, &number(31))]);
        s.label(&format!("{name}: bad magic and bad version"));
        s.check_with(&[(3, &[0]), (4, &number(1))]);
        s.label(&format!("{name}: header size and count wrong, then count and height"));
        s.check_with(&[(8, &number(4097)), (16, &number(0))]);
        s.check_with(&[(16, &number(4097)), (24, &number(256))]);
        s.check_with(&[(16, &number(0)), (20, &number(77)), (24, &number(256))]);
        s.label(&format!("{name}: height, width and the number at 20, all or two wrong"));
        let far = number(0xFFFFFFF0);
        s.check_with(&[(20, &far), (24, &number(256)), (28, &number(256))]);
        s.check_with(&[(20, &far), (28, &number(256))]);
        s.check_with(&[(20, &far), (24, &number(256))]);
        s.check_with(&[(24, &number(256)), (28, &number(256))]);
        s.check_with(&[(20, &far)]);
        s.label(&format!("{name}: body cut and a shape or a count wrong"));
        s.check_with(&[(8, &number(4000)), (28, &number(256))]);
        s.check_with(&[(8, &number(4000)), (16, &number(4097))]);
        s.check_with(&[(8, &number(46))]);
        s.check_with(&[(8, &number(45)), (16, &number(1))]);
        s.label(&format!("{name}: header size 33, so that all behind it shifts by one"));
        s.check_with(&[(8, &number(33))]);
        s.label(&format!("{name}: header cut with a bad version and bad flags"));
        s.check_with(&[(4, &number(1)), (12, &number(2))]);
        s.put(4, &number(1));
        s.trim(31);
        s.check();
        s.trim(16);
        s.check();
    }
    s.label("vfont2: body cut goes before a bad entry, a bad entry before a bad table");
    let mut file = worked_vfont2();
    file[36] = 9;
    s.file(&file);
    s.check();
    s.trim(71);
    s.check();
    s.append(&[0xC0]);
    s.check();
    s.put(36, &[2]);
    s.check();
    s.label("vfont2: a wrong greatest width goes before a cut, bad or trailing table");
    s.put(28, &[4]);
    s.check();
    s.trim(72);
    s.check();
    s.put(28, &[3]);
    s.check();
}

/// Numbers of a header on both sides of their bounds.
fn header_boundaries(s: &mut Script) {
    s.label("psf1: modes 0 to 8 and 255, bare, table of 256, table of 512");
    let bare = psf1(0, 1, 0x3C, &[]);
    for mode in [0, 1, 2, 3, 4, 5, 6, 7, 8, 128, 255] {
        s.file(&bare);
        s.set(2, mode);
        s.check();
        s.fill(512, 0xFF);
        s.check();
        s.fill(768, 0xFF);
        s.check();
    }
    s.label("psf1: sizes 0, 1, 255 with 256 and 512 glyphs, exact and one byte short");
    for (mode, size) in [(0, 0), (0, 1), (0, 255), (1, 0), (1, 1), (1, 255)] {
        let file = psf1(mode, size, 0x99, &[]);
        s.file(&file);
        s.check();
        s.row(255, 254);
        s.row(256, 0);
        s.trim(file.len() - 1);
        s.check();
    }
    s.label("psf2: header sizes 31, 32, 33, 4095, 4096, 4097 with as many bytes");
    for header in [31, 32, 33, 4095, 4096, 4097] {
        s.file(&psf2_wide(header, 1, 1, 8, &[0x5A], Some(&[0x41, 0xFF])));
        s.check();
        s.glyph(0);
        s.value(0x41);
    }
    s.label("vfont2: header sizes 31, 32, 33, 4095, 4096, 4097 with as many bytes");
    for header in [31, 32, 33, 4095, 4096, 4097] {
        s.file(&vfont2(header, &[entry(0, 1, 0, 0, 8)], &[0x5A], Some(&[0x41, 0xFF])));
        s.check();
        s.glyph(0);
        s.value(0x41);
    }
    s.label("psf2: counts 0, 1, 4095, 4096, 4097");
    for n in [0, 1, 4095, 4096, 4097] {
        s.file(&psf2(n, 1, 1, &vec![0x80; n], None));
        s.check();
        s.append(&[0]);
        s.check();
        s.trim(32 + n.saturating_sub(1));
        s.check();
    }
    s.label("vfont2: counts 0, 1, 4096, 4097, all entries zero");
    for n in [0, 1, 4096, 4097] {
        s.file(&vfont2(32, &vec![NONE; n], &[], None));
        s.check();
        s.append(&[0]);
        s.check();
        s.trim(31 + 18 * n);
        s.check();
    }
    s.label("psf2: height and width at 0, 1, 255, 256, byte count right");
    for height in [0, 1, 255, 256] {
        for width in [0, 1, 255, 256] {
            let c = area(height, width);
            s.file(&psf2(1, height, width, &vec![0x77; c], None));
            s.check();
        }
    }
    s.label("psf2: byte counts one off, zero, and right but for the high bytes");
    for (height, width) in [(1, 1), (3, 8), (3, 9), (255, 255)] {
        let c = area(height, width) as u32;
        s.file(&psf2(1, height, width, &vec![0x77; c as usize + 1], None));
        for c in [c - 1, c, c + 1, 0, c + 0x10000, c + 0x80000000] {
            s.check_with(&[(20, &number(c))]);
        }
    }
    s.label("vfont2: greatest height and width at 0, 1, 255, 256 of one entry");
    for height in [1, 255] {
        for width in [1, 255] {
            let c = area(height as usize, width as usize);
            s.file(&vfont2(32, &[entry(0, height, 0, 0, width)], &vec![0x77; c], None));
            s.check();
            for at in [24, 28] {
                for n in [0, 1, 254, 255, 256] {
                    s.check_with(&[(at, &number(n))]);
                }
            }
        }
    }
    s.label("sizes that wrap in 32 bits: vfont2 totals near FFFFFFFF");
    s.file(&vfont2(32, &[NONE], &[], None));
    for total in [0xFFFFFFFF, 0xFFFFFFE0, 0xFFFFFFCE, 0xFFFFFFCD, 0x80000000, 0x7FFFFFFF, 1] {
        s.check_with(&[(20, &number(total))]);
    }
    s.label("psf2: 4096 glyphs of 8160 bytes in a short file");
    s.file(&psf2(4096, 255, 255, &[0; 100], None));
    s.check();
    s.label("psf2: 65536 + 1 glyphs, and 65536 + 1 as height");
    s.file(&psf2(1, 1, 1, &[0], None));
    s.check_with(&[(16, &number(0x10001))]);
    s.check_with(&[(24, &number(0x10001))]);
    s.check_with(&[(28, &number(0x101))]);
}

/// Files of 1,048,576 bytes and one more.
fn long_files(s: &mut Script) {
    let one_more = |s: &mut Script, byte: u8| {
        s.append(&[byte]);
        s.check();
    };
    s.label("no magic, 1048576 bytes and one more");
    s.new_file();
    s.fill(LIMIT, 0);
    s.check();
    one_more(s, 0);
    s.label("psf2 bare of 1048576 bytes: header size 4096, 4096 glyphs of 255 bytes");
    s.file(&psf2_wide(4096, 4096, 255, 8, &[], None));
    s.fill(LIMIT - 4096, 0x66);
    s.check();
    s.row(4095, 254);
    s.label("the same with a table flagged: it would begin at the file's end");
    s.set(12, 1);
    s.check();
    s.set(12, 0);
    s.label("one byte more is too long, whatever else is wrong");
    one_more(s, 0x66);
    s.set(4, 1);
    s.check();
    s.set(0, 0);
    s.check();
    s.label("psf2 with a table up to byte 1048576");
    s.file(&psf2(1, 1, 1, &[0x80], Some(&[])));
    s.fill(LIMIT - 34, 0x41);
    s.append(&[0xFF]);
    s.check();
    s.value(0x41);
    s.walk(0, (LIMIT - 34) as u64);
    s.walk(0, (LIMIT - 33) as u64);
    s.label("the same cut, bad and trailing at the last byte");
    s.set(LIMIT - 1, 0x41);
    s.check();
    s.set(LIMIT - 1, 0x80);
    s.check();
    s.set(LIMIT - 2, 0xFF);
    s.check();
    s.label("and one byte more");
    one_more(s, 0xFF);
    s.label("psf1 of 1048576 bytes and one more");
    s.file(&psf1(2, 1, 0x0F, &[]));
    s.fill(LIMIT - 260 - 512, 0x41);
    s.fill(512, 0xFF);
    s.check();
    s.value(0x4141);
    s.set(LIMIT - 1, 0x00);
    s.check();
    s.set(LIMIT - 1, 0xFF);
    one_more(s, 0);
    s.label("vfont2 of 1048576 bytes, its glyph at the end, and one more");
    let total = LIMIT - 50;
    s.file(&vfont2(32, &[entry(total - 2, 2, 0, 0, 8)], &[], None));
    s.put(20, &number(total as u32));
    s.fill(total, 0xC3);
    s.check();
    s.glyph(0);
    s.set(32, s.file[32] + 1);
    s.check();
    s.set(32, s.file[32] - 1);
    one_more(s, 0);
}

/// Dispatch entries, each put at every place of a font of three.
fn entries(s: &mut Script) {
    let good = entry(0, 2, 0, 0, 9);
    let bitmaps = pattern(600);
    // entry 1 is the one that varies; 0 and 2 are 2 rows of 9
    s.file(&vfont2(32, &[good, good, good], &bitmaps, None));
    let ask = |s: &mut Script, e: Entry| {
        s.put(0, &vfont2(32, &[good, e, good], &bitmaps, None));
        s.check();
    };
    s.label("vfont2 entries: size 0 with wild other fields");
    for e in [
        NONE,
        (0xFFFFFFFF, 0, [32767; 5]),
        (0xFFFFFFFF, 0, [-32768; 5]),
        (601, 0, [300, 300, 300, 300, 300]),
        (0, 0, [2, 0, 0, 9, 9]),
        (0, 0, [1, 1, 1, 1, 1]),
    ] {
        ask(s, e);
        s.glyph(1);
        s.row(1, 0);
        s.pixel(1, 0, 0);
        s.glyph(2);
    }
    s.label("vfont2 entries: negative parts with positive sums");
    for e in [
        entry(3, -5, 7, 0, 9),
        entry(3, 7, -5, 0, 9),
        entry(3, 2, 0, -3, 12),
        entry(3, 2, 0, 12, -3),
        entry(3, -32768, 32767, 0, 9),
        entry(3, -32767, 32767, 0, 9),
        entry(3, -32766, 32767, 0, 9),
        entry(3, 32767, -32766, 32767, -32766),
        entry(3, 32767, -32512, 0, 1),
        entry(3, 32767, -32511, 0, 1),
        entry(3, -100, 101, -200, 209),
    ] {
        ask(s, e);
        s.glyph(1);
    }
    s.label("vfont2 entries: sums that wrap in 16 bits");
    for metrics in [
        [-32768, -32767, 0, 9, 9],
        [-32767, -32768, 0, 9, 9],
        [2, 0, -32768, -32767, 9],
        [-32768, -32767, -32768, -32767, 9],
        [32767, 32767, 0, 9, 9],
        [-32768, -32768, 0, 9, 9],
    ] {
        ask(s, (0, 1, metrics));
        ask(s, (0, 2, metrics));
    }
    s.label("vfont2 entries: sums 0, 1, 255, 256 and below 0");
    for (up, down) in [(0, 0), (1, -1), (1, 0), (0, 1), (200, 55), (200, 56), (-1, 0), (3, -4)] {
        ask(s, (0, (up + down).max(1) as u32, [up, down, 0, 8, 8]));
    }
    for (left, right) in [(0, 0), (1, -1), (1, 0), (0, 1), (200, 55), (200, 56), (-1, 0), (3, -4)] {
        let size = 2 * (left + right + 7) / 8;
        ask(s, (0, size.max(1) as u32, [2, 0, left, right, 8]));
        ask(s, (0, 2 * ((left + right + 7) / 8).max(1) as u32, [2, 0, left, right, 8]));
    }
    s.label("vfont2 entries: sizes one off");
    for size in [1, 3, 4, 5, 0x10004, 0x80000004] {
        ask(s, (0, size, [2, 0, 0, 9, 9]));
    }
    s.label("vfont2 entries: address + size at the total and one beyond, and wrapping");
    for address in [595, 596, 597, 599, 600, 0x7FFFFFFF, 0x80000000, 0xFFFFFFFB, 0xFFFFFFFC] {
        ask(s, (address, 4, [2, 0, 0, 9, 9]));
        s.glyph(1);
    }
    for address in [0xFFFFFFFD, 0xFFFFFFFE, 0xFFFFFFFF, 598, 599] {
        ask(s, (address, 2, [2, 0, 0, 8, 8]));
    }
    s.label("vfont2 entries: shared, overlapping and gapped bytes");
    for address in [0, 1, 2, 3, 4, 300] {
        ask(s, (address, 4, [2, 0, 0, 9, 9]));
        s.row(1, 1);
    }
    s.label("vfont2: a bad entry at each of six places; two bad ones");
    let bad = (0, 5, [2, 0, 0, 9, 9]);
    for at in 0..6 {
        let mut six = [good; 6];
        six[at] = bad;
        s.file(&vfont2(32, &six, &bitmaps[..4], None));
        s.check();
    }
    s.file(&vfont2(40, &[good, good, good, bad, good, bad], &bitmaps[..4], None));
    s.check();
    s.label("vfont2: entry 5 bad and the greatest height wrong; then that, then the width");
    s.file(&vfont2(32, &[good, good, good, good, good, bad], &bitmaps[..4], None));
    s.put(24, &number(7));
    s.check();
    s.put(32 + 18 * 5, &entry_bytes(&good));
    s.check();
    s.put(28, &number(8));
    s.check();
    s.put(24, &number(2));
    s.check();
    s.put(28, &number(9));
    s.check();
    s.label("vfont2: greatest height and width by different entries, wrong each way");
    let two = [entry(0, 5, 0, 0, 3), NONE, entry(2, 1, 0, -2, 19)];
    s.file(&vfont2(32, &two, &bitmaps[..9], None));
    s.check();
    for (at, numbers) in [(24, [0, 1, 4, 6, 255]), (28, [0, 3, 16, 18, 255])] {
        for n in numbers {
            s.check_with(&[(at, &number(n))]);
        }
    }
    s.label("vfont2: a size 0 entry with the largest sums doesn't count");
    s.file(&vfont2(32, &[good, (0, 0, [9, 9, 9, 9, 9])], &bitmaps[..4], None));
    s.check();
    s.check_with(&[(24, &number(18))]);
    s.check_with(&[(28, &number(18))]);
    s.label("vfont2: no glyph at all");
    for header in [32, 77] {
        s.file(&vfont2(header, &[NONE, (9, 0, [3, 3, 3, 3, 3])], &[], Some(&[0x41, 0xFF, 0xFF])));
        s.check();
        s.check_with(&[(24, &number(1))]);
        s.check_with(&[(28, &number(1))]);
        s.check_with(&[(24, &number(6)), (28, &number(6))]);
        s.glyph(0);
        s.glyph(1);
        s.glyph(2);
        s.value(0x41);
        s.walk_all(0..3);
    }
    s.label("vfont2: no glyph at all, but bitmap bytes");
    s.file(&vfont2(32, &[NONE], &bitmaps[..5], None));
    s.check();
    s.trim(s.file.len() - 1);
    s.check();
}

fn bitmap_questions(s: &mut Script) {
    for width in [1, 7, 8, 9, 16, 17, 255] {
        s.label(&format!("psf2 of width {width}: rows and columns at and beyond the edge"));
        let c = area(2, width);
        s.file(&psf2(2, 2, width, &pattern(2 * c), None));
        s.glyph(1);
        for row in [0, 1, 2, 256] {
            s.row(1, row);
        }
        let last = width as u64 - 1;
        for col in [0, 7, 8, 15, 16, last, last + 1, 256] {
            s.pixel(1, 1, col);
        }
        s.pixel(0, 0, last);
        s.pixel(0, 2, 0);
    }
    s.label("psf2: numbers of 33 bits and more");
    s.file(&psf2(2, 2, 17, &pattern(12), None));
    for wide in WIDE {
        s.glyph(wide);
        s.row(wide, 0);
        s.row(1, wide);
        s.pixel(wide, 0, 0);
        s.pixel(0, wide, 0);
        s.pixel(0, 0, wide);
    }
    // numbers whose offset would wrap to one inside the file
    for wide in [1 << 61, 0x5555555555555556, 0xAAAAAAAAAAAAAAAB, u64::MAX - 31] {
        s.glyph(wide);
        s.row(0, wide);
        s.pixel(0, wide, 0);
    }
    s.label("psf2 of 257 glyphs: glyphs around 255 and 256");
    s.file(&psf2(257, 1, 8, &pattern(257), None));
    for g in [0, 1, 254, 255, 256, 257, 258, 511, 512, 4096, 65536, 65537] {
        s.glyph(g);
    }
    s.pixel(256, 0, 7);
    s.row(256, 0);
    s.label("psf1 of 512 glyphs, then of 256");
    let mut file = psf1(1, 3, 0x11, &[]);
    for (i, byte) in pattern(1536).iter().enumerate().filter(|(i, _)| i % 31 < 4) {
        file[4 + i] = *byte;
    }
    for mode in [1, 0] {
        if mode == 0 {
            file.truncate(4 + 768);
            file[2] = 0;
        }
        s.file(&file);
        for g in [0, 255, 256, 511, 512, 1 << 32] {
            s.glyph(g);
            s.row(g, 2);
            s.pixel(g, 2, 7);
        }
        s.row(0, 3);
        s.pixel(0, 0, 8);
        s.pixel(0, 3, 0);
    }
    s.label("psf2 of 4096 glyphs: the last and one beyond");
    s.file(&psf2(4096, 2, 4, &[0x90; 8192], None));
    for g in [4095, 4096, 8191, 1 << 32] {
        s.glyph(g);
    }
    s.label("psf2 of 255 by 255: a whole glyph and its last pixel");
    let mut bits = vec![0x00; 8160];
    bits[8159] = 0x03;
    s.file(&psf2(1, 255, 255, &bits, None));
    s.row(0, 254);
    s.pixel(0, 254, 253);
    s.pixel(0, 254, 254);
    s.pixel(0, 254, 255);
    s.pixel(0, 255, 254);
    s.label("vfont2: rows and columns by the entry's own sums, not the font's greatest");
    let set = [entry(0, 1, 0, 0, 3), entry(1, 3, -1, -2, 19), NONE, entry(0, 4, 3, 4, 4)];
    s.file(&vfont2(32, &set, &pattern(7), None));
    s.check();
    for (g, height, width) in [(0, 1, 3), (1, 2, 17), (2, 0, 0), (3, 7, 8)] {
        s.glyph(g);
        for row in [0, height - 1, height, height + 1] {
            s.row(g, row.max(0) as u64);
        }
        for col in [0, width - 1, width] {
            s.pixel(g, 0, col.max(0) as u64);
            s.pixel(g, (height - 1).max(0) as u64, col.max(0) as u64);
            s.pixel(g, height as u64, col.max(0) as u64);
        }
    }
    s.label("vfont2: ASK for the glyph, then NO GLYPH, then ASK for row and column");
    s.row(2, 99);
    s.row(2, u64::MAX);
    s.pixel(2, 99, 0);
    s.pixel(2, 0, 99);
    s.pixel(2, u64::MAX, u64::MAX);
    for g in [4, 5, 1 << 32, (1 << 32) + 2, u64::MAX] {
        s.glyph(g);
        s.row(g, 0);
        s.pixel(g, 99, 99);
    }
}

/// A PSF2 font of n glyphs of one pixel.
fn dots(n: usize, table: &[u8]) -> Vec<u8> {
    psf2(n, 1, 1, &vec![0x80; n], Some(table))
}

/// A PSF1 font of 256 glyphs whose last description is to come.
fn last_unit_glyph(last: &[u8]) -> Vec<u8> {
    let mut table = vec![0xFF; 510];
    table.extend_from_slice(last);
    psf1(2, 1, 0x80, &table)
}

fn small_tables(s: &mut Script) {
    let utf8_cases: &[(u32, usize, &[u8])] = &[
        (1, 1, &[0xC3, 0x85, 0xE2, 0x84, 0xAB, 0xFE, 0x41, 0xCC, 0x8A, 0xFF]),
        (3, 1, &[0xFF]),
        (4, 1, &[]),
        (5, 1, &[0xFE, 0xFF]),
        (6, 1, &[0x41, 0xFE, 0x42]),
        (7, 1, &[0xC0, 0x80, 0xFF]),
        (8, 1, &[0xE0, 0x80, 0x80, 0xFF]),
        (9, 1, &[0xED, 0xA0, 0x80, 0xFF]),
        (10, 1, &[0xF4, 0x8F, 0xBF, 0xBF, 0xFF]),
        (11, 1, &[0xF4, 0x90, 0x80, 0x80, 0xFF]),
        (12, 1, &[0xFF, 0xFF]),
        (12, 2, &[0xFF, 0xFF]),
    ];
    for (p, n, bytes) in utf8_cases {
        for kind in ["psf2", "vfont2"] {
            s.label(&format!("P{p} in a {kind} font of {n}"));
            if kind == "psf2" {
                s.file(&dots(*n, bytes));
            } else {
                s.file(&vfont2(32, &vec![entry(0, 1, 0, 0, 1); *n], &[0x80], Some(bytes)));
            }
            s.check();
            if second::check(&s.file).is_ok() {
                s.walk_all(0..*n + 1);
                s.values(&[0xC5, 0x212B, 0x41, 0x30A, 0x10FFFF]);
                s.sequence(&[0x41, 0x30A]);
            } else {
                s.walk(0, 0);
                s.value(0x41);
            }
        }
    }
    let unit_cases: &[(u32, &[u8])] = &[
        (2, &[0xC5, 0x00, 0x2B, 0x21, 0xFE, 0xFF, 0x41, 0x00, 0x0A, 0x03, 0xFF, 0xFF]),
        (13, &[0xFE, 0xFF, 0xFE, 0xFF, 0xFF, 0xFF]),
        (14, &[0x41, 0x00, 0xFF]),
    ];
    for (p, bytes) in unit_cases {
        s.label(&format!("P{p} as the last glyph's description in a psf1 font"));
        s.file(&last_unit_glyph(bytes));
        s.check();
        if second::check(&s.file).is_ok() {
            s.walk_all(254..257);
            s.values(&[0xC5, 0x212B, 0x41, 0x30A]);
            s.sequence(&[0x41, 0x30A]);
        } else {
            s.walk(255, 0);
            s.value(0xC5);
        }
        s.label(&format!("P{p} as the first glyph's"));
        let mut table = bytes.to_vec();
        table.resize(table.len() + 510, 0xFF);
        s.file(&psf1(2, 1, 0x80, &table));
        s.check();
        s.value(0x212B);
    }
}

/// The rows of Table 3-7 with a value of each, and the range of the second byte.
const ROWS: [(&[u8], u8, u8); 8] = [
    (&[0xC5, 0x9A], 0x80, 0xBF),
    (&[0xE0, 0xA7, 0x93], 0xA0, 0xBF),
    (&[0xE7, 0x94, 0xA8], 0x80, 0xBF),
    (&[0xED, 0x8B, 0xB1], 0x80, 0x9F),
    (&[0xEF, 0xA4, 0x8E], 0x80, 0xBF),
    (&[0xF0, 0x9F, 0x98, 0x80], 0x90, 0xBF),
    (&[0xF2, 0xA1, 0xB0, 0x95], 0x80, 0xBF),
    (&[0xF4, 0x8C, 0xB4, 0xBA], 0x80, 0x8F),
];

/// Every byte at every place of a value. Bytes that go are put into one font and
/// checked together; the others are set one by one.
fn utf8_rows(s: &mut Script) {
    s.label("every byte as the first of a value: those that go, together");
    let all: Vec<u8> = (0..=0x7F).collect();
    s.file(&dots(1, &[&all[..], &[0xFF]].concat()));
    s.check();
    for k in [0, 0x41, 0x7F, 0x80, 0x81] {
        s.walk(0, k);
    }
    s.label("every byte as the first of a value: 80 to FF, before 41 41 41 FF");
    s.file(&dots(1, &[0x41, 0x41, 0x41, 0x41, 0xFF]));
    for byte in 0x80..=0xFF {
        s.set(33, byte);
        s.check();
    }
    s.label("the first byte of a value of 2, 3, 4 bytes before 80 80 80 FF");
    s.file(&dots(1, &[0x80, 0x80, 0x80, 0x80, 0xFF]));
    for byte in [0xBF, 0xC0, 0xC1, 0xC2, 0xDF, 0xE0, 0xE1, 0xEC, 0xED, 0xEE, 0xEF, 0xF0, 0xF1] {
        s.set(33, byte);
        s.check();
    }
    for byte in [0xF3, 0xF4, 0xF5, 0xF7, 0xF8, 0xFB, 0xFC, 0xFD] {
        s.set(33, byte);
        s.check();
    }
    for (value, low, high) in ROWS {
        for place in 1..value.len() {
            let name = ["first", "second", "third", "fourth"][place];
            let lead = value[0];
            let (low, high) = if place == 1 { (low, high) } else { (0x80, 0xBF) };
            s.label(&format!("lead byte {lead:02X}, every {name} byte: those that go, together"));
            let mut table = Vec::new();
            for byte in low..=high {
                let mut v = value.to_vec();
                v[place] = byte;
                table.extend(v);
            }
            table.push(0xFF);
            s.file(&dots(1, &table));
            s.check();
            for k in [0, (high - low) as u64] {
                s.walk(0, k);
            }
            s.label(&format!("lead byte {lead:02X}, every {name} byte: the others"));
            s.file(&dots(1, &[value, &[0xFF]].concat()));
            for byte in (0..=0xFF).filter(|b| !(low..=high).contains(b)) {
                s.set(33 + place, byte);
                s.check();
            }
        }
    }
}

/// Values at the edges of Table 3-7's rows, and just outside of them.
fn utf8_boundaries(s: &mut Script) {
    s.label("the first and last value of every row of Table 3-7");
    let edges = [
        0x0, 0x7F, 0x80, 0x7FF, 0x800, 0xFFF, 0x1000, 0xCFFF, 0xD000, 0xD7FF, 0xE000, 0xFFFD,
        0x10000, 0x3FFFD, 0x40000, 0xFFFFD, 0x100000, 0x10FFFD,
    ];
    let texts: Vec<Text> = edges.iter().map(|&v| text(&[v], &[&[v], &[v, v]])).collect();
    s.file(&dots(edges.len(), &table(&texts)));
    s.check();
    s.values(&edges);
    for v in edges {
        s.sequence(&[v, v]);
        s.walk(edges.iter().position(|&e| e == v).unwrap() as u64, 0);
    }
    s.values(&[0x81, 0xFFE, 0x1001, 0xD800, 0xDFFF, 0x110000, 0x10FFFC]);
    s.label("values just outside: overlong, surrogates, above 10FFFF, five and six bytes");
    for bytes in [
        &[0xC0, 0x80][..],
        &[0xC1, 0xBF],
        &[0xE0, 0x80, 0x80],
        &[0xE0, 0x9F, 0xBF],
        &[0xED, 0xA0, 0x80],
        &[0xED, 0xAF, 0xBF],
        &[0xED, 0xB0, 0x80],
        &[0xED, 0xBF, 0xBF],
        &[0xF0, 0x80, 0x80, 0x80],
        &[0xF0, 0x8F, 0xBF, 0xBF],
        &[0xF4, 0x90, 0x80, 0x80],
        &[0xF4, 0xBF, 0xBF, 0xBF],
        &[0xF5, 0x80, 0x80, 0x80],
        &[0xF7, 0xBF, 0xBF, 0xBF],
        &[0xF8, 0x88, 0x80, 0x80, 0x80],
        &[0xFC, 0x84, 0x80, 0x80, 0x80, 0x80],
        &[0xFD, 0xBF, 0xBF, 0xBF, 0xBF, 0xBF],
        &[0x80],
        &[0xBF, 0xBF],
    ] {
        // as the first single, and as the first value of a sequence
        for before in [&[][..], &[0xE2, 0x84, 0xAB, 0xFE]] {
            s.file(&dots(1, &[before, bytes, &[0xFF]].concat()));
            s.check();
        }
    }
}

/// Noncharacters are no values: bad at their last byte, in singles and in sequences. The
/// values beside them are.
fn noncharacter_values(s: &mut Script) {
    let beside = neighbours();
    s.label("the values beside the noncharacters, psf2 then vfont2; noncharacters looked up");
    let texts: Vec<Text> = beside.iter().map(|&v| text(&[v], &[&[v, v]])).collect();
    s.file(&dots(beside.len(), &table(&texts)));
    s.check();
    s.values(&beside);
    for &v in &beside {
        s.sequence(&[v, v]);
    }
    for g in [0, 1, 2, beside.len() as u64 - 1] {
        s.walk(g, 0);
        s.walk(g, 3);
    }
    s.values(&noncharacters());
    for v in [0xFDD0, 0xFDEF, 0xFFFE, 0xFFFF, 0x1FFFE, 0x10FFFF] {
        for sequence in [&[v][..], &[v, v], &[0xFFFD, v], &[v, 0x110000]] {
            s.sequence(sequence);
        }
    }
    s.file(&vfont2(32, &vec![NONE; beside.len()], &[], Some(&table(&texts))));
    s.check();
    s.values(&[0xFDCF, 0xFDF0, 0xFFFD, 0x10FFFD, 0xFDD0, 0xFFFE]);

    s.label("EF B7 and 8F to B0: FDD0 to FDEF and the values beside them");
    s.file(&dots(1, &[0xEF, 0xB7, 0x8F, 0x41, 0xFF]));
    for third in 0x8F..=0xB0 {
        s.put(35, &[third]);
        s.check();
    }
    s.label("the last two of each plane and the value before them");
    for plane in 0..=16 {
        let value = utf8(plane << 16 | 0xFFFD);
        if plane < 2 {
            s.file(&dots(1, &[&value[..], &[0x41, 0xFF]].concat()));
        } else {
            s.put(33, &value);
        }
        for last in 0xBD..=0xBF {
            s.put(32 + value.len(), &[last]);
            s.check();
        }
    }
    s.value(0x10FFFF);
    s.walk(0, 0);
    s.label("like noncharacters but for one byte: values");
    for (i, word) in [
        [0xF0, 0x97, 0xBF, 0xBE],
        [0xF1, 0x9E, 0xBF, 0xBF],
        [0xF4, 0x8E, 0xBF, 0xBF],
        [0xF3, 0xBF, 0xBE, 0xBF],
        [0xF4, 0x80, 0xBF, 0xBE],
        [0xF0, 0x9F, 0xB7, 0x90],
        [0xF4, 0x8F, 0xB7, 0xAF],
    ]
    .iter()
    .enumerate()
    {
        s.put(33, word);
        s.check();
        s.walk(0, i as u64 % 2);
    }
    s.file(&dots(
        1,
        &[0xEF, 0xBE, 0xBE, 0xEE, 0xBF, 0xBF, 0xEE, 0xB7, 0x90, 0xE7, 0xBF, 0xBE, 0xFF],
    ));
    s.check();
    s.values(&[0xFFBE, 0xEFFF, 0xEDD0, 0x7FFE]);

    for v in [0xFDD0, 0xFFFE, 0x1FFFF, 0x10FFFE] {
        s.label(&format!("{v:X} as a single and as each value of a sequence, whole and cut"));
        let word = utf8(v);
        let fill = |before: &[u8], after: &[u8]| [before, &word, after, &[0xFF]].concat();
        for (before, after) in [
            (&b"A"[..], &b""[..]),
            (b"", b"\xFEA"),
            (b"A\xFE", b""),
            (b"A\xFE", b"BC"),
            (b"\xFEB", b"C"),
            (b"\xFEBC", b"\xFED"),
        ] {
            s.file(&dots(1, &fill(before, after)));
            s.check();
        }
        for k in (0..=word.len()).rev() {
            s.trim(36 + k);
            s.check();
        }
        s.file(&dots(3, &fill(b"\xFFA\xFF", b"")));
        s.check();
        s.value(0x41);
        s.sequence(&[v]);
        s.file(&vfont2(32, &[NONE, NONE], &[], Some(&fill(b"", b"\xFF"))));
        s.check();
        s.value(v);
    }
    s.label("a noncharacter behind a complete table");
    s.file(&dots(1, b"A\xFF\xEF\xBF\xBE"));
    s.check();

    s.label("psf1: low bytes CF to F0 before high byte FD, among the singles");
    // the last glyph: the unit, then 41 00 FF FF
    let at = 260 + 510;
    s.file(&last_unit_glyph(&[0xCF, 0xFD, 0x41, 0x00, 0xFF, 0xFF]));
    for low in 0xCF..=0xF0 {
        s.put(at, &[low]);
        s.check();
    }
    s.values(&[0xFDCF, 0xFDD0, 0xFDEF, 0xFDF0, 0x41]);
    s.label("psf1: high bytes FC, FD, FE after low bytes D0 and EF");
    for low in [0xD0, 0xEF] {
        for high in [0xFC, 0xFE, 0xFF, 0xFD] {
            s.put(at, &[low, high]);
            s.check();
        }
    }
    s.label("psf1: D0 FD and EF FD in a sequence, and cut before FD");
    for v in [0xFDD0, 0xFDEF] {
        for sequence in [&[v, 0x41, 0x42][..], &[0x41, v, 0x42], &[0x41, v]] {
            s.file(&last_unit_glyph(&units(&[text(&[0x43], &[sequence])])));
            s.check();
        }
        s.value(v);
        for length in [at + 8, at + 7] {
            s.trim(length);
            s.check();
        }
        s.file(&psf1(2, 1, 0x80, &units(&spread(256, &[(0, text(&[v], &[]))]))));
        s.check();
        s.sequence(&[v]);
    }
    s.label("psf1: D0 and FD that straddle two values");
    let some = [(0, text(&[0xD041, 0x41FD, 0xDFFD, 0xFEFD, 0xFFFD], &[&[0xEF00, 0x00FD]]))];
    s.file(&psf1(2, 1, 0x80, &units(&spread(256, &some))));
    s.check();
    s.walk_all(0..1);
}

fn unit_tables(s: &mut Script) {
    s.label("psf1: high bytes after low byte FE and FF, among the singles");
    // the last glyph: the unit, then 41 00 41 00 FF FF
    let at = 260 + 510;
    for low in [0xFE, 0xFF] {
        s.file(&last_unit_glyph(&[low, 0x00, 0x41, 0x00, 0x41, 0x00, 0xFF, 0xFF]));
        for high in [0x00, 0x01, 0x41, 0x7F, 0x80, 0xD8, 0xDC, 0xDF, 0xFD, 0xFE, 0xFF] {
            s.set(at + 1, high);
            s.check();
        }
    }
    s.label("psf1: low bytes before high byte FF, after a start mark");
    s.file(&last_unit_glyph(&[0xFE, 0xFF, 0x41, 0xFF, 0x41, 0x00, 0xFF, 0xFF]));
    for low in [0x00, 0x41, 0x7F, 0x80, 0xD8, 0xEF, 0xFC, 0xFD, 0xFE, 0xFF] {
        s.set(at + 2, low);
        s.check();
        s.walk(255, 1);
    }
    s.label("psf1: high bytes after low byte FE and FF, after a start mark");
    for low in [0xFE, 0xFF] {
        s.put(at + 2, &[low]);
        for high in [0x00, 0x41, 0x80, 0xD8, 0xFD, 0xFE, 0xFF] {
            s.set(at + 3, high);
            s.check();
        }
    }
    s.label("psf1: marks where they can't stand");
    for last in [
        &[0xFE, 0xFF, 0xFF, 0xFF][..],
        &[0xFE, 0xFF, 0xFF],
        &[0xFE, 0xFF, 0xFE],
        &[0xFE, 0xFF],
        &[0xFE],
        &[0xFF],
        &[],
        &[0x41, 0x00, 0xFE, 0xFF, 0x42, 0x00, 0xFE, 0xFF, 0xFE, 0xFF, 0x43, 0x00, 0xFF, 0xFF],
        &[0x41, 0x00, 0xFE, 0xFF, 0x42, 0x00, 0xFE, 0xFF, 0xFF, 0xFF],
        &[0xFE, 0xFF, 0x42, 0x00, 0x43, 0x00, 0xFF, 0xFF],
        &[0xFE, 0xFF, 0xFD, 0xFF, 0xFF, 0xFF],
        &[0xFD, 0xFF, 0xFF, 0xFF],
    ] {
        s.file(&last_unit_glyph(last));
        s.check();
    }
    s.label("psf1: FE FF and FF FF that straddle two values");
    let some = [
        (0, text(&[0xFE41, 0x42FF, 0x43], &[])),
        (1, text(&[0xFF41, 0x44FF], &[])),
        (2, text(&[0xFEFE, 0xFEFF, 0xFFFD, 0xFDFF, 0xFFFD], &[&[0xFE45, 0xFF, 0x46]])),
        (3, text(&[0x1234, 0x5678], &[])),
    ];
    s.file(&psf1(2, 1, 0x80, &units(&spread(256, &some))));
    s.check();
    s.walk_all(0..5);
    s.values(&[0x42, 0x43, 0x41FE, 0x42FF, 0x43FF, 0xFFFE, 0xFFFF, 0x44FF, 0x7812, 0x3456, 0x5678]);
    s.values(&[0xFEFE, 0xFDFF, 0xFFFD]);
    s.sequence(&[0xFE45, 0xFF, 0x46]);
    s.sequence(&[0x42FF, 0x43]);
    s.sequence(&[0x43]);
    s.sequence(&[0x46]);
    s.label("psf1: surrogates are values, 003's own example");
    let some = [
        (7, text(&[0xDEAD, 0xBEEF], &[&[0x3141, 0x5926], &[0x1234, 0x5678]])),
        (8, text(&[0xD800, 0xDFFF, 0xDBFF, 0xDC00], &[&[0xD83D, 0xDE00]])),
    ];
    s.file(&psf1(3, 1, 0x80, &units(&spread(512, &some))));
    s.check();
    s.walk_all(7..9);
    s.values(&[0xDEAD, 0xBEEF, 0xD800, 0xDFFF, 0x1F600, 0x3141, 0xD83D]);
    s.sequence(&[0x3141, 0x5926]);
    s.sequence(&[0x1234, 0x5678]);
    s.sequence(&[0x5926]);
    s.sequence(&[0xD83D, 0xDE00]);
    s.sequence(&[0x1F600]);
}

fn cut_tables(s: &mut Script) {
    s.label("a utf-8 table of 3 cut at every length, by psf2");
    let texts = [
        text(&[0x41, 0xE9, 0x20AC], &[&[0x1F600, 0x42], &[0x20AC]]),
        text(&[], &[]),
        text(&[], &[&[0xE9]]),
    ];
    let bytes = table(&texts);
    s.file(&dots(3, &bytes));
    s.check();
    for length in (35..35 + bytes.len()).rev() {
        s.trim(length);
        s.check();
    }
    s.label("the same by vfont2");
    s.file(&vfont2(36, &[entry(0, 1, 0, 0, 1), NONE, entry(0, 1, 0, 0, 1)], &[0x80], Some(&bytes)));
    s.check();
    for length in (91..91 + bytes.len()).rev().step_by(2) {
        s.trim(length);
        s.check();
    }
    s.label("a psf1 table cut at every length of its last description");
    let last = units(&[text(&[0x41, 0xFEFF], &[&[0xFF41, 0x42], &[0xFFFD]])]);
    s.file(&last_unit_glyph(&last));
    s.check();
    for length in (768..770 + last.len()).rev() {
        s.trim(length);
        s.check();
    }
    s.label("a psf1 table cut near its start, and the bitmaps cut");
    for length in [262, 261, 260, 259, 258] {
        s.trim(length);
        s.check();
    }
    s.label("a utf-8 value cut behind each of its bytes, single and in a sequence");
    for (value, _, _) in ROWS {
        for before in [&[0x41][..], &[0x41, 0xFE, 0x42, 0xFE]] {
            s.file(&dots(1, &[before, &value[..value.len() - 1]].concat()));
            s.check();
            s.append(&[0xFF]);
            s.check();
        }
    }
}

fn trailing(s: &mut Script) {
    s.label("bytes behind a complete utf-8 table");
    for rest in [
        &[0xFF][..],
        &[0xFE],
        &[0x41],
        &[0x00],
        &[0xC0],
        &[0x80],
        &[0xC3],
        &[0x41, 0xFF],
        &[0xFF, 0xFF],
        &[0xFE, 0xFF],
    ] {
        s.file(&dots(2, &[&[0x41, 0xFF, 0xFE, 0x42, 0xFF][..], rest].concat()));
        s.check();
        s.value(0x41);
        s.file(&vfont2(32, &[NONE, NONE], &[], Some(&[&[0x41, 0xFF, 0xFF][..], rest].concat())));
        s.check();
    }
    s.label("bytes behind a complete psf1 table");
    for rest in [
        &[0xFF][..],
        &[0xFF, 0xFF],
        &[0xFE, 0xFF],
        &[0xFE],
        &[0x41],
        &[0x41, 0x00],
        &[0x00],
        &[0x41, 0x00, 0xFF, 0xFF],
    ] {
        s.file(&last_unit_glyph(&[&[0x41, 0x00, 0xFF, 0xFF][..], rest].concat()));
        s.check();
        s.value(0x41);
    }
    s.label("bytes behind bare fonts");
    for rest in [&[0x00][..], &[0xFF], &[0x41, 0xFF], &[0xFF; 512]] {
        s.file(&psf2(1, 1, 1, &[0x80], None));
        s.append(rest);
        s.check();
        s.file(&vfont2(32, &[entry(0, 1, 0, 0, 1)], &[0x80], None));
        s.append(rest);
        s.check();
        for mode in [0, 1] {
            s.file(&psf1(mode, 1, 0x80, rest));
            s.check();
        }
    }
}

/// PSF1 fonts whose mode has bit 2, and so a table.
fn bit_two(s: &mut Script) {
    for mode in [4, 5] {
        let n = if mode == 5 { 512 } else { 256 };
        s.label(&format!("psf1 of mode {mode}: no table, and bytes that are none"));
        for rest in [&[][..], &[0x00], &[0xFF], &[0x41, 0xFF], &[0xFE, 0xFF, 0xFF], &[0xFF; 512]] {
            s.file(&psf1(mode, 1, 0x80, rest));
            s.check();
            s.value(0x41);
        }
        s.label(&format!("psf1 of mode {mode}: its table, cut, bad and with bytes behind it"));
        let some = [(0, text(&[0x41], &[])), (n - 1, text(&[0xC5], &[&[0x41, 0x30A]]))];
        let whole = psf1(mode, 1, 0x80, &units(&spread(n, &some)));
        s.file(&whole);
        s.check();
        s.walk_all(0..2);
        s.walk_all(n - 1..n + 1);
        s.values(&[0x41, 0xC5, 0x30A]);
        s.sequence(&[0x41, 0x30A]);
        for mark in [0xFE, 0xFF] {
            s.set(whole.len() - 6, mark);
            s.set(whole.len() - 5, 0xFF);
            s.check();
        }
        s.file(&whole);
        s.append(&[0x00]);
        s.check();
        for length in [whole.len() - 1, whole.len() - 2, whole.len() - 8, 5 + n, 4 + n] {
            s.trim(length);
            s.check();
        }
    }
}

fn lookups(s: &mut Script) {
    let asked = [
        0, 0x7F, 0x80, 0xD800, 0xDFFF, 0xFDCF, 0xFDD0, 0xFDEF, 0xFDF0, 0xFFFD, 0xFFFE, 0xFFFF,
        0x10FFFD, 0x10FFFE, 0x10FFFF, 0x110000, 0xFFFFFFFF,
    ];
    let ask = |s: &mut Script| {
        s.check();
        for v in asked {
            s.value(v);
            s.sequence(&[v]);
        }
    };
    let listed = [0, 0x7F, 0x80, 0xFDCF, 0xFDF0, 0xFFFD, 0x10FFFD];
    s.label("psf2 that lists 0, 7F, 80, FDCF, FDF0, FFFD, 10FFFD one by one");
    let texts: Vec<Text> = listed.iter().map(|&v| text(&[v], &[])).collect();
    s.file(&dots(7, &table(&texts)));
    ask(s);
    s.label("psf2 that lists the same as sequences of one");
    let texts: Vec<Text> = listed.iter().map(|&v| text(&[], &[&[v]])).collect();
    s.file(&dots(7, &table(&texts)));
    ask(s);
    s.label("psf2 that lists nothing");
    s.file(&dots(7, &[0xFF; 7]));
    ask(s);
    s.label("psf1 that lists 0, 7F, 80, D800, DFFF, FDCF, FDF0, FFFD, single and sequences of one");
    let some: Vec<(usize, Text)> = [0, 0x7F, 0x80, 0xD800, 0xDFFF, 0xFDCF, 0xFDF0, 0xFFFD]
        .iter()
        .enumerate()
        .flat_map(|(i, &v)| [(2 * i, text(&[v], &[])), (200 + i, text(&[], &[&[v]]))])
        .collect();
    s.file(&psf1(2, 1, 0x80, &units(&spread(256, &some))));
    ask(s);
    s.label("psf1 that lists nothing");
    s.file(&psf1(2, 1, 0x80, &[0xFF; 512]));
    ask(s);
    s.label("vfont2 that lists some on entries without glyph");
    let texts = [text(&[0, 0x7F], &[]), text(&[0x10FFFD, 0x7F], &[&[0x80]])];
    s.file(&vfont2(32, &[NONE, NONE], &[], Some(&table(&texts))));
    ask(s);

    s.label("duplicates in a glyph and across glyphs: the lowest glyph");
    let texts = [
        text(&[0x42], &[&[0x43, 0x44]]),
        text(&[0x41, 0x41, 0x41], &[&[0x41], &[0x41], &[0x45, 0x46]]),
        text(&[0x43, 0x41, 0x42], &[&[0x43, 0x44], &[0x41]]),
        text(&[0x44], &[&[0x45, 0x46], &[0x45]]),
        text(&[0x44, 0x43], &[&[0x45]]),
    ];
    for kind in 0..3 {
        match kind {
            0 => s.file(&dots(5, &table(&texts))),
            1 => s.file(&vfont2(32, &[NONE; 5], &[], Some(&table(&texts)))),
            _ => {
                let some: Vec<(usize, Text)> = texts.iter().cloned().enumerate().collect();
                s.file(&psf1(2, 1, 0x80, &units(&spread(256, &some))));
            }
        }
        s.check();
        s.values(&[0x41, 0x42, 0x43, 0x44, 0x45, 0x46]);
        for sequence in [
            &[0x41][..],
            &[0x41, 0x41],
            &[0x43, 0x44],
            &[0x45],
            &[0x46],
            &[0x45, 0x46],
            &[0x44, 0x43],
            &[0x42],
        ] {
            s.sequence(sequence);
        }
        if kind == 0 {
            s.walk_all(0..5);
        }
    }

    s.label("prefixes, suffixes and middles of sequences");
    let texts = [
        text(&[], &[&[1, 2, 3], &[1, 2], &[2, 3]]),
        text(&[1], &[&[1, 2, 3, 4], &[3]]),
        text(&[2, 3], &[&[1], &[2, 2, 2]]),
    ];
    s.file(&dots(3, &table(&texts)));
    s.check();
    for sequence in [
        &[1][..],
        &[2],
        &[3],
        &[1, 2],
        &[2, 3],
        &[1, 2, 3],
        &[1, 2, 3, 4],
        &[2, 3, 4],
        &[1, 2, 3, 4, 5],
        &[2, 2],
        &[2, 2, 2],
        &[2, 2, 2, 2],
        &[3, 1, 2],
        &[1, 2, 3, 1, 2],
        &[1, 2, 2, 3],
        &[2, 1],
        &[],
        &[0x110000],
        &[1, 0x110000],
        &[0xFFFFFFFF, 1],
        &[0x100000001u64 as u32, 0x80000002],
        &[0xD800],
        &[1, 0xDFFF],
        &[0x10FFFF],
    ] {
        s.sequence(sequence);
    }
    s.values(&[1, 2, 3, 4]);
    s.walk_all(0..3);

    s.label("a sequence of 255 values, and one value more or less in the font");
    let long: Vec<u32> = (0..255).map(|i| 0x100 + i).collect();
    let longer: Vec<u32> = (0..256).map(|i| 0x100 + i).collect();
    s.file(&dots(
        3,
        &table(&[text(&[], &[&longer]), text(&[], &[&long[..254]]), text(&[], &[&long])]),
    ));
    s.check();
    s.sequence(&long);
    s.sequence(&long[..254]);
    s.sequence(&long[..253]);
    s.walk(0, 256);
    s.walk(0, 257);
    s.walk(0, 258);

    s.label("walks with numbers of 33 bits and more");
    for wide in WIDE {
        s.walk(wide, 0);
        s.walk(0, wide);
        s.walk(2, wide);
    }
    s.walk(3, 0);
    s.walk(2, 255);
    s.walk(2, 256);
    s.walk(2, 257);
}

/// Glyph counts of one and two bytes.
fn counts(s: &mut Script) {
    for n in [1, 2, 255, 256, 257, 512, 4096] {
        s.label(&format!("psf2 of {n}: glyph g lists 4E00 + g, and the sequence 61 and that"));
        let texts: Vec<Text> = (0..n as u32)
            .map(|g| {
                if g % 64 < 2 || g % 64 == 63 {
                    text(&[0x4E00 + g], &[&[0x61, 0x4E00 + g]])
                } else {
                    Text::default()
                }
            })
            .collect();
        s.file(&dots(n, &table(&texts)));
        s.check();
        for g in [0, 1, 255, 256, 257, 511, n as u32 - 1, n as u32] {
            if g <= n as u32 {
                s.value(0x4E00 + g);
                s.sequence(&[0x61, 0x4E00 + g]);
                s.walk(g as u64, 0);
            }
        }
        s.label(&format!("psf2 of {n}: one description too few, one too many"));
        s.append(&[0xFF]);
        s.check();
        s.trim(s.file.len() - 2);
        s.check();
    }
    s.label("psf1 of 512: a value on glyphs 255, 256, 257, 511 alone");
    let some: Vec<(usize, Text)> = [255, 256, 257, 511]
        .map(|g| (g, text(&[0x2500 + g as u32], &[&[0x61, g as u32]])))
        .to_vec();
    s.file(&psf1(3, 1, 0x80, &units(&spread(512, &some))));
    s.check();
    for g in [0, 255, 256, 257, 511, 512] {
        s.value(0x2500 + g);
        s.sequence(&[0x61, g]);
        s.walk(g as u64, 0);
        s.walk(g as u64, 3);
    }
    s.label("psf1 of 512 with 511 and with 513 descriptions");
    s.append(&[0xFF, 0xFF]);
    s.check();
    s.trim(s.file.len() - 4);
    s.check();
    s.label("vfont2 of 257: a value on glyph 256 alone");
    s.file(&vfont2(
        32,
        &[NONE; 257],
        &[],
        Some(&table(&spread(257, &[(256, text(&[0x263A], &[]))]))),
    ));
    s.check();
    s.value(0x263A);
    s.glyph(256);
    s.walk_all(255..258);
}

fn no_table(s: &mut Script) {
    let fonts = [
        ("psf1", psf1(0, 1, 0x80, &[])),
        ("psf1 of mode 1", psf1(1, 1, 0x80, &[])),
        ("psf2", psf2(2, 1, 8, &[1, 2], None)),
        ("vfont2", vfont2(32, &[entry(0, 1, 0, 0, 8), NONE], &[0x80], None)),
    ];
    for (name, file) in fonts {
        s.label(&format!("NO TABLE before ASK on a bare {name}"));
        s.file(&file);
        s.check();
        for (g, k) in [(0, 0), (9999, 0), (0, 9999), (u64::MAX, u64::MAX)] {
            s.walk(g, k);
        }
        s.values(&[0, 0x41, 0x10FFFF, 0x110000, 0xFFFFFFFF]);
        s.sequence(&[]);
        s.sequence(&[0x41]);
        s.sequence(&[0x110000]);
        s.glyph(0);
        s.glyph(9999);
    }
}

/// Every question on refused fonts, also with an ask too high.
fn own_refusal_first(s: &mut Script) {
    let mut files = vec![Vec::new(), vec![0x36, 0x04], base_psf1(), worked(), worked(), worked()];
    files[2][3] = 0;
    files[3][4] = 1;
    files[4].truncate(40);
    files[5].push(0);
    let mut entry = worked_vfont2();
    entry[36] = 1;
    files.push(entry);
    s.label("every question on refused fonts gives the font's refusal first");
    for file in files {
        s.file(&file);
        s.check();
        s.glyph(0);
        s.glyph(u64::MAX);
        s.row(0, 99);
        s.pixel(0, 0, 99);
        s.walk(0, 0);
        s.walk(9999, 0);
        s.value(0x110000);
        s.sequence(&[]);
    }
}

/// Questions on a sound font, drawn by lot.
fn ask_around(s: &mut Script, random: &mut Random) {
    let font = second::check(&s.file).expect("a sound font");
    let n = font.count;
    let g = random.of(&[0, n / 2, n - 1]) as u64;
    s.glyph(g);
    let g = random.below(n) as u64;
    let row = random.below(font.height + 2) as u64;
    s.row(g, row);
    let col = random.below(font.width + 2) as u64;
    s.pixel(g, row, col);
    let mapped: Vec<usize> =
        (0..font.reading.len()).filter(|&g| font.reading[g].len() > 1).collect();
    if mapped.is_empty() {
        s.value(0x41);
        return;
    }
    let g = random.of(&mapped);
    let items = font.reading[g].len();
    s.walk(g as u64, random.below(items + 1) as u64);
    let listed = second::table::singles(&font.reading[g]);
    s.value(*listed.last().unwrap_or(&0x42));
    let sequences = second::table::sequences(&font.reading[g]);
    if let Some(sequence) = sequences.last() {
        s.sequence(sequence);
        s.sequence(&sequence[1..]);
    }
}

/// One to three changes at places drawn by lot.
fn damage(s: &mut Script, random: &mut Random, from_tail: bool) {
    for _ in 0..1 + random.below(3) {
        let length = s.file.len();
        let at = match random.below(4) {
            _ if length == 0 => 0,
            0 => random.below(length),
            1 => random.below(length.min(34)),
            _ if from_tail => length - 1 - random.below(length.min(24)),
            _ => random.below(length.min(90)),
        };
        match random.below(8) {
            0 => s.trim(at),
            1 => {
                let byte = random.of(&[0x00, 0x41, 0x80, 0xFE, 0xFF]);
                s.append(&[byte]);
            }
            _ if length == 0 => {}
            2 | 3 => s.set(at, random.byte()),
            4 => s.set(at, s.file[at].wrapping_add(1)),
            _ => {
                let byte = random.of(&[0x00, 0x01, 0x41, 0x80, 0xBF, 0xC3, 0xED, 0xF4, 0xFE, 0xFF]);
                s.set(at, byte);
            }
        }
    }
}

fn random_fonts(s: &mut Script) {
    let mut random = Random(0x5EC0_0D5E_C00D_0001);
    for turn in 0..54 {
        let file = match turn % 3 {
            0 => random_psf1(&mut random),
            1 => random_psf2(&mut random),
            _ => random_vfont2(&mut random),
        };
        s.label(&format!("font {turn} drawn by lot"));
        s.file(&file);
        s.check();
        ask_around(s, &mut random);
        s.label(&format!("font {turn} with damages"));
        damage(s, &mut random, false);
        s.check();
        s.file(&file);
        damage(s, &mut random, true);
        s.check();
        s.value(0x41);
    }
    s.label("more small fonts with damages");
    for turn in 0..60 {
        let file =
            if turn % 2 == 0 { random_psf2(&mut random) } else { random_vfont2(&mut random) };
        s.file(&file);
        damage(s, &mut random, turn % 4 < 3);
        s.check();
    }
}
