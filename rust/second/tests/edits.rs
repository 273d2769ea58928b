//! Document 02's "Add or drop a mapping": each edit, what it leaves alone, and its refusals
//! in their order.

mod common;

use common::worked;
use second::*;

type Edit = fn(&mut [u8], usize, usize, u32) -> Result<usize, Refusal>;

const BOTH: [Edit; 2] = [add_mapping, drop_mapping];

/// The file at the front of a buffer of so many bytes, A5 behind it.
fn lent(file: &[u8], room: usize) -> Vec<u8> {
    let mut buf = file.to_vec();
    buf.resize(room, 0xA5);
    buf
}

/// The edited font. The bytes that it frees are 0, those behind the longer of both stay.
fn edited(call: Edit, file: &[u8], g: usize, v: u32) -> Vec<u8> {
    let len = file.len();
    let mut buf = lent(file, len + 9);
    let new = call(&mut buf, len, g, v).unwrap();
    assert!(buf[new.min(len)..len].iter().all(|&b| b == 0));
    assert!(buf[len.max(new)..].iter().all(|&b| b == 0xA5));
    buf.truncate(new);
    buf
}

/// The call is refused so, and the buffer stays.
fn refused_so(call: Edit, buf: &[u8], len: usize, g: usize, v: u32, refusal: Refusal) {
    let mut after = buf.to_vec();
    assert_eq!(call(&mut after, len, g, v), Err(refusal), "{len} {g} {v:X}");
    assert!(after == buf, "a refused call wrote");
}

/// The call is refused by a refusal that is of no one glyph, and the buffer stays.
fn refused(call: Edit, buf: &[u8], len: usize, g: usize, v: u32, number: u32, place: usize) {
    refused_so(call, buf, len, g, v, Refusal::new(number, place));
}

/// A PSF2 font of height 1 and width 8 with this header size, bitmap byte and table.
fn font(header: usize, bitmap: u8, table: &[u8]) -> Vec<u8> {
    let n = table.iter().filter(|&&b| b == 0xFF).count();
    let mut file = vec![0x72, 0xB5, 0x4A, 0x86];
    for number in [0, header, 1, n, 1, 1, 8] {
        file.extend_from_slice(&(number as u32).to_le_bytes());
    }
    file.resize(header, 0xFE);
    file.resize(header + n, bitmap);
    file.extend_from_slice(table);
    file
}

/// A sound font of LIMIT - `left` bytes: 4095 glyphs, of which the last lists 42.
fn near_limit(left: usize) -> Vec<u8> {
    let header = LIMIT - left - 4095 * 256 - 1;
    let mut file = font(header, 0, &[]);
    for (at, number) in [(16, 4095u32), (20, 255), (24, 255)] {
        file[at..at + 4].copy_from_slice(&number.to_le_bytes());
    }
    file.resize(header + 4095 * 255, 0x41);
    file.resize(header + 4095 * 256 - 1, 0xFF);
    file.extend([0x42, 0xFF]);
    assert_eq!((file.len(), check(&file).is_ok()), (LIMIT - left, true));
    file
}

fn listed(file: &[u8]) -> String {
    let text = list(file);
    text.split_once('\n').unwrap().1.trim_end().replace('\n', "; ")
}

#[test]
fn the_worked_font() {
    let file = worked();
    let more = edited(add_mapping, &file, 0, 0x42);
    assert_eq!(more.len(), 46);
    assert_eq!(more[..36], file[..36]);
    assert_eq!(more[36..], [0x41, 0x42, 0xFF, 0xC3, 0x85, 0xFE, 0x41, 0xCC, 0x8A, 0xFF]);
    assert_eq!(edited(drop_mapping, &more, 0, 0x42), file);
    // a single goes behind the singles and before the sequences
    let more = edited(add_mapping, &file, 1, 0x212B);
    assert_eq!(listed(&more), "0 41; 1 C5 212B +41+30A");
    assert_eq!(edited(drop_mapping, &more, 1, 0x212B), file);
    let less = edited(drop_mapping, &file, 0, 0x41);
    assert_eq!(listed(&less), "0; 1 C5 +41+30A");
    assert_eq!(edited(add_mapping, &less, 0, 0x41), file);
    let less = edited(drop_mapping, &file, 1, 0xC5);
    assert_eq!(listed(&less), "0 41; 1 +41+30A");
    assert_eq!(edited(add_mapping, &less, 1, 0xC5), file);
}

#[test]
fn other_items_stay() {
    let table = [0x41, 0x42, 0x41, 0x43, 0x41, 0xFE, 0x41, 0xFE, 0x41, 0x42, 0xFF, 0x41, 0xFF];
    let mut file = font(40, 0xFF, &table);
    for left in [
        "0 42 41 43 41 +41 +41+42; 1 41",
        "0 42 43 41 +41 +41+42; 1 41",
        "0 42 43 +41 +41+42; 1 41",
    ] {
        file = edited(drop_mapping, &file, 0, 0x41);
        assert_eq!(listed(&file), left);
    }
    // what is left of it stands in sequences, one of them of one value, and elsewhere
    refused(drop_mapping, &file, file.len(), 0, 0x41, NOT_THERE, 0);
    file = edited(add_mapping, &file, 0, 0x41);
    assert_eq!(listed(&file), "0 42 43 41 +41 +41+42; 1 41");
    refused(add_mapping, &file, file.len(), 0, 0x41, HAVE, 0);
    file = edited(add_mapping, &file, 1, 0x42);
    file = edited(drop_mapping, &file, 1, 0x41);
    assert_eq!(listed(&file), "0 42 43 41 +41 +41+42; 1 42");
    assert_eq!(file[32..40], [0xFE; 8]);
    assert_eq!(file[40..42], [0xFF; 2]);
}

#[test]
fn add_then_drop() {
    let values = [
        0, 0x7F, 0x80, 0xFE, 0x7FF, 0x800, 0xD7FF, 0xE000, 0xFDCF, 0xFDF0, 0xFFFD, 0x10000,
        0x10FFFD,
    ];
    let tables: [&[u8]; 4] =
        [&[0xFF; 3], &[0x41, 0xFF, 0xFE, 0x41, 0xFF, 0x42, 0xFE, 0, 0xFF], &[0xFF], &[0x43, 0xFF]];
    for header in [32, 33, 4096] {
        for table in tables {
            let file = font(header, 0xFF, table);
            let n = check(&file).unwrap().count;
            for (g, v) in (0..n).flat_map(|g| values.map(|v| (g, v))) {
                let more = edited(add_mapping, &file, g, v);
                let bytes = char::from_u32(v).unwrap().len_utf8();
                assert_eq!(more.len(), file.len() + bytes);
                assert_eq!(find_value(&more, v), Ok(g));
                assert_eq!(more[..header + n], file[..header + n]);
                refused(add_mapping, &more, more.len(), g, v, HAVE, 0);
                assert_eq!(edited(drop_mapping, &more, g, v), file);
                refused(drop_mapping, &file, file.len(), g, v, NOT_THERE, 0);
                // room for the bytes of the value, and one less
                let short = lent(&file, file.len() + bytes - 1);
                refused(add_mapping, &short, file.len(), g, v, ROOM, file.len() + bytes);
                let mut just = lent(&file, file.len() + bytes);
                assert_eq!(add_mapping(&mut just, file.len(), g, v), Ok(more.len()));
                assert_eq!(just, more);
            }
        }
    }
}

#[test]
fn the_font_is_the_first_len_bytes() {
    // a second font behind the first
    let file = worked();
    let mut buf = [&file[..], &file].concat();
    for call in BOTH {
        refused(call, &buf, 90, 0, 0x41, TRAILING, 45);
        refused(call, &buf, 46, 0, 0x41, TRAILING, 45);
        refused_so(call, &buf, 44, 0, 0x41, Refusal::new(TABLE_CUT, 44).of_glyph(1));
        refused(call, &buf, 0, 0, 0x41, KIND, 0);
        refused(call, &buf, 91, 0, 0x41, ASK, 0);
        refused(call, &[], 0, 0, 0x41, KIND, 0);
    }
    assert_eq!(drop_mapping(&mut buf, 45, 1, 0xC5), Ok(43));
    assert_eq!(buf[43..45], [0, 0]);
    assert_eq!(buf[45..], file);
    // the zeros aren't the font's, and an add takes them up again
    refused(drop_mapping, &buf, 45, 0, 0x41, TRAILING, 43);
    assert_eq!(add_mapping(&mut buf, 43, 1, 0x42), Ok(44));
    assert_eq!(buf[44], 0);
    assert_eq!(buf[45..], file);
    // and beyond them the bytes that stood behind the font
    assert_eq!(add_mapping(&mut buf, 44, 0, 0x1F600), Ok(48));
    assert_eq!(listed(&buf[..48]), "0 41 1F600; 1 42 +41+30A");
    assert_eq!(buf[48..], file[3..]);
}

/// Every refusal that can come together with those behind it.
#[test]
fn orders() {
    let file = worked();
    let mut vfont2 = vec![0; 81];
    psf2_to_vfont2(&file, &mut vfont2).unwrap();
    let mut bare = file[..36].to_vec();
    bare[12] = 0;
    let mut bare_vfont2 = vfont2[..72].to_vec();
    bare_vfont2[12] = 0;
    let psf1 = [&[0x36, 0x04, 2, 1][..], &[0x18; 256], &[0xFF; 512]].concat();
    let far = [(0, 0x42), (usize::MAX, 0x42), (0, 0xD800), (usize::MAX, u32::MAX)];
    for call in BOTH {
        for (g, v) in far {
            // len goes before all, also on fonts with a refusal of their own
            for any in [&file, &vfont2, &bare, &psf1, &vec![], &vec![0; 50]] {
                for len in [any.len() + 1, 1 << 32, usize::MAX] {
                    refused(call, any, len, g, v, ASK, 0);
                }
            }
            for other in [&vfont2, &bare_vfont2, &psf1] {
                refused(call, other, other.len(), g, v, WRONG_KIND, 0);
            }
            refused(call, &bare, bare.len(), g, v, NO_TABLE, 0);
        }
        // a refusal of the font's own goes before the kind, the table and the question
        for (at, byte, number, place) in
            [(4, 1, VERSION, 4), (8, 31, HEADER_SIZE, 8), (16, 0, COUNT, 16), (24, 0, SHAPE, 24)]
        {
            for base in [&file, &vfont2, &bare, &bare_vfont2] {
                let mut own = base.clone();
                own[at] = byte;
                if number == SHAPE && base.len() > 45 {
                    refused(call, &own, own.len(), usize::MAX, 0xD800, ENTRY, 24);
                } else {
                    refused(call, &own, own.len(), usize::MAX, 0xD800, number, place);
                }
            }
        }
        refused(call, &bare, 35, usize::MAX, u32::MAX, BODY_CUT, 35);
        refused(call, &vfont2, 31, usize::MAX, u32::MAX, HEADER_CUT, 31);
        let bad = [&file[..36], &[0xFE, 0xFF, 0xFF]].concat();
        refused_so(call, &bad, 39, 2, 0xD800, Refusal::new(TABLE_BAD, 37).of_glyph(0));
        refused(call, &vec![0; LIMIT + 1], LIMIT + 1, 0, 0x41, TOO_LONG, LIMIT);
        // ASK for the glyph and the value
        for g in [2, 3, 256, 1 << 32, (1 << 32) + 1, usize::MAX] {
            refused(call, &lent(&file, 60), 45, g, 0x41, ASK, 0);
            refused(call, &lent(&file, 60), 45, g, 0x42, ASK, 0);
        }
        for v in [0xD800, 0xDBFF, 0xDC00, 0xDFFF, 0x110000, 0x200041, 0x8000_0041, u32::MAX] {
            for room in [45, 60] {
                refused(call, &lent(&file, room), 45, 0, v, ASK, 0);
            }
        }
    }
    // HAVE goes before ROOM; NOT THERE when the buffer is just full
    refused(add_mapping, &file, 45, 0, 0x41, HAVE, 0);
    refused(add_mapping, &file, 45, 0, 0x42, ROOM, 46);
    refused(drop_mapping, &file, 45, 0, 0x42, NOT_THERE, 0);
}

#[test]
fn the_longest_font() {
    for (left, v, fits) in [
        (0, 0, false),
        (1, 0x7F, true),
        (1, 0x80, false),
        (2, 0x7FF, true),
        (3, 0xFFFD, true),
        (3, 0x10000, false),
        (4, 0x10FFFD, true),
    ] {
        let file = near_limit(left);
        for room in [file.len(), LIMIT, LIMIT + 10] {
            let mut buf = lent(&file, room);
            if !fits {
                // goes before ROOM
                refused(add_mapping, &buf, file.len(), 7, v, SIZE, 0);
            } else if room < LIMIT {
                refused(add_mapping, &buf, file.len(), 7, v, ROOM, LIMIT);
            } else {
                assert_eq!(add_mapping(&mut buf, file.len(), 7, v), Ok(LIMIT));
                assert_eq!(find_value(&buf[..LIMIT], v), Ok(7));
                assert!(buf[LIMIT..].iter().all(|&b| b == 0xA5));
            }
        }
    }
    // HAVE and ASK go before SIZE; a drop makes room
    let mut file = near_limit(0);
    refused(add_mapping, &file, LIMIT, 4094, 0x42, HAVE, 0);
    refused(add_mapping, &file, LIMIT, 4095, 0x43, ASK, 0);
    refused(add_mapping, &file, LIMIT, 0, 0xDFFF, ASK, 0);
    assert_eq!(drop_mapping(&mut file, LIMIT, 4094, 0x42), Ok(LIMIT - 1));
    assert_eq!(file[LIMIT - 2..], [0xFF, 0]);
    assert_eq!(add_mapping(&mut file, LIMIT - 1, 4094, 0x43), Ok(LIMIT));
    assert_eq!(file[LIMIT - 2..], [0x43, 0xFF]);
    let mut other = near_limit(0);
    other[LIMIT - 2] = 0x43;
    assert!(file == other);
}

#[test]
fn glyph_numbers_of_two_bytes() {
    let file = font(32, 0x18, &[0xFF; 300]);
    for g in [0, 1, 43, 255, 256, 299] {
        let more = edited(add_mapping, &file, g, 0x20AC);
        assert_eq!(find_value(&more, 0x20AC), Ok(g));
        assert_eq!(edited(drop_mapping, &more, g, 0x20AC), file);
        for other in [0, 43, 255, 256, 299] {
            if other != g {
                refused(drop_mapping, &more, more.len(), other, 0x20AC, NOT_THERE, 0);
            }
        }
    }
    refused(add_mapping, &file, file.len(), 300, 0x20AC, ASK, 0);
}
