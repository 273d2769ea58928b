//! The two edits on the sample fonts (examples/fonts), through the static library: answers, the whole buffer after each, and every
//! refusal in its order with the buffer as it was.

use lavandol::*;

const LETTERS: &[u8] = include_bytes!("../../../examples/fonts/letters.psf1");
const PSF2: &[u8] = include_bytes!("../../../examples/fonts/small.psf2");
const VFONT2: &[u8] = include_bytes!("../../../examples/fonts/small.vfont2");
const BAD: &[u8] = include_bytes!("../../../examples/fonts/bad-table.psf2");

/// Values of 1 to 4 bytes, first and last of each length, that small.psf2 lists nowhere.
const VALUES: [(u32, usize); 9] = [
    (0, 1),
    (0x7F, 1),
    (0x80, 2),
    (0x7FF, 2),
    (0x800, 3),
    (0xD7FF, 3),
    (0xFFFD, 3),
    (0x10000, 4),
    (0x10FFFD, 4),
];

/// What stands behind a font in its buffer.
const BEHIND: u8 = 0xEE;

type Edit = fn(&mut [u8], usize, usize, u32) -> Result<usize, Refusal>;
const EDITS: [Edit; 2] = [add_mapping, drop_mapping];

/// A font at the front of a buffer of `room` bytes.
fn buffer(file: &[u8], room: usize) -> Vec<u8> {
    let mut buffer = file.to_vec();
    buffer.resize(room, BEHIND);
    buffer
}

/// An edit that is refused, in a buffer of `room` bytes, which stays.
fn refused(
    edit: Edit,
    file: &[u8],
    room: usize,
    len: usize,
    g: usize,
    v: u32,
) -> (Reason, usize, Option<usize>) {
    let before = buffer(file, room);
    let mut after = before.clone();
    let r = edit(&mut after, len, g, v).expect_err("an answer where a refusal is due");
    assert_eq!(after, before);
    (r.reason, r.place, r.glyph)
}

/// small.psf2 with another table.
fn with_table(table: &[u8]) -> Vec<u8> {
    [&PSF2[..36], table].concat()
}

/// letters.psf1 as PSF2, with some of its 256 glyphs described.
fn letters() -> Vec<u8> {
    let mut out = vec![0; 4096];
    let length = psf1_to_psf2(LETTERS, &mut out).unwrap();
    out.truncate(length);
    out
}

fn items(file: &[u8], g: usize) -> Vec<Item> {
    (0..).map_while(|k| item(file, g, k).ok()).collect()
}

#[test]
fn added_looked_up_and_dropped() {
    for (v, bytes) in VALUES {
        for g in [0, 1] {
            let mut b = buffer(PSF2, 60);
            let len = add_mapping(&mut b, 45, g, v).unwrap();
            assert_eq!(len, 45 + bytes);
            assert_eq!(find_value(&b[..len], v), Ok(g));
            assert_eq!(items(&b[..len], g)[1], Item::Single(v));
            assert_eq!(items(&b[..len], 1 - g), items(PSF2, 1 - g));
            assert_eq!(b[len..], [BEHIND; 15][bytes..]);
            assert_eq!(drop_mapping(&mut b, len, g, v), Ok(45));
            assert_eq!(b[..45], *PSF2);
            assert_eq!(b[45..len], [0; 4][..bytes]);
            assert_eq!(b[len..], [BEHIND; 15][bytes..]);
        }
    }
}

/// Behind the singles and before the sequences.
#[test]
fn bytes_after_an_edit() {
    let mut b = buffer(PSF2, 48);
    assert_eq!(add_mapping(&mut b, 45, 1, 0x212B), Ok(48));
    let both = with_table(b"A\xFF\xC3\x85\xE2\x84\xAB\xFEA\xCC\x8A\xFF");
    assert_eq!(b, both);
    assert_eq!(drop_mapping(&mut b, 48, 1, 0xC5), Ok(46));
    assert_eq!(b, [&with_table(b"A\xFF\xE2\x84\xAB\xFEA\xCC\x8A\xFF")[..], &[0, 0]].concat());
    assert_eq!(drop_mapping(&mut b, 46, 0, 0x41), Ok(45));
    assert_eq!(b, [&with_table(b"\xFF\xE2\x84\xAB\xFEA\xCC\x8A\xFF")[..], &[0, 0, 0]].concat());
}

/// The first of two listings goes, one in a sequence is none.
#[test]
fn the_first_listing_is_dropped() {
    let file = with_table(b"ABA\xFEA\xFFA\xFF");
    let mut b = file.clone();
    assert_eq!(drop_mapping(&mut b, 44, 0, 0x41), Ok(43));
    assert_eq!(b[36..], *b"BA\xFEA\xFFA\xFF\0");
    assert_eq!(drop_mapping(&mut b, 43, 0, 0x41), Ok(42));
    assert_eq!(b[36..], *b"B\xFEA\xFFA\xFF\0\0");
    assert_eq!(refused(drop_mapping, &b, 44, 42, 0, 0x41), (Reason::NotThere, 0, None));
    assert_eq!(drop_mapping(&mut b, 42, 1, 0x41), Ok(41));
    assert_eq!(b[36..], *b"B\xFEA\xFF\xFF\0\0\0");
}

/// A value that the glyph has in a sequence alone is added as a single.
#[test]
fn a_value_in_a_sequence_is_not_listed() {
    for (v, table) in [
        (0x41, &b"A\xFF\xC3\x85A\xFEA\xCC\x8A\xFF"[..]),
        (0x30A, b"A\xFF\xC3\x85\xCC\x8A\xFEA\xCC\x8A\xFF"),
    ] {
        let mut b = buffer(PSF2, 36 + table.len());
        assert_eq!(add_mapping(&mut b, 45, 1, v), Ok(36 + table.len()));
        assert_eq!(b[36..], *table);
    }
}

/// Each glyph of a font with 256 gets a value and loses it; extra header bytes stay.
#[test]
fn every_glyph_of_many() {
    let mut wide = letters();
    wide[8] = 35;
    wide.splice(32..32, *b"xyz");
    for file in [letters(), wide] {
        let len = file.len();
        for g in 0..256 {
            let mut b = buffer(&file, len + 3);
            assert_eq!(add_mapping(&mut b, len, g, 0x20AC), Ok(len + 3));
            assert_eq!(find_value(&b, 0x20AC), Ok(g));
            assert_eq!(items(&b, g).len(), items(&file, g).len() + 1);
            assert_eq!(drop_mapping(&mut b, len + 3, g, 0x20AC), Ok(len));
            assert_eq!(b, [&file[..], &[0; 3]].concat());
        }
    }
}

/// Whatever stands behind the font in the buffer is no part of it.
#[test]
fn a_font_shorter_than_its_buffer() {
    for room in 46..60 {
        let mut b = buffer(PSF2, room);
        assert_eq!(refused(add_mapping, PSF2, room, room, 0, 0x42), (Reason::Trailing, 45, None));
        assert_eq!(add_mapping(&mut b, 45, 0, 0x42), Ok(46));
        assert_eq!(b[46..], vec![BEHIND; room - 46]);
    }
    assert_eq!(refused(add_mapping, PSF2, 45, 44, 0, 0x42), (Reason::TableCut, 44, Some(1)));
}

#[test]
fn length_above_the_buffer_comes_first() {
    for edit in EDITS {
        for file in [PSF2, BAD, LETTERS, &[]] {
            let room = file.len();
            for len in [room + 1, 1 << 20, usize::MAX] {
                assert_eq!(refused(edit, file, room, len, 9, u32::MAX), (Reason::Ask, 0, None));
            }
        }
    }
}

#[test]
fn the_fonts_own_then_kind_then_table() {
    let [mut bare, mut bare_vfont2] = [PSF2[..36].to_vec(), VFONT2[..72].to_vec()];
    (bare[12], bare_vfont2[12]) = (0, 0);
    for edit in EDITS {
        for (g, v) in [(0, 0x41), (2, 0x41), (0, 0xD800), (9, u32::MAX)] {
            assert_eq!(refused(edit, BAD, 45, 45, g, v), (Reason::TableBad, 39, Some(1)));
            assert_eq!(refused(edit, &[], 0, 0, g, v), (Reason::Kind, 0, None));
            assert_eq!(refused(edit, PSF2, 45, 31, g, v), (Reason::HeaderCut, 31, None));
            for file in [LETTERS, VFONT2, &bare_vfont2] {
                let len = file.len();
                assert_eq!(refused(edit, file, len, len, g, v), (Reason::WrongKind, 0, None));
            }
            assert_eq!(refused(edit, &bare, 36, 36, g, v), (Reason::NoTable, 0, None));
        }
    }
}

#[test]
fn glyph_and_value_are_asked_for() {
    for edit in EDITS {
        for g in [2, 256, 1 << 32, usize::MAX] {
            assert_eq!(refused(edit, PSF2, 45, 45, g, 0x41), (Reason::Ask, 0, None));
        }
        for v in [0xD800, 0xDBFF, 0xDC00, 0xDFFF, 0x110000, 0x1000041, u32::MAX] {
            assert_eq!(refused(edit, PSF2, 45, 45, 0, v), (Reason::Ask, 0, None));
        }
    }
}

/// A noncharacter can't be added, whatever the room, and is never there to be dropped.
#[test]
fn noncharacters() {
    for v in [0xFDD0, 0xFDEF, 0xFFFE, 0xFFFF, 0x1FFFE, 0x1FFFF, 0x10FFFE, 0x10FFFF] {
        for room in [45, 60] {
            for g in [0, 1] {
                assert_eq!(refused(add_mapping, PSF2, room, 45, g, v), (Reason::Ask, 0, None));
                assert_eq!(
                    refused(drop_mapping, PSF2, room, 45, g, v),
                    (Reason::NotThere, 0, None)
                );
            }
            assert_eq!(refused(drop_mapping, PSF2, room, 45, 2, v), (Reason::Ask, 0, None));
        }
    }
    for v in [0xFDCF, 0xFDF0, 0xFFFD, 0x1FFFD, 0x20000, 0x10FFFD] {
        let mut b = buffer(PSF2, 60);
        let len = add_mapping(&mut b, 45, 0, v).unwrap();
        assert_eq!(find_value(&b[..len], v), Ok(0));
        assert_eq!(drop_mapping(&mut b, len, 0, v), Ok(45));
    }
}

/// HAVE comes before ROOM.
#[test]
fn listed_already_or_not_there() {
    assert_eq!(refused(add_mapping, PSF2, 45, 45, 0, 0x41), (Reason::Have, 0, None));
    assert_eq!(refused(add_mapping, PSF2, 60, 45, 1, 0xC5), (Reason::Have, 0, None));
    for (g, v) in [(0, 0x42), (0, 0xC5), (1, 0x41), (1, 0x30A), (0, 0x10FFFD)] {
        assert_eq!(refused(drop_mapping, PSF2, 45, 45, g, v), (Reason::NotThere, 0, None));
    }
}

#[test]
fn room_tells_the_size_needed() {
    for (v, bytes) in VALUES {
        for room in 45..45 + bytes {
            assert_eq!(
                refused(add_mapping, PSF2, room, 45, 1, v),
                (Reason::Room, 45 + bytes, None)
            );
        }
        let mut b = buffer(PSF2, 45 + bytes);
        assert_eq!(add_mapping(&mut b, 45, 1, v), Ok(45 + bytes));
    }
}

/// 128 glyphs of 8,160 bytes, a header of 3,960 and a table up to the limit: SIZE comes before
/// ROOM, and the limit itself is a font.
#[test]
fn a_font_at_the_limit() {
    let limit = 1_048_576;
    let mut file = PSF2[..32].to_vec();
    for (at, number) in [(8, 3960), (16, 128), (20, 8160), (24, 255), (28, 255)] {
        file[at..at + 4].copy_from_slice(&u32::to_le_bytes(number));
    }
    file.resize(3960 + 128 * 8160, 0);
    file.resize(limit - 129, 0x41);
    file.extend([0xFF; 128]);
    assert_eq!(file.len(), limit - 1);
    for (room, v) in [(limit - 1, 0xC5), (limit + 4, 0xC5), (limit + 4, 0x10000)] {
        assert_eq!(refused(add_mapping, &file, room, limit - 1, 127, v), (Reason::Size, 0, None));
    }
    assert_eq!(
        refused(add_mapping, &file, limit - 1, limit - 1, 0, 0x42),
        (Reason::Room, limit, None)
    );
    let mut b = buffer(&file, limit + 4);
    assert_eq!(add_mapping(&mut b, limit - 1, 127, 0x42), Ok(limit));
    assert_eq!(refused(add_mapping, &b, limit + 4, limit, 0, 0x42), (Reason::Size, 0, None));
    assert_eq!(
        refused(add_mapping, &b, limit + 4, limit + 1, 0, 0x42),
        (Reason::TooLong, limit, None)
    );
    assert_eq!(drop_mapping(&mut b, limit, 127, 0x42), Ok(limit - 1));
    assert_eq!(b[..limit], [&file[..], &[0]].concat());
}
