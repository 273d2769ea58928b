//! Document 02's "What changed since Friday?": each kind of pair, their order, what does not
//! count, and the refusals in their order.

mod common;

use common::worked;
use second::*;

const FRESH: u32 = 0xA5A5_A5A5;

/// The pairs. The buffer has just the room for them, then more, then one number less, and
/// keeps what stands behind them, or all of it.
fn compared(first: &[u8], second: &[u8]) -> Vec<(u32, u32)> {
    let mut out = [FRESH; 20_000];
    let count = differences(first, second, &mut out).unwrap();
    assert!(out[2 * count..].iter().all(|&n| n == FRESH));
    let mut exact = vec![FRESH; 2 * count];
    assert_eq!(differences(first, second, &mut exact), Ok(count));
    assert_eq!(exact, out[..2 * count]);
    if count > 0 {
        let mut short = vec![FRESH; 2 * count - 1];
        let refusal = Refusal::new(ROOM, 2 * count);
        let answer = differences(first, second, &mut short);
        assert_eq!(answer, Err(NotCompared { font: 0, refusal }));
        assert!(short.iter().all(|&n| n == FRESH), "a refused call wrote");
    }
    exact.chunks(2).map(|pair| (pair[0], pair[1])).collect()
}

/// The call is refused so, whatever the room, and the buffer stays.
fn refused(first: &[u8], second: &[u8], font: u32, refusal: Refusal) {
    for room in [0, 1, 2, 9] {
        let mut out = vec![FRESH; room];
        assert_eq!(differences(first, second, &mut out), Err(NotCompared { font, refusal }));
        assert!(out.iter().all(|&n| n == FRESH), "a refused call wrote");
    }
}

fn numbers(some: &[usize]) -> Vec<u8> {
    some.iter().flat_map(|&n| (n as u32).to_le_bytes()).collect()
}

/// A PSF2 font of height 1 and this width with these bitmaps.
fn psf2(header: usize, width: usize, bitmaps: &[u8], table: Option<&[u8]>) -> Vec<u8> {
    let c = width.div_ceil(8);
    let mut file = vec![0x72, 0xB5, 0x4A, 0x86];
    file.extend(numbers(&[0, header, table.is_some() as usize, bitmaps.len() / c, c, 1, width]));
    file.resize(header, 0x77);
    file.extend_from_slice(bitmaps);
    file.extend_from_slice(table.unwrap_or(&[]));
    file
}

/// A vfont2 font: each entry's address, size and metrics.
fn vfont2(entries: &[(u32, u32, [i16; 5])], bitmaps: &[u8], table: Option<&[u8]>) -> Vec<u8> {
    let drawn = || entries.iter().filter(|e| e.1 > 0).map(|e| e.2.map(|m| m as usize));
    let height = drawn().map(|m| m[0].wrapping_add(m[1])).max().unwrap_or(0);
    let width = drawn().map(|m| m[2].wrapping_add(m[3])).max().unwrap_or(0);
    let mut file = vec![0x27, 0x5B, 0xA4, 0x68];
    let flags = table.is_some() as usize;
    file.extend(numbers(&[0, 32, flags, entries.len(), bitmaps.len(), height, width]));
    for (address, size, metrics) in entries {
        file.extend(numbers(&[*address as usize, *size as usize]));
        file.extend(metrics.iter().flat_map(|m| m.to_le_bytes()));
    }
    file.extend_from_slice(bitmaps);
    file.extend_from_slice(table.unwrap_or(&[]));
    assert!(check(&file).is_ok());
    file
}

/// A PSF1 font of height 1, all bitmaps 18, with the units given as glyph 3's description.
fn psf1(units: &[u16]) -> Vec<u8> {
    let mut file = vec![0x36, 0x04, 2, 1];
    file.resize(260, 0x18);
    for g in 0..256 {
        if g == 3 {
            file.extend(units.iter().flat_map(|u| u.to_le_bytes()));
        }
        file.extend([0xFF, 0xFF]);
    }
    file
}

/// The same as PSF2, the description as UTF-8.
fn psf1_as_psf2(utf8: &[u8]) -> Vec<u8> {
    let table = [&[0xFF; 3], utf8, &[0xFF; 253]].concat();
    psf2(32, 8, &[0x18; 256], Some(&table))
}

fn converted(call: fn(&[u8], &mut [u8]) -> Result<usize, Refusal>, file: &[u8]) -> Vec<u8> {
    let mut out = vec![0; 6000];
    let length = call(file, &mut out).unwrap();
    out.truncate(length);
    out
}

/// A font with another byte at an offset.
fn with(file: &[u8], at: usize, byte: u8) -> Vec<u8> {
    let mut file = file.to_vec();
    assert_ne!(file[at], byte);
    file[at] = byte;
    file
}

#[test]
fn a_font_and_itself() {
    let vfont2 = converted(psf2_to_vfont2, &worked());
    for file in [worked(), vfont2, psf1(&[0xDEAD]), psf2(32, 3, &[1, 2], None)] {
        assert_eq!(compared(&file, &file), []);
    }
}

/// Kind, header size and addresses don't count.
#[test]
fn a_font_and_its_conversions() {
    let file = worked();
    let vfont2 = converted(psf2_to_vfont2, &file);
    assert_eq!(compared(&file, &vfont2), []);
    assert_eq!(compared(&vfont2, &file), []);
    let small = psf1(&[0x41, 0xFFFE, 0x41, 0x30A]);
    let psf2 = converted(psf1_to_psf2, &small);
    let vfont2 = converted(psf2_to_vfont2, &psf2);
    for other in [&psf2, &vfont2] {
        assert_eq!(compared(&small, other), []);
        assert_eq!(compared(other, &small), []);
    }
    let mut wide = psf2.clone();
    wide[8] = 40;
    wide.splice(32..32, [0x99; 8]);
    assert_eq!(compared(&psf2, &wide), []);
    assert_eq!(compared(&wide, &small), []);
}

/// Two glyphs that share bytes, and the same with bytes of their own and a gap.
#[test]
fn addresses_do_not_count() {
    let metrics = [1, 0, 0, 8, 8];
    let shared = vfont2(&[(0, 1, metrics), (0, 1, metrics)], &[0x5A], None);
    let apart = vfont2(&[(3, 1, metrics), (1, 1, metrics)], &[9, 0x5A, 8, 0x5A, 7], None);
    assert_eq!(compared(&shared, &apart), []);
    let bare = psf2(32, 8, &[0x5A; 2], None);
    assert_eq!(compared(&shared, &bare), []);
    let other = vfont2(&[(3, 1, metrics), (2, 1, metrics)], &[9, 0x5A, 8, 0x5A, 7], None);
    assert_eq!(compared(&shared, &other), [(4, 1)]);
}

#[test]
fn pixels() {
    let file = psf2(32, 3, &[0xA0, 0x40, 0xE0], None);
    for (bit, found) in [(0x80, true), (0x40, true), (0x20, true), (0x10, false), (0x01, false)] {
        for g in 0..3 {
            let other = with(&file, 32 + g, file[32 + g] ^ bit);
            let pairs = if found { vec![(4, g as u32)] } else { vec![] };
            assert_eq!(compared(&file, &other), pairs);
            assert_eq!(compared(&other, &file), pairs);
        }
    }
    let every = psf2(32, 3, &[0x5F, 0xBF, 0x1F], None);
    assert_eq!(compared(&file, &every), [(4, 0), (4, 1), (4, 2)]);
}

/// A row of nine pixels fills two bytes, of which the second has seven fillers.
#[test]
fn fillers_of_a_second_byte() {
    let file = psf2(32, 9, &[0xFF, 0x80, 0, 0], None);
    assert_eq!(compared(&file, &with(&file, 33, 0xFF)), []);
    assert_eq!(compared(&file, &with(&file, 33, 0x7F)), [(4, 0)]);
    assert_eq!(compared(&file, &with(&file, 35, 0x7F)), []);
    assert_eq!(compared(&file, &with(&file, 35, 0x80)), [(4, 1)]);
    assert_eq!(compared(&file, &with(&file, 34, 0x01)), [(4, 1)]);
}

/// Other metrics are one pair, whether or not the pixels differ too.
#[test]
fn metrics() {
    let one = |metrics| vfont2(&[(0, 1, metrics)], &[0x5A], None);
    let file = one([1, 0, 0, 8, 8]);
    for metrics in [[0, 1, 0, 8, 8], [2, -1, 0, 8, 8], [1, 0, 1, 7, 8], [1, 0, 0, 7, 8]] {
        assert_eq!(compared(&file, &one(metrics)), [(3, 0)]);
    }
    // the logical width alone
    assert_eq!(compared(&file, &one([1, 0, 0, 8, 9])), [(3, 0)]);
    assert_eq!(compared(&file, &one([1, 0, 0, 8, -8])), [(3, 0)]);
    // against the font whose glyphs have (height, 0, 0, width, width)
    assert_eq!(compared(&psf2(32, 8, &[0x5A], None), &file), []);
    assert_eq!(compared(&psf2(32, 8, &[0x5B], None), &file), [(4, 0)]);
    assert_eq!(compared(&psf2(32, 7, &[0x5B], None), &file), [(3, 0)]);
    assert_eq!(
        compared(&psf2(32, 8, &[1, 2], None), &psf2(32, 7, &[1, 2], None)),
        [(3, 0), (3, 1)]
    );
}

#[test]
fn missing_glyphs() {
    let (drawn, none) = ((0, 1, [1, 0, 0, 8, 8]), (0, 0, [0; 5]));
    let file = vfont2(&[drawn, none, drawn], &[0x5A], None);
    // free fields of an entry of size 0
    let free = vfont2(&[drawn, (77, 0, [1, 0, 0, 8, 9]), drawn], &[0x5A], None);
    assert_eq!(compared(&file, &free), []);
    let all = vfont2(&[drawn; 3], &[0x5A], None);
    assert_eq!(compared(&file, &all), [(3, 1)]);
    assert_eq!(compared(&all, &free), [(3, 1)]);
    let fewer = vfont2(&[none, none, drawn], &[0x5A], None);
    assert_eq!(compared(&file, &fewer), [(3, 0)]);
    assert_eq!(compared(&fewer, &psf2(32, 8, &[0x5A; 3], None)), [(3, 0), (3, 1)]);
}

#[test]
fn items() {
    let font = |table: &[u8]| psf2(32, 8, &[1, 2], Some(table));
    let file = font(b"AB\xFEA\xCC\x8A\xFF\xFF");
    for other in [
        &b"A\xFEA\xCC\x8A\xFF\xFF"[..],
        b"ABB\xFEA\xCC\x8A\xFF\xFF",
        b"BA\xFEA\xCC\x8A\xFF\xFF",
        b"AB\xFEA\xFE\xCC\x8A\xFF\xFF",
        b"AB\xFEA\xFF\xFF",
        b"AB\xFEA\xCC\x8B\xFF\xFF",
        b"\xFF\xFF",
    ] {
        assert_eq!(compared(&file, &font(other)), [(5, 0)]);
        assert_eq!(compared(&font(other), &file), [(5, 0)]);
    }
    assert_eq!(compared(&file, &font(b"AB\xFEA\xCC\x8A\xFFC\xFF")), [(5, 1)]);
    assert_eq!(compared(&file, &font(b"\xFFAB\xFEA\xCC\x8A\xFF")), [(5, 0), (5, 1)]);
    // a single is not a sequence of one value
    assert_eq!(compared(&font(b"A\xFF\xFF"), &font(b"\xFEA\xFF\xFF")), [(5, 0)]);
    assert_eq!(compared(&font(b"AB\xFF\xFF"), &font(b"A\xFEB\xFF\xFF")), [(5, 0)]);
}

/// PSF1's values are numbers like UTF-8's.
#[test]
fn items_of_both_codings() {
    let file = psf1(&[0x41, 0x20AC, 0xFFFE, 0xFFFD]);
    assert_eq!(compared(&file, &psf1_as_psf2(b"A\xE2\x82\xAC\xFE\xEF\xBF\xBD")), []);
    assert_eq!(compared(&file, &psf1_as_psf2(b"A\xE2\x82\xAD\xFE\xEF\xBF\xBD")), [(5, 3)]);
    assert_eq!(compared(&file, &psf1_as_psf2(b"A\xE2\x82\xAC\xEF\xBF\xBD")), [(5, 3)]);
    assert_eq!(compared(&psf1_as_psf2(b""), &file), [(5, 3)]);
    // the upper half counts
    assert_eq!(compared(&psf1(&[0x41]), &psf1_as_psf2(b"\xF0\x90\x81\x81")), [(5, 3)]);
}

/// No UTF-8 has a surrogate, so there PSF1 differs; from another PSF1 it need not.
#[test]
fn surrogates() {
    let file = psf1(&[0xDEAD]);
    assert_eq!(compared(&file, &psf1(&[0xDEAD])), []);
    assert_eq!(compared(&file, &psf1(&[0xDEAE])), [(5, 3)]);
    assert_eq!(compared(&file, &psf1_as_psf2(b"")), [(5, 3)]);
    // two surrogates are no value above FFFF
    let pair = psf1(&[0xD83D, 0xDE00]);
    assert_eq!(compared(&pair, &psf1_as_psf2("\u{1F600}".as_bytes())), [(5, 3)]);
}

#[test]
fn one_table() {
    let bare = psf2(32, 8, &[1, 2], None);
    let empty = psf2(32, 8, &[1, 2], Some(&[0xFF, 0xFF]));
    let listed = psf2(32, 8, &[1, 2], Some(b"A\xFFB\xFF"));
    assert_eq!(compared(&bare, &empty), [(6, 0)]);
    assert_eq!(compared(&listed, &bare), [(6, 0)]);
    assert_eq!(compared(&empty, &listed), [(5, 0), (5, 1)]);
    // it comes before all others
    let other = psf2(32, 8, &[1, 3, 4], None);
    assert_eq!(compared(&listed, &other), [(6, 0), (4, 1), (2, 2)]);
    assert_eq!(compared(&other, &listed), [(6, 0), (4, 1), (1, 2)]);
    assert_eq!(compared(&bare, &other), [(4, 1), (2, 2)]);
    // PSF1: bit 1 or bit 2 of the mode
    let mut bare = psf1(&[0x41]);
    bare.truncate(260);
    bare[2] = 0;
    assert_eq!(compared(&psf1(&[0x41]), &bare), [(6, 0)]);
    assert_eq!(compared(&psf1(&[0x41]), &with(&psf1(&[0x41]), 2, 4)), []);
}

/// Numbers below both counts are compared, the others are told alone.
#[test]
fn other_counts() {
    let two = psf2(32, 8, &[1, 2], Some(b"A\xFFB\xFF"));
    let four = psf2(32, 8, &[1, 3, 5, 6], Some(b"A\xFFC\xFFD\xFF\xFF"));
    assert_eq!(compared(&two, &four), [(4, 1), (5, 1), (2, 2), (2, 3)]);
    assert_eq!(compared(&four, &two), [(4, 1), (5, 1), (1, 2), (1, 3)]);
    // a glyph that is missing is one for all that
    let missing = vfont2(&[(0, 0, [0; 5]), (0, 0, [0; 5])], &[], None);
    let one = vfont2(&[(0, 0, [0; 5])], &[], None);
    assert_eq!(compared(&missing, &one), [(1, 1)]);
    assert_eq!(compared(&one, &missing), [(2, 1)]);
    let mut more = psf1(&[]);
    more[2] = 3;
    more.splice(260..260, [0x18; 256]);
    more.extend([0xFF; 512]);
    let pairs = compared(&psf1(&[]), &more);
    assert_eq!(pairs, (256..512).map(|g| (2, g)).collect::<Vec<_>>());
}

/// By glyph, and by kind within it.
#[test]
fn two_pairs_of_a_glyph() {
    let file = psf2(32, 8, &[1, 2], Some(b"A\xFFB\xFF"));
    let other = psf2(32, 8, &[3, 4], Some(b"\xFF\xFF"));
    assert_eq!(compared(&file, &other), [(4, 0), (5, 0), (4, 1), (5, 1)]);
    let other = psf2(32, 7, &[1, 2], Some(b"\xFFB\xFF"));
    assert_eq!(compared(&file, &other), [(3, 0), (5, 0), (3, 1)]);
    // a missing glyph has a description
    let none = vfont2(&[(0, 0, [0; 5]), (0, 1, [1, 0, 0, 8, 8])], &[2], Some(b"B\xFFB\xFF"));
    assert_eq!(compared(&file, &none), [(3, 0), (5, 0)]);
    let same = vfont2(&[(0, 0, [0; 5]), (0, 0, [0; 5])], &[], Some(b"A\xFFB\xFF"));
    assert_eq!(compared(&none, &same), [(5, 0), (3, 1)]);
}

/// 4,096 glyphs, all of which differ in pixels and items: the most pairs there are.
#[test]
fn the_most_pairs() {
    let file = psf2(32, 8, &[0; 4096], Some(&[0xFF; 4096]));
    let other = psf2(32, 8, &[1; 4096], Some(&b"A\xFF".repeat(4096)));
    let pairs: Vec<(u32, u32)> = (0..4096).flat_map(|g| [(4, g), (5, g)]).collect();
    assert_eq!(compared(&file, &other), pairs);
    let one = psf2(32, 8, &[0], Some(&[0xFF]));
    assert_eq!(compared(&one, &other).len(), 2 + 4095);
}

/// The first font's refusal, else the second's; each goes before ROOM.
#[test]
fn refusals() {
    let (file, bare) = (worked(), psf2(32, 8, &[1, 2], None));
    let (junk, cut, bad) = (vec![0; 40], &file[..44], with(&file, 36, 0x80));
    refused(&junk, &file, 1, Refusal::new(KIND, 0));
    refused(&file, &junk, 2, Refusal::new(KIND, 0));
    refused(&junk, cut, 1, Refusal::new(KIND, 0));
    refused(cut, &junk, 1, Refusal::new(TABLE_CUT, 44).of_glyph(1));
    refused(&bad, cut, 1, Refusal::new(TABLE_BAD, 36).of_glyph(0));
    refused(&bare, &bad, 2, Refusal::new(TABLE_BAD, 36).of_glyph(0));
    refused(&bad, &bare, 1, Refusal::new(TABLE_BAD, 36).of_glyph(0));
    refused(&[], &[], 1, Refusal::new(KIND, 0));
    refused(&file, &[], 2, Refusal::new(KIND, 0));
    refused(&vec![0; LIMIT + 1], &junk, 1, Refusal::new(TOO_LONG, LIMIT));
    refused(&file, &vec![0; LIMIT + 1], 2, Refusal::new(TOO_LONG, LIMIT));
    refused(&[&bare[..], &[0]].concat(), &file, 1, Refusal::new(TRAILING, 34));
}

/// Any room will do where nothing differs.
#[test]
fn no_room_needed() {
    assert_eq!(differences(&worked(), &worked(), &mut []), Ok(0));
}
