//! The comparison of two fonts on the samples (examples/fonts), through the static library: every kind of difference, their order, what
//! does not count, the whole buffer after each call, and every refusal with the font that it is of.

use lavandol::Difference::*;
use lavandol::*;

const LETTERS: &[u8] = include_bytes!("../../../examples/fonts/letters.psf1");
const PSF2: &[u8] = include_bytes!("../../../examples/fonts/small.psf2");
const VFONT2: &[u8] = include_bytes!("../../../examples/fonts/small.vfont2");
const BAD: &[u8] = include_bytes!("../../../examples/fonts/bad-table.psf2");

/// What stands in a buffer before a call.
const FRESH: u32 = 0xEEEE_EEEE;

/// The numbers of a kind as the header has them.
fn numbers(d: Difference) -> [u32; 2] {
    match d {
        OnlyInFirst(g) => [1, g as u32],
        OnlyInSecond(g) => [2, g as u32],
        Metrics(g) => [3, g as u32],
        Pixels(g) => [4, g as u32],
        Items(g) => [5, g as u32],
        Table => [6, 0],
    }
}

/// The differences, in a buffer with more room, in one with just the room, and what ROOM says of one number less.
fn found(first: &[u8], second: &[u8]) -> Vec<Difference> {
    let mut buffer = vec![FRESH; 2 * Difference::MOST + 3];
    let all = differences(first, second, &mut buffer).unwrap();
    let count = all.len();
    let all: Vec<Difference> = all.collect();
    assert_eq!(all.len(), count);
    let written: Vec<u32> = all.iter().flat_map(|&d| numbers(d)).collect();
    assert_eq!(buffer[..2 * count], written);
    assert!(buffer[2 * count..].iter().all(|&n| n == FRESH));

    let mut exact = vec![FRESH; 2 * count];
    assert_eq!(differences(first, second, &mut exact).unwrap().len(), count);
    assert_eq!(exact, written);
    if count > 0 {
        let room = (None, of(Reason::Room, 2 * count, None));
        assert_eq!(refused(first, second, 2 * count - 1), room);
        assert_eq!(refused(first, second, 0), room);
    }
    all
}

fn of(reason: Reason, place: usize, glyph: Option<usize>) -> Refusal {
    Refusal { reason, place, glyph }
}

/// A refused call, with a buffer of so many numbers, which stays.
fn refused(first: &[u8], second: &[u8], room: usize) -> (Option<Which>, Refusal) {
    let mut buffer = vec![FRESH; room];
    let e = differences(first, second, &mut buffer).expect_err("an answer where a refusal is due");
    assert!(buffer.iter().all(|&n| n == FRESH));
    (e.font, e.refusal)
}

fn converted(call: fn(&[u8], &mut [u8]) -> Result<usize, Refusal>, file: &[u8]) -> Vec<u8> {
    let mut out = vec![0; 65536];
    let length = call(file, &mut out).unwrap();
    out.truncate(length);
    out
}

fn with(file: &[u8], at: usize, byte: u8) -> Vec<u8> {
    let mut file = file.to_vec();
    assert_ne!(file[at], byte);
    file[at] = byte;
    file
}

/// small.psf2 with another table.
fn with_table(table: &[u8]) -> Vec<u8> {
    [&PSF2[..36], table].concat()
}

/// small.psf2 without its table.
fn bare() -> Vec<u8> {
    with(&PSF2[..36], 12, 0)
}

#[test]
fn a_font_agrees_with_itself_and_its_conversions() {
    let letters = converted(psf1_to_psf2, LETTERS);
    let letters3 = converted(psf2_to_vfont2, &letters);
    for fonts in
        [&[PSF2, VFONT2, &converted(psf2_to_vfont2, PSF2)][..], &[LETTERS, &letters, &letters3]]
    {
        for first in fonts {
            for second in fonts {
                assert_eq!(found(first, second), []);
                assert!(differences(first, second, &mut []).is_ok());
            }
        }
    }
}

/// Each byte of a small font changed to each other: what is still a font differs where its pixels, metrics or items do.
#[test]
fn every_byte() {
    for file in [PSF2, VFONT2] {
        let n = check(file).unwrap().count;
        for at in 0..file.len() {
            for byte in 0..=255 {
                if file[at] == byte {
                    continue;
                }
                let other = with(file, at, byte);
                if let Err(r) = check(&other) {
                    assert_eq!(refused(file, &other, 3), (Some(Which::Second), r));
                    assert_eq!(refused(&other, file, 3), (Some(Which::First), r));
                    continue;
                }
                let mut due = Vec::new();
                for g in 0..n {
                    if metrics(file, g) != metrics(&other, g) {
                        due.push(Metrics(g));
                    } else if pixels(file, g) != pixels(&other, g) {
                        due.push(Pixels(g));
                    }
                    if items(file, g) != items(&other, g) {
                        due.push(Items(g));
                    }
                }
                assert_eq!(found(file, &other), due, "{at} {byte}");
                assert_eq!(found(&other, file), due, "{at} {byte}");
            }
        }
    }
}

/// A glyph's pixels, one call each.
fn pixels(file: &[u8], g: usize) -> Vec<Vec<bool>> {
    let row = |y| (0..).map_while(|x| pixel(file, g, y, x).ok()).collect::<Vec<bool>>();
    (0..).map(row).take_while(|row| !row.is_empty()).collect()
}

fn items(file: &[u8], g: usize) -> Vec<Item> {
    (0..).map_while(|k| item(file, g, k).ok()).collect()
}

/// The third column is the last one; the bits after it are fillers.
#[test]
fn pixels_and_fillers() {
    for g in [0, 1] {
        for y in [0, 1] {
            let at = 32 + 2 * g + y;
            for bit in 0..8 {
                let other = with(PSF2, at, PSF2[at] ^ (0x80 >> bit));
                assert_eq!(found(PSF2, &other), if bit < 3 { vec![Pixels(g)] } else { vec![] });
            }
        }
    }
}

#[test]
fn metrics_and_missing_glyphs() {
    // entry 0 stands at 32: address, size, up, down, left, right, logical width
    assert_eq!(found(VFONT2, &with(VFONT2, 48, 4)), [Metrics(0)]);
    assert_eq!(found(PSF2, &with(VFONT2, 66, 4)), [Metrics(1)]);
    let shifted = with(&with(VFONT2, 40, 1), 42, 1);
    assert_eq!(found(&shifted, PSF2), [Metrics(0)]);
    let missing = with(VFONT2, 36, 0);
    assert_eq!(found(&missing, VFONT2), [Metrics(0)]);
    assert_eq!(found(PSF2, &missing), [Metrics(0)]);
    // whatever stands in the entry's other fields
    assert_eq!(found(&missing, &with(&with(&missing, 32, 9), 48, 9)), []);
}

#[test]
fn items_of_a_glyph() {
    for table in [
        &b"A\xFF\xC3\x85\xFF"[..],
        b"A\xFF\xC3\x85\xFEA\xFF",
        b"A\xFF\xC3\x85\xFEA\xFE\xCC\x8A\xFF",
    ] {
        assert_eq!(found(PSF2, &with_table(table)), [Items(1)]);
        assert_eq!(found(&with_table(table), VFONT2), [Items(1)]);
    }
    // a sequence of one value is not a single
    assert_eq!(found(PSF2, &with_table(b"\xFEA\xFF\xC3\x85\xFEA\xCC\x8A\xFF")), [Items(0)]);
    assert_eq!(found(PSF2, &with_table(b"\xFF\xFF")), [Items(0), Items(1)]);
}

/// A value of PSF1 is the number that it is in UTF-8; no UTF-8 has a surrogate.
#[test]
fn items_in_two_codings() {
    let units = converted(psf1_to_psf2, LETTERS);
    let at = check(LETTERS).unwrap().end;
    let g = (0..256).find(|&g| matches!(item(LETTERS, g, 0), Ok(Item::Single(_)))).unwrap();
    // each glyph before it has an end mark alone
    let surrogate = with(LETTERS, at + 2 * g + 1, 0xD8);
    assert!(matches!(item(&surrogate, g, 0), Ok(Item::Single(0xD800..=0xD8FF))));
    assert_eq!(found(&surrogate, &units), [Items(g)]);
    assert_eq!(found(LETTERS, &surrogate), [Items(g)]);
    assert_eq!(found(&surrogate, &surrogate), []);
}

#[test]
fn one_table_alone_comes_first() {
    assert_eq!(found(PSF2, &bare()), [Table]);
    assert_eq!(found(&bare(), VFONT2), [Table]);
    assert_eq!(found(&bare(), &bare()), []);
    assert_eq!(found(&with(&bare(), 35, 0), &with_table(b"\xFF\xFF")), [Table, Pixels(1)]);
}

/// One glyph more: its number is told, and nothing else of it.
#[test]
fn glyphs_of_one_font_alone() {
    let mut more = with(PSF2, 16, 3);
    more.splice(36..36, [0xE0, 0xE0]);
    more.extend(b"B\xFF");
    assert_eq!(found(PSF2, &more), [OnlyInSecond(2)]);
    assert_eq!(found(&more, VFONT2), [OnlyInFirst(2)]);
    let all: Vec<Difference> = (2..256).map(OnlyInFirst).collect();
    let pairs = found(LETTERS, PSF2);
    assert_eq!(pairs[pairs.len() - 254..], all);
    assert!(pairs.starts_with(&[Metrics(0)]) && pairs.contains(&Metrics(1)));
}

/// By glyph, and within it metrics or pixels before items.
#[test]
fn in_order() {
    let other = with_table(b"\xFF\xFF");
    let other = with(&with(&other, 32, 0), 34, 0);
    assert_eq!(found(PSF2, &other), [Pixels(0), Items(0), Pixels(1), Items(1)]);
    let missing = with(&with(VFONT2, 36, 0), 54, 0);
    // with no entry left that has a glyph the greatest height and width are 0
    let missing = with(&with(&missing, 24, 0), 28, 0);
    assert_eq!(found(&missing, &other), [Metrics(0), Items(0), Metrics(1), Items(1)]);
}

/// 4,096 glyphs that differ in pixels and items.
#[test]
fn the_most_there_are() {
    let font = |bitmap: u8, text: &[u8]| {
        let mut file = PSF2[..32].to_vec();
        for (at, number) in [(16, 4096), (20, 1), (24, 1), (28, 1)] {
            file[at..at + 4].copy_from_slice(&u32::to_le_bytes(number));
        }
        file.resize(32 + 4096, bitmap);
        file.extend(text.repeat(4096));
        file
    };
    let all: Vec<Difference> = (0..4096).flat_map(|g| [Pixels(g), Items(g)]).collect();
    assert_eq!(all.len(), Difference::MOST);
    assert_eq!(found(&font(0, b"\xFF"), &font(0x80, b"A\xFF")), all);
    assert_eq!(found(&font(0, b"\xFF"), &font(0x7F, b"\xFF")), []);
}

/// The first font's refusal, else the second's; ROOM last.
#[test]
fn refusals_in_their_order() {
    use Which::*;
    let long = vec![0; 1_048_577];
    for room in [0, 1, 9] {
        assert_eq!(refused(BAD, PSF2, room), (Some(First), of(Reason::TableBad, 39, Some(1))));
        assert_eq!(refused(PSF2, BAD, room), (Some(Second), of(Reason::TableBad, 39, Some(1))));
        assert_eq!(refused(&bare(), BAD, room), (Some(Second), of(Reason::TableBad, 39, Some(1))));
        assert_eq!(refused(BAD, &[], room), (Some(First), of(Reason::TableBad, 39, Some(1))));
        assert_eq!(refused(&[], BAD, room), (Some(First), of(Reason::Kind, 0, None)));
        assert_eq!(
            refused(LETTERS, &long, room),
            (Some(Second), of(Reason::TooLong, 1_048_576, None))
        );
        assert_eq!(
            refused(&long, &long, room),
            (Some(First), of(Reason::TooLong, 1_048_576, None))
        );
        assert_eq!(
            refused(&PSF2[..31], PSF2, room),
            (Some(First), of(Reason::HeaderCut, 31, None))
        );
    }
}

#[test]
fn told_with_the_font() {
    let told =
        |first: &[u8], second: &[u8]| differences(first, second, &mut []).unwrap_err().to_string();
    let bad = "Unicode table: no table begins so, at byte 39, in the description of glyph 1";
    assert_eq!(told(BAD, PSF2), format!("first font: {bad} (refusal 11)"));
    assert_eq!(told(PSF2, BAD), format!("second font: {bad} (refusal 11)"));
    let room = "buffer: it is too short, 2 numbers are needed (refusal 21)";
    assert_eq!(told(PSF2, &bare()), room);
    let e: Box<dyn std::error::Error> = differences(&[], PSF2, &mut []).unwrap_err().into();
    let kind = "file: it begins as no PSF1, PSF2 or vfont2 font does, at byte 0";
    assert_eq!(e.to_string(), format!("first font: {kind} (refusal 2)"));
}

/// An iterator that is used up in part counts what is left.
#[test]
fn counted_as_it_goes() {
    let mut buffer = [0; 4];
    let other = with_table(b"\xFF\xFF");
    let mut all = differences(PSF2, &other, &mut buffer).unwrap();
    assert_eq!((all.len(), all.next(), all.len()), (2, Some(Items(0)), 1));
    assert_eq!((all.next(), all.next(), all.len()), (Some(Items(1)), None, 0));
}
