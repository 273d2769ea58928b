//! Document 02's "Load as it arrives": the loader, and the text of its program.

mod common;

use common::worked;
use second::*;

const WORKED: &str = "72B54A8600000000200000000100000002000000\
                      020000000200000003000000A040E02041FFC385FE41CC8AFF";

fn text(input: &str) -> String {
    String::from_utf8(fontload(input.as_bytes())).unwrap()
}

/// Bytes as lines of so many bytes, each ended.
fn lines(bytes: &[u8], each: usize) -> String {
    let line = |piece: &[u8]| piece.iter().map(|b| format!("{b:02X}")).collect::<String>() + "\n";
    bytes.chunks(each).map(line).collect()
}

/// Lines of 128 digits, ended, that have 129 x `count` bytes: zeros, so no font.
fn zeros(count: usize) -> String {
    ("0".repeat(128) + "\n").repeat(count)
}

const NO_KIND: &str = "refused 2 0 4096\n";

#[test]
fn every_close_is_the_check() {
    let file = worked();
    for length in 0..=file.len() {
        let start = &file[..length];
        for each in [1, 2, 7, 64] {
            let mut loader = Loader::new();
            for piece in start.chunks(each) {
                assert_eq!(loader.feed(piece), Ok(()));
                assert_eq!(loader.feed(&[]), Ok(()));
            }
            assert_eq!(loader.close(), check(start));
        }
    }
}

#[test]
fn a_closed_loader_is_late() {
    let late = Refusal::new(22, 0);
    for file in [worked(), vec![]] {
        let mut loader = Loader::new();
        loader.feed(&file).unwrap();
        assert_eq!(loader.close().is_ok(), !file.is_empty());
        let closed = loader.clone();
        assert_eq!(loader.feed(&[]), Err(late));
        assert_eq!(loader.feed(&[1]), Err(late));
        assert_eq!(loader.close(), Err(late));
        assert_eq!(loader, closed);
    }
}

#[test]
fn frames() {
    assert_eq!(text(WORKED), "sound\n");
    assert_eq!(text(&format!("{WORKED}\n")), "sound\n");
    for each in 1..=64 {
        assert_eq!(text(&lines(&worked(), each)), "sound\n");
        assert_eq!(text(lines(&worked(), each).trim_end()), "sound\n");
    }
    assert_eq!(text(&lines(&worked()[..44], 8)), "refused 10 44 1\n");
    assert_eq!(text(&(lines(&worked(), 8) + "41\n")), "refused 12 45 4096\n");
    // empty lines are empty pieces
    assert_eq!(text(&format!("\n\n{}\n\n", lines(&worked(), 9).replace('\n', "\n\n"))), "sound\n");
    for nothing in ["", "\n", "\n\n\n"] {
        assert_eq!(text(nothing), NO_KIND);
    }
}

#[test]
fn bad_lines() {
    let bad = |line: &str, number: usize| {
        assert_eq!(text(line), format!("refused 23 {number} 4096\n"), "{line:?}");
    };
    for line in ["0", "000", "0g", "0G", "a0", "A0 ", " A0", "A0\r", "\r", "A0\t", "-1", "0x", "é"]
    {
        bad(line, 1);
        bad(&format!("{line}\n"), 1);
        bad(&format!("\n00\n{line}\n00\n"), 3);
        // wins over every refusal of the bytes before it, and over a sound font
        bad(&format!("{WORKED}\n{line}"), 2);
    }
    for line in ["/0", ":0", "@0", "F@", "G0", "`0", "f0", "0\0"] {
        bad(line, 1);
    }
    // the first bad line counts
    bad("00\n0\nxx\n", 2);
    assert_eq!(text(&"0".repeat(128)), NO_KIND);
    bad(&"0".repeat(127), 1);
    bad(&"0".repeat(129), 1);
    bad(&"0".repeat(130), 1);
    // TOO LONG is a refusal of the bytes before it
    let long = zeros(16_385);
    assert_eq!(text(&long), "refused 1 1048576 4096\n");
    bad(&(long.clone() + "0"), 16_386);
    assert_eq!(text(&zeros(16_384)), NO_KIND);
}

/// 4,194,304 = 129 x 32,513 + 127.
#[test]
fn the_limit() {
    let front = zeros(32_513);
    let rest = LOADER_LIMIT - front.len();
    assert_eq!(rest, 127);
    let long = "refused 1 1048576 4096\n";
    // at the limit all is read: an unended last line too
    assert_eq!(text(&(front.clone() + &"0".repeat(126) + "\n")), long);
    assert_eq!(text(&(front.clone() + "\n" + &"0".repeat(126))), long);
    assert_eq!(text(&(front.clone() + &"0".repeat(127))), "refused 23 32514 4096\n");
    // one byte more
    assert_eq!(text(&(front.clone() + &"0".repeat(126) + "\n\n")), "too big\n");
    assert_eq!(text(&(front.clone() + &"0".repeat(128))), "too big\n");
    // a line whose newline is the last byte within the limit is judged, the next isn't
    assert_eq!(text(&(front.clone() + &"x".repeat(126) + "\n\n")), "refused 23 32514 4096\n");
    assert_eq!(text(&(front.clone() + &"x".repeat(127) + "\n")), "too big\n");
    assert_eq!(text(&(front.clone() + &"0".repeat(126) + "\nx")), "too big\n");
    // bad lines within the limit count, however long the input
    assert_eq!(text(&("0\n".to_string() + &zeros(40_000))), "refused 23 1 4096\n");
    // a font that is whole within the limit
    let empty = "\n".repeat(LOADER_LIMIT - WORKED.len());
    assert_eq!(text(&(empty.clone() + WORKED)), "sound\n");
    assert_eq!(text(&(WORKED.to_string() + &empty)), "sound\n");
    assert_eq!(text(&(WORKED.to_string() + &empty + "\n")), "too big\n");
    assert_eq!(text(&(empty + "\n" + WORKED)), "too big\n");
    // one line alone, never ended
    assert_eq!(text(&"x".repeat(LOADER_LIMIT)), "refused 23 1 4096\n");
    assert_eq!(text(&"x".repeat(LOADER_LIMIT + 1)), "too big\n");
}
