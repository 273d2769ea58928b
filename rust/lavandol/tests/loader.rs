//! The loader on the sample fonts (examples/fonts), through the static library: every close is the whole file's check, a closed loader
//! stays as it is.

use lavandol::*;

const LETTERS: &[u8] = include_bytes!("../../../examples/fonts/letters.psf1");
const PSF2: &[u8] = include_bytes!("../../../examples/fonts/small.psf2");
const VFONT2: &[u8] = include_bytes!("../../../examples/fonts/small.vfont2");
const BAD: &[u8] = include_bytes!("../../../examples/fonts/bad-table.psf2");
const SAMPLES: [&[u8]; 4] = [LETTERS, PSF2, VFONT2, BAD];

const LATE: Refusal = Refusal { reason: Reason::Late, place: 0, glyph: None };

/// The close of a loader that has been fed these pieces, all of them taken.
fn loaded<'a>(pieces: impl IntoIterator<Item = &'a [u8]>) -> Result<Font, Refusal> {
    let mut loader = Loader::new();
    for piece in pieces {
        assert_eq!(loader.feed(piece), Ok(()));
    }
    loader.close()
}

#[test]
fn samples_in_pieces() {
    for file in SAMPLES {
        for length in [1, 2, 3, 17, 18, 31, 32, 33, 64, 4096] {
            assert_eq!(loaded(file.chunks(length)), check(file), "pieces of {length}");
        }
    }
    assert_eq!(loaded(LETTERS.chunks(64)).map(|f| (f.kind, f.count)), Ok((Kind::Psf1, 256)));
    assert_eq!(loaded(VFONT2.chunks(5)).map(|f| (f.kind, f.end)), Ok((Kind::Vfont2, 72)));
    let bad = Refusal { reason: Reason::TableBad, place: 39, glyph: Some(1) };
    assert_eq!(loaded(BAD.chunks(38)), Err(bad));
}

#[test]
fn every_cut_into_two() {
    for file in SAMPLES {
        for at in 0..=file.len() {
            let (front, back) = file.split_at(at);
            assert_eq!(loaded([front, &[], back]), check(file), "cut at {at}");
        }
    }
}

/// Every start of a sample is what a line that breaks off has brought.
#[test]
fn a_line_that_breaks_off() {
    for file in [PSF2, VFONT2] {
        for length in 0..file.len() {
            let start = &file[..length];
            assert!(check(start).is_err());
            assert_eq!(loaded(start.chunks(7)), check(start), "{length} bytes");
        }
    }
}

/// Each sample with one byte changed, in frames that its parts straddle.
#[test]
fn damage_is_told_as_of_the_whole_file() {
    let mut reasons = Vec::new();
    for file in [PSF2, VFONT2, &LETTERS[..2100]] {
        for at in (0..file.len()).filter(|at| *at < 100 || *at > 2040) {
            for byte in [0, 1, 3, 0x41, 0x80, 0xC3, 0xFE, 0xFF] {
                let mut damaged = file.to_vec();
                damaged[at] = byte;
                let whole = check(&damaged);
                assert_eq!(loaded(damaged.chunks(5)), whole, "byte {at} is {byte:X}");
                reasons.extend(whole.err().map(|r| r.number()));
            }
        }
    }
    reasons.sort();
    reasons.dedup();
    assert_eq!(reasons, [2, 4, 5, 6, 7, 8, 9, 10, 11, 12]);
}

/// A start mark behind a start mark in PSF1: bad at its second byte. The vfont2 font with two
/// broken entries: the first of them; with a wrong greatest width: 28, no glyph's.
#[test]
fn places_that_a_cut_could_move() {
    let mut marks = LETTERS.to_vec();
    marks[2052..2056].copy_from_slice(&[0xFE, 0xFF, 0xFE, 0xFF]);
    let mut entries = VFONT2.to_vec();
    (entries[36], entries[54]) = (9, 9); // the sizes of both
    let mut width = VFONT2.to_vec();
    width[28] = 4;
    let mut last = LETTERS[..2052 + 2 * 0x20].to_vec(); // glyph 20, behind 20 end marks (hexadecimal)
    last.extend([0xFE, 0xFF, 0xFF, 0xFF]);
    let mut second = VFONT2.to_vec();
    second[54] = 9;
    for (file, reason, place, glyph) in [
        (marks, Reason::TableBad, 2055, Some(0)),
        (last, Reason::TableBad, 2055 + 2 * 0x20, Some(0x20)),
        (entries, Reason::Entry, 32, Some(0)),
        (second, Reason::Entry, 50, Some(1)),
        (width, Reason::Entry, 28, None),
    ] {
        for length in 1..=64 {
            let refusal = Refusal { reason, place, glyph };
            assert_eq!(loaded(file.chunks(length)), Err(refusal));
        }
    }
}

#[test]
fn nothing_fed_is_the_empty_file() {
    let kind = Refusal { reason: Reason::Kind, place: 0, glyph: None };
    assert_eq!(Loader::new().close(), Err(kind));
    assert_eq!(Loader::default().close(), Err(kind));
    assert_eq!(loaded([&[][..], &[], &[]]), Err(kind));
}

#[test]
fn too_many_bytes() {
    let long = Refusal { reason: Reason::TooLong, place: 1_048_576, glyph: None };
    assert_eq!(loaded(vec![0; 1_048_577].chunks(64)), Err(long));
    assert_eq!(loaded(vec![0; 1_048_576].chunks(64)).unwrap_err().reason, Reason::Kind);
}

/// It speaks only at the close: what was fed shows in no answer before.
#[test]
fn a_bad_piece_is_taken() {
    let mut loader = Loader::new();
    assert_eq!(loader.feed(&[0; 40]), Ok(()));
    assert_eq!(loader.feed(PSF2), Ok(()));
    assert_eq!(loader.close().unwrap_err().reason, Reason::Kind);
}

#[test]
fn a_closed_loader_is_late_and_stays() {
    for file in SAMPLES {
        let mut loader = Loader::new();
        loader.feed(file).unwrap();
        let open = loader.clone();
        assert_eq!(loader.close(), check(file));
        assert_ne!(loader, open);
        let closed = loader.clone();
        assert_eq!(loader.feed(&[]), Err(LATE));
        assert_eq!(loader.feed(PSF2), Err(LATE));
        assert_eq!(loader.close(), Err(LATE));
        assert_eq!(loader, closed);
    }
}

/// One loader does not know of another; a copy goes its own way.
#[test]
fn loaders_side_by_side() {
    let (mut a, mut b) = (Loader::new(), Loader::new());
    for (x, y) in PSF2.chunks(9).zip(VFONT2.chunks(17)) {
        a.feed(x).unwrap();
        b.feed(y).unwrap();
    }
    let mut longer = a.clone();
    longer.feed(&[0xFF]).unwrap();
    assert_eq!(a.close(), check(PSF2));
    assert_eq!(b.close(), check(VFONT2));
    let trailing = Refusal { reason: Reason::Trailing, place: PSF2.len(), glyph: None };
    assert_eq!(longer.close(), Err(trailing));
}
