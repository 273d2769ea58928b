//! The corpus of questions on fonts that arrive in pieces. (`Script::check` loads every
//! file of the other corpora too.)

use crate::make::*;
use crate::script::Script;

pub fn script() -> Vec<u8> {
    let mut s = Script::new();
    two_cuts(&mut s);
    noncharacters(&mut s);
    s.bytes
}

/// Cuts in and around a noncharacter, and in and around the values beside it.
fn noncharacters(s: &mut Script) {
    for v in [0xFDCF, 0xFDD0, 0xFDEF, 0xFFFD, 0xFFFE, 0x1FFFF, 0x10FFFD, 0x10FFFF] {
        s.label(&format!("psf2 with {v:X} in three pieces"));
        s.file(&psf2(1, 1, 8, &[0x5A], Some(&table(&[text(&[v], &[&[0x41, v]])]))));
        for a in 32..s.file.len() as u8 {
            for b in 0..4 {
                s.cuts(a, b);
            }
        }
        s.late();
    }
    for v in [0xFDCF, 0xFDD0, 0xFDEF, 0xFFFD] {
        s.label(&format!("psf1 with {v:X} as its first single in three pieces"));
        s.file(&psf1(2, 1, 0x0F, &units(&spread(256, &[(0, text(&[v, 0x41], &[]))]))));
        for (a, b) in [(255, 5), (255, 6), (255, 7), (200, 61), (200, 60)] {
            s.cuts(a, b);
        }
        s.late();
    }
}

/// Cuts in and around the header, an entry, the bitmaps and each part of the table; then a
/// piece and a close after the close.
fn two_cuts(s: &mut Script) {
    let psf1 = psf1(2, 1, 0x0F, &[0xFF; 512]);
    for (name, file, places) in [
        ("psf1", psf1, &[0u8, 1, 3, 4, 31, 32, 33, 255][..]),
        ("psf2", worked(), &[0, 1, 3, 31, 32, 33, 35, 36, 37, 38, 39, 40, 41, 42, 43, 44, 45]),
        ("vfont2", worked_vfont2(), &[0, 31, 32, 33, 49, 50, 51, 67, 68, 69, 72, 73, 75, 78, 80]),
    ] {
        s.label(&format!("{name} in three pieces"));
        s.file(&file);
        for &a in places {
            for b in [0, 1, 2, 3, 18] {
                s.cuts(a, b);
            }
        }
        s.late();
        s.label(&format!("{name} with a wrong last byte, and without it"));
        s.set(s.file.len() - 1, 0xFE);
        s.cuts(33, 5);
        s.late();
        s.trim(s.file.len() - 1);
        s.cuts(33, 5);
        s.late();
    }
    s.label("no byte");
    s.new_file();
    s.cuts(0, 0);
    s.late();
}
