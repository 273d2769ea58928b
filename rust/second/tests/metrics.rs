//! A glyph's metrics: the font's own height and width in PSF1 and PSF2, the entry's
//! five numbers in vfont2.

use second::*;

fn no(number: u32, place: usize) -> Result<[i32; 5], Refusal> {
    Err(Refusal::new(number, place))
}

fn numbers(magic: [u8; 4], numbers: [u32; 7]) -> Vec<u8> {
    let mut file = magic.to_vec();
    file.extend(numbers.iter().flat_map(|n| n.to_le_bytes()));
    file
}

/// A bare PSF1 font of height 5.
fn psf1(mode: u8) -> Vec<u8> {
    let mut file = vec![0x36, 0x04, mode, 5];
    file.resize(4 + 5 * if mode & 1 == 1 { 512 } else { 256 }, 0x18);
    file
}

/// A bare PSF2 font of three glyphs.
fn psf2(height: u32, width: u32) -> Vec<u8> {
    let bytes = height * ((width + 7) / 8);
    let mut file = numbers([0x72, 0xB5, 0x4A, 0x86], [0, 32, 0, 3, bytes, height, width]);
    file.resize(32 + 3 * bytes as usize, 0x5A);
    file
}

/// A bare vfont2 font: size and metrics of each entry, all at address 0.
fn vfont2(entries: &[(u32, [i16; 5])], height: u32, width: u32) -> Vec<u8> {
    let total = entries.iter().map(|e| e.0).max().unwrap();
    let n = entries.len() as u32;
    let mut file = numbers([0x27, 0x5B, 0xA4, 0x68], [0, 32, 0, n, total, height, width]);
    for (size, metrics) in entries {
        file.extend_from_slice(&[0; 4]);
        file.extend_from_slice(&size.to_le_bytes());
        file.extend(metrics.iter().flat_map(|m| m.to_le_bytes()));
    }
    file.resize(file.len() + total as usize, 0x5A);
    file
}

#[test]
fn psf1_is_eight_wide() {
    for (mode, count) in [(0, 256), (1, 512)] {
        let file = psf1(mode);
        for g in [0, 1, 255, count - 1] {
            assert_eq!(metrics(&file, g), Ok([5, 0, 0, 8, 8]));
        }
        for g in [count, 1 << 32, u64::MAX] {
            assert_eq!(metrics(&file, g), no(ASK, 0));
        }
    }
}

#[test]
fn psf2_has_the_header_s() {
    for (height, width) in [(1, 1), (2, 3), (255, 9), (1, 255), (255, 255)] {
        let file = psf2(height, width);
        let (height, width) = (height as i32, width as i32);
        for g in 0..3 {
            assert_eq!(metrics(&file, g), Ok([height, 0, 0, width, width]));
        }
        assert_eq!(metrics(&file, 3), no(ASK, 0));
    }
}

#[test]
fn vfont2_has_the_entry_s() {
    let all = [
        [2, 0, 0, 9, 9],
        [-5, 7, -3, 12, -1],
        [7, -5, 12, -3, -32768],
        [-32766, 32767, 32767, -32766, 32767],
        [32767, -32766, -32766, 32767, -2],
    ];
    let size = |m: [i16; 5]| (m[0] as i32 + m[1] as i32) * ((m[2] as i32 + m[3] as i32 + 7) / 8);
    let entries: Vec<(u32, [i16; 5])> = all.iter().map(|&m| (size(m) as u32, m)).collect();
    let file = vfont2(&entries, 2, 9);
    for (g, m) in all.iter().enumerate() {
        assert_eq!(metrics(&file, g as u64), Ok(m.map(i32::from)));
    }
    assert_eq!(metrics(&file, 5), no(ASK, 0));
    assert_eq!(metrics(&file, (1 << 32) + 1), no(ASK, 0));
}

#[test]
fn no_glyph_after_ask() {
    let file = vfont2(&[(0, [-32768; 5]), (4, [2, 0, 0, 9, 9]), (0, [2, 0, 0, 9, 9])], 2, 9);
    assert_eq!(metrics(&file, 0), no(NO_GLYPH, 0));
    assert_eq!(metrics(&file, 1), Ok([2, 0, 0, 9, 9]));
    assert_eq!(metrics(&file, 2), no(NO_GLYPH, 0));
    assert_eq!(metrics(&file, 3), no(ASK, 0));
}

#[test]
fn the_font_s_own_refusal_first() {
    let mut shapeless = psf1(0);
    shapeless[3] = 0;
    let mut trailing = psf2(2, 3);
    trailing.push(0);
    // up + down is 1 in 16 bits, but far below as whole numbers
    let wrapped = vfont2(&[(0, [0; 5]), (1, [-32768, -32767, 0, 8, 8])], 1, 8);
    for g in [0, u64::MAX] {
        assert_eq!(metrics(&[], g), no(KIND, 0));
        assert_eq!(metrics(&shapeless, g), no(SHAPE, 3));
        assert_eq!(metrics(&trailing, g), no(TRAILING, trailing.len() - 1));
        assert_eq!(metrics(&wrapped, g), Err(Refusal::new(ENTRY, 50).of_glyph(1)));
    }
}
