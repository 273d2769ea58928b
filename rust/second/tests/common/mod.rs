//! What several tests ask about.

/// Document 01's font of 45 bytes.
pub fn worked() -> Vec<u8> {
    let mut file = vec![0x72, 0xB5, 0x4A, 0x86];
    for number in [0u32, 32, 1, 2, 2, 2, 3] {
        file.extend_from_slice(&number.to_le_bytes());
    }
    file.extend_from_slice(&[0xA0, 0x40, 0xE0, 0x20]);
    file.extend_from_slice(&[0x41, 0xFF, 0xC3, 0x85, 0xFE, 0x41, 0xCC, 0x8A, 0xFF]);
    file
}
