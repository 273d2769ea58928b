//! The check of a font that arrives in pieces, and the text of the program that
//! reads them as lines of hexadecimal. From document 02, "Load as it arrives".

use crate::*;

/// Keeps all that it is fed: the pieces joined are then checked as one file.
#[derive(Debug, Clone, Default, PartialEq, Eq)]
pub struct Loader {
    fed: Vec<u8>,
    closed: bool,
}

impl Loader {
    /// A fresh state.
    pub fn new() -> Loader {
        Loader::default()
    }

    /// Takes a piece. LATE after the close.
    pub fn feed(&mut self, piece: &[u8]) -> Result<(), Refusal> {
        if self.closed {
            return refuse(LATE, 0);
        }
        self.fed.extend_from_slice(piece);
        Ok(())
    }

    /// The check of the pieces joined; closes whatever it answers. LATE after the close.
    pub fn close(&mut self) -> Result<Font, Refusal> {
        if self.closed {
            return refuse(LATE, 0);
        }
        self.closed = true;
        check(&self.fed)
    }
}

/// The most digits of a line.
const DIGITS: usize = 128;

/// The piece that a line stands for: 0 to 128 upper-case hexadecimal digits, an even
/// number. Nothing for a bad line.
fn piece(line: &[u8]) -> Option<Vec<u8>> {
    let upper = |b: u8| b.is_ascii_digit() || (b'A'..=b'F').contains(&b);
    if line.len() > DIGITS || line.len() % 2 != 0 || !line.iter().all(|&b| upper(b)) {
        return None;
    }
    let digits = std::str::from_utf8(line).expect("digits are text");
    let byte = |i: usize| u8::from_str_radix(&digits[2 * i..2 * i + 2], 16);
    (0..line.len() / 2).map(|i| byte(i).ok()).collect()
}

/// The lines that are read: of an input within the limit all of them, the last one ended
/// or not; of a longer one those whose newline stands within the limit.
fn lines(input: &[u8]) -> Vec<&[u8]> {
    let within = &input[..input.len().min(LOADER_LIMIT)];
    let mut lines: Vec<&[u8]> = within.split(|&b| b == b'\n').collect();
    if input.len() > LOADER_LIMIT {
        // what stands behind the last newline
        lines.pop();
    }
    lines
}

/// What the program writes for this input.
pub fn fontload(input: &[u8]) -> Vec<u8> {
    let refused = |r: Refusal| format!("{r}\n").into_bytes();
    let mut loader = Loader::new();
    for (i, line) in lines(input).into_iter().enumerate() {
        match piece(line) {
            Some(bytes) => loader.feed(&bytes).expect("the loader is open"),
            None => return refused(Refusal::new(LINE, i + 1)),
        }
    }
    if input.len() > LOADER_LIMIT {
        return b"too big\n".to_vec();
    }
    match loader.close() {
        Ok(_) => b"sound\n".to_vec(),
        Err(r) => refused(r),
    }
}
