//! Writes a script: records of an op byte and its arguments, little endian. Keeps
//! the current file beside it, so that a change can be taken back.

pub const LABEL: u8 = 0x00;
pub const NEW: u8 = 0x01;
pub const BYTES: u8 = 0x02;
pub const FILL: u8 = 0x03;
pub const SET: u8 = 0x04;
pub const TRIM: u8 = 0x05;
pub const CHECK: u8 = 0x10;
pub const GLYPH: u8 = 0x11;
pub const ROW: u8 = 0x12;
pub const PIXEL: u8 = 0x13;
pub const WALK: u8 = 0x14;
pub const VALUE: u8 = 0x15;
pub const SEQUENCE: u8 = 0x16;
pub const METRICS: u8 = 0x17;
pub const CUTS: u8 = 0x18;
pub const LATE: u8 = 0x19;
pub const CONVERT: u8 = 0x20;
pub const TAKE: u8 = 0x21;
/// Room, len, glyph and value: a mapping is added in a buffer of so many bytes that has the
/// current file at its front (or what fits of it) and A5 behind it. If it is good, the
/// edited font becomes the current file.
pub const ADD: u8 = 0x22;
/// The same, but the mapping is dropped.
pub const DROP: u8 = 0x23;
/// The current file is kept, in place of the last good conversion's output.
pub const KEEP: u8 = 0x24;
/// A byte and a room of two bytes: what differs between the current file and the one that was
/// kept or converted last (0), or between that and the current file (1), in a buffer of so many
/// numbers, all of them A5A5A5A5.
pub const DIFFERENCES: u8 = 0x25;
/// This and the 63 after it: the file in pieces of 1 to 63 bytes; this one alone: in one.
pub const LOAD: u8 = 0x40;

/// The longest current file and the longest buffer.
pub const LONGEST: usize = 1_048_640;

/// The most numbers in a buffer of differences.
pub const MOST_NUMBERS: usize = 16_400;

pub struct Script {
    pub bytes: Vec<u8>,
    pub file: Vec<u8>,
    last: Option<Vec<u8>>,
    checks: usize,
}

impl Script {
    pub fn new() -> Script {
        Script { bytes: Vec::new(), file: Vec::new(), last: None, checks: 0 }
    }

    fn op(&mut self, op: u8, numbers: &[u64]) {
        self.bytes.push(op);
        for n in numbers {
            self.bytes.extend_from_slice(&n.to_le_bytes());
        }
    }

    pub fn label(&mut self, text: &str) {
        assert!(text.is_ascii() && text.len() < 256 && !text.contains('\n'));
        self.bytes.extend_from_slice(&[LABEL, text.len() as u8]);
        self.bytes.extend_from_slice(text.as_bytes());
    }

    pub fn new_file(&mut self) {
        self.bytes.push(NEW);
        self.file.clear();
    }

    fn plain(&mut self, bytes: &[u8]) {
        for part in bytes.chunks(0xFFFF) {
            self.bytes.push(BYTES);
            self.bytes.extend_from_slice(&(part.len() as u16).to_le_bytes());
            self.bytes.extend_from_slice(part);
        }
        self.file.extend_from_slice(bytes);
    }

    pub fn fill(&mut self, count: usize, byte: u8) {
        self.bytes.push(FILL);
        self.bytes.extend_from_slice(&(count as u32).to_le_bytes());
        self.bytes.push(byte);
        self.file.resize(self.file.len() + count, byte);
        assert!(self.file.len() <= LONGEST);
    }

    /// Appends bytes, long runs of one byte as FILL.
    pub fn append(&mut self, bytes: &[u8]) {
        let (mut from, mut at) = (0, 0);
        while at < bytes.len() {
            let run = bytes[at..].iter().take_while(|&&b| b == bytes[at]).count();
            if run >= 12 {
                self.plain(&bytes[from..at]);
                self.fill(run, bytes[at]);
                from = at + run;
            }
            at += run;
        }
        self.plain(&bytes[from..]);
        assert!(self.file.len() <= LONGEST);
    }

    /// The current file becomes these bytes.
    pub fn file(&mut self, bytes: &[u8]) {
        self.new_file();
        self.append(bytes);
    }

    pub fn set(&mut self, at: usize, byte: u8) {
        assert!(at < self.file.len());
        self.bytes.push(SET);
        self.bytes.extend_from_slice(&(at as u32).to_le_bytes());
        self.bytes.push(byte);
        self.file[at] = byte;
    }

    /// Sets the bytes at an offset that differ.
    pub fn put(&mut self, at: usize, bytes: &[u8]) {
        for (i, &byte) in bytes.iter().enumerate() {
            if self.file[at + i] != byte {
                self.set(at + i, byte);
            }
        }
    }

    pub fn trim(&mut self, length: usize) {
        assert!(length <= self.file.len());
        self.bytes.push(TRIM);
        self.bytes.extend_from_slice(&(length as u32).to_le_bytes());
        self.file.truncate(length);
    }

    /// Checks the file whole, and loads it in pieces of another length each time; a long
    /// file in longer pieces.
    pub fn check(&mut self) {
        self.op(CHECK, &[]);
        let least = if self.file.len() < 65_536 { 0 } else { 32 };
        self.op(LOAD + ((self.checks % 64) | least) as u8, &[]);
        self.checks += 1;
    }

    /// Loads the file in three pieces: of a bytes, of b bytes, and the rest.
    pub fn cuts(&mut self, a: u8, b: u8) {
        self.bytes.extend_from_slice(&[CUTS, a, b]);
    }

    /// A piece and a close after the close.
    pub fn late(&mut self) {
        self.op(LATE, &[]);
    }

    pub fn glyph(&mut self, g: u64) {
        self.op(GLYPH, &[g]);
    }

    pub fn row(&mut self, g: u64, row: u64) {
        self.op(ROW, &[g, row]);
    }

    pub fn pixel(&mut self, g: u64, row: u64, col: u64) {
        self.op(PIXEL, &[g, row, col]);
    }

    pub fn walk(&mut self, g: u64, k: u64) {
        self.op(WALK, &[g, k]);
    }

    pub fn value(&mut self, v: u32) {
        self.bytes.push(VALUE);
        self.bytes.extend_from_slice(&v.to_le_bytes());
    }

    pub fn values(&mut self, values: &[u32]) {
        for &v in values {
            self.value(v);
        }
    }

    pub fn sequence(&mut self, values: &[u32]) {
        self.bytes.extend_from_slice(&[SEQUENCE, values.len() as u8]);
        for v in values {
            self.bytes.extend_from_slice(&v.to_le_bytes());
        }
    }

    /// Asks whether glyph g's up, down, left, right and logical width are these.
    pub fn metrics(&mut self, g: u64, asked: [i16; 5]) {
        self.op(METRICS, &[g]);
        self.bytes.extend(asked.iter().flat_map(|m| m.to_le_bytes()));
    }

    /// Asks for a conversion and gives the length it has, if it is good.
    pub fn convert(&mut self, which: u8, room: usize) -> Option<usize> {
        assert!(room <= LONGEST);
        self.bytes.extend_from_slice(&[CONVERT, which]);
        self.bytes.extend_from_slice(&(room as u32).to_le_bytes());
        let mut out = vec![0xA5; room];
        self.last = None;
        let length = crate::answer::conversion(which)(&self.file, &mut out).ok()?;
        out.truncate(length);
        self.last = Some(out);
        Some(length)
    }

    pub fn take(&mut self) {
        self.bytes.push(TAKE);
        self.file = self.last.clone().expect("a good conversion came before");
    }

    fn edit(&mut self, op: u8, room: usize, len: usize, g: usize, v: u32) {
        assert!(room <= LONGEST);
        self.bytes.push(op);
        for number in [room as u32, len as u32, g as u32, v] {
            self.bytes.extend_from_slice(&number.to_le_bytes());
        }
        if let (mut buffer, Ok(length)) = crate::answer::edited(op, &self.file, room, len, g, v) {
            buffer.truncate(length);
            self.file = buffer;
        }
    }

    pub fn add(&mut self, room: usize, len: usize, g: usize, v: u32) {
        self.edit(ADD, room, len, g, v);
    }

    pub fn drop(&mut self, room: usize, len: usize, g: usize, v: u32) {
        self.edit(DROP, room, len, g, v);
    }

    pub fn keep(&mut self) {
        self.bytes.push(KEEP);
        self.last = Some(self.file.clone());
    }

    /// Asks what differs and gives how many numbers it takes, unless a font is refused.
    pub fn differences(&mut self, which: u8, room: usize) -> Option<usize> {
        assert!(room <= MOST_NUMBERS);
        self.bytes.extend_from_slice(&[DIFFERENCES, which]);
        self.bytes.extend_from_slice(&(room as u16).to_le_bytes());
        let kept = self.last.as_ref().expect("a kept font");
        let (_, answer) = crate::answer::compared(which, &self.file, kept, MOST_NUMBERS);
        answer.ok().map(|count| 2 * count)
    }

    // from here on: several records at once

    /// Checks the file with some bytes changed, and takes the change back.
    pub fn check_with(&mut self, changes: &[(usize, &[u8])]) {
        let before = self.file.clone();
        for (at, bytes) in changes {
            self.put(*at, bytes);
        }
        self.check();
        self.put(0, &before);
    }

    /// Every item of these glyphs and one beyond.
    pub fn walk_all(&mut self, glyphs: std::ops::Range<usize>) {
        let font = second::check(&self.file).expect("a sound font to walk");
        for g in glyphs {
            let items = font.reading.get(g).map_or(0, |d| d.len());
            for k in 0..=items {
                self.walk(g as u64, k as u64);
            }
        }
    }

    /// A conversion with buffers one byte short, exact and longer; if it is
    /// refused, one buffer.
    pub fn convert_rooms(&mut self, which: u8) -> Option<usize> {
        let before = self.bytes.len();
        let Some(length) = self.convert(which, second::LIMIT) else {
            self.bytes.truncate(before);
            return self.convert(which, 100);
        };
        self.bytes.truncate(before);
        self.convert(which, length - 1);
        self.convert(which, length + 9);
        self.convert(which, length)
    }

    /// A conversion of exact room; if it is refused, any room.
    pub fn convert_exact(&mut self, which: u8) -> Option<usize> {
        let before = self.bytes.len();
        let length = self.convert(which, second::LIMIT);
        self.bytes.truncate(before);
        self.convert(which, length.unwrap_or(100))
    }

    /// A good conversion of exact room, and its output as the current file.
    pub fn convert_take(&mut self, which: u8) {
        self.convert_exact(which).expect("a good conversion");
        self.take();
    }

    /// An add and a drop, both refused.
    pub fn both_refused(&mut self, room: usize, len: usize, g: usize, v: u32) {
        let before = self.file.clone();
        self.add(room, len, g, v);
        self.drop(room, len, g, v);
        assert!(self.file == before, "a good edit");
    }

    /// A good add to the current file: a buffer one byte short, then one as long as needed.
    pub fn add_exact(&mut self, g: usize, v: u32) {
        let len = self.file.len();
        let bytes = char::from_u32(v).expect("a value").len_utf8();
        self.add(len + bytes - 1, len, g, v);
        self.add(len + bytes, len, g, v);
        assert!(self.file.len() == len + bytes, "a refused edit");
    }

    /// A good drop of the current file, in a buffer with nine bytes behind it.
    pub fn drop_good(&mut self, g: usize, v: u32) {
        let len = self.file.len();
        self.drop(len + 9, len, g, v);
        assert!(self.file.len() < len, "a refused edit");
    }

    /// What differs, both ways: with a number to spare, and with just the room.
    pub fn compare(&mut self) -> usize {
        let before = self.bytes.len();
        let need = self.differences(0, 0).expect("two sound fonts");
        self.bytes.truncate(before);
        self.differences(0, need + 1);
        self.differences(1, need);
        need
    }

    /// The same, and with one number less, and with none.
    pub fn compare_rooms(&mut self) {
        let need = self.compare();
        for room in [need.saturating_sub(1), 0] {
            self.differences(0, room);
            self.differences(1, room);
        }
    }

    /// What differs between the kept font and the current file with some bytes changed; the
    /// change is taken back.
    pub fn compare_with(&mut self, changes: &[(usize, &[u8])]) {
        let before = self.file.clone();
        for (at, bytes) in changes {
            self.put(*at, bytes);
        }
        self.compare();
        self.put(0, &before);
    }

    /// One of the fonts is refused, whatever the room.
    pub fn neither_compared(&mut self) {
        for (which, room) in [(0, 3), (1, 3), (0, 0)] {
            assert!(self.differences(which, room).is_none(), "two sound fonts");
        }
    }
}
