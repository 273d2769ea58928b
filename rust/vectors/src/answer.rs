//! Runs a script with the second implementation and gives the expected text.

use crate::script::*;
use second::{Font, Item, Loader, NotCompared, Refusal};
use std::fmt::Write;

type Conversion = fn(&[u8], &mut [u8]) -> Result<usize, Refusal>;

pub fn conversion(which: u8) -> Conversion {
    match which {
        0 => second::psf1_to_psf2,
        1 => second::psf2_to_psf1,
        2 => second::psf2_to_vfont2,
        3 => second::vfont2_to_psf2,
        _ => panic!("no such conversion"),
    }
}

type Edit = fn(&mut [u8], usize, usize, u32) -> Result<usize, Refusal>;

/// The buffer behind an edit of the file, and what the edit answers.
pub fn edited(
    op: u8,
    file: &[u8],
    room: usize,
    len: usize,
    g: usize,
    v: u32,
) -> (Vec<u8>, Result<usize, Refusal>) {
    let call: Edit = if op == ADD { second::add_mapping } else { second::drop_mapping };
    let mut buffer = file[..room.min(file.len())].to_vec();
    buffer.resize(room, 0xA5);
    let answer = call(&mut buffer, len, g, v);
    (buffer, answer)
}

/// The numbers behind a comparison of the two fonts, and what it answers.
pub fn compared(
    which: u8,
    file: &[u8],
    kept: &[u8],
    room: usize,
) -> (Vec<u32>, Result<usize, NotCompared>) {
    let mut numbers = vec![0xA5A5_A5A5; room];
    let (first, second) = if which == 0 { (file, kept) } else { (kept, file) };
    let answer = second::differences(first, second, &mut numbers);
    (numbers, answer)
}

/// Takes arguments off the front of the script.
struct Reader<'a>(&'a [u8]);

impl<'a> Reader<'a> {
    fn take(&mut self, count: usize) -> &'a [u8] {
        let (front, rest) = self.0.split_at(count);
        self.0 = rest;
        front
    }

    fn number(&mut self, bytes: usize) -> u64 {
        self.take(bytes).iter().rev().fold(0, |n, &b| n << 8 | b as u64)
    }
}

pub fn checksum<T: Copy + Into<u64>>(buffer: &[T]) -> u64 {
    buffer.iter().fold(0, |s, &n| (s * 31 + n.into()) % 4_294_967_291)
}

fn refused(r: Refusal) -> String {
    r.to_string()
}

/// A part's offset, length and bytes, or its refusal.
fn part(file: &[u8], answer: Result<(usize, usize), Refusal>) -> String {
    match answer {
        Ok((offset, length)) => {
            let bytes = &file[offset..offset + length];
            let hex: String = bytes.iter().map(|b| format!("{b:02X}")).collect();
            format!("{offset} {length} {hex}")
        }
        Err(r) => refused(r) + " -",
    }
}

fn found(answer: Result<usize, Refusal>) -> String {
    match answer {
        Ok(g) => format!("glyph {g}"),
        Err(r) => refused(r),
    }
}

fn checked(answer: Result<Font, Refusal>) -> String {
    match answer {
        Ok(font) => format!("sound {}", second::first_line(&font)),
        Err(r) => refused(r),
    }
}

fn taken(answer: Result<(), Refusal>) -> String {
    answer.map_or_else(refused, |()| "taken".to_string())
}

/// What a loader says that is fed these pieces.
fn loaded<'a>(pieces: impl IntoIterator<Item = &'a [u8]>) -> String {
    let mut loader = Loader::new();
    for piece in pieces {
        loader.feed(piece).expect("an open loader");
    }
    checked(loader.close())
}

/// The expected text, the number of questions, and the bytes of the files they
/// were asked about, all together.
pub fn answer(script: &[u8]) -> (String, usize, usize) {
    let mut script = Reader(script);
    let mut text = String::new();
    let (mut questions, mut asked) = (0, 0);
    let mut file: Vec<u8> = Vec::new();
    let mut last: Vec<u8> = Vec::new();
    while !script.0.is_empty() {
        let op = script.number(1) as u8;
        if (CHECK..=DIFFERENCES).contains(&op) && op != TAKE && op != KEEP || LOAD <= op {
            questions += 1;
            asked += file.len();
        }
        match op {
            LABEL => {
                let length = script.number(1) as usize;
                let words = std::str::from_utf8(script.take(length)).unwrap();
                writeln!(text, "# {words}").unwrap();
            }
            NEW => file.clear(),
            BYTES => {
                let count = script.number(2) as usize;
                file.extend_from_slice(script.take(count));
            }
            FILL => {
                let count = script.number(4) as usize;
                let byte = script.number(1) as u8;
                file.resize(file.len() + count, byte);
            }
            SET => {
                let at = script.number(4) as usize;
                file[at] = script.number(1) as u8;
            }
            TRIM => {
                let length = script.number(4) as usize;
                assert!(length <= file.len());
                file.truncate(length);
            }
            CHECK => {
                writeln!(text, "{}", checked(second::check(&file))).unwrap();
            }
            GLYPH => {
                let g = script.number(8);
                writeln!(text, "glyph {g} {}", part(&file, second::glyph(&file, g))).unwrap();
            }
            ROW => {
                let (g, row) = (script.number(8), script.number(8));
                let words = part(&file, second::row(&file, g, row));
                writeln!(text, "row {g} {row} {words}").unwrap();
            }
            PIXEL => {
                let (g, row, col) = (script.number(8), script.number(8), script.number(8));
                let words = match second::pixel(&file, g, row, col) {
                    Ok(drawn) => (drawn as u8).to_string(),
                    Err(r) => refused(r),
                };
                writeln!(text, "pixel {g} {row} {col} {words}").unwrap();
            }
            WALK => {
                let (g, k) = (script.number(8), script.number(8));
                let words = match second::walk(&file, g, k) {
                    Ok(Item::Single(v)) => format!("single {v:X}"),
                    Ok(Item::Start) => "start".to_string(),
                    Ok(Item::Value(v)) => format!("value {v:X}"),
                    Ok(Item::End) => "end".to_string(),
                    Err(r) => refused(r),
                };
                writeln!(text, "item {g} {k} {words}").unwrap();
            }
            VALUE => {
                let v = script.number(4) as u32;
                writeln!(text, "value {v:X} {}", found(second::find_value(&file, v))).unwrap();
            }
            SEQUENCE => {
                let count = script.number(1);
                let values: Vec<u32> = (0..count).map(|_| script.number(4) as u32).collect();
                let mut name: String = values.iter().map(|v| format!("+{v:X}")).collect();
                if name.is_empty() {
                    name = "-".to_string();
                }
                let words = found(second::find_sequence(&file, &values));
                writeln!(text, "sequence {name} {words}").unwrap();
            }
            METRICS => {
                let g = script.number(8);
                let asked = [(); 5].map(|_| script.number(2) as u16);
                let words = match second::metrics(&file, g) {
                    Ok(m) if m == asked.map(|n| n as i16 as i32) => "is".to_string(),
                    Ok(_) => "is not".to_string(),
                    Err(r) => refused(r),
                };
                let asked = asked.map(|n| n.to_string()).join(" ");
                writeln!(text, "metrics {g} {asked} {words}").unwrap();
            }
            CUTS => {
                let (a, b) = (script.number(1) as usize, script.number(1) as usize);
                let (first, rest) = file.split_at(a.min(file.len()));
                let (second, third) = rest.split_at(b.min(rest.len()));
                writeln!(text, "cuts {a} {b} {}", loaded([first, second, third])).unwrap();
            }
            LATE => {
                let mut loader = Loader::new();
                let first = taken(loader.feed(&file));
                let _ = loader.close();
                let piece = taken(loader.feed(&file));
                writeln!(text, "late {first} {piece} {}", checked(loader.close())).unwrap();
            }
            LOAD..=0x7F => {
                let k = (op - LOAD) as usize;
                let length = if k == 0 { file.len().max(1) } else { k };
                writeln!(text, "load {k} {}", loaded(file.chunks(length))).unwrap();
            }
            CONVERT => {
                let which = script.number(1) as u8;
                let room = script.number(4) as usize;
                assert!(room <= LONGEST);
                let mut out = vec![0xA5; room];
                let words = match conversion(which)(&file, &mut out) {
                    Ok(length) => {
                        last = out[..length].to_vec();
                        format!("wrote {length}")
                    }
                    Err(r) => refused(r),
                };
                writeln!(text, "convert {which} {room} {words} sum {}", checksum(&out)).unwrap();
            }
            TAKE => file = last.clone(),
            ADD | DROP => {
                let name = if op == ADD { "add" } else { "drop" };
                let [room, len, g] = [(); 3].map(|_| script.number(4) as usize);
                let v = script.number(4) as u32;
                assert!(room <= LONGEST);
                let (mut buffer, answer) = edited(op, &file, room, len, g, v);
                let sum = checksum(&buffer);
                let words = match answer {
                    Ok(length) => {
                        buffer.truncate(length);
                        file = buffer;
                        format!("length {length}")
                    }
                    Err(r) => refused(r),
                };
                writeln!(text, "{name} {room} {len} {g} {v:X} {words} sum {sum}").unwrap();
            }
            KEEP => last = file.clone(),
            DIFFERENCES => {
                let which = script.number(1) as u8;
                let room = script.number(2) as usize;
                assert!(room <= MOST_NUMBERS);
                let (numbers, answer) = compared(which, &file, &last, room);
                let words = match answer {
                    Ok(count) => {
                        let numbers = numbers[..2 * count].iter().map(|n| format!(" {n}"));
                        format!("pairs {count}{}", numbers.collect::<String>())
                    }
                    Err(e) => format!("font {} {}", e.font, refused(e.refusal)),
                };
                writeln!(text, "differences {which} {room} {words} sum {}", checksum(&numbers))
                    .unwrap();
            }
            _ => panic!("no such op: {op:02X}"),
        }
        assert!(file.len() <= LONGEST);
    }
    (text, questions, asked)
}
