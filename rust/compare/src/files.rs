//! Real fonts: every call on each file named, and its listing by the program
//! `fontlist`, held against the second implementation.

use crate::ask::{Asking, Tally};
use crate::make::Random;
use std::io::Write;
use std::process::{Command, Stdio};

/// What the program at `path` writes for a file.
pub fn listed(path: &str, file: &[u8]) -> Vec<u8> {
    let mut child = Command::new(path)
        .stdin(Stdio::piped())
        .stdout(Stdio::piped())
        .spawn()
        .expect("the program runs");
    // a file over the program's limit is not read to its end
    let _ = child.stdin.take().unwrap().write_all(file);
    child.wait_with_output().unwrap().stdout
}

pub fn run(fontlist: &str, paths: &[String]) -> Tally {
    let mut total = Tally::default();
    let mut kinds = [0; 3];
    let (mut tables, mut long) = (0, 0);
    for path in paths {
        let file = std::fs::read(path).expect("a file");
        let mut random = Random(0x9E3779B97F4A7C15);
        Asking { file: &file, tally: &mut total }.all(&mut random);
        let text = second::list(&file);
        total.answers += 1;
        if listed(fontlist, &file) != text.as_bytes() {
            println!("DIFFERENCE listing of {path}");
            total.differences += 1;
        }
        long += (file.len() > 65_536) as u32;
        match second::check(&file) {
            Ok(font) => {
                kinds[font.kind as usize] += 1;
                tables += font.has_table as u32;
            }
            Err(r) => println!("{r}: {path}"),
        }
    }
    println!("sound: {} PSF1, {} PSF2, {} vfont2; {tables} with a table; {long} too long to list", kinds[0], kinds[1], kinds[2]);
    total
}
