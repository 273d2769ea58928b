//! Looks a letter up in a font and draws its glyph, in the folder rust/lavandol after `tools/built lavandol`:
//! `cargo run --offline --example lookup -- ../../examples/fonts/small.psf2 Å`
//! Several letters are looked up as one sequence.

use std::error::Error;
use std::ffi::OsString;
use std::process::ExitCode;

/// A refusal is told as a sentence.
fn main() -> ExitCode {
    let words: Vec<OsString> = std::env::args_os().skip(1).collect();
    match run(&words) {
        Ok(()) => ExitCode::SUCCESS,
        Err(e) => {
            eprintln!("lookup: {e}");
            ExitCode::FAILURE
        }
    }
}

fn run(words: &[OsString]) -> Result<(), Box<dyn Error>> {
    let [path, letters] = words else {
        return Err("usage: lookup FONT LETTER".into());
    };
    let letters = letters.to_str().ok_or("the letter is not Unicode")?;
    let file = std::fs::read(path)?;
    let values: Vec<u32> = letters.chars().map(|c| c as u32).collect();
    let g = match values[..] {
        [v] => lavandol::find_value(&file, v)?,
        _ => lavandol::find_sequence(&file, &values)?,
    };
    println!("glyph {g} of {}", lavandol::check(&file)?.count);
    draw(&file, g)?;
    Ok(())
}

/// The rows from the top; pixels from a byte's top bit on.
fn draw(file: &[u8], g: usize) -> Result<(), lavandol::Refusal> {
    let m = lavandol::metrics(file, g)?;
    let (height, width) = ((m.up + m.down) as usize, (m.left + m.right) as usize);
    for row in lavandol::glyph(file, g)?.chunks(width.div_ceil(8)).take(height) {
        let drawn = |x: usize| if row[x / 8] >> (7 - x % 8) & 1 == 1 { '#' } else { '.' };
        println!("{}", (0..width).map(drawn).collect::<String>());
    }
    Ok(())
}
