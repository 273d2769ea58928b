//! Adds a letter to a glyph of a PSF2 font, or drops it, and writes the font anew, in the folder rust/lavandol after
//! `tools/built lavandol`:
//! `cargo run --offline --example remap -- ../../examples/fonts/small.psf2 add 1 212B ../../target/more.psf2`
//! The font is edited in memory, where a letter needs up to 4 bytes more. A refused edit leaves it as it was, and nothing is written.

use std::error::Error;
use std::process::ExitCode;

/// A refusal is told as a sentence.
fn main() -> ExitCode {
    let words: Vec<String> = std::env::args().skip(1).collect();
    match run(&words) {
        Ok(()) => ExitCode::SUCCESS,
        Err(e) => {
            eprintln!("remap: {e}");
            ExitCode::FAILURE
        }
    }
}

fn run(words: &[String]) -> Result<(), Box<dyn Error>> {
    let [path, edit, glyph, letter, out] = words else {
        return Err("usage: remap FONT add|drop GLYPH HEX OUT".into());
    };
    let edit = match &edit[..] {
        "add" => lavandol::add_mapping,
        "drop" => lavandol::drop_mapping,
        _ => return Err("add or drop?".into()),
    };
    let (glyph, value) = (glyph.parse()?, u32::from_str_radix(letter, 16)?);
    let mut buffer = std::fs::read(path)?;
    let len = buffer.len();
    buffer.resize(len + 4, 0);
    let len = edit(&mut buffer, len, glyph, value)?;
    std::fs::write(out, &buffer[..len])?;
    println!("{glyph}: {len} bytes");
    Ok(())
}
