//! Tells what differs between two fonts, of any kinds, in the folder rust/lavandol after `tools/built lavandol`:
//! `cargo run --offline --example changes -- ../../examples/fonts/small.psf2 ../../examples/fonts/letters.psf1`
//! A line for each difference, and one for their count.

use lavandol::Difference;
use std::error::Error;
use std::process::ExitCode;

/// A refusal is told as a sentence, with the font that it is of.
fn main() -> ExitCode {
    let words: Vec<String> = std::env::args().skip(1).collect();
    match run(&words) {
        Ok(()) => ExitCode::SUCCESS,
        Err(e) => {
            eprintln!("changes: {e}");
            ExitCode::FAILURE
        }
    }
}

fn run(words: &[String]) -> Result<(), Box<dyn Error>> {
    let [first, second] = words else {
        return Err("usage: changes FONT FONT".into());
    };
    let (first, second) = (std::fs::read(first)?, std::fs::read(second)?);
    let mut buffer = vec![0; 2 * Difference::MOST];
    let found = lavandol::differences(&first, &second, &mut buffer)?;
    let count = found.len();
    for difference in found {
        match difference {
            Difference::Table => println!("only one has a table"),
            Difference::OnlyInFirst(g) => println!("glyph {g}: only in the first"),
            Difference::OnlyInSecond(g) => println!("glyph {g}: only in the second"),
            Difference::Metrics(g) => println!("glyph {g}: metrics differ"),
            Difference::Pixels(g) => println!("glyph {g}: pixels differ"),
            Difference::Items(g) => println!("glyph {g}: items differ"),
        }
    }
    println!("{count} differences");
    Ok(())
}
