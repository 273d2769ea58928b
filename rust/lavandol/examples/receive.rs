//! Checks a font while it arrives on standard input, in frames as a serial line would bring them, in the folder rust/lavandol after
//! `tools/built lavandol`:  `cargo run --offline --example receive -- 64 < ../../examples/fonts/small.psf2`
//! Only one frame and the loader are in memory. A font that is to be used afterwards would be stored frame by frame beside the feeding.

use std::error::Error;
use std::io::Read;
use std::process::ExitCode;

fn main() -> ExitCode {
    let words: Vec<String> = std::env::args().skip(1).collect();
    match run(&words) {
        Ok(()) => ExitCode::SUCCESS,
        Err(e) => {
            eprintln!("receive: {e}");
            ExitCode::FAILURE
        }
    }
}

/// The number of bytes of a frame, 1 to 4,096.
fn frame_bytes(words: &[String]) -> Option<usize> {
    let [word] = words else { return None };
    word.parse().ok().filter(|most| (1..=4096).contains(most))
}

fn run(words: &[String]) -> Result<(), Box<dyn Error>> {
    let most = frame_bytes(words).ok_or("usage: receive BYTES")?;
    let mut line = std::io::stdin().lock();
    let mut frame = [0; 4096];
    let mut loader = lavandol::Loader::new();
    loop {
        let length = line.read(&mut frame[..most])?;
        if length == 0 {
            break;
        }
        loader.feed(&frame[..length])?;
    }
    let font = loader.close()?;
    println!("sound, {} glyphs", font.count);
    Ok(())
}
