//! Writes seven corpora of questions and expected answers: OUTDIR/fonts/{stdin,stdout},
//! and likewise OUTDIR/conversions, OUTDIR/metrics, OUTDIR/loads, OUTDIR/edits,
//! OUTDIR/differences and OUTDIR/glyphs.
//! With the word `answer` alone: answers a script from standard input.

mod answer;
mod conversions;
mod differences;
mod edits;
mod fonts;
mod glyphs;
mod loads;
mod make;
mod metrics;
mod script;

use std::fs;
use std::io::Read;
use std::path::Path;

fn write(folder: &Path, script: &[u8]) {
    let (text, questions, asked) = answer::answer(script);
    fs::create_dir_all(folder).expect("the folder can be made");
    fs::write(folder.join("stdin"), script).expect("stdin can be written");
    fs::write(folder.join("stdout"), &text).expect("stdout can be written");
    let (from, to) = (script.len(), text.len());
    println!("{}: {questions} questions, stdin {from}, stdout {to} bytes", folder.display());
    println!("  the files asked about have {asked} bytes, all together");
}

fn main() {
    let out = std::env::args().nth(1).expect("usage: vectors OUTDIR, or vectors answer");
    if out == "answer" {
        let mut script = Vec::new();
        std::io::stdin().read_to_end(&mut script).expect("a script to read");
        print!("{}", answer::answer(&script).0);
        return;
    }
    let out = Path::new(&out);
    write(&out.join("fonts"), &fonts::script());
    write(&out.join("conversions"), &conversions::script());
    write(&out.join("metrics"), &metrics::script());
    write(&out.join("loads"), &loads::script());
    write(&out.join("edits"), &edits::script());
    write(&out.join("differences"), &differences::script());
    write(&out.join("glyphs"), &glyphs::script());
}
