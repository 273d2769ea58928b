//! Compares the proved library, through its Rust wrapper, with the independent
//! second implementation: every call on many fonts, equal in number, place, glyph,
//! content and buffer. All fonts come from fixed seeds, so every run asks the same.
//!
//! A difference prints the question, both answers and the file in hexadecimal, and
//! the run ends with status 1. `compare THREADS` sets how many threads share the work,
//! `compare THREADS SERIES` runs one series alone;
//! `compare files FONTLIST FILE..` asks everything of the files named (tools/real-fonts);
//! `compare lines FONTLOAD FILE..` runs the loading program on them (tools/try-loader).

mod ask;
mod differences;
mod edits;
mod files;
mod fonts;
mod glyphs;
mod lines;
#[allow(dead_code)]
#[path = "../../vectors/src/make.rs"]
mod make;
mod noncharacters;
mod pieces;
mod records;
mod tables;

use ask::{Asking, Tally};
use make::Random;
use std::sync::atomic::{AtomicUsize, Ordering};
use std::sync::Mutex;
use std::time::Instant;

/// Random small files, random tails and junk, `BATCH` to a job.
const BATCH: usize = 1000;
const FONT_JOBS: usize = 130;
const TAIL_JOBS: usize = 60;
const JUNK_JOBS: usize = 20;
const LARGE: usize = 400;

/// A series of jobs that may run side by side.
struct Series {
    name: &'static str,
    jobs: usize,
    run: fn(usize, &mut Tally),
}

/// A generator of its own for each job.
fn seed(series: u64, job: usize) -> Random {
    let mut random = Random(0x9E3779B97F4A7C15 ^ (series << 32) ^ (job as u64 + 1));
    for _ in 0..8 {
        random.below(2);
    }
    random
}

fn random(series: u64, job: usize, tally: &mut Tally, font: fn(&mut Random) -> Vec<u8>) {
    let mut random = seed(series, job);
    for _ in 0..BATCH {
        let file = font(&mut random);
        Asking { file: &file, tally }.all(&mut random);
    }
}

fn listed(series: u64, files: Vec<Vec<u8>>, tally: &mut Tally) {
    let mut random = seed(series, 0);
    for file in files {
        Asking { file: &file, tally }.all(&mut random);
    }
}

/// A part of a series: how many jobs, and what each is.
type Part = (usize, fn(usize, &mut Tally));

const fn jobs_of(parts: &[Part]) -> usize {
    let (mut sum, mut i) = (0, 0);
    while i < parts.len() {
        sum += parts[i].0;
        i += 1;
    }
    sum
}

/// A job of a series in parts, which follow one another.
fn run_part(parts: &[Part], job: usize, tally: &mut Tally) {
    let mut job = job;
    for (jobs, part) in parts {
        if job < *jobs {
            return part(job, tally);
        }
        job -= jobs;
    }
}

const SERIES: [Series; 16] = [
    Series { name: "fonts", jobs: FONT_JOBS, run: |j, t| random(1, j, t, fonts::random_font) },
    Series { name: "tails", jobs: TAIL_JOBS, run: |j, t| random(2, j, t, fonts::random_tail) },
    Series { name: "junk", jobs: JUNK_JOBS, run: |j, t| random(3, j, t, fonts::junk) },
    Series { name: "headers", jobs: 1, run: |_, t| listed(4, fonts::headers(), t) },
    Series { name: "entries", jobs: 1, run: |_, t| listed(5, fonts::entries(), t) },
    Series { name: "modes", jobs: 1, run: |_, t| listed(7, fonts::modes(), t) },
    Series {
        name: "large",
        jobs: LARGE,
        run: |j, t| {
            let mut random = seed(6, j);
            let file = fonts::large(j, &mut random);
            Asking { file: &file, tally: t }.some(&mut random);
        },
    },
    Series { name: "pieces", jobs: pieces::JOBS, run: pieces::run },
    Series { name: "tables in pieces", jobs: tables::EDGE_JOBS, run: tables::run_pieces },
    Series { name: "records", jobs: records::JOBS, run: records::run },
    Series { name: "edits", jobs: edits::JOBS, run: edits::run },
    Series { name: "differences", jobs: differences::JOBS, run: differences::run },
    Series { name: "glyphs", jobs: glyphs::JOBS, run: glyphs::run },
    Series { name: "noncharacters", jobs: noncharacters::JOBS, run: noncharacters::run },
    Series { name: "tables of 4 boundary bytes", jobs: tables::EDGE_JOBS, run: tables::run_edges },
    Series { name: "tables of up to 3 bytes", jobs: tables::JOBS, run: tables::run },
];

fn run(series: &Series, threads: usize) -> Tally {
    let next = AtomicUsize::new(0);
    let total = Mutex::new(Tally::default());
    std::thread::scope(|scope| {
        for _ in 0..threads {
            scope.spawn(|| {
                let mut tally = Tally::default();
                loop {
                    let job = next.fetch_add(1, Ordering::Relaxed);
                    // a broken library differs everywhere: a few files will do
                    if job >= series.jobs || tally.differences > 20 {
                        break;
                    }
                    (series.run)(job, &mut tally);
                }
                total.lock().unwrap().add(&tally);
            });
        }
    });
    total.into_inner().unwrap()
}

fn main() {
    let words: Vec<String> = std::env::args().skip(1).collect();
    if words.first().is_some_and(|w| w == "files") {
        return report(files::run(&words[1], &words[2..]), Instant::now());
    }
    if words.first().is_some_and(|w| w == "lines") {
        return report(lines::run(&words[1], &words[2..]), Instant::now());
    }
    let most = std::thread::available_parallelism().map_or(1, |n| n.get());
    let threads = std::env::args().nth(1).map_or(most, |n| n.parse().expect("a number of threads"));
    let start = Instant::now();
    let mut total = Tally::default();
    for series in SERIES.iter().filter(|s| words.get(1).is_none_or(|name| s.name == name)) {
        let from = Instant::now();
        let t = run(series, threads);
        println!(
            "{}: {} files, {} of them sound, {} answers, {:.1} s",
            series.name,
            t.files,
            t.sound,
            t.answers,
            from.elapsed().as_secs_f64()
        );
        total.add(&t);
        if total.differences > 20 {
            break;
        }
    }
    report(total, start);
}

fn report(total: Tally, start: Instant) {
    println!(
        "{} files, {} of them sound, {} answers, {:.0} s, differences: {}",
        total.files,
        total.sound,
        total.answers,
        start.elapsed().as_secs_f64(),
        total.differences
    );
    if total.differences != 0 {
        std::process::exit(1);
    }
}
