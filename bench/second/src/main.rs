//! Calls the second implementation once for each figure of tools/bench:
//! `bench-second FONT HEX`, HEX being the value of the last glyph. A conversion of another kind is refused at once.

use std::hint::black_box;

/// A function of its own for each figure, whose instructions callgrind counts.
macro_rules! figures {
    ($($name:ident($($word:ident: $kind:ty),*) = $call:expr;)*) => {$(
        #[inline(never)]
        #[no_mangle]
        pub fn $name(file: &Vec<u8>, $($word: $kind),*) {
            let asked: fn(&[u8], $($kind),*) -> bool = $call;
            black_box(asked(black_box(file), $($word),*));
        }
    )*};
}

figures! {
    bench_check() = |file| second::check(file).is_ok();
    bench_none() = |file| second::find_value(file, 0x10FFF0).is_ok();
    bench_last(v: u32) = |file, v| second::find_value(file, v).is_ok();
    bench_metrics() = |file| second::metrics(file, 0).is_ok();
    bench_psf1_to_psf2(out: &mut [u8]) = |file, out| second::psf1_to_psf2(file, out).is_ok();
    bench_psf2_to_psf1(out: &mut [u8]) = |file, out| second::psf2_to_psf1(file, out).is_ok();
    bench_psf2_to_vfont2(out: &mut [u8]) = |file, out| second::psf2_to_vfont2(file, out).is_ok();
    bench_vfont2_to_psf2(out: &mut [u8]) = |file, out| second::vfont2_to_psf2(file, out).is_ok();
}

fn main() {
    let words: Vec<String> = std::env::args().collect();
    let file = std::fs::read(&words[1]).expect("a font");
    let last = u32::from_str_radix(&words[2], 16).expect("a value");
    let mut out = vec![0; 1_048_576];
    bench_check(&file);
    bench_none(&file);
    bench_last(&file, last);
    bench_metrics(&file);
    bench_psf1_to_psf2(&file, &mut out);
    bench_psf2_to_psf1(&file, &mut out);
    bench_psf2_to_vfont2(&file, &mut out);
    bench_vfont2_to_psf2(&file, &mut out);
}
