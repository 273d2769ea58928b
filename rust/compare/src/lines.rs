//! Lines of hexadecimal: what the program `fontload` writes for each file named, held against
//! the second implementation.

use crate::ask::Tally;
use crate::files::listed;

pub fn run(fontload: &str, paths: &[String]) -> Tally {
    let mut total = Tally::default();
    for path in paths {
        let input = std::fs::read(path).expect("a file");
        let text = second::fontload(&input);
        let written = listed(fontload, &input);
        total.files += 1;
        total.sound += (text == b"sound\n") as u64;
        total.answers += 1;
        if written != text {
            let [ours, theirs] = [&written, &text].map(|t| String::from_utf8_lossy(t));
            println!("DIFFERENCE {path}: {ours:?}, should be {theirs:?}");
            total.differences += 1;
        }
    }
    total
}
