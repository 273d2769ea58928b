//! The text of the listing program.

use crate::table::{sequences, singles};
use crate::*;

/// The first line for a sound font: kind, n, greatest height and width, table or
/// bare.
pub fn first_line(font: &Font) -> String {
    let table = if font.has_table { "table" } else { "bare" };
    format!("{} {} {} {} {}", font.kind.name(), font.count, font.height, font.width, table)
}

/// What the program writes for this input.
pub fn list(input: &[u8]) -> String {
    if input.len() > LISTER_LIMIT {
        return "too big\n".to_string();
    }
    let font = match check(input) {
        Ok(font) => font,
        Err(r) => return format!("{r}\n"),
    };
    let mut text = first_line(&font) + "\n";
    for (g, description) in font.reading.iter().enumerate() {
        let mut words = vec![g.to_string()];
        words.extend(singles(description).iter().map(|v| format!("{v:X}")));
        for sequence in sequences(description) {
            words.push(sequence.iter().map(|v| format!("+{v:X}")).collect());
        }
        text += &words.join(" ");
        text += "\n";
    }
    text
}
