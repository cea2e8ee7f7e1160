//! Words as text: numbers with blanks or new lines between them.

use crate::text::{Fault, Piece};
use firrozka::Words;

/// The words of a text.
pub fn of_text(text: &str) -> Result<Vec<u32>, Fault> {
    let words = Piece::lines(text).flat_map(Piece::words);
    words.map(Piece::number).collect()
}

/// The words on a line.
pub fn to_text(words: Words) -> String {
    let words: Vec<String> = words.iter().map(|word| word.to_string()).collect();
    words.join(" ") + "\n"
}
