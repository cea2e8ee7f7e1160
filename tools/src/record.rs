//! The three records: whether the library accepts some bytes as one, or in words
//! why not. An archive is recognised, too.

use firrozka::{read_archive, read_moves, read_plan, read_sheet, to_bytes, Refusal, SHEET_BYTES};
use std::fmt;

/// "Three records".
#[derive(Clone, Copy, Debug, PartialEq, Eq)]
pub enum Record {
    Sheet,
    Plan,
    Moves,
}

impl fmt::Display for Record {
    fn fmt(&self, f: &mut fmt::Formatter) -> fmt::Result {
        f.write_str(match self {
            Record::Sheet => "sheet",
            Record::Plan => "plan",
            Record::Moves => "moves",
        })
    }
}

impl Record {
    const ALL: [Record; 3] = [Record::Sheet, Record::Plan, Record::Moves];

    /// The record that the word means.
    pub fn named(word: &str) -> Option<Record> {
        let mut all = Record::ALL.into_iter();
        all.find(|record| record.to_string() == word)
    }

    /// Whether the library accepts these bytes as such a record.
    fn accepts(self, bytes: &[u8]) -> Result<(), Refusal> {
        match self {
            Record::Sheet => read_sheet(bytes).map(drop),
            Record::Plan => read_plan(bytes).map(drop),
            Record::Moves => read_moves(bytes).map(drop),
        }
    }

    /// The bytes of these words, if they are such a record. Who typed words
    /// counts in words.
    pub fn of_words(self, words: &[u32]) -> Result<Vec<u8>, String> {
        let bytes = to_bytes(words);
        match self.accepts(&bytes) {
            Ok(()) => Ok(bytes),
            Err(refusal) => Err(in_words(refusal, words) + &reading(&bytes)),
        }
    }
}

/// *Read archive*: the sheet that an archive holds, or why the library refuses it.
pub fn sheet_in(archive: &[u8]) -> Result<Vec<u8>, Refusal> {
    read_archive(archive, &mut [0; SHEET_BYTES]).map(<[u8]>::to_vec)
}

/// Why these bytes are refused, and what they seem to be instead.
pub fn explained(refusal: Refusal, bytes: &[u8]) -> String {
    let instead = if bytes.is_empty() {
        String::from("; it is empty")
    } else if is_text(bytes) {
        let makes = match refusal.subject() {
            "sheet" => "'firrozka table' or 'firrozka write sheet' makes a record",
            "plan" => "'firrozka write plan' makes a record",
            "archive" => "'firrozka write sheet' makes a sheet for 'firrozka archive'",
            _ => "'firrozka write moves' makes a record",
        };
        format!("; this is text, of which {makes}")
    } else {
        reading(bytes)
    };
    format!("{refusal}{instead}")
}

/// What a reader says that accepts these bytes, if one does.
pub fn reading(bytes: &[u8]) -> String {
    let mut all = Record::ALL.into_iter();
    match all.find(|record| record.accepts(bytes).is_ok()) {
        Some(Record::Sheet) => String::from("; this reads as a sheet"),
        Some(Record::Plan) => String::from("; this reads as a plan"),
        Some(Record::Moves) => String::from("; this reads as moves"),
        None if sheet_in(bytes).is_ok() => String::from("; this reads as an archive"),
        None => String::new(),
    }
}

/// Why a record of these words is refused; its length is given in words.
fn in_words(refusal: Refusal, words: &[u32]) -> String {
    // In 64 bits: 2E is more than a word holds where E is large.
    let entries = |word: usize| 2 * u64::from(words[word]);
    let expected = match refusal {
        Refusal::SheetShort | Refusal::PlanShort => String::from("at least 3"),
        Refusal::MovesShort => String::from("at least 2"),
        Refusal::SheetLength => (3 + entries(2)).to_string(),
        Refusal::PlanLength => (3 + entries(0)).to_string(),
        Refusal::MovesLength => (2 + entries(1)).to_string(),
        _ => return refusal.to_string(),
    };
    let (number, subject, given) = (refusal.number(), refusal.subject(), words.len());
    format!("refused {number}: {subject}: {expected} words expected, {given} given")
}

/// Whether these bytes are lines of text. No record is: N, its first word, has
/// bytes 0.
fn is_text(bytes: &[u8]) -> bool {
    let of_text = |byte: &u8| *byte >= b' ' || byte.is_ascii_whitespace();
    bytes.iter().all(of_text)
}
