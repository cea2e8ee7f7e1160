//! What the tool can do, from the bytes that were read to those to be written:
//! nothing is written before all is known to be good.

use crate::arguments::Call;
use crate::files::{input_name, STANDARD};
use crate::record::{reading, Record};
use crate::step::{self, Source};
use crate::table::Sizes;
use crate::text::{self, Piece};
use crate::{archive, groups, show, table, tally, words};
use firrozka::{to_bytes, Words, SHEET_BYTES};

/// What is asked for.
#[derive(Clone, Copy, Debug, PartialEq, Eq)]
pub enum Task {
    /// A step planned from a sheet and perhaps an old plan.
    Plan,
    /// The tree of a plan weighed under a sheet.
    Weigh,
    /// The sheet that follows a sheet and moves.
    Carry,
    /// The sheet with the counts of two.
    Join,
    /// The traffic page of a sheet and moves.
    Traffic,
    /// A sheet to its archive.
    Archive,
    /// An archive to its sheet.
    Restore,
    /// The groups of a plan.
    Groups,
    /// The tally of a sheet and a plan, and calls on it.
    Tally,
    /// A table of counts to a sheet.
    Table(Sizes),
    /// Text to a record that the library accepts, or words to any bytes.
    Write(Option<Record>),
    /// A record to text.
    Show(Record),
    /// An archive to the text of its sheet.
    ShowArchive,
    /// Any bytes to words.
    Words,
}

/// What is to be written: files with their names, and the standard output.
#[derive(Clone, Debug, Default, PartialEq, Eq)]
pub struct Outcome {
    pub files: Vec<(String, Vec<u8>)>,
    pub printed: Vec<u8>,
}

impl Outcome {
    /// A file more, or none.
    fn save(&mut self, name: &Option<String>, bytes: Vec<u8>) {
        if let Some(name) = name {
            self.files.push((name.clone(), bytes));
        }
    }

    /// The standard output, or a file in its place.
    fn put(&mut self, name: &Option<String>, bytes: Vec<u8>) {
        match name.as_deref() {
            None | Some(STANDARD) => self.printed = bytes,
            _ => self.save(name, bytes),
        }
    }
}

impl Task {
    /// How many bytes of the input at a place are read. A record is refused all the
    /// same when more than one byte of what is too long is left out.
    pub fn most(self, place: usize) -> u64 {
        match self {
            // The calls are text.
            Task::Tally if place == 2 => u64::MAX,
            Task::Plan
            | Task::Weigh
            | Task::Carry
            | Task::Join
            | Task::Traffic
            | Task::Archive
            | Task::Restore
            | Task::Groups
            | Task::Tally
            | Task::Show(_)
            | Task::ShowArchive => SHEET_BYTES as u64 + 1,
            Task::Table(_) | Task::Write(_) | Task::Words => u64::MAX,
        }
    }

    /// The bytes for one input and one output.
    fn turn(self, input: &[u8]) -> Result<Vec<u8>, String> {
        match self {
            Task::Table(sizes) => {
                let words = of_text(input, |text| table::sheet(text, Some(sizes)))?;
                Record::Sheet.of_words(&words)
            }
            Task::Write(None) => of_text(input, to_words).map(|words| to_bytes(&words)),
            Task::Write(Some(record)) => {
                let words = of_text(input, |text| written(record, text))?;
                record.of_words(&words)
            }
            Task::Archive => archive::archived(input),
            Task::Restore => archive::restored(input),
            Task::Groups => groups::listed(input).map(String::into_bytes),
            Task::Show(record) => show::show(record, input).map(String::into_bytes),
            Task::ShowArchive => show::show_archive(input).map(String::into_bytes),
            _ => to_text(input).map(String::into_bytes),
        }
    }
}

/// What is to be written for these inputs of a call.
pub fn run(call: &Call, inputs: &[Vec<u8>]) -> Result<Outcome, String> {
    let named = call.inputs.iter().zip(inputs);
    let sources: Vec<Source> = named
        .map(|(name, bytes)| Source {
            name: input_name(name),
            bytes,
        })
        .collect();
    let mut outcome = Outcome::default();
    match (call.task, sources.as_slice()) {
        (Task::Plan, [sheet, old @ ..]) => {
            let planned = step::plan(sheet, old.first())?;
            outcome.save(&call.output, planned.plan);
            outcome.save(&call.moves, planned.moves);
            outcome.printed = planned.text.into_bytes();
        }
        (Task::Weigh, [sheet, plan]) => {
            outcome.printed = step::weighed(sheet, plan)?.into_bytes();
        }
        (Task::Carry, [sheet, moves]) => {
            outcome.put(&call.output, step::carried(sheet, moves)?);
        }
        (Task::Join, [sheet, inlet]) => {
            outcome.put(&call.output, step::joined(sheet, inlet)?);
        }
        (Task::Traffic, [sheet, moves]) => {
            outcome.printed = step::traffic(sheet, moves)?.into_bytes();
        }
        (Task::Tally, [sheet, plan, calls]) => {
            let tally = tally::opened(sheet, plan)?;
            let calls = calls.named(of_text(calls.bytes, tally::calls))?;
            outcome.printed = tally::tallied(tally, &calls).into_bytes();
        }
        (task, [input]) => {
            let turned = input.named(task.turn(input.bytes))?;
            outcome.put(&call.output, turned);
        }
        _ => unreachable!("a call has the files of its verb"),
    }
    Ok(outcome)
}

/// What is made of text. A record in place of text is recognised.
fn of_text<T>(input: &[u8], make: impl FnOnce(&str) -> Result<T, String>) -> Result<T, String> {
    let made = text::of_bytes(input).map_err(String::from).and_then(make);
    made.map_err(|what| what + &reading(input))
}

/// The words of a record that is written as a table, which begins with a letter,
/// or as words.
fn written(record: Record, text: &str) -> Result<Vec<u32>, String> {
    let first = Piece::lines(text).next();
    let is_table = first.map_or(false, |line| line.text.starts_with(char::is_alphabetic));
    match record {
        _ if !is_table => to_words(text),
        Record::Sheet => table::sheet(text, None),
        Record::Plan => table::plan(text),
        Record::Moves => table::moves(text),
    }
}

fn to_words(text: &str) -> Result<Vec<u32>, String> {
    Ok(words::of_text(text)?)
}

/// The words of whole words.
fn to_text(input: &[u8]) -> Result<String, String> {
    let words = Words::of(input);
    if 4 * words.len() != input.len() {
        return Err(format!("{} bytes are no whole words", input.len()));
    }
    Ok(words::to_text(words))
}
