//! `firrozka`: ends with 0 if all is well; with 1 if a file is missing, bad or
//! refused, or cannot be written; with 2 if it is called wrongly.
#![forbid(unsafe_code)]

use firrozka_tools::arguments::{parse, Asked, Call};
use firrozka_tools::{files, task};
use std::env;
use std::ffi::OsString;
use std::io::{self, Write};
use std::process::ExitCode;

fn main() -> ExitCode {
    let (status, message) = match arguments().and_then(|given| parse(&given)) {
        Err(wrong) => (2, wrong),
        Ok(asked) => match run(asked) {
            Ok(()) => return ExitCode::SUCCESS,
            Err(failure) => (1, failure + "\n"),
        },
    };
    // If nobody hears it, the status still says so.
    let _ = io::stderr().write_all(message.as_bytes());
    ExitCode::from(status)
}

fn arguments() -> Result<Vec<String>, String> {
    let no_text = |given: OsString| format!("firrozka: {given:?} is no UTF-8 text\n");
    let given = env::args_os().skip(1).map(OsString::into_string);
    given.collect::<Result<_, _>>().map_err(no_text)
}

fn run(asked: Asked) -> Result<(), String> {
    match asked {
        Asked::Text(text) => files::print(text.as_bytes()),
        Asked::Work(call) => work(&call),
    }
}

/// Reads all, then writes the files, then prints.
fn work(call: &Call) -> Result<(), String> {
    let read = |(place, name): (usize, &String)| files::read(name, call.task.most(place));
    let inputs = call.inputs.iter().enumerate().map(read);
    let inputs: Vec<Vec<u8>> = inputs.collect::<Result<_, _>>()?;
    let outcome = task::run(call, &inputs)?;
    files::save(&outcome.files)?;
    let names: Vec<String> = outcome.files.into_iter().map(|(name, _)| name).collect();
    files::print(&outcome.printed).map_err(|failure| failure + &files::written(&names))
}
