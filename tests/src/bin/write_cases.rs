//! `write_cases DIR` writes stdin and stdout of the programs that the gate runs
//! on the second implementation's cases, to DIR/cases and DIR/stretches.
#![forbid(unsafe_code)]

use firrozka_tests::cases::{self, Files};
use firrozka_tests::stretches;
use std::path::Path;
use std::process::ExitCode;
use std::{env, fs};

fn main() -> ExitCode {
    let arguments: Vec<String> = env::args().skip(1).collect();
    match run(&arguments) {
        Ok(said) => {
            println!("{said}");
            ExitCode::SUCCESS
        }
        Err(wrong) => {
            eprintln!("{wrong}");
            ExitCode::FAILURE
        }
    }
}

fn run(arguments: &[String]) -> Result<String, String> {
    let folder = match arguments {
        [folder] => Path::new(folder),
        _ => return Err("usage: write_cases DIR".into()),
    };
    let cases = written(&folder.join("cases"), &cases::all())?;
    let stretches = written(&folder.join("stretches"), &stretches::all())?;
    Ok([cases, stretches].join("\n"))
}

/// Writes both files, and says how long they are.
fn written(folder: &Path, files: &Files) -> Result<String, String> {
    fs::create_dir_all(folder).map_err(|wrong| format!("{}: {wrong}", folder.display()))?;
    write(&folder.join("stdin"), &files.stdin)?;
    write(&folder.join("stdout"), files.stdout.as_bytes())?;
    let lengths = [files.stdin.len(), files.stdout.len()];
    let lines = files.stdout.lines();
    let firsts = lines.filter(|line| !line.starts_with("node") && !line.starts_with("move"));
    let name = folder.display();
    let count = firsts.count();
    Ok(format!(
        "{name}: {count} cases; stdin and stdout have {lengths:?} bytes"
    ))
}

fn write(path: &Path, bytes: &[u8]) -> Result<(), String> {
    fs::write(path, bytes).map_err(|wrong| format!("{}: {wrong}", path.display()))
}
