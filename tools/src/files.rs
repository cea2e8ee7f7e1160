//! Files to read and to write. `-` is the standard input or output.

use std::fs::{self, File, OpenOptions};
use std::io::{self, Read, Write};
use std::path::{Path, PathBuf};
use std::process;

/// The standard input or output.
pub const STANDARD: &str = "-";

/// What an input is called in a message.
pub fn input_name(name: &str) -> &str {
    match name {
        STANDARD => "standard input",
        file => file,
    }
}

/// What a file holds, or so many bytes of it.
pub fn read(name: &str, most: u64) -> Result<Vec<u8>, String> {
    let mut bytes = Vec::new();
    let read = match name {
        STANDARD => io::stdin().lock().take(most).read_to_end(&mut bytes),
        file => File::open(file).and_then(|file| file.take(most).read_to_end(&mut bytes)),
    };
    match read {
        Ok(_) => Ok(bytes),
        Err(error) => Err(format!("{}: cannot be read: {error}", input_name(name))),
    }
}

/// Prints to the standard output, and notices when it is full or closed.
pub fn print(bytes: &[u8]) -> Result<(), String> {
    let mut output = io::stdout().lock();
    let printed = output.write_all(bytes).and_then(|()| output.flush());
    printed.map_err(|error| unwritten("standard output", &error))
}

fn unwritten(name: &str, error: &io::Error) -> String {
    format!("{name}: cannot be written: {error}")
}

/// Writes files. Each is written beside its place first, and put there when all
/// are whole: a full disk leaves what stands there.
pub fn save(files: &[(String, Vec<u8>)]) -> Result<(), String> {
    let mut staged = Vec::new();
    for (name, bytes) in files {
        let stage = stage(name, bytes).map_err(|error| unwritten(name, &error))?;
        staged.push((name, stage));
    }
    let mut placed = Vec::new();
    for (name, stage) in staged {
        let put = stage.map_or(Ok(()), |stage| fs::rename(&stage.beside, &stage.place));
        put.map_err(|error| unwritten(name, &error) + &written(&placed))?;
        placed.push(name.clone());
    }
    Ok(())
}

/// What a message adds of files that are written nevertheless.
pub fn written(names: &[String]) -> String {
    match names {
        [] => String::new(),
        names => format!("; written: {}", names.join(", ")),
    }
}

/// A file beside the place where it belongs. It is removed if it is not put there.
struct Stage {
    beside: PathBuf,
    place: PathBuf,
}

impl Drop for Stage {
    fn drop(&mut self) {
        let _ = fs::remove_file(&self.beside);
    }
}

/// Writes a file beside its place; what is no plain file, such as a pipe, has no
/// place to put another in, and is written at once.
fn stage(name: &str, bytes: &[u8]) -> io::Result<Option<Stage>> {
    // A link stays one, and what it names is written.
    let place = fs::canonicalize(name).unwrap_or_else(|_| PathBuf::from(name));
    let standing = fs::metadata(&place).ok();
    if standing.as_ref().map_or(false, |found| !found.is_file()) {
        fs::write(&place, bytes)?;
        return Ok(None);
    }
    if standing.is_some() {
        // A file that is protected is not replaced.
        OpenOptions::new().write(true).open(&place)?;
    }
    let mut beside = place.clone().into_os_string();
    beside.push(format!(".{}.part", process::id()));
    let beside = PathBuf::from(beside);
    let mut new = OpenOptions::new();
    let file = new.write(true).create_new(true).open(&beside)?;
    let stage = Stage { beside, place };
    fill(file, bytes, standing.map(|found| found.permissions()))?;
    Ok(Some(stage))
}

/// Fills a new file. It may be told that the disk is full only when asked whether
/// all is there.
fn fill(mut file: File, bytes: &[u8], permissions: Option<fs::Permissions>) -> io::Result<()> {
    if let Some(permissions) = permissions {
        file.set_permissions(permissions)?;
    }
    file.write_all(bytes)?;
    file.sync_all()
}

/// Whether two names are one file, which is there or not yet.
pub fn same(first: &str, second: &str) -> bool {
    let plain = fs::metadata(first).map_or(true, |found| found.is_file());
    plain && full(Path::new(first)) == full(Path::new(second))
}

/// The full name of a file, as far as its folder is there.
fn full(file: &Path) -> PathBuf {
    let of_folder = || {
        let folder = match file.parent()? {
            folder if folder == Path::new("") => Path::new("."),
            folder => folder,
        };
        Some(fs::canonicalize(folder).ok()?.join(file.file_name()?))
    };
    let there = fs::canonicalize(file).ok().or_else(of_folder);
    there.unwrap_or_else(|| file.to_path_buf())
}
