//! The tool from outside: calls of it, and the files that it is given.
#![allow(dead_code)] // no test has use for all of it

use std::ffi::OsStr;
use std::fs;
use std::io::Write;
use std::path::PathBuf;
use std::process::{Child, Command, Output, Stdio};

/// The tool, and what its calls need beside their arguments.
pub fn tool() -> Command {
    let mut tool = Command::new(env!("CARGO_BIN_EXE_firrozka"));
    tool.stdin(Stdio::piped());
    tool.stdout(Stdio::piped());
    tool.stderr(Stdio::piped());
    tool
}

/// What a tool that was started ends with, given this input.
pub fn end(mut child: Child, input: &[u8]) -> Output {
    let mut stdin = child.stdin.take().expect("it has an input");
    // One that is called wrongly does not read.
    let _ = stdin.write_all(input);
    drop(stdin);
    child.wait_with_output().expect("the tool ends")
}

/// The tool with this input.
pub fn firrozka(arguments: &[impl AsRef<OsStr>], input: &[u8]) -> Output {
    let child = tool().args(arguments).spawn().expect("the tool starts");
    end(child, input)
}

/// What it writes where all is well.
pub fn written(arguments: &[&str], input: &[u8]) -> Vec<u8> {
    let output = firrozka(arguments, input);
    let said = String::from_utf8_lossy(&output.stderr);
    assert!(output.status.success(), "{arguments:?}: {said}");
    assert_eq!(said, "");
    output.stdout
}

/// The same, as text.
pub fn printed(arguments: &[&str]) -> String {
    String::from_utf8(written(arguments, b"")).expect("it prints text")
}

/// What it says where something fails; it then prints nothing.
pub fn said(arguments: &[&str], input: &[u8]) -> String {
    let said = failed(firrozka(arguments, input), 1);
    let line = said.strip_suffix('\n').expect("it says a line");
    String::from(line)
}

/// What it says on the way to this exit status, with nothing printed.
pub fn failed(output: Output, status: i32) -> String {
    let said = String::from_utf8(output.stderr).expect("it says text");
    assert_eq!(output.status.code(), Some(status), "{said}");
    assert_eq!(output.stdout, b"", "{said}");
    said
}

/// The name of a file in the folder of examples.
pub fn example(name: &str) -> String {
    format!("{}/../examples/{name}", env!("CARGO_MANIFEST_DIR"))
}

/// The bytes of a file.
pub fn bytes(name: &str) -> Vec<u8> {
    fs::read(name).expect("the file is there")
}

/// A file of the tests' own folder, not there at first. No two tests share one.
pub fn fresh(name: &str) -> String {
    let file = PathBuf::from(env!("CARGO_TARGET_TMPDIR")).join(name);
    let _ = fs::remove_file(&file);
    let name = file.to_str().expect("the folder's name is text");
    String::from(name)
}

/// Such a file with these bytes.
pub fn file(name: &str, bytes: &[u8]) -> String {
    let file = fresh(name);
    fs::write(&file, bytes).expect("the file is written");
    file
}

/// Such a file with the bytes of these words.
pub fn record(name: &str, words: &str) -> String {
    file(name, &written(&["write", "any"], words.as_bytes()))
}
