//! The bench program as it was built: what it prints for inputs of every length,
//! held to the second implementation's text.
//!
//! FIRROZKA_BENCH names another program, seen from this crate's folder.
#![forbid(unsafe_code)]

use firrozka_tests::bench_text::bench;
use firrozka_tests::random::Random;
use firrozka_tests::records::mutation::some_bytes;
use firrozka_tests::{refused, steps, worked};
use std::env;
use std::io::Write;
use std::os::unix::io::OwnedFd;
use std::os::unix::net::UnixDatagram;
use std::path::{Path, PathBuf};
use std::process::{Child, Command, Stdio};
use std::thread;

/// The longest input that can be accepted: a sheet of 64 nodes and 4,096 cells,
/// 4 × (3+2E) bytes, and a plan, 4 × (3+2N).
const LONGEST: usize = 32_780 + 524;

/// So long that no pipe holds it.
const LONG: usize = 1_000_000;

/// The program is never left out: without it there is nothing to test.
fn program() -> PathBuf {
    let name = env::var_os("FIRROZKA_BENCH").unwrap_or_else(|| "../target/bin/bench".into());
    let path = Path::new(env!("CARGO_MANIFEST_DIR")).join(name);
    assert!(
        path.is_file(),
        "{} is missing: run `bash tools/build bench` at the repository root first",
        path.display()
    );
    path
}

fn start(stdin: Stdio) -> Child {
    let mut command = Command::new(program());
    let child = command.stdin(stdin).stdout(Stdio::piped()).spawn();
    child.expect("the program can be run")
}

/// All that the program prints.
fn printed(child: Child) -> Vec<u8> {
    let output = child.wait_with_output().expect("its output can be read");
    assert!(output.status.success(), "it ended with {}", output.status);
    output.stdout
}

/// The input goes through a pipe, from a thread: the program may print before it
/// has read all. It has to read all, or whoever writes would be stopped.
fn from_a_pipe(input: &[u8]) -> Vec<u8> {
    let mut child = start(Stdio::piped());
    let mut stdin = child.stdin.take().expect("standard input is a pipe");
    thread::scope(|threads| {
        threads.spawn(move || stdin.write_all(input).expect("the program reads all"));
        printed(child)
    })
}

/// The input arrives in pieces, each a datagram. A read takes one and no more,
/// so that this does not hang on who is quicker. Those without bytes are the
/// end: as many as are read, until the program has ended.
fn from_pieces(input: &[u8], size: usize) -> Vec<u8> {
    let (ours, theirs) = UnixDatagram::pair().expect("there are sockets");
    let child = start(OwnedFd::from(theirs).into());
    thread::scope(|threads| {
        threads.spawn(move || {
            for piece in input.chunks(size) {
                ours.send(piece).expect("the program reads all");
            }
            while ours.send(&[]).is_ok() {}
        });
        printed(child)
    })
}

/// The program prints what the second implementation says, however the input
/// comes.
fn prints_the_same(name: &str, input: &[u8]) {
    let expected = bench(input).into_bytes();
    assert!(from_a_pipe(input) == expected, "{name}");
    // What is longer than the program's own reads would be lost.
    for size in [7, 4_095] {
        assert!(from_pieces(input, size) == expected, "{name}, by {size}");
    }
}

/// The same, for an input whose text is known.
fn prints(name: &str, input: &[u8], text: &str) {
    assert_eq!(bench(input), text, "{name}");
    prints_the_same(name, input);
}

fn with_bytes(input: &[u8], more: &[u8]) -> Vec<u8> {
    [input, more].concat()
}

/// Bytes without any sense.
fn noise(length: usize) -> Vec<u8> {
    some_bytes(length, &mut Random::at(1, 0))
}

fn longest() -> Vec<u8> {
    let input = steps::largest().input();
    assert_eq!(input.len(), LONGEST);
    input
}

#[test]
fn short_inputs() {
    let d = worked::d().sheet;
    prints("nothing", &[], "refused 1\n");
    prints("11 bytes", &d[..11], "refused 1\n");
    prints("the sizes alone", &d[..12], "refused 5\n");
    prints("step D and a byte", &with_bytes(&d, &[0]), "refused 11\n");
    let e = worked::e().input();
    prints("step E less a byte", &e[..e.len() - 1], "refused 15\n");
    prints("step E and a byte", &with_bytes(&e, &[0]), "refused 15\n");
}

#[test]
fn steps_worked_by_hand() {
    for (letter, step) in worked::all() {
        prints_the_same(&format!("step {letter}"), &step.input());
    }
}

#[test]
fn refusals() {
    for (refusal, step) in refused::all() {
        let text = format!("refused {refusal}\n");
        prints(&text, &step.input(), &text);
    }
}

/// The longest input that can be accepted, and one byte less and more.
#[test]
fn the_longest_input() {
    let longest = longest();
    assert!(bench(&longest).starts_with("kind 1 limit "));
    prints_the_same("the longest", &longest);
    prints("a byte less", &longest[..LONGEST - 1], "refused 15\n");
    for more in [1, 2, 4] {
        prints(
            "some more",
            &with_bytes(&longest, &noise(more)),
            "refused 15\n",
        );
    }
}

/// What nobody keeps is read all the same.
#[test]
fn very_long_inputs() {
    let rest = noise(LONG - LONGEST);
    prints(
        "the longest and noise",
        &with_bytes(&longest(), &rest),
        "refused 15\n",
    );
    let (d, e) = (worked::d().sheet, worked::e().input());
    prints_the_same("step D and noise", &with_bytes(&d, &rest));
    prints("step E and noise", &with_bytes(&e, &rest), "refused 15\n");
    prints_the_same("noise", &noise(LONG));
    prints("zeros", &vec![0; LONG], "refused 2\n");
}
