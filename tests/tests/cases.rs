//! What the bench program prints, and the files of the programs that the gate
//! runs.
#![forbid(unsafe_code)]

use firrozka_tests::bench_text::{bench, split, text};
use firrozka_tests::calls::{Call, TREE_IN_FORCE};
use firrozka_tests::coverage::Coverage;
use firrozka_tests::implementations::{ARCHIVE, PLAN_BYTES};
use firrozka_tests::records::{to_bytes, to_words};
use firrozka_tests::steps::Step;
use firrozka_tests::{cases, damaged, refused, stretches, worked};

/// "Sheet D below prints all of this".
const D: &str = "\
kind 2 limit 36
node 0 helps 0 share 0 own 34
node 1 helps 0 share 27 own 6
node 2 helps 0 share 29 own 4
move 0 from 0 to 1 count 27
move 0 from 0 to 2 count 29
";

#[test]
fn sheet_d() {
    assert_eq!(bench(&worked::d().input()), D);
    assert_eq!(text(&worked::d().sheet, &[]), D);
}

/// An old plan follows at once.
#[test]
fn sheet_and_plan() {
    let printed = "\
kind 1 limit 36
node 0 helps 0 share 0 own 31
node 1 helps 0 share 27 own 6
node 2 helps 0 share 29 own 7
move 0 from 2 to 0 count 1
move 2 from 0 to 2 count 3
";
    assert_eq!(bench(&worked::e().input()), printed);
}

/// "A refusal prints only `refused 5` with its number."
#[test]
fn refusals() {
    for (refusal, step) in refused::all() {
        let printed = format!("refused {refusal}\n");
        assert_eq!(text(&step.sheet, &step.old), printed);
        assert_eq!(bench(&step.input()), printed);
    }
    let sheet = worked::d().sheet;
    for length in 0..sheet.len() {
        let refusal = if length < 12 { 1 } else { 5 };
        let printed = format!("refused {refusal}\n");
        assert_eq!(bench(&sheet[..length]), printed);
    }
    // What stands behind the sheet is the old plan, whatever it is.
    for more in 1..12 {
        let longer = [&sheet[..], &vec![0; more]].concat();
        assert_eq!(bench(&longer), "refused 11\n");
    }
    let longer = [worked::e().input(), vec![0]].concat();
    assert_eq!(bench(&longer), "refused 15\n");
}

/// E that is far too large ends the run before anything follows from it.
#[test]
fn header_refused() {
    for e in [10, 1 << 29, 1 << 30, u32::MAX] {
        let words = [3, 100, e, 0, 65, 130, 90, 6, 4];
        let bytes = to_bytes(&words);
        assert_eq!(bench(&bytes), "refused 4\n");
    }
}

/// A file of a program that the gate runs, which from the root is written by
/// `cargo run --release --manifest-path tests/Cargo.toml --bin write_cases crates`.
fn written(name: &str) -> Vec<u8> {
    let folder = concat!(env!("CARGO_MANIFEST_DIR"), "/../crates");
    std::fs::read(format!("{folder}/{name}")).expect("the file is there")
}

/// So many words at the front, and what follows them.
fn words_and_rest(bytes: &[u8], words: usize) -> (Vec<u32>, &[u8]) {
    let (words, rest) = bytes.split_at(4 * words);
    (to_words(words), rest)
}

/// The files taken apart again: each case with its text, which is all lines up
/// to the next one that begins a text.
fn take_apart(stdin: &[u8], stdout: &str) -> Vec<(Vec<u8>, String)> {
    let mut texts: Vec<String> = Vec::new();
    for line in stdout.split_inclusive('\n') {
        match texts.last_mut() {
            Some(text) if line.starts_with("node") || line.starts_with("move") => *text += line,
            _ => texts.push(line.into()),
        }
    }
    let mut texts = texts.into_iter();
    let mut rest = stdin;
    let mut all = Vec::new();
    while !rest.is_empty() {
        let (length, behind) = words_and_rest(rest, 1);
        let (case, behind) = behind.split_at(length[0] as usize);
        rest = behind;
        all.push((case.to_vec(), texts.next().expect("a text for each case")));
    }
    assert_eq!(texts.next(), None);
    all
}

/// All cases as they stand in the files: A to K, the refusals, the damaged
/// ones, and the others.
fn cases_written() -> [Vec<(Vec<u8>, String)>; 4] {
    let stdout = String::from_utf8(written("cases/stdout")).expect("it is text");
    let mut worked = take_apart(&written("cases/stdin"), &stdout);
    let mut refused = worked.split_off(11);
    let mut damaged = refused.split_off(16);
    let others = damaged.split_off(damaged.len() - cases::RANDOM as usize - 1);
    [worked, refused, damaged, others]
}

/// The files are what the second implementation makes of them today; each text
/// is what the bench program prints; and they stay small.
#[test]
fn files() {
    let cases = cases::all();
    assert!(cases.stdin == written("cases/stdin"));
    assert!(cases.stdout.as_bytes() == written("cases/stdout"));
    assert!(cases.stdin.len() < 200_000 && cases.stdout.len() < 500_000);
    for (case, text) in cases_written().into_iter().flatten() {
        assert_eq!(bench(&case), text);
        assert!(case.len() <= cases::MOST_BYTES);
    }
}

/// They hold A to K and all refusals in order.
#[test]
fn steps_and_refusals_in_the_files() {
    let [worked, refused, ..] = cases_written();
    assert_eq!(worked[3].1, D);
    let numbers = [1, 2, 3, 4, 5, 6, 7, 11, 12, 13, 14, 15, 16, 17, 18, 21];
    assert_eq!(refused.len(), numbers.len());
    for (number, (_, text)) in numbers.into_iter().zip(refused) {
        assert_eq!(text, format!("refused {number}\n"));
    }
}

/// They hold damaged inputs with every refusal of the bench program and every
/// order of two faults that it can meet; the text names the first.
#[test]
fn damaged_inputs_in_the_files() {
    let [_, _, damaged, _] = cases_written();
    let mut met = Coverage::default();
    for (case, text) in damaged {
        let faults = damaged::faults(&case);
        met.note(&faults);
        match faults.first() {
            Some(first) => assert_eq!(text, format!("refused {first}\n")),
            None => assert!(text.starts_with("kind ")),
        }
    }
    println!("{met}");
    let gaps = met.gaps(&damaged::numbers(), &damaged::pairs_met());
    assert!(gaps.is_empty(), "{gaps:#?}");
}

/// They hold steps of every kind and of all sizes, the largest among them.
#[test]
fn other_steps_in_the_files() {
    let [_, _, _, others] = cases_written();
    let with = |part: &str| {
        let texts = others.iter().filter(|(_, text)| text.contains(part));
        texts.count()
    };
    for kind in 0..=2 {
        assert!(with(&format!("kind {kind} ")) >= 40, "kind {kind}");
    }
    assert!(with("\nnode 63 ") >= 15);
    assert!(with("\nnode 9 ") >= 30);
    let (case, text) = &others[others.len() - 1];
    assert_eq!(case.len(), cases::MOST_BYTES);
    assert!(text.starts_with("kind 1 "));
}

/// They hold steps in which a family affords its helpers' holds, where these are above
/// leasts, and steps in which one does not.
#[test]
fn holds_in_the_files() {
    let [_, _, _, others] = cases_written();
    let mut times = [0, 0];
    for (case, _) in others {
        let (sheet, old) = split(&case).expect("the header is accepted");
        let [sheet, old] = [sheet, old].map(<[u8]>::to_vec);
        let decisions = Step { sheet, old }.in_kept_families(|family| family.decision());
        for (times, how) in times.iter_mut().zip([true, false]) {
            *times += usize::from(decisions.contains(&Some(how)));
        }
    }
    assert!(times.iter().all(|&times| times >= 40), "{times:?}");
}

/// The pairs of plans as they stand in the file.
fn pairs_written() -> Vec<stretches::Pair> {
    let stdin = written("stretches/stdin");
    let mut rest = &stdin[..];
    let mut pairs = Vec::new();
    while !rest.is_empty() {
        let (lengths, behind) = words_and_rest(rest, 2);
        let (old, behind) = behind.split_at(lengths[0] as usize);
        let (new, behind) = behind.split_at(lengths[1] as usize);
        rest = behind;
        pairs.push([old.to_vec(), new.to_vec()]);
    }
    pairs
}

/// The files of *tree in force* are what the second implementation makes of them
/// today. A line is empty where something is wrong with the pair, looked at
/// fault by fault, and what the archive says otherwise.
#[test]
fn stretches_in_the_files() {
    let stretches = stretches::all();
    assert!(stretches.stdin == written("stretches/stdin"));
    assert!(stretches.stdout.as_bytes() == written("stretches/stdout"));
    let pairs = pairs_written();
    assert_eq!(stretches.stdout.lines().count(), pairs.len());
    let mut met = Coverage::default();
    for (pair, line) in pairs.iter().zip(stretches.stdout.split_inclusive('\n')) {
        let faults = (TREE_IN_FORCE.faults)(&Call::without_buffers(pair.clone()));
        met.note(&faults);
        assert_eq!(line == "stretch\n", !faults.is_empty(), "{line}");
        assert_eq!(line, stretches::text(&ARCHIVE, pair));
        assert!(pair.iter().all(|plan| plan.len() <= PLAN_BYTES));
    }
    let gaps = met.gaps(&TREE_IN_FORCE.numbers(), &[]);
    assert!(gaps.is_empty(), "{gaps:#?}");
}

/// Steps A to K: those without an old plan have no tree in force before them.
#[test]
fn stretches_of_worked_steps() {
    let lines = String::from_utf8(written("stretches/stdout")).expect("it is text");
    let lines: Vec<&str> = lines.lines().take(11).collect();
    assert_eq!(lines[..4], ["stretch"; 4]);
    assert_eq!(
        lines[4..9],
        [
            "stretch 0 0 0",
            "stretch 1 1 0",
            "stretch 1 1 1",
            "stretch 0 0 1",
            "stretch 1 1 1",
        ]
    );
    assert_eq!(lines[9..], ["stretch"; 2]);
}
