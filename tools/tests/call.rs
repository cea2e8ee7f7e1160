//! Calls: help, wrong ones, and files that cannot be read or written.
#![forbid(unsafe_code)]

mod common;

use common::{
    bytes, end, example, failed, file, firrozka, fresh, printed, record, said, tool, written,
};
use std::ffi::OsStr;
use std::fs::{self, File, Permissions};
use std::os::unix::ffi::OsStrExt;
use std::os::unix::fs::{symlink, PermissionsExt};
use std::process::{Command, Stdio};

const VERBS: [&str; 13] = [
    "plan", "weigh", "carry", "join", "traffic", "archive", "restore", "groups", "tally", "table",
    "write", "show", "words",
];

#[test]
fn help_and_version_are_printed() {
    let version = firrozka_tools::version();
    assert_eq!(printed(&["--version"]), format!("firrozka {version}\n"));
    let help = printed(&["--help"]);
    assert_eq!(printed(&["-h"]), help);
    for verb in VERBS {
        assert!(help.contains(&format!("  firrozka {verb} ")), "{verb}");
        let of_verb = printed(&[verb, "--help"]);
        let usage = of_verb.lines().next().expect("it has a line");
        assert!(usage.starts_with(&format!("  firrozka {verb} ")), "{usage}");
        assert!(help.contains(usage), "{usage}");
        assert_eq!(printed(&[verb, "a", "-o", "--help"]), of_verb);
    }
}

#[test]
fn a_wrong_call_is_told_what_is_wrong_and_then_the_usage() {
    let cases: [(&[&str], &str); 54] = [
        (&[], "a verb is missing"),
        (&["pland"], "there is no verb 'pland'"),
        (&["plan"], "plan: SHEET is missing"),
        (&["plan", "a", "b", "c"], "plan: 'c' is one file too many"),
        (&["plan", "a", ""], "plan: the name of a file is empty"),
        (
            &["plan", "a", "-x"],
            "plan: it has no option -x; a file of this name is written ./-x",
        ),
        (
            &["plan", "a", "-n", "3"],
            "plan: it has no option -n; a file of this name is written ./-n",
        ),
        (&["plan", "a", "-o"], "plan: nothing stands behind -o"),
        (&["plan", "a", "-o", ""], "plan: nothing stands behind -o"),
        (&["plan", "a", "-o", "-m", "b"], "plan: behind -o stands -m"),
        (
            &["plan", "a", "-o", "b", "-o", "c"],
            "plan: -o stands twice",
        ),
        (
            &["plan", "-", "-"],
            "plan: only one input can be the standard input",
        ),
        (
            &["plan", "a", "-m", "-"],
            "plan: -m needs a file: the standard output has the lines",
        ),
        (&["weigh", "a"], "weigh: PLAN is missing"),
        (&["carry", "a"], "carry: -o NEXT is missing"),
        (&["carry", "a", "-o", "c"], "carry: MOVES is missing"),
        (&["join", "a", "b"], "join: -o JOINED is missing"),
        (&["join", "a", "-o", "c"], "join: INLET is missing"),
        (
            &["join", "a", "b", "c", "-o", "d"],
            "join: 'c' is one file too many",
        ),
        (
            &["join", "-", "-", "-o", "c"],
            "join: only one input can be the standard input",
        ),
        (&["traffic"], "traffic: SHEET is missing"),
        (&["traffic", "a"], "traffic: MOVES is missing"),
        (
            &["traffic", "a", "b", "c"],
            "traffic: 'c' is one file too many",
        ),
        (
            &["traffic", "-", "-"],
            "traffic: only one input can be the standard input",
        ),
        (
            &["traffic", "a", "b", "-o", "c"],
            "traffic: it has no option -o; a file of this name is written ./-o",
        ),
        (&["archive", "a"], "archive: -o ARCHIVE is missing"),
        (&["archive", "-o", "a"], "archive: SHEET is missing"),
        (
            &["archive", "a", "b", "-o", "c"],
            "archive: 'b' is one file too many",
        ),
        (
            &["archive", "a", "-n", "3", "-o", "b"],
            "archive: it has no option -n; a file of this name is written ./-n",
        ),
        (&["restore", "a"], "restore: -o SHEET is missing"),
        (&["restore", "-o", "a"], "restore: ARCHIVE is missing"),
        (
            &["restore", "a", "b", "-o", "c"],
            "restore: 'b' is one file too many",
        ),
        (&["restore", "a", "-o"], "restore: nothing stands behind -o"),
        (&["groups"], "groups: PLAN is missing"),
        (&["groups", "a", "b"], "groups: 'b' is one file too many"),
        (
            &["groups", "a", "-o", "b"],
            "groups: it has no option -o; a file of this name is written ./-o",
        ),
        (&["tally", "a"], "tally: PLAN is missing"),
        (&["tally", "a", "b"], "tally: CALLS is missing"),
        (
            &["tally", "a", "b", "c", "d"],
            "tally: 'd' is one file too many",
        ),
        (
            &["tally", "a", "-", "-"],
            "tally: only one input can be the standard input",
        ),
        (&["table", "-t", "10"], "table: -n N is missing"),
        (&["table", "-n", "3"], "table: -t PERCENT is missing"),
        (
            &["table", "-n", "3", "-t"],
            "table: nothing stands behind -t",
        ),
        (
            &["table", "-n", "three", "-t", "10"],
            "table: -n: 't' is no digit",
        ),
        (
            &["table", "-n", "+3", "-t", "10"],
            "table: -n: '+3' has a sign: a number is digits only",
        ),
        (
            &["table", "-n", "-3", "-t", "10"],
            "table: -n: '-3' has a sign: a number is digits only",
        ),
        (
            &["table", "-n", "65", "-t", "10"],
            "table: -n 65: refused 2: sheet: N is not 1 to 64",
        ),
        (
            &["table", "-n", "3", "-t", "0"],
            "table: -t: the tolerance is 0.1 to 99.9 percent",
        ),
        (&["write"], "write: sheet, plan, moves or any is missing"),
        (
            &["write", "trees"],
            "write: 'trees' is none of sheet, plan, moves or any",
        ),
        // It is made of a sheet.
        (
            &["write", "archive"],
            "write: 'archive' is none of sheet, plan, moves or any",
        ),
        (&["show"], "show: sheet, plan, moves or archive is missing"),
        (
            &["show", "any"],
            "show: 'any' is none of sheet, plan, moves or archive",
        ),
        (&["words", "a", "b"], "words: 'b' is one file too many"),
    ];
    for (call, what) in cases {
        let said = failed(firrozka(call, b""), 2);
        let front = format!("firrozka: {what}\nusage:\n  firrozka ");
        assert!(said.starts_with(&front), "{call:?}: {said}");
    }
    // One that is no text.
    let said = failed(
        firrozka(&[OsStr::new("words"), OsStr::from_bytes(b"\xff")], b""),
        2,
    );
    assert_eq!(said, "firrozka: \"\\xFF\" is no UTF-8 text\n");
}

#[test]
fn a_file_has_one_use() {
    let sheet = file("one-use", &bytes(&example("step-d/sheet")));
    let folder = sheet.strip_suffix("/one-use").expect("its folder");
    let other_name = format!("{folder}/./one-use");
    let link = fresh("one-use-link");
    symlink(&sheet, &link).expect("the link is made");
    let plan = fresh("one-use-plan");
    let other_plan = format!("{folder}/./one-use-plan");
    let read = |option: &str| format!("plan: {option} names '{sheet}', which is read\n");
    let both = format!("plan: -o and -m both name '{plan}'\n");
    let cases = [
        (["plan", &sheet, "-o", &sheet, "-m", &plan], read("-o")),
        (["plan", &sheet, "-o", &plan, "-m", &other_name], read("-m")),
        (["plan", &sheet, "-o", &link, "-m", &plan], read("-o")),
        (["plan", &sheet, "-o", &plan, "-m", &plan], both.clone()),
        (["plan", &sheet, "-o", &plan, "-m", &other_plan], both),
    ];
    for (call, what) in cases {
        let said = failed(firrozka(&call, b""), 2);
        assert!(said.starts_with(&format!("firrozka: {what}")), "{said}");
    }
    // Neither of two sheets is overwritten by their sum.
    let inlet = example("step-e/sheet");
    for read in [&sheet, &inlet] {
        let said = failed(firrozka(&["join", &sheet, &inlet, "-o", read], b""), 2);
        let what = format!("firrozka: join: -o names '{read}', which is read\n");
        assert!(said.starts_with(&what), "{said}");
    }
    // Nor is a sheet by its archive.
    for verb in ["archive", "restore"] {
        let said = failed(firrozka(&[verb, &sheet, "-o", &link], b""), 2);
        let what = format!("firrozka: {verb}: -o names '{sheet}', which is read\n");
        assert!(said.starts_with(&what), "{said}");
    }
    assert_eq!(bytes(&sheet), bytes(&example("step-d/sheet")));
    assert!(fs::metadata(&plan).is_err());
}

#[test]
fn a_dash_is_the_standard_input_or_output() {
    let names = ["step-e/sheet", "step-d/plan", "step-d/moves"];
    let [sheet, plan, moves] = names.map(example);
    let lines = printed(&["plan", &sheet, &plan]).into_bytes();
    assert_eq!(written(&["plan", "-", &plan], &bytes(&sheet)), lines);
    assert_eq!(written(&["plan", &sheet, "-"], &bytes(&plan)), lines);
    let weighed = printed(&["weigh", &sheet, &plan]).into_bytes();
    assert_eq!(written(&["weigh", &sheet, "-"], &bytes(&plan)), weighed);
    let sheet = example("step-d/sheet");
    let next = written(&["carry", &sheet, "-", "-o", "-"], &bytes(&moves));
    assert_eq!(
        next,
        written(&["carry", "-", &moves, "-o", "-"], &bytes(&sheet))
    );
    assert!(next.starts_with(&[3, 0, 0, 0, 100, 0, 0, 0, 5, 0, 0, 0]));
    let inlet = record("dash-inlet", "3 100 2 0 1 17 3");
    let joined = written(&["join", &sheet, "-", "-o", "-"], &bytes(&inlet));
    assert_eq!(
        joined,
        written(&["join", "-", &inlet, "-o", "-"], &bytes(&sheet))
    );
    let words = written(&["words"], &joined);
    assert_eq!(words, b"3 100 4 0 1 65 130 107 3 6 4\n");
    let page = printed(&["traffic", &sheet, &moves]).into_bytes();
    assert_eq!(written(&["traffic", "-", &moves], &bytes(&sheet)), page);
    assert_eq!(written(&["traffic", &sheet, "-"], &bytes(&moves)), page);
    let archive = written(&["archive", "-", "-o", "-"], &bytes(&sheet));
    assert_eq!(archive.len(), 16_392);
    let restored = written(&["restore", "-", "-o", "-"], &archive);
    assert_eq!(restored, bytes(&sheet));
    let shown = written(&["show", "archive", "-", "-o", "-"], &archive);
    assert_eq!(written(&["show", "archive"], &archive), shown);
    let groups = printed(&["groups", &plan]).into_bytes();
    assert_eq!(written(&["groups", "-"], &bytes(&plan)), groups);
    let calls = file("dash-calls", b"add 0 0 9\n");
    let tally = printed(&["tally", &sheet, &plan, &calls]).into_bytes();
    assert_eq!(
        written(&["tally", "-", &plan, &calls], &bytes(&sheet)),
        tally
    );
    assert_eq!(
        written(&["tally", &sheet, "-", &calls], &bytes(&plan)),
        tally
    );
    assert_eq!(
        written(&["tally", &sheet, &plan, "-"], &bytes(&calls)),
        tally
    );
    let words = written(&["words", "-", "-o", "-"], &bytes(&plan));
    assert_eq!(words, b"3 2 36 0 0 0 0 27 29\n");
}

#[test]
fn what_cannot_be_read_or_written_is_named() {
    let sheet = example("step-d/sheet");
    let folder = env!("CARGO_TARGET_TMPDIR");
    let read = said(&["show", "sheet", folder], b"");
    let what = "cannot be read: Is a directory (os error 21)";
    assert_eq!(read, format!("{folder}: {what}"));
    let plan = fresh("written-or-not");
    let no_folder = said(
        &["plan", &sheet, "-o", &plan, "-m", "no-such-folder/file"],
        b"",
    );
    let what = "cannot be written: No such file or directory (os error 2)";
    assert_eq!(no_folder, format!("no-such-folder/file: {what}"));
    // Nor is the other one.
    assert!(fs::metadata(&plan).is_err());
    let unwritten = said(&["write", "any", "-o", folder], b"3 100 0");
    let what = "cannot be written: Is a directory (os error 21)";
    assert_eq!(unwritten, format!("{folder}: {what}"));
}

#[test]
fn a_full_disk_is_noticed() {
    let (sheet, plan) = (example("step-d/sheet"), fresh("full-plan"));
    let what = "cannot be written: No space left on device (os error 28)";
    let full = || File::create("/dev/full").expect("Linux has it");
    let calls: [&[&str]; 9] = [
        &["plan", &sheet],
        &["weigh", &sheet, &example("step-d/plan")],
        &["traffic", &sheet, &example("step-d/moves")],
        &["archive", &sheet, "-o", "-"],
        &["groups", &example("step-d/plan")],
        &["tally", &sheet, &example("step-d/plan"), "-"],
        &["words", &sheet],
        &["--help"],
        &["--version"],
    ];
    for call in calls {
        let child = tool().args(call).stdout(full()).spawn().expect("it starts");
        let said = failed(end(child, b""), 1);
        assert_eq!(said, format!("standard output: {what}\n"));
    }
    // The plan is there before the lines are.
    let call = ["plan", &sheet, "-o", &plan];
    let child = tool().args(call).stdout(full()).spawn().expect("it starts");
    let said = failed(end(child, b""), 1);
    assert_eq!(said, format!("standard output: {what}; written: {plan}\n"));
    assert_eq!(bytes(&plan), bytes(&example("step-d/plan")));
}

#[test]
fn a_closed_pipe_is_noticed() {
    let moves = example("step-d/moves");
    let calls: [&[&str]; 2] = [&["plan", "-"], &["traffic", "-", &moves]];
    for call in calls {
        let mut child = tool().args(call).spawn().expect("it starts");
        drop(child.stdout.take());
        let output = end(child, &bytes(&example("step-d/sheet")));
        let what = "cannot be written: Broken pipe (os error 32)";
        assert_eq!(failed(output, 1), format!("standard output: {what}\n"));
    }
}

/// What the tool says where the shell sets it a limit.
fn said_under(limit: &str, arguments: &[&str]) -> String {
    let script = format!("{limit}; exec \"$0\" \"$@\"");
    let mut shell = Command::new("sh");
    shell.args(["-c", &script, env!("CARGO_BIN_EXE_firrozka")]);
    shell.args(arguments).stdin(Stdio::null());
    failed(shell.output().expect("the shell starts"), 1)
}

#[test]
fn an_endless_file_is_no_record() {
    let limit = "ulimit -v 1000000; exec </dev/zero";
    let what = "refused 2: sheet: N is not 1 to 64";
    let of_file = said_under(limit, &["plan", "/dev/zero"]);
    assert_eq!(of_file, format!("/dev/zero: {what}\n"));
    let of_input = said_under(limit, &["plan", "-"]);
    assert_eq!(of_input, format!("standard input: {what}\n"));
    let sheet = example("step-d/sheet");
    let call = ["join", &sheet, "/dev/zero", "-o", "-"];
    assert_eq!(said_under(limit, &call), format!("/dev/zero: {what}\n"));
    let what = "refused 32: moves: N is not 1 to 64";
    let of_moves = said_under(limit, &["traffic", &sheet, "/dev/zero"]);
    assert_eq!(of_moves, format!("/dev/zero: {what}\n"));
    let what = "refused 54: archive: the length is not 16,392 bytes";
    let of_archive = said_under(limit, &["restore", "/dev/zero", "-o", "-"]);
    assert_eq!(of_archive, format!("/dev/zero: {what}\n"));
    let of_input = said_under(limit, &["show", "archive"]);
    assert_eq!(of_input, format!("standard input: {what}\n"));
    let what = "refused 12: plan: N is not 1 to 64";
    let of_plan = said_under(limit, &["groups", "/dev/zero"]);
    assert_eq!(of_plan, format!("/dev/zero: {what}\n"));
    let calls = file("endless-calls", b"");
    let of_plan = said_under(limit, &["tally", &sheet, "/dev/zero", &calls]);
    assert_eq!(of_plan, format!("/dev/zero: {what}\n"));
}

#[test]
fn a_file_is_replaced_whole_or_not_at_all() {
    let folder = fresh("whole");
    let _ = fs::remove_dir_all(&folder);
    fs::create_dir(&folder).expect("the folder is made");
    let there = || fs::read_dir(&folder).expect("it is there").count();
    let [plan, moves] = ["plan", "moves"].map(|name| format!("{folder}/{name}"));
    fs::write(&plan, "before").expect("the file is written");
    let call = ["plan", &example("step-d/sheet"), "-o", &plan, "-m", &moves];

    // No file can grow, as on a full disk.
    let said = said_under("trap '' XFSZ; ulimit -f 0", &call);
    let what = "cannot be written: File too large (os error 27)";
    assert_eq!(said, format!("{plan}: {what}\n"));
    assert_eq!(bytes(&plan), b"before");
    assert_eq!(there(), 1);

    printed(&call);
    assert_eq!(bytes(&plan), bytes(&example("step-d/plan")));
    assert_eq!(bytes(&moves), bytes(&example("step-d/moves")));
    assert_eq!(there(), 2);
}

#[test]
fn a_pipe_is_written_and_stays_one() {
    let pipe = fresh("pipe");
    let made = Command::new("mkfifo").arg(&pipe).status();
    assert!(made.expect("mkfifo starts").success());
    let mut cat = Command::new("cat");
    let reader = cat.arg(&pipe).stdout(Stdio::piped()).spawn();
    let mut reader = reader.expect("the reader starts");
    printed(&["plan", &example("step-d/sheet"), "-o", &pipe]);
    let is_file = fs::metadata(&pipe).expect("it is there").is_file();
    if is_file {
        // Nobody will write to what it reads.
        let _ = reader.kill();
    }
    let read = reader.wait_with_output().expect("the reader ends").stdout;
    assert!(!is_file);
    assert_eq!(read, bytes(&example("step-d/plan")));
}

#[test]
fn a_file_that_is_replaced_keeps_its_link_and_its_permissions() {
    let (plan, link) = (file("linked", b"before"), fresh("link"));
    symlink(&plan, &link).expect("the link is made");
    fs::set_permissions(&plan, Permissions::from_mode(0o640)).expect("it is ours");
    printed(&["plan", &example("step-d/sheet"), "-o", &link]);
    assert_eq!(bytes(&plan), bytes(&example("step-d/plan")));
    let link = fs::symlink_metadata(&link).expect("it is there");
    assert!(link.file_type().is_symlink());
    let plan = fs::metadata(&plan).expect("it is there");
    assert_eq!(plan.permissions().mode() & 0o777, 0o640);
}
