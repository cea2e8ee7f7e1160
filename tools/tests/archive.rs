//! Sheets in archives: written, restored and shown.
#![forbid(unsafe_code)]

mod common;

use common::{bytes, example, file, fresh, printed, record, said, written};
use std::fs;

/// The bytes of an archive with these counts at these positions.
fn archive(n: u32, t: u32, counts: &[(usize, u32)]) -> Vec<u8> {
    let mut words = vec![0; 2 + 4096];
    words[..2].copy_from_slice(&[n, t]);
    for (position, count) in counts {
        words[2 + position] = *count;
    }
    words.into_iter().flat_map(u32::to_le_bytes).collect()
}

/// Sheets in words, and their archives.
fn pairs() -> [(&'static str, Vec<u8>); 4] {
    [
        // Step D: holder and subdomain are 0 0, 1 1 and 2 2.
        (
            "3 100 3 0 65 130 90 6 4",
            archive(3, 100, &[(0, 90), (3, 6), (12, 4)]),
        ),
        // 0 0, 0 1, 1 1 and 2 0.
        (
            "3 35 4 0 1 65 128 34 3 23 1200",
            archive(3, 35, &[(0, 34), (1, 3), (3, 23), (8, 1200)]),
        ),
        // 0 63, 37 22, 63 0 and 63 63. 37 is 100101 in binary and 22 is 010110: the
        // position is 100100110110.
        (
            "64 999 4 63 2390 4032 4095 8 9 10 999999973",
            archive(
                64,
                999,
                &[(1365, 8), (2358, 9), (2730, 10), (4095, 999_999_973)],
            ),
        ),
        ("1 1 0", archive(1, 1, &[])),
    ]
}

#[test]
fn a_sheet_is_archived_and_restored() {
    let [output, restored] = ["archive", "restored"].map(fresh);
    for (words, expected) in pairs() {
        let sheet = record("archived-sheet", words);
        assert_eq!(printed(&["archive", &sheet, "-o", &output]), "");
        assert_eq!(bytes(&output), expected, "{words}");
        assert_eq!(printed(&["restore", &output, "-o", &restored]), "");
        assert_eq!(bytes(&restored), bytes(&sheet), "{words}");
    }
    // What stood there before is replaced.
    let sheet = example("step-d/sheet");
    assert_eq!(printed(&["archive", &sheet, "-o", &restored]), "");
    assert_eq!(bytes(&restored), pairs()[0].1);
}

#[test]
fn the_longest_sheet_is_archived_and_restored() {
    let counts: Vec<String> = (0..4096).map(|cell| (cell + 1).to_string()).collect();
    let cells: Vec<String> = (0..4096).map(|cell| cell.to_string()).collect();
    let words = format!("64 100 4096 {} {}", cells.join(" "), counts.join(" "));
    let sheet = record("longest-sheet", &words);
    let archive = written(&["archive", &sheet, "-o", "-"], b"");
    assert_eq!(archive.len(), 16_392);
    // Holder and subdomain 0 0, 0 1, 1 0, 1 1 and 0 2 come first.
    let words = written(&["words"], &archive);
    assert!(words.starts_with(b"64 100 1 2 65 66 3 "));
    let restored = written(&["restore", "-", "-o", "-"], &archive);
    assert_eq!(restored, bytes(&sheet));
}

#[test]
fn an_archive_is_shown_as_the_table_of_its_sheet() {
    let archive = file("shown-archive", &pairs()[0].1);
    let text = "# archive: cells 3, particles 100, limit 36\n\
        nodes 3 tolerance 10 percent\n\
        holder,subdomain,count\n\
        0,0,90\n\
        1,1,6\n\
        2,2,4\n";
    assert_eq!(printed(&["show", "archive", &archive]), text);
    let output = fresh("shown-archive-text");
    assert_eq!(printed(&["show", "archive", "-o", &output, &archive]), "");
    assert_eq!(bytes(&output), text.as_bytes());
    for (words, archive) in pairs() {
        let sheet = written(&["write", "sheet"], words.as_bytes());
        let of_archive = written(&["show", "archive"], &archive);
        let of_sheet = written(&["show", "sheet"], &sheet);
        // Only the first line, which `write` passes over, says what was read.
        assert_eq!(
            String::from_utf8_lossy(&of_archive),
            String::from_utf8_lossy(&of_sheet).replace("# sheet: ", "# archive: ")
        );
        assert_eq!(written(&["write", "sheet"], &of_archive), sheet);
    }
}

/// Both verbs that read an archive say this of it, and print nothing.
fn assert_not_read(name: &str, what: &str) {
    let expected = format!("{name}: {what}");
    assert_eq!(said(&["restore", name, "-o", "-"], b""), expected);
    assert_eq!(said(&["show", "archive", name], b""), expected);
}

#[test]
fn an_archive_that_is_refused_is_named_with_the_reason() {
    let length = "refused 54: archive: the length is not 16,392 bytes";
    let nodes = "refused 2: archive: N is not 1 to 64";
    let tolerance = "refused 3: archive: t is not 1 to 999";
    let count = "refused 55: archive: a count is above 0 at a node not below N, \
        or the sum is above 1,000,000,000";
    let good = archive(3, 100, &[(0, 90)]);
    let cases = [
        (good[..16_391].to_vec(), length),
        ([&good[..], &[0]].concat(), length),
        // The length is looked at first, then N, then t.
        (archive(0, 0, &[(5, 1)])[..16_388].to_vec(), length),
        (archive(0, 0, &[(5, 1)]), nodes),
        (archive(65, 100, &[]), nodes),
        (archive(3, 0, &[(5, 1)]), tolerance),
        (archive(3, 1000, &[]), tolerance),
        // Subdomain 3, and holder 3.
        (archive(3, 100, &[(0, 90), (5, 1)]), count),
        (archive(3, 100, &[(0, 90), (10, 1)]), count),
        // A particle too many, and a sum that would be 1 in 32 bits.
        (archive(3, 100, &[(0, 1), (1, 1_000_000_000)]), count),
        (archive(3, 100, &[(0, 2), (1, u32::MAX)]), count),
    ];
    let output = fresh("not-restored");
    for (bytes, what) in cases {
        let bad = file("bad-archive", &bytes);
        assert_not_read(&bad, what);
        said(&["restore", &bad, "-o", &output], b"");
        assert!(fs::metadata(&output).is_err());
    }
    assert_not_read(
        &file("empty-archive", b""),
        &format!("{length}; it is empty"),
    );
}

#[test]
fn another_record_in_place_of_an_archive_is_recognised() {
    let length = "refused 54: archive: the length is not 16,392 bytes";
    let names = ["step-d/sheet", "step-d/plan", "step-d/moves"];
    for (name, reading) in names.into_iter().zip(["a sheet", "a plan", "moves"]) {
        assert_not_read(
            &example(name),
            &format!("{length}; this reads as {reading}"),
        );
    }
    // The table that 'show' prints of it.
    let text = "this is text, of which 'firrozka write sheet' makes a sheet for 'firrozka archive'";
    let shown = written(&["show", "archive"], &pairs()[0].1);
    let table = file("archive-table", &shown);
    assert_not_read(&table, &format!("{length}; {text}"));
    // 2,048 moves are as long as an archive. Each node but the last sends 33 or 32
    // nodes a particle.
    let routes = (0..64).flat_map(|from| (0..33).map(move |to| (from, to)));
    let routes = routes.filter(|(from, to)| from != to).take(2_048);
    let routes: Vec<String> = routes
        .map(|(from, to)| (from * 64 + to).to_string())
        .collect();
    let words = format!("64 2048 {} {}", routes.join(" "), "1 ".repeat(2_048));
    let moves = record("as-long-as-an-archive", &words);
    assert_eq!(bytes(&moves).len(), 16_392);
    let tolerance = "refused 3: archive: t is not 1 to 999";
    assert_not_read(&moves, &format!("{tolerance}; this reads as moves"));
}

#[test]
fn an_archive_in_place_of_another_record_is_recognised() {
    let archive = file("archive-in-place", &pairs()[0].1);
    let sheet = example("step-d/sheet");
    let output = fresh("archive-in-place-output");
    let entries = "refused 4: sheet: E is above N × N";
    let kind = "refused 13: plan: the kind is above 2, or not 0 with one node";
    let moves = "refused 33: moves: E is above N × (N−1)";
    let cases: [(&[&str], &str); 9] = [
        (&["archive", &archive, "-o", &output], entries),
        (&["plan", &archive], entries),
        (&["plan", &sheet, &archive, "-o", &output], kind),
        (&["weigh", &sheet, &archive], kind),
        (&["carry", &sheet, &archive, "-o", &output], moves),
        (&["join", &sheet, &archive, "-o", &output], entries),
        (&["traffic", &sheet, &archive], moves),
        (&["show", "sheet", &archive], entries),
        (
            &["write", "sheet", "-o", &output, &archive],
            "line 1, column 1: '\\u{3}' is no digit",
        ),
    ];
    for (call, what) in cases {
        let expected = format!("{archive}: {what}; this reads as an archive");
        assert_eq!(said(call, b""), expected);
        assert!(fs::metadata(&output).is_err());
    }
}

#[test]
fn a_sheet_that_is_refused_is_not_archived() {
    let output = fresh("not-archived");
    let cell = "refused 6: sheet: a cell does not rise, or names a node not below N";
    let sheet = record("unarchived-sheet", "3 100 2 65 0 6 90");
    let archived = said(&["archive", &sheet, "-o", &output], b"");
    assert_eq!(archived, format!("{sheet}: {cell}"));
    let plan = example("step-d/plan");
    let archived = said(&["archive", &plan, "-o", &output], b"");
    let entries = "refused 4: sheet: E is above N × N; this reads as a plan";
    assert_eq!(archived, format!("{plan}: {entries}"));
    // Of a sheet N is the sheet's.
    let sheet = record("unarchived-nodes", "65 100 0");
    let archived = said(&["archive", &sheet, "-o", &output], b"");
    let nodes = "refused 2: sheet: N is not 1 to 64";
    assert_eq!(archived, format!("{sheet}: {nodes}"));
    let missing = fresh("no-such-record");
    let what = "cannot be read: No such file or directory (os error 2)";
    for verb in ["archive", "restore"] {
        let made = said(&[verb, &missing, "-o", &output], b"");
        assert_eq!(made, format!("{missing}: {what}"));
    }
    assert!(fs::metadata(&output).is_err());
}
