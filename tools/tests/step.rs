//! Steps from files: planned, weighed and carried out, with their traffic; and
//! sheets joined.
#![forbid(unsafe_code)]

mod common;

use common::{bytes, example, file, fresh, printed, record, said};
use std::fs;

#[test]
fn a_plan_prints_the_bench_programs_lines() {
    let (sheet_d, plan_d) = (example("step-d/sheet"), example("step-d/plan"));
    let d = printed(&["plan", &sheet_d]);
    let e = printed(&["plan", &example("step-e/sheet"), &plan_d]);
    let expected = String::from_utf8(bytes(&example("expected")));
    assert_eq!(Ok(d + &e), expected);
    // A, in which there is nothing to do.
    let sheet_a = record("sheet-a", "1 1 0");
    let a = printed(&["plan", &sheet_a]);
    assert_eq!(a, "kind 0 limit 0\nnode 0 helps 0 share 0 own 0\n");
}

#[test]
fn plan_and_moves_are_saved_for_the_next_step() {
    let sheet = example("step-d/sheet");
    let [plan, moves, next] = ["saved-plan", "saved-moves", "saved-next"].map(fresh);
    let lines = printed(&["plan", &sheet, "-o", &plan, "-m", &moves]);
    assert_eq!(lines, printed(&["plan", &sheet]));
    assert_eq!(bytes(&plan), bytes(&example("step-d/plan")));
    assert_eq!(bytes(&moves), bytes(&example("step-d/moves")));

    assert_eq!(printed(&["carry", &sheet, &moves, "-o", &next]), "");
    let words = "3 100 5 0 64 65 128 130 34 27 6 29 4\n";
    assert_eq!(printed(&["words", &next]), words);
    let kept = "kind 1 limit 36\n\
        node 0 helps 0 share 0 own 34\n\
        node 1 helps 0 share 27 own 6\n\
        node 2 helps 0 share 29 own 4\n";
    assert_eq!(printed(&["plan", &next, &plan]), kept);
    // Of one of the two alone.
    let only = fresh("saved-only");
    printed(&["plan", &sheet, "-m", &only]);
    assert_eq!(bytes(&only), bytes(&moves));
}

#[test]
fn an_old_plan_that_is_missing_is_no_rebuild() {
    let sheet = example("step-e/sheet");
    let (missing, output) = (fresh("missing"), fresh("missing-output"));
    let what = "cannot be read: No such file or directory (os error 2)";
    let plan = said(&["plan", &sheet, &missing, "-o", &output], b"");
    assert_eq!(plan, format!("{missing}: {what}"));
    assert!(fs::metadata(&output).is_err());
    let no_sheet = said(&["plan", &missing], b"");
    assert_eq!(no_sheet, format!("{missing}: {what}"));
    let weighed = said(&["weigh", &sheet, &missing], b"");
    assert_eq!(weighed, format!("{missing}: {what}"));
    for verb in ["carry", "join"] {
        let made = said(&[verb, &sheet, &missing, "-o", &output], b"");
        assert_eq!(made, format!("{missing}: {what}"));
    }
    let traffic = said(&["traffic", &sheet, &missing], b"");
    assert_eq!(traffic, format!("{missing}: {what}"));
}

#[test]
fn an_empty_old_plan_is_no_rebuild() {
    let (sheet, empty) = (example("step-e/sheet"), file("empty-plan", b""));
    let what = "it is empty and no plan; where there is no old plan, leave it away";
    assert_eq!(
        said(&["plan", &sheet, &empty], b""),
        format!("{empty}: {what}")
    );
    assert_eq!(
        said(&["plan", &sheet, "-"], b""),
        format!("standard input: {what}")
    );
    let sheet = said(&["plan", &empty], b"");
    let what = "refused 1: sheet: under 12 bytes; it is empty";
    assert_eq!(sheet, format!("{empty}: {what}"));
}

#[test]
fn a_refused_file_is_named_with_the_reason() {
    let [sheet_d, plan_d] = ["step-d/sheet", "step-d/plan"].map(example);
    let sheet = record("bad-sheet", "3 100 2 65 0 6 90");
    let plan = record("bad-plan", "3 7 36 0 0 0 0 27 29");
    let moves = record("bad-moves", "3 1 0 5");
    let output = fresh("bad-output");
    let cell = "refused 6: sheet: a cell does not rise, or names a node not below N";
    let kind = "refused 13: plan: the kind is above 2, or not 0 with one node";
    let route = "refused 35: moves: a route does not rise, names a node not below N, \
        or has one node as sender and receiver";
    let cases = [
        (vec!["plan", &sheet], &sheet, cell),
        // The sheet is the first to be looked at.
        (vec!["plan", &sheet, &plan, "-o", &output], &sheet, cell),
        (vec!["plan", &sheet_d, &plan, "-o", &output], &plan, kind),
        (vec!["weigh", &sheet, &plan_d], &sheet, cell),
        (vec!["weigh", &sheet_d, &plan], &plan, kind),
        (
            vec!["carry", &sheet_d, &moves, "-o", &output],
            &moves,
            route,
        ),
        (vec!["carry", &sheet, &moves, "-o", &output], &sheet, cell),
        (vec!["join", &sheet, &plan, "-o", &output], &sheet, cell),
        (vec!["join", &sheet_d, &sheet, "-o", &output], &sheet, cell),
        (vec!["traffic", &sheet, &moves], &sheet, cell),
        (vec!["traffic", &sheet_d, &moves], &moves, route),
    ];
    for (call, name, what) in cases {
        assert_eq!(said(&call, b""), format!("{name}: {what}"));
        assert!(fs::metadata(&output).is_err());
    }
}

#[test]
fn records_that_are_exchanged_are_recognised() {
    let names = ["step-d/sheet", "step-d/plan", "step-d/moves"];
    let [sheet, plan, moves] = names.map(example);
    let cases: [(&[&str], &String, &str); 11] = [
        (&["plan", &plan, &sheet], &plan, "this reads as a plan"),
        (&["plan", &sheet, &sheet], &sheet, "this reads as a sheet"),
        (&["plan", &sheet, &moves], &moves, "this reads as moves"),
        (&["weigh", &plan, &sheet], &plan, "this reads as a plan"),
        (&["weigh", &sheet, &moves], &moves, "this reads as moves"),
        (
            &["join", &plan, &sheet, "-o", "-"],
            &plan,
            "this reads as a plan",
        ),
        (
            &["join", &sheet, &moves, "-o", "-"],
            &moves,
            "this reads as moves",
        ),
        (&["traffic", &moves, &sheet], &moves, "this reads as moves"),
        (&["traffic", &sheet, &plan], &plan, "this reads as a plan"),
        (&["show", "sheet", &plan], &plan, "this reads as a plan"),
        (&["show", "moves", &sheet], &sheet, "this reads as a sheet"),
    ];
    for (call, name, reading) in cases {
        let said = said(call, b"");
        assert!(said.starts_with(&format!("{name}: refused ")), "{said}");
        assert!(said.ends_with(&format!("; {reading}")), "{said}");
    }
    let text = said(&["plan", &sheet, &example("expected")], b"");
    let write = "; this is text, of which 'firrozka write plan' makes a record";
    assert!(text.ends_with(write), "{text}");
    // A table in place of the sheet that is made of it.
    let inlet = file("inlet-table", b"0,0,17\n0,1,3\n");
    let text = said(&["join", &sheet, &inlet, "-o", "-"], b"");
    let table =
        "; this is text, of which 'firrozka table' or 'firrozka write sheet' makes a record";
    assert!(text.ends_with(table), "{text}");
    // A page in place of the moves that it is of.
    let text = said(&["traffic", &sheet, &example("traffic.expected")], b"");
    let write = "; this is text, of which 'firrozka write moves' makes a record";
    assert!(text.ends_with(write), "{text}");
}

#[test]
fn two_records_that_do_not_go_together_are_explained() {
    let (sheet, plan) = (example("step-d/sheet"), example("step-d/plan"));
    let two_nodes = record("two-nodes", "2 2 36 0 0 0 5");
    let no_tree = record("no-tree", "3 0 36 0 1 2 0 0 0");
    let moves_of_two = record("moves-of-two", "2 0");
    let too_much = record("too-much", "3 2 1 2 50 41");
    let next = fresh("not-carried");

    let differ = format!("refused 21: the N of sheet and plan differ: 2 here, 3 in {sheet}");
    let expected = format!("{two_nodes}: {differ}");
    assert_eq!(said(&["plan", &sheet, &two_nodes], b""), expected);
    assert_eq!(said(&["weigh", &sheet, &two_nodes], b""), expected);
    let primary = "refused 24: the plan is kind 0 and has no tree";
    let weighed = said(&["weigh", &sheet, &no_tree], b"");
    assert_eq!(weighed, format!("{no_tree}: {primary}"));
    let differ = format!("refused 41: the N of sheet and moves differ: 2 here, 3 in {sheet}");
    let expected = format!("{moves_of_two}: {differ}");
    let carried = said(&["carry", &sheet, &moves_of_two, "-o", &next], b"");
    assert_eq!(carried, expected);
    assert_eq!(said(&["traffic", &sheet, &moves_of_two], b""), expected);
    let sends = "refused 42: some cell sends in all more than the old sheet gives it";
    let cell = format!("node 0 sends 91 of subdomain 0, and has 90 in {sheet}");
    let expected = format!("{too_much}: {sends}: {cell}");
    let carried = said(&["carry", &sheet, &too_much, "-o", &next], b"");
    assert_eq!(carried, expected);
    assert_eq!(said(&["traffic", &sheet, &too_much], b""), expected);
    assert!(fs::metadata(&next).is_err());
    // An old plan of kind 0 is an old plan.
    assert_eq!(
        printed(&["plan", &sheet, &no_tree]),
        printed(&["plan", &sheet])
    );
    assert_eq!(printed(&["weigh", &sheet, &plan]), WEIGHED_D);
}

const WEIGHED_D: &str = "limit 36\n\
    node 0 least 28\n\
    node 1 least 6\n\
    node 2 least 4\n\
    the tree holds\n";

#[test]
fn a_tree_is_weighed() {
    let plan = example("step-h/plan");
    let mut lines = String::new();
    for step in ["h", "i"] {
        let sheet = example(&format!("step-{step}/sheet"));
        lines += &format!("step {step}\n");
        lines += &printed(&["weigh", &sheet, &plan]);
        lines += &printed(&["plan", &sheet, &plan]);
    }
    let expected = String::from_utf8(bytes(&example("rebuild.expected")));
    assert_eq!(Ok(lines), expected);
}

#[test]
fn a_step_that_needs_no_tree_is_said_to() {
    // J, with H's plan: its tree would hold, and is not kept.
    let sheet = record("sheet-j", "3 100 3 0 65 130 36 36 28");
    let plan = example("step-h/plan");
    let weighed = "limit 36\n\
        node 0 least 28\n\
        node 1 least 28\n\
        node 2 least 28\n\
        no subdomain is above the limit: no tree is needed\n";
    assert_eq!(printed(&["weigh", &sheet, &plan]), weighed);
    assert!(printed(&["plan", &sheet, &plan]).starts_with("kind 0 limit 36\n"));
    // One more, and a tree is needed.
    let sheet = record("sheet-j-and-one", "3 100 3 0 65 130 37 35 28");
    assert!(printed(&["weigh", &sheet, &plan]).ends_with("\nthe tree holds\n"));
    assert!(printed(&["plan", &sheet, &plan]).starts_with("kind 1 limit 36\n"));
}

/// Step D's sheet with 17 more of subdomain 0 and 3 of subdomain 1 at node 0.
const JOINED_D: [u8; 44] = [
    3, 0, 0, 0, 100, 0, 0, 0, 4, 0, 0, 0, // N, t and E
    0, 0, 0, 0, 1, 0, 0, 0, 65, 0, 0, 0, 130, 0, 0, 0, // cells
    107, 0, 0, 0, 3, 0, 0, 0, 6, 0, 0, 0, 4, 0, 0, 0, // counts
];

#[test]
fn two_sheets_are_joined() {
    let (sheet, joined) = (example("step-d/sheet"), fresh("joined"));
    let inlet = record("inlet", "3 100 2 0 1 17 3");
    assert_eq!(printed(&["join", &sheet, &inlet, "-o", &joined]), "");
    assert_eq!(bytes(&joined), JOINED_D);
    printed(&["join", &inlet, &sheet, "-o", &joined]);
    assert_eq!(bytes(&joined), JOINED_D);
    let none = record("no-inlet", "3 100 0");
    printed(&["join", &sheet, &none, "-o", &joined]);
    assert_eq!(bytes(&joined), bytes(&sheet));
    // A sheet may be joined with itself.
    printed(&["join", &sheet, &sheet, "-o", &joined]);
    let words = "3 100 3 0 65 130 180 12 8\n";
    assert_eq!(printed(&["words", &joined]), words);
    // The largest total.
    let rest = record("rest", "3 100 1 0 999999900");
    printed(&["join", &sheet, &rest, "-o", &joined]);
    let shown = printed(&["show", "sheet", &joined]);
    assert!(shown.contains("particles 1000000000,"), "{shown}");
}

#[test]
fn two_sheets_that_do_not_go_together_are_explained() {
    let (sheet, joined) = (example("step-d/sheet"), fresh("not-joined"));
    let differ = "refused 51: the N or the t of the two sheets differ";
    let totals = "refused 7: the two totals together are above 1,000,000,000";
    let nodes = format!("nodes 2 here, 3 in {sheet}");
    let tolerance = format!("tolerance 3.5 percent here, 10 percent in {sheet}");
    let both = format!("{nodes}; {tolerance}");
    let particles = format!("999999901 here, 100 in {sheet}");
    let cases = [
        ("2 100 0", differ, nodes),
        ("3 35 0", differ, tolerance),
        ("2 35 0", differ, both.clone()),
        // Then the totals are not looked at.
        ("2 35 1 0 999999901", differ, both),
        ("3 100 1 0 999999901", totals, particles),
    ];
    for (words, reason, detail) in cases {
        let inlet = record("other-inlet", words);
        let said = said(&["join", &sheet, &inlet, "-o", &joined], b"");
        assert_eq!(said, format!("{inlet}: {reason}: {detail}"));
        assert!(fs::metadata(&joined).is_err());
    }
    // A sheet by itself that has too many.
    let inlet = record("large-inlet", "3 100 1 0 1000000001");
    let said = said(&["join", &sheet, &inlet, "-o", &joined], b"");
    let count = "refused 7: sheet: a count is 0, or the running sum is above 1,000,000,000";
    assert_eq!(said, format!("{inlet}: {count}"));
}

#[test]
fn the_traffic_of_a_step_is_printed() {
    let (sheet, moves) = (example("step-d/sheet"), example("step-d/moves"));
    let page = String::from_utf8(bytes(&example("traffic.expected")));
    assert_eq!(Ok(printed(&["traffic", &sheet, &moves])), page);
    // Nodes 0, 1 and 2 hold 34 and 3, 23, and 1,200 particles. Of subdomain 0 node 2
    // sends 1,000 to node 0 and 7 to node 1; of subdomain 1 node 0 sends 3 to node 1,
    // and node 1 sends 20 to node 2.
    let sheet = record("busy-sheet", "3 100 4 0 1 65 128 34 3 23 1200");
    let moves = record("busy-moves", "3 4 128 129 4097 4162 1000 7 3 20");
    let page = concat!(
        " 0          3       1000\n",
        " 1         20         10\n",
        " 2       1007         20\n",
        "==       1030       1030\n",
    );
    assert_eq!(printed(&["traffic", &sheet, &moves]), page);
    // Without a move there is a page too.
    let none = record("no-moves", "3 0");
    let page = concat!(
        " 0          0          0\n",
        " 1          0          0\n",
        " 2          0          0\n",
        "==          0          0\n",
    );
    assert_eq!(printed(&["traffic", &sheet, &none]), page);
}

#[test]
fn the_longest_traffic_page_is_printed() {
    // Node 0 sends all that there can be to node 63.
    let sheet = record("largest-sheet", "64 100 1 0 1000000000");
    let moves = record("largest-moves", "64 1 63 1000000000");
    let page = printed(&["traffic", &sheet, &moves]);
    assert_eq!(page.len(), 1_625);
    let lines: Vec<&str> = page.lines().collect();
    assert_eq!(lines[0], " 0 1000000000          0");
    assert_eq!(lines[9], " 9          0          0");
    assert_eq!(lines[10], "10          0          0");
    assert_eq!(lines[63], "63          0 1000000000");
    assert_eq!(lines[64], "== 1000000000 1000000000");
    assert_eq!(lines.len(), 65);
}
