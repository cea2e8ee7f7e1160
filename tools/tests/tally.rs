//! Arrivals between steps, call by call.
#![forbid(unsafe_code)]

mod common;

use common::{example, file, fresh, printed, record, said, written};

/// What is printed of calls on the tally of this sheet and this plan.
fn tallied(sheet: &str, plan: &str, calls: &str) -> String {
    let lines = written(&["tally", sheet, plan, "-"], calls.as_bytes());
    String::from_utf8(lines).expect("it prints text")
}

/// The same of step H, whose nodes 0, 1 and 2 hold 28, 72 and 0 particles. Node 2 helps
/// node 1, and node 1 helps node 0.
fn of_h(calls: &str) -> String {
    tallied(&example("step-h/sheet"), &example("step-h/plan"), calls)
}

/// The tally of step H before any call.
const OPENED: &str = "limit 36 total 100\n\
    node 0 total 28 least 28\n\
    node 1 total 72 least 36\n\
    node 2 total 0 least 0\n";

#[test]
fn a_tree_gives_way_and_holds_again() {
    let way = "open: the tree holds\n\
        add 1 1 1: the tree does not hold\n\
        limit 36 total 101\n\
        node 0 total 28 least 28\n\
        node 1 total 73 least 37 above the limit\n\
        node 2 total 0 least 0\n";
    assert_eq!(of_h("add 1 1 1"), way);
    // Node 2 can take one fewer, so that 37 stay at node 1. With 10 fewer of subdomain 1
    // the tree holds again, and with 9 more of it, at another node, it still does.
    let again = "open: the tree holds\n\
        add 0 2 1: the tree does not hold\n\
        remove 1 1 10: the tree holds\n\
        add 2 1 9: the tree holds\n\
        limit 36 total 100\n\
        node 0 total 28 least 28\n\
        node 1 total 71 least 36\n\
        node 2 total 1 least 1\n";
    assert_eq!(of_h("add 0 2 1\nremove 1 1 10\nadd 2 1 9\n"), again);
}

#[test]
fn the_limit_stays_that_of_the_sheet() {
    // Step D's is 36, and 50 is that of its plan here. With 20 particles more the limit
    // of a sheet would be 44.
    let plan = record("tally-limit", "3 1 50 0 0 0 0 27 29");
    let lines = tallied(&example("step-d/sheet"), &plan, "add 1 1 20");
    let expected = "open: the tree holds\n\
        add 1 1 20: the tree does not hold\n\
        limit 36 total 120\n\
        node 0 total 90 least 48 above the limit\n\
        node 1 total 26 least 26\n\
        node 2 total 4 least 4\n";
    assert_eq!(lines, expected);
}

#[test]
fn without_a_call_the_tally_is_that_of_the_sheet() {
    for calls in ["", "# none yet\n\n"] {
        assert_eq!(of_h(calls), format!("open: the tree holds\n{OPENED}"));
    }
    // One whose tree does not hold is opened, too.
    let lines = "open: the tree does not hold\n\
        limit 36 total 100\n\
        node 0 total 27 least 27\n\
        node 1 total 73 least 37 above the limit\n\
        node 2 total 0 least 0\n";
    let of_i = tallied(&example("step-i/sheet"), &example("step-h/plan"), "");
    assert_eq!(of_i, lines);
}

#[test]
fn a_call_that_is_refused_is_explained_and_the_next_is_made() {
    let node = "refused 58: a node is not below N, or the count is 0: N is 3";
    let removes = "refused 59: the cell has fewer than are removed";
    let total = "refused 60: the total would be above 1,000,000,000: it is 100";
    let cases = [
        ("add 3 0 1", String::from(node)),
        ("remove 0 4294967295 1", String::from(node)),
        ("add 0 0 0", String::from(node)),
        // The subdomain has 72 of them.
        ("remove 0 1 1", format!("{removes}: it has 0")),
        ("remove 1 1 73", format!("{removes}: it has 72")),
        ("remove 1 1 4294967295", format!("{removes}: it has 72")),
        ("add 2 2 999999901", String::from(total)),
        ("add 0 0 4294967295", String::from(total)),
    ];
    let calls: Vec<&str> = cases.iter().map(|(call, _)| *call).collect();
    let answers = cases.iter().map(|(call, what)| format!("{call}: {what}\n"));
    let expected = format!(
        "open: the tree holds\n{}{OPENED}",
        answers.collect::<String>()
    );
    assert_eq!(of_h(&calls.join("\n")), expected);
    // As many as there can be.
    let most = of_h("add 2 2 999999900\nadd 2 2 1\n");
    let lines = "open: the tree holds\n\
        add 2 2 999999900: the tree does not hold\n\
        add 2 2 1: refused 60: the total would be above 1,000,000,000: it is 1000000000\n\
        limit 36 total 1000000000\n";
    assert!(most.starts_with(lines), "{most}");
}

#[test]
fn calls_are_written_as_other_text_is() {
    let spread = "\u{feff}# at the inlet\r\n\r\n  ADD\t0 2  1\r\nRemove 0 2 1";
    let lines = of_h(spread);
    let calls = "open: the tree holds\n\
        add 0 2 1: the tree does not hold\n\
        remove 0 2 1: the tree holds\n";
    assert_eq!(lines, format!("{calls}{OPENED}"));
}

#[test]
fn bad_calls_are_refused_with_line_and_column() {
    let form = "a line is add HOLDER SUBDOMAIN COUNT, or remove HOLDER SUBDOMAIN COUNT";
    let cases = [
        ("inject 0 0 1", format!("line 1, column 1: {form}")),
        ("add 0 0 1\n  add 0 0", format!("line 2, column 10: {form}")),
        ("add 0 0 1 2", format!("line 1, column 11: {form}")),
        ("0,0,1", format!("line 1, column 6: {form}")),
        (
            "remove 0 0 -1",
            String::from("line 1, column 12: '-1' has a sign: a number is digits only"),
        ),
        (
            "add 0 0 4294967296",
            String::from("line 1, column 9: the number is above 4,294,967,295"),
        ),
    ];
    let (sheet, plan) = (example("step-h/sheet"), example("step-h/plan"));
    for (calls, what) in cases {
        let said = said(&["tally", &sheet, &plan, "-"], calls.as_bytes());
        assert_eq!(said, format!("standard input: {what}"));
    }
    // A record in place of the calls.
    let said = said(&["tally", &sheet, &plan, &sheet], b"");
    assert!(said.starts_with(&format!("{sheet}: line ")), "{said}");
    assert!(said.ends_with("; this reads as a sheet"), "{said}");
}

#[test]
fn records_that_no_tally_is_opened_from_are_explained() {
    let (sheet, plan) = (example("step-h/sheet"), example("step-h/plan"));
    let bad_sheet = record("tally-bad-sheet", "3 100 2 65 0 6 90");
    let two_nodes = record("tally-two-nodes", "2 2 36 0 0 0 5");
    let no_tree = record("tally-no-tree", "3 0 36 0 1 2 0 0 0");
    let missing = fresh("tally-missing");
    let cell = "refused 6: sheet: a cell does not rise, or names a node not below N";
    let kind = "refused 13: plan: the kind is above 2, or not 0 with one node; \
        this reads as a sheet";
    let differ = format!("refused 21: the N of sheet and plan differ: 2 here, 3 in {sheet}");
    let primary = "refused 24: the plan is kind 0 and has no tree";
    let unread = "cannot be read: No such file or directory (os error 2)";
    // Bad calls are told of last.
    let cases: [([&str; 2], &str, &str); 5] = [
        ([&bad_sheet, &sheet], &bad_sheet, cell),
        ([&sheet, &sheet], &sheet, kind),
        ([&sheet, &two_nodes], &two_nodes, &differ),
        ([&sheet, &no_tree], &no_tree, primary),
        ([&sheet, &missing], &missing, unread),
    ];
    for ([sheet, plan], name, what) in cases {
        let said = said(&["tally", sheet, plan, "-"], b"inject");
        assert_eq!(said, format!("{name}: {what}"));
    }
    let said = said(&["tally", &sheet, &plan, &missing], b"");
    assert_eq!(said, format!("{missing}: {unread}"));
}

#[test]
fn a_list_of_calls_may_be_longer_than_any_record() {
    // Of 64 nodes each helps the one before it. The limit of no particles is 0.
    let helpands = (0u32..64).map(|node| node.saturating_sub(1));
    let helpands: Vec<String> = helpands.map(|node| node.to_string()).collect();
    let words = format!("64 2 0 {} {}", helpands.join(" "), "0 ".repeat(64));
    let (sheet, plan) = (record("tally-none", "64 100 0"), record("chain", &words));
    let pairs = "add 63 63 1\nremove 63 63 1\n".repeat(5000);
    let calls = file("tally-calls", pairs.as_bytes());
    assert!(pairs.len() > 100_000);
    let answers = "add 63 63 1: the tree does not hold\nremove 63 63 1: the tree holds\n";
    let answers = answers.repeat(5000);
    let nodes: String = (0..64)
        .map(|node| format!("node {node} total 0 least 0\n"))
        .collect();
    let expected = format!("open: the tree holds\n{answers}limit 0 total 0\n{nodes}");
    assert!(printed(&["tally", &sheet, &plan, &calls]) == expected);
}
