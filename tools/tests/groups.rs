//! The groups of a plan, as lines.
#![forbid(unsafe_code)]

mod common;

use common::{bytes, example, file, fresh, printed, record, said, written};

/// What is printed of the plan of these words.
fn grouped(words: &str) -> String {
    let plan = written(&["write", "plan"], words.as_bytes());
    let lines = written(&["groups", "-"], &plan);
    String::from_utf8(lines).expect("it prints text")
}

/// Numbers with a blank between them.
fn row(numbers: impl IntoIterator<Item = u32>) -> String {
    let numbers: Vec<String> = numbers.into_iter().map(|n| n.to_string()).collect();
    numbers.join(" ")
}

/// The words of a rebuilt plan with these helpands.
fn rebuilt(helpands: &[u32]) -> String {
    let n = helpands.len();
    let shares = vec![0; n];
    format!("{n} 2 36 {} {}", row(helpands.to_vec()), row(shares))
}

#[test]
fn the_groups_of_a_plan_are_printed() {
    // Nodes 0 and 2 help node 1, which is the root, and nodes 3 and 4 help node 0.
    let lines = "nodes 5\n\
        even owner 1 members 0 1 2\n\
        odd owner 0 members 0 3 4\n";
    assert_eq!(grouped("5 2 36 1 1 1 0 0 20 0 15 12 9"), lines);
    // A kept tree has them too; neither the limit nor the shares matter.
    assert_eq!(grouped("5 1 0 1 1 1 0 0 0 0 0 0 0"), lines);
    let d = printed(&["groups", &example("step-d/plan")]);
    assert_eq!(d, "nodes 3\neven owner 0 members 0 1 2\n");
    let h = printed(&["groups", &example("step-h/plan")]);
    let lines = "nodes 3\n\
        even owner 0 members 0 1\n\
        odd owner 1 members 1 2\n";
    assert_eq!(h, lines);
}

#[test]
fn groups_and_members_stand_by_rising_number() {
    // Node 11 is the root. Nodes 9 and 10 help it, nodes 2 and 8 help node 10, and
    // nodes 0 and 5 help node 9; of these node 5 is helped by 1, and 8 by 3, 4, 6
    // and 7.
    let helpands = [9, 5, 10, 8, 8, 9, 8, 8, 10, 11, 11, 11];
    let lines = "nodes 12\n\
        even owner 5 members 1 5\n\
        even owner 8 members 3 4 6 7 8\n\
        even owner 11 members 9 10 11\n\
        odd owner 9 members 0 5 9\n\
        odd owner 10 members 2 8 10\n";
    assert_eq!(grouped(&rebuilt(&helpands)), lines);
}

#[test]
fn the_longest_plans_have_their_groups() {
    // Node k helps node k - 1, so that each node but the last owns a group.
    let chain: Vec<u32> = (0u32..64).map(|node| node.saturating_sub(1)).collect();
    let groups = |colour: &str, first: u32| -> String {
        let owners = (first..63).step_by(2);
        let group = |owner| format!("{colour} owner {owner} members {owner} {}\n", owner + 1);
        owners.map(group).collect()
    };
    let lines = format!("nodes 64\n{}{}", groups("even", 0), groups("odd", 1));
    assert_eq!(grouped(&rebuilt(&chain)), lines);
    // All help node 63.
    let star = format!("nodes 64\neven owner 63 members {}\n", row(0..64));
    assert_eq!(grouped(&rebuilt(&[63; 64])), star);
}

#[test]
fn a_plan_without_a_group_is_said_to_have_none() {
    let lines = "nodes 3\nno group: no node helps\n";
    assert_eq!(grouped("3 0 36 0 1 2 0 0 0"), lines);
    assert_eq!(grouped("1 0 0 0 0"), "nodes 1\nno group: no node helps\n");
}

#[test]
fn a_plan_that_is_refused_is_named_with_the_reason() {
    let cases = [
        ("3 2", "11: plan: under 12 bytes"),
        ("65 2 36", "12: plan: N is not 1 to 64"),
        (
            "3 3 36",
            "13: plan: the kind is above 2, or not 0 with one node",
        ),
        (
            "3 2 1999000001",
            "14: plan: the limit is above 1,999,000,000",
        ),
        (
            "3 2 36 0 0 0 0 27",
            "15: plan: the length is not 4 × (3 + 2N) bytes",
        ),
        ("3 2 36 0 0 3 0 27 29", "16: plan: a helpand is not below N"),
        (
            "3 2 36 0 2 1 0 27 29",
            "17: plan: the wrong shape: kind 0 has only roots; kinds 1 and 2 have one \
            root, which every chain of helpands reaches",
        ),
        (
            "3 2 36 0 0 0 0 27 37",
            "18: plan: a share is above the limit, or not 0 at a root",
        ),
    ];
    for (words, what) in cases {
        let plan = record("ungrouped", words);
        let said = said(&["groups", &plan], b"");
        assert_eq!(said, format!("{plan}: refused {what}"));
    }
    let missing = fresh("no-such-plan");
    let what = "cannot be read: No such file or directory (os error 2)";
    let no_plan = said(&["groups", &missing], b"");
    assert_eq!(no_plan, format!("{missing}: {what}"));
}

#[test]
fn another_record_in_place_of_a_plan_is_recognised() {
    let sheet = example("step-d/sheet");
    let archive = written(&["archive", &sheet, "-o", "-"], b"");
    let kind = "refused 13: plan: the kind is above 2, or not 0 with one node";
    let length = "refused 15: plan: the length is not 4 × (3 + 2N) bytes";
    let cases = [
        (bytes(&sheet), format!("{kind}; this reads as a sheet")),
        (
            bytes(&example("step-d/moves")),
            format!("{length}; this reads as moves"),
        ),
        (archive, format!("{kind}; this reads as an archive")),
        (
            Vec::new(),
            String::from("refused 11: plan: under 12 bytes; it is empty"),
        ),
    ];
    for (bytes, what) in cases {
        let other = file("no-plan", &bytes);
        assert_eq!(said(&["groups", &other], b""), format!("{other}: {what}"));
    }
    // The table that 'show' prints of a plan.
    let table = printed(&["show", "plan", &example("step-d/plan")]);
    let table = file("plan-table", table.as_bytes());
    let said = said(&["groups", &table], b"");
    let write = "; this is text, of which 'firrozka write plan' makes a record";
    assert!(said.ends_with(write), "{said}");
}
