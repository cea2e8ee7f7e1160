//! The example of many steps, examples/languages/many_steps.*, worked out by
//! the second implementation: what each of those programs must print.
#![forbid(unsafe_code)]

use firrozka_tests::implementations::REFERENCE;
use firrozka_tests::reference::table::Table;
use firrozka_tests::reference::{moves, plan, sheet};

const NODES: usize = 5;
/// In tenths of a percent.
const TOLERANCE: u32 = 100;
const STEPS: u32 = 12;

/// The flow of a step: a quarter, rounded down, of what a node holds of a
/// subdomain crosses into the next subdomain; then the inlet brings 300
/// particles to subdomain 0 at node 0, in steps 3 to 5.
fn flow(table: &Table, step: u32) -> Table {
    let mut after = table.clone();
    for holder in 0..NODES {
        for subdomain in 0..NODES {
            let crossing = table.counts[holder][subdomain] / 4;
            after.counts[holder][subdomain] -= crossing;
            after.counts[holder][(subdomain + 1) % NODES] += crossing;
        }
    }
    if (3..=5).contains(&step) {
        after.counts[0][0] += 300;
    }
    after
}

/// One step: its line, the table that follows, and the plan.
fn step(number: u32, table: &Table, old: &[u8]) -> (String, Table, Vec<u8>) {
    let bytes = flow(table, number).sheet(TOLERANCE).bytes();
    let planned = REFERENCE.planned(&bytes, old).expect("it is planned");
    let next = REFERENCE.carried_out(&bytes, &planned.moves);
    let next = sheet::read(&next.expect("it is carried out")).expect("it is a sheet");
    let plan = plan::read(&planned.plan).expect("it is a plan");
    let moves = moves::read(&planned.moves).expect("they are moves");
    let (kind, limit, count) = (plan.kind, plan.limit, moves.counts.len());
    let particles: u32 = moves.counts.iter().sum();
    let line =
        format!("step {number} kind {kind} limit {limit} moves {count} particles {particles}\n");
    (line, Table::of(&next), planned.plan)
}

/// All that the example prints: a line for each step, and the loads at the end.
fn printed() -> String {
    let mut table = Table::empty(NODES);
    for node in 0..NODES {
        table.counts[node][node] = 1000;
    }
    let (mut text, mut old) = (String::new(), Vec::new());
    for number in 1..=STEPS {
        let (line, next, plan) = step(number, &table, &old);
        text += &line;
        table = next;
        old = plan;
    }
    let loads = table.counts.iter().map(|held| held.iter().sum::<u64>());
    let loads: Vec<String> = loads.map(|load| load.to_string()).collect();
    text + "loads " + &loads.join(" ") + "\n"
}

#[test]
fn the_expected_lines_are_the_second_implementations() {
    let name = "../examples/languages/many_steps.expected";
    let path = format!("{}/{name}", env!("CARGO_MANIFEST_DIR"));
    let expected = std::fs::read_to_string(path).expect("the file is there");
    let printed = printed();
    assert!(expected == printed, "{name} should be:\n{printed}");
}

/// All kinds occur, and a tree is rebuilt without an old one and beside one.
#[test]
fn all_kinds_occur() {
    let printed = printed();
    let kind = |line: &str| line.split(' ').nth(3).map(String::from);
    let kinds: Vec<String> = printed
        .lines()
        .take(STEPS as usize)
        .filter_map(kind)
        .collect();
    assert_eq!(kinds.concat(), "002112111100");
}
