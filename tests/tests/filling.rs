//! Request 2026-03 in the second implementation: level filling gives what one
//! particle after another would give, in all small families, in random ones and
//! in whole steps, among them steps in which request 2026-07 makes a difference.
#![forbid(unsafe_code)]

use firrozka_tests::bench_text;
use firrozka_tests::implementations::{MOVES_BYTES, PLAN_BYTES, REFERENCE};
use firrozka_tests::random::Random;
use firrozka_tests::records::{plans, to_bytes};
use firrozka_tests::reference::keeping::{
    level_filling, one_after_another, Fill, Member, Rules, RULES, WITH_LEAST,
};
use firrozka_tests::reference::plan_step_with;
use firrozka_tests::reference::table::Table;
use firrozka_tests::settings::SEED;
use firrozka_tests::steps::Step;
use firrozka_tests::{exhaustive, worked};
use std::fs;

/// A member with this standing load, a part of which it keeps of the subdomain,
/// and space for so many more.
fn member(node: usize, owner: usize, [standing, kept, more]: [u64; 3]) -> Member {
    Member {
        node,
        is_owner: node == owner,
        base: standing - kept,
        space: kept + more,
        amount: kept,
    }
}

/// Fills a family both ways.
fn filled(members: &[Member], rest: u64) {
    let after = |fill: Fill| {
        let mut members = members.to_vec();
        fill(&mut members, rest);
        members
    };
    let [level, one_by_one] = [level_filling, one_after_another].map(|fill| after(fill));
    assert_eq!(level, one_by_one, "{rest} to {members:?}");
}

fn space_left(members: &[Member]) -> u64 {
    members.iter().map(Member::space_left).sum()
}

/// All families of up to four members with standing loads and spaces below 4,
/// the owner at each place, and every rest.
#[test]
fn all_small_families() {
    for size in 1..=4 {
        for row in exhaustive::rows(2 * size, 4) {
            let owner = row[0] as usize % size;
            let one = |node: usize| {
                let [standing, more] = [row[2 * node], row[2 * node + 1]].map(u64::from);
                member(node, owner, [standing, standing / 2, more])
            };
            let members: Vec<Member> = (0..size).map(one).collect();
            for rest in 0..=space_left(&members) {
                filled(&members, rest);
            }
        }
    }
}

/// Families of up to 64 members under a limit, with rests up to some thousand.
#[test]
fn random_families() {
    for index in 0..1_000 {
        let random = &mut Random::at(SEED, index);
        let size = 1 + random.place(64);
        let owner = random.place(size);
        let limit = random.amount(1, 300);
        // Few different standing loads, so that many tie.
        let step = random.one_of(&[1, 1, limit / 3 + 1]);
        let one = |node| {
            let standing = random.amount(0, limit) / step * step;
            let kept = random.amount(0, standing);
            member(node, owner, [standing, kept, limit - standing])
        };
        let members: Vec<Member> = (0..size).map(one).collect();
        let most = space_left(&members);
        let any = random.amount(0, most);
        filled(&members, random.one_of(&[any, any, most / 2, most]));
    }
}

/// A billion, more than can be given one after another.
#[test]
fn the_largest_rest() {
    let empty = |node| member(node, 0, [0, 0, 500_000_000]);
    let mut members: Vec<Member> = (0..3).map(empty).collect();
    level_filling(&mut members, 1_000_000_000);
    let amounts: Vec<u64> = members.iter().map(|member| member.amount).collect();
    assert_eq!(amounts, [333_333_334, 333_333_333, 333_333_333]);
}

/// What an example prints of a step: the leasts, then the plan.
fn printed(sheet: &[u8], old: &[u8]) -> String {
    let (leasts, holds) = REFERENCE.weighed(sheet, old).expect("accepted");
    let mut text = format!("limit {}\n", (REFERENCE.read_sheet)(sheet).limit);
    for (node, least) in leasts.iter().enumerate() {
        text += &format!("node {node} least {least}\n");
    }
    assert!(holds);
    text + "the tree holds\n" + &bench_text::text(sheet, old)
}

/// Holds what an example is expected to print to this text.
fn expect(example: &str, text: &str) {
    let examples = concat!(env!("CARGO_MANIFEST_DIR"), "/../examples");
    let file = fs::read_to_string(format!("{examples}/{example}.expected"));
    let expected = file.expect("the file is there");
    assert!(expected == text, "it should be:\n{text}");
}

/// Request 2026-03's own example.
#[test]
fn the_example() {
    let Step { sheet, old } = worked::e_levelled();
    expect("level", &printed(&sheet, &old));
}

/// Two steps one particle apart, of which the first affords what node 1 holds.
#[test]
fn the_example_of_hold() {
    let old = to_bytes(&[3, 2, 35, 0, 0, 1, 0, 0, 0]);
    let step = |count: u32| {
        let sheet = to_bytes(&[3, 500, 4, 0, 64, 65, 128, 10, 20, 20, count]);
        let first_line = format!("node 2 holds {count} of subdomain 0\n");
        first_line + &printed(&sheet, &old)
    };
    expect("hold", &(step(20) + &step(21)));
}

/// What *plan a step* writes by these rules.
fn written(rules: Rules, sheet: &[u8], old: &[u8]) -> (u32, Vec<u8>) {
    let (mut plan, mut moves) = (vec![0; PLAN_BYTES], vec![0; MOVES_BYTES]);
    let answer = plan_step_with(rules, [sheet, old], &mut plan, &mut moves);
    (answer.kind, [plan, moves].concat())
}

/// How many steps were kept, and in how many of them least would lead elsewhere.
#[derive(Debug, Default)]
struct Tally {
    kept: u32,
    held: u32,
}

impl Tally {
    /// Plans a step by today's filling and, if it is kept, by the rule itself.
    fn note(&mut self, sheet: &[u8], old: &[u8]) {
        let one_by_one = Rules {
            fill: one_after_another,
            ..RULES
        };
        let (kind, bytes) = written(RULES, sheet, old);
        if kind == 1 {
            assert!(bytes == written(one_by_one, sheet, old).1);
            self.kept += 1;
            self.held += u32::from(bytes != written(WITH_LEAST, sheet, old).1);
        }
    }
}

/// All steps of three nodes and any tree, in which everybody holds none, one or
/// three of what it may hold.
#[test]
fn all_small_steps() {
    let mut tally = Tally::default();
    let trees = exhaustive::trees(3);
    for row in exhaustive::rows(9, 3) {
        let mut table = Table::empty(3);
        for (at, &count) in row.iter().enumerate() {
            table.counts[at / 3][at % 3] = [0, 1, 3][count as usize];
        }
        let sheet = table.sheet(worked::ONE_PERCENT).bytes();
        for helpands in &trees {
            tally.note(&sheet, &worked::old(helpands));
        }
    }
    assert!(tally.kept > 10_000 && tally.held > 1_000, "{tally:?}");
}

/// Steps of many nodes with a few thousand particles, held by anybody.
#[test]
fn random_steps() {
    let mut tally = Tally::default();
    for index in 0..600 {
        let random = &mut Random::at(SEED, index);
        let n = random.between(2, 64);
        let mut table = Table::empty(n as usize);
        let most = random.one_of(&[1, 3, 100]);
        for _ in 0..10 * n {
            let (holder, subdomain) = (random.place(n as usize), random.place(n as usize));
            table.counts[holder][subdomain] += random.amount(0, most);
        }
        let sheet = table.sheet(random.between(100, 999)).bytes();
        tally.note(&sheet, &worked::old(&plans::tree(n, random)));
    }
    assert!(tally.kept > 100 && tally.held > 50, "{tally:?}");
}
