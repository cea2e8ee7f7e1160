//! Request 2026-06, the groups: whom each node shares a group with in either colour,
//! and every refusal in its order. The expectations are the papers' or worked out by
//! hand.
#![forbid(unsafe_code)]

use firrozka_tests::buffers::{all_refuse, all_write};
use firrozka_tests::calls::{drafts, GROUPS};
use firrozka_tests::division::members;
use firrozka_tests::exhaustive::trees;
use firrozka_tests::implementations::{Implementation, IMPLEMENTATIONS};
use firrozka_tests::random::Random;
use firrozka_tests::records::plans::{self, Form};
use firrozka_tests::records::{to_bytes, to_words};
use firrozka_tests::settings::SEED;
use firrozka_tests::worked::plan;
use firrozka_tests::{refused, worked};
use std::fs;

/// "64 is none".
const NONE: u32 = 64;

/// "Write N, then each node's group in the even colour, then in the odd".
fn record(even: &[u32], odd: &[u32]) -> Vec<u8> {
    to_bytes(&[&[even.len() as u32], even, odd].concat())
}

/// All write these groups, to buffers of 4 × (1+2N) bytes and to longer ones, and
/// refuse shorter ones.
fn write(plan: &[u8], even: &[u32], odd: &[u32]) {
    all_write(|by, out| (by.groups)(plan, out), &record(even, odd), 57);
}

/// The same for a tree, kept or rebuilt.
fn write_tree(helpands: &[u32], even: &[u32], odd: &[u32]) {
    for kind in [1, 2] {
        write(&plan(kind, helpands), even, odd);
    }
}

fn refuse(plan: &[u8], lengths: &[usize], refusal: u32) {
    all_refuse(|by, out| (by.groups)(plan, out), lengths, refusal);
}

/// Something for each of n nodes.
fn each(n: u32, entry: impl Fn(u32) -> u32) -> Vec<u32> {
    (0..n).map(entry).collect()
}

/// Every node is a root.
fn roots(n: u32) -> Vec<u8> {
    plan(0, &each(n, |node| node))
}

/// 0 and 2 help 1, 3 and 4 help 0: distances 1 0 1 2 2.
#[test]
fn two_families() {
    let (even, odd) = ([1, 1, 1, NONE, NONE], [0, NONE, NONE, 0, 0]);
    write_tree(&[1, 1, 1, 0, 0], &even, &odd);
    let words = [5, 1, 1, 1, 64, 64, 0, 64, 64, 0, 0];
    assert_eq!(record(&even, &odd), to_bytes(&words));
}

/// A file of the examples.
fn example(name: &str) -> Vec<u8> {
    let examples = concat!(env!("CARGO_MANIFEST_DIR"), "/../examples");
    fs::read(format!("{examples}/{name}")).expect("the file is there")
}

/// What the example prints of these two families.
#[test]
fn the_example() {
    let printed = b"nodes 5\neven owner 1 members 0 1 2\nodd owner 0 members 0 3 4\n";
    assert!(example("groups.expected").starts_with(printed));
}

/// "Steps worked by hand": the groups of the plan, from the papers' kind and helpands.
#[test]
fn steps_worked_by_hand() {
    let groups: [[&[u32]; 2]; 11] = [
        [&[NONE], &[NONE]],
        [&[NONE, NONE], &[NONE, NONE]],
        // "helpands 0, 0"
        [&[0, 0], &[NONE, NONE]],
        // "plan words 3 2 36 0 0 0 0 27 29", and the same tree kept
        [&[0, 0, 0], &[NONE, NONE, NONE]],
        [&[0, 0, 0], &[NONE, NONE, NONE]],
        // "helpands 1, 1, 0"
        [&[1, 1, NONE], &[0, NONE, 0]],
        // "new helpands 1, 1, 1"
        [&[1, 1, 1], &[NONE, NONE, NONE]],
        // "old helpands 0, 0, 1", kept
        [&[0, 0, NONE], &[NONE, 1, 1]],
        // "helpands 1, 1, 1"
        [&[1, 1, 1], &[NONE, NONE, NONE]],
        [&[NONE, NONE, NONE], &[NONE, NONE, NONE]],
        // "helpands 1, 1, 0"
        [&[1, 1, NONE], &[0, NONE, 0]],
    ];
    for ((letter, step), [even, odd]) in worked::all().into_iter().zip(groups) {
        for by in IMPLEMENTATIONS {
            let plan = by.plan(&step).plan;
            assert_eq!(by.grouped(&plan), Ok(record(even, odd)), "step {letter}");
        }
    }
}

/// Plans as the examples have them on disk.
#[test]
fn plans_on_disk() {
    write(&example("step-d/plan"), &[0, 0, 0], &[NONE; 3]);
    write(&example("step-h/plan"), &[0, 0, NONE], &[NONE, 1, 1]);
}

/// "Kind 0 gives 64 everywhere", for every N.
#[test]
fn kind_0() {
    for n in 1..=64 {
        let none = each(n, |_| NONE);
        write(&roots(n), &none, &none);
    }
}

/// Each node but the last owns a group with the next one, and the colours take turns.
#[test]
fn chains() {
    write_tree(&[0, 0], &[0, 0], &[NONE, NONE]);
    write_tree(&[0, 0, 1, 2], &[0, 0, 2, 2], &[NONE, 1, 1, NONE]);
    write_tree(&[0, 0, 1, 2, 3], &[0, 0, 2, 2, NONE], &[NONE, 1, 1, 3, 3]);
    for n in 2..=64 {
        let owner = |first: u32| if first + 1 < n { first } else { NONE };
        let even = each(n, |node| owner(node / 2 * 2));
        let odd = each(n, |node| match node {
            0 => NONE,
            _ => owner((node + 1) / 2 * 2 - 1),
        });
        write_tree(&plans::chain(n), &even, &odd);
    }
}

/// A chain of 64 from the last node down to the first.
#[test]
fn a_chain_from_the_last_node_down() {
    let helpands = each(64, |node| if node == 63 { 63 } else { node + 1 });
    let even = each(64, |node| node / 2 * 2 + 1);
    let odd = each(64, |node| match node {
        0 | 63 => NONE,
        _ => (node + 1) / 2 * 2,
    });
    write_tree(&helpands, &even, &odd);
}

/// All belong to the root's family, whichever node it is.
#[test]
fn stars() {
    for n in 2..=64 {
        for root in 0..n {
            let all = each(n, |_| root);
            write_tree(&all, &all, &each(n, |_| NONE));
        }
    }
}

/// Nodes 1 to 7 help node 0, and each has eight helpers of its own.
#[test]
fn a_star_of_stars() {
    let owner = |node| (node - 8) / 8 + 1;
    let helpands = each(64, |node| if node < 8 { 0 } else { owner(node) });
    let even = each(64, |node| if node < 8 { 0 } else { NONE });
    let odd = each(64, |node| match node {
        0 => NONE,
        1..=7 => node,
        _ => owner(node),
    });
    write_tree(&helpands, &even, &odd);
}

/// An owner and all members of its family.
type Family = (usize, Vec<usize>);

/// The families with a helper, those of the even colour first. The distances are
/// found from the root down, and nothing is asked of entries.
fn families(helpands: &[u32]) -> [Vec<Family>; 2] {
    let helpand = |node: usize| helpands[node] as usize;
    let nodes = 0..helpands.len();
    let mut level: Vec<usize> = nodes
        .clone()
        .filter(|&node| helpand(node) == node)
        .collect();
    let (mut families, mut distance) = ([Vec::new(), Vec::new()], 0);
    while !level.is_empty() {
        let all = level
            .iter()
            .map(|&owner| (owner, members(helpands, &[owner])));
        families[distance % 2].extend(all.filter(|(_, members)| members.len() > 1));
        let is_next = |&node: &usize| helpand(node) != node && level.contains(&helpand(node));
        level = nodes.clone().filter(is_next).collect();
        distance += 1;
    }
    families
}

/// What must hold of the groups of an accepted plan, whatever it is.
fn hold(by: &Implementation, plan: &[u8]) {
    let groups = to_words(&by.grouped(plan).expect("accepted"));
    let words = to_words(plan);
    let n = words[0] as usize;
    assert_eq!((groups.len(), groups[0]), (1 + 2 * n, words[0]));
    let families = families(&words[3..3 + n]);
    for (entries, families) in groups[1..].chunks(n).zip(&families) {
        hold_in_one_colour(entries, families);
    }
}

/// "Two different nodes share an entry other than 64 in a colour exactly when they
/// belong to one family of that colour." Any other node has 64.
fn hold_in_one_colour(entries: &[u32], families: &[Family]) {
    let n = entries.len();
    let (mut together, mut is_member) = (vec![vec![false; n]; n], vec![false; n]);
    for (owner, members) in families {
        // "a group is named by its owner"
        assert_eq!(entries[*owner] as usize, *owner);
        for &a in members {
            is_member[a] = true;
            members.iter().for_each(|&b| together[a][b] = true);
        }
    }
    for (a, &entry) in entries.iter().enumerate() {
        assert_eq!(entry != NONE, is_member[a], "node {a} of {entries:?}");
        assert!(entry == NONE || (entry as usize) < n, "{entries:?}");
        for b in (0..n).filter(|&b| b != a) {
            let shared = entry == entries[b] && entry != NONE;
            assert_eq!(shared, together[a][b], "nodes {a} and {b} of {entries:?}");
        }
    }
}

#[test]
fn all_small_trees() {
    for n in 2..=5 {
        for helpands in trees(n) {
            for by in IMPLEMENTATIONS {
                hold(by, &plan(2, &helpands));
            }
        }
    }
}

/// Trees of each form over nodes in any order.
#[test]
fn every_number_of_nodes() {
    for n in 2..=64 {
        let random = &mut Random::at(SEED, n.into());
        for form in [Form::Chain, Form::Star, Form::Random, Form::Random] {
            let mut order = each(n, |node| node);
            random.shuffle(&mut order);
            let helpands = plans::tree_over(&order, form, random);
            for by in IMPLEMENTATIONS {
                hold(by, &plan(1, &helpands));
            }
        }
    }
}

/// "Checks: the plan's": what *read plan* refuses is refused by the same number, and
/// of everything else there are groups.
#[test]
fn accepted_like_read_plan() {
    let (mut accepted, mut refused) = (0, 0);
    for index in 0..3_000 {
        let random = &mut Random::at(SEED, index);
        let mut draft = drafts::groups(random);
        draft.mutate(&GROUPS.numbers(), random);
        let plan = draft.records[0].bytes();
        for by in IMPLEMENTATIONS {
            match (by.read_plan)(&plan).refusal {
                0 => {
                    hold(by, &plan);
                    accepted += 1;
                }
                refusal => {
                    assert_eq!(by.grouped(&plan), Err(refusal));
                    refused += 1;
                }
            }
        }
    }
    assert!(accepted > 1_000 && refused > 1_000, "{accepted}, {refused}");
}

/// The limit, the shares, and which of kinds 1 and 2 it is play no part.
#[test]
fn helpands_alone() {
    for index in 0..500 {
        let random = &mut Random::at(SEED, index);
        let helpands = plans::tree(random.between(2, 64), random);
        for by in IMPLEMENTATIONS {
            let groups = by.grouped(&plan(2, &helpands)).expect("accepted");
            for kind in [1, 2, 1, 2] {
                let other = plans::over(kind, &helpands, random).bytes();
                assert_eq!(by.grouped(&other).as_ref(), Ok(&groups), "{}", by.name);
            }
        }
    }
}

/// What stood in the buffer plays no part, and the rest of longer groups stays.
#[test]
fn one_over_another() {
    let (five, longest) = (plan(2, &[1, 1, 1, 0, 0]), plan(2, &plans::chain(64)));
    for by in IMPLEMENTATIONS {
        let groups = by.grouped(&five).expect("accepted");
        let before = by.grouped(&longest).expect("accepted");
        let mut out = before.clone();
        assert_eq!((by.groups)(&five, &mut out).refusal, 0);
        assert_eq!(out, [&groups[..], &before[44..]].concat(), "{}", by.name);
    }
}

/// "Checks: the plan's, then 57": however long the buffer is.
#[test]
fn refused_plans() {
    let lengths = [0, 11, 12, 27, 28, 515, 516];
    for (refusal, plan) in refused::plans() {
        refuse(&plan, &lengths, refusal);
    }
    refuse(&[], &lengths, 11);
    // A tree takes two nodes.
    for kind in [1, 2] {
        refuse(&plan(kind, &[0]), &lengths, 13);
    }
    // Neither groups nor a sheet are a plan.
    refuse(&record(&[0, 0, 0], &[NONE; 3]), &lengths, 15);
    refuse(&worked::d().sheet, &lengths, 13);
}

/// "57 for a buffer under 4 × (1+2N) bytes", for every N.
#[test]
fn short_buffers() {
    let all: Vec<usize> = (0..28).collect();
    refuse(&worked::d_plan(), &all, 57);
    for n in 1..=64 {
        let needed = 4 * (1 + 2 * n as usize);
        let short = [0, 1, 4, needed / 2, needed - 5, needed - 4, needed - 1];
        refuse(&roots(n), &short, 57);
        if n > 1 {
            refuse(&plan(2, &plans::chain(n)), &short, 57);
        }
    }
}
