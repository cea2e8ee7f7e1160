//! Wrong readers of plans.

use super::{instead, later, otherwise, Parts, Wrong};
use firrozka_tests::answers::PlanAnswer;
use firrozka_tests::calls::READ_PLAN;
use firrozka_tests::faults;
use firrozka_tests::implementations::{Implementation, REFERENCE};
use firrozka_tests::reference::read_plan;
use std::ops::Range;

fn reported(wrong: &[Wrong<PlanAnswer>]) {
    for &(name, read_plan) in wrong {
        READ_PLAN.must_report(&Implementation {
            name,
            read_plan,
            ..REFERENCE
        });
    }
}

/// A reader whose check `number` is this one.
fn plan(bytes: &[u8], number: u32, check: impl Fn(&Parts) -> bool) -> PlanAnswer {
    let parts = Parts::of(bytes, 3, 0);
    let [n, kind, limit] = parts.sizes.map(|size| size as u32);
    let accepted = PlanAnswer {
        refusal: 0,
        n,
        kind,
        limit,
    };
    instead(faults::plan(bytes), number, check(&parts), accepted)
}

pub fn right(bytes: &[u8]) -> PlanAnswer {
    plan(bytes, 17, |p| misshapen(p, p.first.len()))
}

fn second_first<const FIRST: u32, const SECOND: u32>(bytes: &[u8]) -> PlanAnswer {
    later(read_plan(bytes), &faults::plan(bytes), FIRST, SECOND)
}

#[test]
fn orders() {
    reported(&[
        ("12 before 11", second_first::<11, 12>),
        ("13 before 12", second_first::<12, 13>),
        ("14 before 13", second_first::<13, 14>),
        ("15 before 14", second_first::<14, 15>),
        ("15 before 12", second_first::<12, 15>),
        ("16 before 15", second_first::<15, 16>),
        ("17 before 16", second_first::<16, 17>),
        ("18 before 16", second_first::<16, 18>),
        ("18 before 17", second_first::<17, 18>),
    ]);
}

#[test]
fn sizes() {
    reported(&otherwise! { plan:
        "12 bytes are too few", 11, |p| p.length <= 12;
        "8 bytes are enough", 11, |p| p.length < 8;
        "N 0 accepted", 12, |p| p.n_outside(0, 64);
        "N 64 refused", 12, |p| p.n_outside(1, 63);
        "N 65 accepted", 12, |p| p.n_outside(1, 65);
        "kind 2 refused", 13, |p| p.sizes[1] > 1 || tree_of_one(p);
        "kind 3 accepted", 13, |p| p.sizes[1] > 3 || tree_of_one(p);
        "the kind's low byte", 13, |p| p.sizes[1] % 256 > 2 || tree_of_one(p);
        "a tree of one node accepted", 13, |p| p.sizes[1] > 2;
        "the largest limit refused", 14, |p| p.sizes[2] >= 1_999_000_000;
        "a larger limit accepted", 14, |p| p.sizes[2] > 1_999_000_001;
        "only a limit of whole percents accepted", 14, |p| p.sizes[2] > 1_990_000_000;
        "a signed limit", 14, |p| p.sizes[2] as i32 > 1_999_000_000;
        "longer plans accepted", 15, |p| p.length < 4 * (3 + 2 * p.sizes[0]);
        "bytes behind the last word accepted", 15, |p| p.length / 4 != 3 + 2 * p.sizes[0];
    });
}

/// "not 0 with N = 1"
fn tree_of_one(plan: &Parts) -> bool {
    plan.n() == 1 && plan.sizes[1] != 0
}

#[test]
fn helpands() {
    reported(&otherwise! { plan:
        "a helpand of N accepted", 16, |p| p.any_first(|helpand| helpand > p.n());
        "helpands up to 63 accepted", 16, |p| p.any_first(|helpand| helpand > 63);
        "a helpand's low byte", 16, |p| p.any_first(|helpand| helpand % 256 >= p.n());
        "trees of kind 0 accepted", 17, |p| p.sizes[1] != 0 && misshapen(p, p.first.len());
        "roots not counted", 17, |p| !all_reach(p, 0..p.first.len(), p.first.len());
        "chains not followed", 17, |p| !right_roots(p);
        // With one of them left out, the others would still meet every ring.
        "the last two chains not followed", 17, |p| !right_roots(p) || !others_reach(p, 0, 2);
        "the first two chains not followed", 17, |p| !right_roots(p) || !others_reach(p, 2, 0);
        // N − 1 steps are enough.
        "N − 2 steps", 17, |p| misshapen(p, p.first.len().saturating_sub(2));
        // Only a chain of 64 nodes needs more.
        "62 steps at the most", 17, |p| misshapen(p, 62);
    });
}

/// "Shape: kind 0 has only roots; kinds 1 and 2 have one root", to which so many
/// steps lead from every node.
fn misshapen(plan: &Parts, steps: usize) -> bool {
    !right_roots(plan) || !all_reach(plan, 0..plan.first.len(), steps)
}

fn right_roots(plan: &Parts) -> bool {
    let nodes = 0..plan.first.len();
    let roots = nodes.filter(|&node| is_root(plan, node)).count();
    match plan.sizes[1] {
        0 => roots == plan.first.len(),
        _ => roots == 1,
    }
}

/// Whether a chain of N steps leads to a root from every node but so many first
/// and so many last ones.
fn others_reach(plan: &Parts, first: usize, last: usize) -> bool {
    let n = plan.first.len();
    all_reach(plan, first..n.saturating_sub(last), n)
}

/// Whether so many steps lead from each of these nodes to a root.
fn all_reach(plan: &Parts, mut nodes: Range<usize>, steps: usize) -> bool {
    let helpand = |at: usize| plan.first.get(at).map_or(at, |&up| up as usize);
    let end = |node| (0..steps).fold(node, |at, _| helpand(at));
    nodes.all(|node| is_root(plan, end(node)))
}

fn is_root(plan: &Parts, node: usize) -> bool {
    plan.first.get(node) == Some(&(node as u32))
}

#[test]
fn shares() {
    reported(&otherwise! { plan:
        "a share at the limit refused", 18, |p| bad_shares(p, 0, |a, l| a > 0 && a >= l);
        "a share above the limit accepted", 18, |p| bad_shares(p, 0, |a, l| a > l + 1);
        "signed shares", 18, |p| bad_shares(p, 0, |a, l| a as i32 > l as i32);
        "a root's share not looked at", 18, |p| p.any_second(|share| u64::from(share) > p.sizes[2]);
        "node 0's share not looked at", 18, |p| bad_shares(p, 1, |a, l| a > l);
    });
}

/// Whether from some node on a share is above the limit, when they are compared
/// so, or not 0 at a root.
fn bad_shares(plan: &Parts, from: usize, above: fn(u64, u64) -> bool) -> bool {
    let mut shares = plan.second.iter().enumerate().skip(from);
    shares.any(|(node, &share)| {
        above(share.into(), plan.sizes[2]) || is_root(plan, node) && share != 0
    })
}

#[test]
fn values() {
    reported(&[
        ("kind and limit exchanged", |bytes| {
            let answer = read_plan(bytes);
            PlanAnswer {
                kind: answer.limit,
                limit: answer.kind,
                ..answer
            }
        }),
        ("N beside a refusal", |bytes| PlanAnswer {
            n: Parts::of(bytes, 3, 0).n(),
            ..read_plan(bytes)
        }),
    ]);
}
