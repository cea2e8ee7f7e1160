//! The rival: flow and trying everything agree, and weighing and planning agree
//! with both, in the archive and in the second implementation.
#![forbid(unsafe_code)]

use firrozka_tests::demands::{judged, Judged};
use firrozka_tests::implementations::{Implementation, IMPLEMENTATIONS};
use firrozka_tests::random::Random;
use firrozka_tests::records::plans::tree;
use firrozka_tests::reference::{plan, read_sheet};
use firrozka_tests::rival::{by_flow, by_trying, Verdict};
use firrozka_tests::settings::SEED;
use firrozka_tests::steps::{self, Size, Step};
use firrozka_tests::{exhaustive, worked};

/// What *weigh* writes and says of a step's old tree.
fn weighed(implementation: &Implementation, step: &Step) -> (Vec<u32>, bool) {
    let weighed = implementation.weighed(&step.sheet, &step.old);
    weighed.expect("sheet and old tree are accepted")
}

/// Whether the flow finds a division; its verdict is proven either way.
fn flows(helpands: &[u32], totals: &[u64], rooms: &[u64]) -> bool {
    let verdict = by_flow(helpands, totals, rooms);
    assert!(verdict.is_proven(helpands, totals, rooms));
    matches!(verdict, Verdict::Division(_))
}

/// "Taking L as every helper's spare: it keeps H's tree at 27, 39, 34, where
/// the least of node 1 is 37." And "Comparing P with N × L: it keeps I."
#[test]
fn plausible_missteps() {
    let step = worked::own(worked::TEN_PERCENT, &[27, 39, 34], worked::old(&[0, 0, 1]));
    for implementation in IMPLEMENTATIONS {
        let weighed = |step: &Step| weighed(implementation, step);
        assert_eq!(weighed(&step), (vec![27, 37, 34], false));
        assert_eq!(weighed(&worked::h()), (vec![28, 36, 0], true));
        assert_eq!(weighed(&worked::i()), (vec![27, 37, 0], false));
    }
    assert!(!flows(&[0, 0, 1], &[27, 39, 34], &[36; 3]));
    assert!(flows(&[0, 0, 1], &[28, 72, 0], &[36; 3]));
    assert!(!flows(&[0, 0, 1], &[27, 73, 0], &[36; 3]));
}

/// Every tree of up to four nodes with few particles: trying all divisions
/// finds one exactly when the flow does, when the tree holds, and when it is
/// kept where a tree is needed.
#[test]
fn every_small_tree() {
    for (n, bound, count) in [(2, 9, 2), (3, 7, 9), (4, 4, 64)] {
        let trees = exhaustive::trees(n);
        assert_eq!(trees.len(), count);
        for counts in exhaustive::rows(n, bound) {
            let totals: Vec<u64> = counts.iter().map(|&count| u64::from(count)).collect();
            for helpands in &trees {
                let step = worked::own(worked::ONE_PERCENT, &counts, worked::old(helpands));
                let limit = read_sheet(&step.sheet).limit;
                let needed = counts.iter().any(|&count| count > limit);
                let rooms = vec![u64::from(limit); n];
                let found = by_trying(helpands, &totals, &rooms).is_some();
                let place = format!("{counts:?} along {helpands:?}");
                assert_eq!(flows(helpands, &totals, &rooms), found, "{place}");
                for implementation in IMPLEMENTATIONS {
                    assert_eq!(weighed(implementation, &step).1, found, "{place}");
                    assert_eq!(keeps(implementation, &step), needed && found, "{place}");
                }
            }
        }
    }
}

/// Whether the plan written is of kind 1.
fn keeps(implementation: &Implementation, step: &Step) -> bool {
    let planned = implementation.plan(step);
    plan::read(&planned.plan).map_or(false, |plan| plan.kind == 1)
}

/// Flow and trying agree for rooms of all sorts too.
#[test]
fn flow_and_trying() {
    let mut found = 0;
    for index in 0..4_000 {
        let random = &mut Random::at(SEED, index);
        let n = random.between(1, 5);
        let helpands = tree(n, random);
        let totals: Vec<u64> = (0..n).map(|_| random.amount(0, 5)).collect();
        let rooms: Vec<u64> = (0..n).map(|_| random.amount(0, 4)).collect();
        let tried = by_trying(&helpands, &totals, &rooms);
        if let Some(division) = &tried {
            assert!(division.is_along(&helpands, &totals), "case {index}");
        }
        let flows = flows(&helpands, &totals, &rooms);
        assert_eq!(flows, tried.is_some(), "case {index}");
        found += u32::from(flows);
    }
    assert!((500..3_500).contains(&found), "{found} of 4000");
}

/// A least is the least: with that much room at the owner and L below, the
/// particles of its branch can be divided; with one less they cannot. And the
/// tree holds exactly when there is a rival's division, needed or not.
#[test]
fn leasts() {
    let (mut looked_at, mut of_owners) = (0, 0);
    for index in 0..3_000 {
        let step = steps::at(SEED, index, Size::Small);
        let place = format!("step {index}");
        let [judged, _] =
            IMPLEMENTATIONS.map(|implementation| judged(implementation, &step, &place));
        let old = match &judged.old {
            Some(old) => old,
            None => continue,
        };
        let [(leasts, holds), again] =
            IMPLEMENTATIONS.map(|implementation| weighed(implementation, &step));
        assert_eq!((&leasts, holds), (&again.0, again.1), "{place}");
        assert_eq!(holds, judged.rival, "{place}");
        let leasts: Vec<u64> = leasts.into_iter().map(u64::from).collect();
        for (node, &least) in leasts.iter().enumerate() {
            let branch = branch(&old.helpands, node);
            let mut below = branch.iter().filter(|&&other| other != node);
            // A least above L breaks the branch, whatever the owner does.
            if below.any(|&other| leasts[other] > judged.limit) {
                continue;
            }
            let fits = |room: u64| fits(&judged, &old.helpands, &branch, node, room);
            assert!(fits(least), "step {index}, node {node}");
            assert!(least == 0 || !fits(least - 1), "step {index}, node {node}");
            looked_at += 1;
            of_owners += u32::from(least > 0 && branch.len() > 1);
        }
    }
    println!("{looked_at} leasts, {of_owners} of owners with helpers and above 0");
    assert!(of_owners > 1_000);
}

/// The nodes whose chain of helpands comes by this node.
fn branch(helpands: &[u32], node: usize) -> Vec<usize> {
    let comes_by = |from: usize| {
        let chain = std::iter::successors(Some(from), |&at| Some(helpands[at] as usize));
        chain.take(helpands.len()).any(|at| at == node)
    };
    (0..helpands.len()).filter(|&from| comes_by(from)).collect()
}

/// Whether the branch's particles can be divided with this room at its top.
fn fits(judged: &Judged, helpands: &[u32], branch: &[usize], top: usize, room: u64) -> bool {
    let mut totals = vec![0; helpands.len()];
    let mut rooms = totals.clone();
    for &node in branch {
        totals[node] = judged.totals[node];
        rooms[node] = judged.limit;
    }
    rooms[top] = room;
    flows(helpands, &totals, &rooms)
}
