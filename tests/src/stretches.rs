//! The input and the expected output of another program that the gate runs:
//! pairs of plans, and the stretch that *tree in force* hands back for each.
//!
//! The input has one pair after the other, to its end. A pair is two words, low
//! byte first, with the lengths of the old and of the new plan in bytes; the old
//! plan's bytes; and the new plan's. No plan is longer than any that is accepted.
//!
//! The output has a line for each pair: `stretch`, and the helpands of the
//! stretch, each behind a blank.

use crate::answers::PartAnswer;
use crate::cases::Files;
use crate::implementations::{Implementation, REFERENCE};
use crate::records::{plans, to_bytes, to_words};
use crate::refused;
use crate::worked::{self, d_plan, plan};

/// An old and a new plan.
pub type Pair = [Vec<u8>; 2];

/// The two files.
pub fn all() -> Files {
    let mut files = Files::default();
    for pair in pairs() {
        let lengths = [pair[0].len() as u32, pair[1].len() as u32];
        files.stdin.extend(to_bytes(&lengths));
        files.stdin.extend(pair.concat());
        files.stdout += &text(&REFERENCE, &pair);
    }
    files
}

/// The line for a pair, by whoever says where the stretch lies.
pub fn text(by: &Implementation, [old, new]: &Pair) -> String {
    let part = (by.tree_in_force)(old, new);
    let source = match part.source {
        PartAnswer::OLD => old,
        _ => new,
    };
    let bytes = &source[part.start as usize..][..part.length as usize];
    let helpands = to_words(bytes)
        .into_iter()
        .map(|helpand| format!(" {helpand}"));
    format!("stretch{}\n", helpands.collect::<String>())
}

/// Steps A to K, each way to choose a stretch, each way to be refused, and the
/// smallest and largest plans.
pub fn pairs() -> Vec<Pair> {
    let worked = worked::all().map(|(_, step)| {
        let new = REFERENCE.plan(&step).plan;
        [step.old, new]
    });
    let all = [worked.to_vec(), of_three_nodes(), of_other_sizes()];
    let all = all.into_iter().chain([refused_plans(), of_64_nodes()]);
    all.flatten().collect()
}

/// All kinds before and after, with the same tree and with another.
fn of_three_nodes() -> Vec<Pair> {
    let (roots, chain) = (plan(0, &[0, 1, 2]), |kind| plan(kind, &[1, 2, 2]));
    let mut all = vec![[roots.clone(), roots.clone()]];
    for kind in [1, 2] {
        all.push([roots.clone(), chain(kind)]);
        all.push([chain(kind), roots.clone()]);
        all.push([chain(1), chain(kind)]);
        all.push([chain(2), chain(kind)]);
        // Others at the beginning, and at the end.
        all.push([chain(2), plan(kind, &[2, 2, 2])]);
        all.push([plan(2, &[0, 0, 1]), plan(kind, &[0, 0, 0])]);
    }
    // Shares and limit play no part.
    all.push([d_plan(), plan(1, &[0, 0, 0])]);
    all
}

/// One node; and N that differ.
fn of_other_sizes() -> Vec<Pair> {
    let one = plan(0, &[0]);
    let (two, three) = (|kind| plan(kind, &[0, 0]), |kind| plan(kind, &[0, 0, 0]));
    vec![
        [one.clone(), one.clone()],
        [one.clone(), plan(0, &[0, 1])],
        [plan(0, &[0, 1]), one.clone()],
        [one, two(1)],
        [two(2), three(1)],
        [three(2), two(1)],
        [two(2), three(2)],
        [three(1), plan(0, &[0, 1])],
    ]
}

/// Each refusal of *read plan*, before and after a good plan; and no plan.
fn refused_plans() -> Vec<Pair> {
    let bad = refused::plans().into_iter().map(|(_, plan)| plan);
    let before_and_after = |bad: Vec<u8>| [[bad.clone(), d_plan()], [d_plan(), bad]];
    let none = [[d_plan(), Vec::new()], [Vec::new(), Vec::new()]];
    bad.flat_map(before_and_after).chain(none).collect()
}

/// The longest plans.
fn of_64_nodes() -> Vec<Pair> {
    let chain = plans::chain(64);
    let mut other = chain.clone();
    other[63] = 0;
    let roots: Vec<u32> = (0..64).collect();
    vec![
        [plan(2, &chain), plan(1, &chain)],
        [plan(2, &chain), plan(1, &other)],
        [plan(1, &chain), plan(2, &other)],
        [plan(2, &chain), plan(0, &roots)],
        [plan(0, &roots), plan(1, &chain)],
        [plan(2, &chain), plan(2, &[63; 64])],
        [plan(2, &plans::chain(63)), plan(1, &chain)],
    ]
}
