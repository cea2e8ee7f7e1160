//! Looking about in a tree of helpands.

use super::plan::{is_root, Plan};

/// The old tree. "An empty or kind 0 old plan has no old tree."
pub fn old_tree(old: Option<&Plan>) -> Option<&[u32]> {
    old.filter(|plan| plan.kind != 0)
        .map(|plan| plan.helpands.as_slice())
}

/// The helpers of an owner, by rising number.
pub fn helpers(helpands: &[u32], owner: usize) -> Vec<usize> {
    (0..helpands.len())
        .filter(|&node| node != owner && helpands[node] as usize == owner)
        .collect()
}

/// A node's distance from the root, by the chain of helpands.
pub fn distance(helpands: &[u32], node: usize) -> usize {
    let (mut at, mut steps) = (node, 0);
    while !is_root(helpands, at) {
        at = helpands[at] as usize;
        steps += 1;
    }
    steps
}

/// All nodes "from the root down": every node stands behind its helpand.
pub fn downwards(helpands: &[u32]) -> Vec<usize> {
    let mut order: Vec<usize> = (0..helpands.len())
        .filter(|&node| is_root(helpands, node))
        .collect();
    let mut next = 0;
    while next < order.len() {
        order.extend(helpers(helpands, order[next]));
        next += 1;
    }
    order
}
