//! The groups of a plan, written.

use crate::records::{put_record, Nodes, Plan};

/// The entry of a node that is in no group of a colour.
const NONE: u32 = 64;

/// Some nodes, a bit for each.
type Set = u64;

/// Writes the groups of an accepted plan into a buffer of their length.
pub fn put(out: &mut [u8], plan: &Plan) {
    let n = plan.n as usize;
    let (mut even, mut odd) = ([NONE; 64], [NONE; 64]);
    if plan.kind != 0 {
        fill(&mut even, &mut odd, &plan.helpands[..n]);
    }
    put_record(out, &[plan.n], &even[..n], &odd[..n]);
}

/// The entries of a tree: a node's own group has the colour of its distance, and its
/// helpand's group has the other.
fn fill(even: &mut Nodes, odd: &mut Nodes, helpands: &[u32]) {
    let (mut root, mut helpers) = (0, [0; 64]);
    for (node, &helpand) in helpands.iter().enumerate() {
        if helpand as usize == node {
            root = 1 << node;
        } else {
            helpers[helpand as usize] |= 1 << node;
        }
    }
    let odd_nodes = at_odd_distances(root, &helpers);
    for (node, &helpand) in helpands.iter().enumerate() {
        let own = if helpers[node] != 0 {
            node as u32
        } else {
            NONE
        };
        let helped = if root >> node & 1 == 1 { NONE } else { helpand };
        (even[node], odd[node]) = match odd_nodes >> node & 1 {
            0 => (own, helped),
            _ => (helped, own),
        };
    }
}

/// The nodes at odd distances, from the root down.
fn at_odd_distances(root: Set, helpers: &[Set; 64]) -> Set {
    let (mut level, mut is_odd, mut odd) = (root, false, 0);
    while level != 0 {
        if is_odd {
            odd |= level;
        }
        level = helpers_of(level, helpers);
        is_odd = !is_odd;
    }
    odd
}

/// The helpers of all these owners.
fn helpers_of(mut owners: Set, helpers: &[Set; 64]) -> Set {
    let mut all = 0;
    while owners != 0 {
        all |= helpers[owners.trailing_zeros() as usize];
        owners &= owners - 1;
    }
    all
}
