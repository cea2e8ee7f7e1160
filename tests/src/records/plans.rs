//! Plans: valid ones, and each fault of *read plan*.

use super::{injection, nodes, Record};
use crate::bounds::{MOST_LIMIT, NODES};
use crate::random::Random;
use crate::reference::tree::distance;

/// The form of a tree.
#[derive(Clone, Copy, Debug, PartialEq, Eq)]
pub enum Form {
    Chain,
    Star,
    Random,
}

/// A plan of words from its parts.
pub fn plan(kind: u32, limit: u32, helpands: &[u32], shares: &[u32]) -> Record {
    Record::new(0, &[helpands.len() as u32, kind, limit], helpands, shares)
}

/// A plan from the bytes of a valid one.
pub fn of(bytes: &[u8]) -> Record {
    Record::of(0, 3, bytes)
}

/// Some valid plan.
pub fn build(random: &mut Random) -> Record {
    let n = nodes(random);
    let kind = if n == 1 { 0 } else { random.below(3) };
    let helpands = match kind {
        0 => (0..n).collect(),
        _ => tree(n, random),
    };
    over(kind, &helpands, random)
}

/// Some valid plan with these helpands, which go with the kind.
pub fn over(kind: u32, helpands: &[u32], random: &mut Random) -> Record {
    let any = random.between(0, MOST_LIMIT);
    let limit = random.one_of(&[0, 1, 36, any, any, MOST_LIMIT - 1, MOST_LIMIT]);
    plan(kind, limit, helpands, &shares(helpands, limit, random))
}

/// The helpands of a star, a chain or any tree, over nodes in any order.
pub fn tree(n: u32, random: &mut Random) -> Vec<u32> {
    let mut order: Vec<u32> = (0..n).collect();
    match random.below(4) {
        0 => (),
        1 => order.reverse(),
        _ => random.shuffle(&mut order),
    }
    let form = random.one_of(&[Form::Star, Form::Chain, Form::Random]);
    tree_over(&order, form, random)
}

/// The helpands of a tree of this form over nodes in this order, the root first.
pub fn tree_over(order: &[u32], form: Form, random: &mut Random) -> Vec<u32> {
    let mut helpands = vec![order[0]; order.len()];
    for at in 1..order.len() {
        helpands[order[at] as usize] = match form {
            Form::Star => order[0],
            Form::Chain => order[at - 1],
            Form::Random => order[random.place(at)],
        };
    }
    helpands
}

/// Node 0 is the root, and every other node helps the one before it.
pub fn chain(n: u32) -> Vec<u32> {
    (0..n).map(|node| node.saturating_sub(1)).collect()
}

/// The most steps that a node is away from the root.
pub fn depth(helpands: &[u32]) -> usize {
    let steps = (0..helpands.len()).map(|node| distance(helpands, node));
    steps.max().unwrap_or(0)
}

/// Shares up to the limit, 0 at roots: all 0, all at the limit, or mixed.
fn shares(helpands: &[u32], limit: u32, random: &mut Random) -> Vec<u32> {
    let form = random.below(3);
    let share = |(node, &helpand): (usize, &u32)| match form {
        _ if helpand as usize == node => 0,
        0 => 0,
        1 => limit,
        _ => {
            let any = random.between(0, limit);
            random.one_of(&[0, any, any, limit])
        }
    };
    helpands.iter().enumerate().map(share).collect()
}

/// Brings a fault in, as far as the record allows it.
pub fn inject(record: &mut Record, fault: u32, random: &mut Random) {
    match fault {
        11 => injection::cut_the_sizes(record, random),
        12 => bad_nodes(record, random),
        13 => bad_kind(record, random),
        14 => record.words[2] = injection::outside(0..=MOST_LIMIT, random),
        15 => injection::change_the_length(record, random),
        16 => bad_helpand(record, random),
        17 => bad_shape(record, random),
        18 => bad_share(record, random),
        _ => panic!("{fault} is no refusal of read plan"),
    }
}

/// N out of range, half the time with arrays to match: the new nodes are
/// roots in kind 0 and help the root otherwise.
fn bad_nodes(record: &mut Record, random: &mut Random) {
    if random.chance(1, 2) {
        record.words[0] = injection::outside(NODES, random);
        return;
    }
    let kind = record.words[1];
    let mut helpands = record.first().to_vec();
    let mut shares = record.second().to_vec();
    let root = root_of(&helpands).unwrap_or(0) as u32;
    for node in helpands.len() as u32..NODES.end() + random.between(1, 3) {
        helpands.push(if kind == 0 { node } else { root });
        shares.push(0);
    }
    record.replace(&helpands, &shares);
}

fn root_of(helpands: &[u32]) -> Option<usize> {
    (0..helpands.len()).find(|&node| helpands[node] as usize == node)
}

/// A kind above 2, or kind 1 or 2 with N = 1.
fn bad_kind(record: &mut Record, random: &mut Random) {
    if random.chance(1, 2) {
        record.words[1] = injection::outside(0..=2, random);
    } else {
        record.replace(&[0], &[0]);
        record.words[1] = random.between(1, 2);
    }
}

/// A helpand not below N. Takes a node.
fn bad_helpand(record: &mut Record, random: &mut Random) {
    let n = record.words[0];
    let helpands = record.first();
    if let Some(last) = helpands.len().checked_sub(1) {
        let any = random.place(last + 1);
        let at = random.one_of(&[0, any, last]);
        helpands[at] = random.one_of(&[n, n, 64, 1 << 31, u32::MAX]).max(n);
    }
}

/// Helpands that do not fit the kind, or a kind that does not fit them.
fn bad_shape(record: &mut Record, random: &mut Random) {
    let kind = record.words[1];
    let n = record.entries();
    if n < 2 {
        // Alone, a node is a root or helps a node that is not there.
        record.first().fill(1);
    } else if random.chance(1, 5) {
        record.words[1] = if kind == 0 { random.between(1, 2) } else { 0 };
    } else if kind == 0 {
        let at = random.place(n);
        record.first()[at] = other_node(at, n, random);
    } else {
        break_tree(record.first(), random);
    }
}

fn other_node(node: usize, n: usize, random: &mut Random) -> u32 {
    ((node + 1 + random.place(n - 1)) % n) as u32
}

/// Makes a second root, takes the root away, sets two nodes apart, or bends a
/// branch into a ring.
fn break_tree(helpands: &mut [u32], random: &mut Random) {
    let n = helpands.len();
    let at = random.place(n);
    match (random.below(6), root_of(helpands)) {
        (0, _) => helpands[at] = at as u32,
        (1, Some(root)) => helpands[root] = other_node(root, n, random),
        (2 | 3, Some(root)) => set_apart(helpands, root, random),
        _ => {
            let top = top_of_branch(helpands, at);
            helpands[top] = at as u32;
        }
    }
}

/// Has two nodes help each other and all others the root or each other: a ring
/// that no other chain leads to. Takes three nodes.
fn set_apart(helpands: &mut [u32], root: usize, random: &mut Random) {
    let others: Vec<usize> = (0..helpands.len()).filter(|&node| node != root).collect();
    if others.len() < 2 {
        return;
    }
    let last = others.len() - 2;
    let any = random.place(last + 1);
    let at = random.one_of(&[0, any, last]);
    let (a, b) = (others[at], others[at + 1]);
    for helpand in helpands.iter_mut() {
        if [a, b].contains(&(*helpand as usize)) {
            *helpand = root as u32;
        }
    }
    helpands[a] = b as u32;
    helpands[b] = a as u32;
}

/// The last node before the root on the chain from `node`.
fn top_of_branch(helpands: &[u32], node: usize) -> usize {
    let mut at = node;
    for _ in 0..helpands.len() {
        let up = helpands[at] as usize;
        if up >= helpands.len() || helpands[up] as usize == up {
            break;
        }
        at = up;
    }
    at
}

/// A share one above the limit or far above, or some share at a root. Takes a node.
fn bad_share(record: &mut Record, random: &mut Random) {
    let limit = record.words[2];
    let root = root_of(record.first());
    let shares = record.second();
    if shares.is_empty() {
        return;
    }
    let at = random.place(shares.len());
    match (random.below(4), root) {
        (0 | 1, Some(root)) => shares[root] = random.one_of(&[1, limit, u32::MAX]),
        (2, _) => shares[at] = u32::MAX,
        _ => shares[at] = limit.saturating_add(1),
    }
}
