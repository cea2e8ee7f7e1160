//! Deciding: primary, kept or rebuilt.

use crate::records::{Nodes, Sheet, Table};
use crate::tree;

pub struct Decision {
    pub kind: u32,
    pub helpands: Nodes,
    pub shares: Nodes,
}

/// The total of each subdomain.
pub fn totals(table: &Table, n: usize) -> Nodes {
    let mut totals = [0; 64];
    for row in table.chunks_exact(64).take(n) {
        for (total, count) in totals.iter_mut().zip(row) {
            *total += count;
        }
    }
    totals
}

pub fn decide(
    table: &Table,
    totals: &Nodes,
    old: Option<&Nodes>,
    n: usize,
    sheet: &Sheet,
) -> Decision {
    let within = |amounts: &Nodes| amounts[..n].iter().all(|&amount| amount <= sheet.limit);
    if within(totals) {
        let mut helpands = [0; 64];
        for (node, helpand) in helpands.iter_mut().enumerate().take(n) {
            *helpand = node as u32;
        }
        return Decision {
            kind: 0,
            helpands,
            shares: [0; 64],
        };
    }
    if let Some(helpands) = old {
        let order = &tree::downwards(helpands, n)[..n];
        let leasts = tree::leasts(totals, helpands, order, sheet.limit);
        if within(&leasts) {
            return Decision {
                kind: 1,
                helpands: *helpands,
                shares: tree::shares(table, totals, &leasts, helpands, order, sheet.limit),
            };
        }
    }
    rebuild(totals, old, n, sheet.p)
}

#[derive(Clone, Copy, PartialEq)]
enum Group {
    A,
    B,
    Finished,
}

fn rebuild(totals: &Nodes, old: Option<&Nodes>, n: usize, p: u32) -> Decision {
    let (even, more) = (p / n as u32, p as usize % n);
    let target = |node: usize| even + u32::from(node < more);
    let mut loads = *totals;
    let mut groups = [Group::B; 64];
    for node in 0..n {
        if loads[node] < target(node) {
            groups[node] = Group::A;
        }
    }
    let (mut helpands, mut shares) = ([0; 64], [0; 64]);
    while let Some(l) = smallest(&loads, &groups, n) {
        let need = target(l) - loads[l];
        let fits = |&g: &usize| g != l && groups[g] == Group::B && loads[g] >= need;
        let old_helpand = old.map(|old| old[l] as usize).filter(fits);
        let g = match old_helpand.or_else(|| largest(&loads, &groups, n)) {
            Some(g) => g,
            None => break,
        };
        helpands[l] = g as u32;
        shares[l] = need;
        groups[l] = Group::Finished;
        loads[g] -= need;
        if loads[g] < target(g) {
            groups[g] = Group::A;
        }
    }
    let mut root = None;
    for node in 0..n {
        if groups[node] == Group::B {
            helpands[node] = *root.get_or_insert(node as u32);
        }
    }
    Decision {
        kind: 2,
        helpands,
        shares,
    }
}

/// The node in A with the smallest load, the lowest on ties.
fn smallest(loads: &Nodes, groups: &[Group; 64], n: usize) -> Option<usize> {
    let mut best: Option<usize> = None;
    for node in 0..n {
        if groups[node] == Group::A && !matches!(best, Some(best) if loads[best] <= loads[node]) {
            best = Some(node);
        }
    }
    best
}

/// The node in B with the largest load, the lowest on ties.
fn largest(loads: &Nodes, groups: &[Group; 64], n: usize) -> Option<usize> {
    let mut best: Option<usize> = None;
    for node in 0..n {
        if groups[node] == Group::B && !matches!(best, Some(best) if loads[best] >= loads[node]) {
            best = Some(node);
        }
    }
    best
}
