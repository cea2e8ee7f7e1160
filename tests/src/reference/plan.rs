//! The plan: "N, kind, limit; N helpands; N shares", *read plan*, and the plan written.

use super::words::{length_of, record, word, words};
use crate::answers::{Answer, PlanAnswer};
use crate::bounds::{MOST_LIMIT, NODES};

/// A plan that *read plan* accepts.
#[derive(Clone, Debug, PartialEq, Eq)]
pub struct Plan {
    pub n: u32,
    pub kind: u32,
    pub limit: u32,
    pub helpands: Vec<u32>,
    pub shares: Vec<u32>,
}

/// The plan, or its refusal. "Checks run in the order written."
pub fn read(bytes: &[u8]) -> Result<Plan, u32> {
    // "11, under 12 bytes"
    if bytes.len() < 12 {
        return Err(11);
    }
    let (n, kind, limit) = (word(bytes, 0), word(bytes, 1), word(bytes, 2));
    // "12, N"
    if !NODES.contains(&n) {
        return Err(12);
    }
    // "13, kind above 2, or not 0 with N = 1"
    if kind > 2 || (kind != 0 && n == 1) {
        return Err(13);
    }
    // "14 allows up to 1,999,000,000"
    if limit > MOST_LIMIT {
        return Err(14);
    }
    // "15, length not 4 × (3+2N)"
    if bytes.len() as u64 != length_of(3 + 2 * u64::from(n)) {
        return Err(15);
    }
    let helpands = words(bytes, 3, n as usize);
    let shares = words(bytes, 3 + n as usize, n as usize);
    // "16, a helpand not below N"
    if helpands.iter().any(|&helpand| helpand >= n) {
        return Err(16);
    }
    // "17, the wrong shape"
    if wrong_shape(kind, &helpands) {
        return Err(17);
    }
    // "18, a share above the limit or not 0 at a root"
    if (0..n as usize).any(|k| shares[k] > limit || (is_root(&helpands, k) && shares[k] != 0)) {
        return Err(18);
    }
    Ok(Plan {
        n,
        kind,
        limit,
        helpands,
        shares,
    })
}

/// "A root's helpand is its own number".
pub fn is_root(helpands: &[u32], node: usize) -> bool {
    helpands[node] as usize == node
}

/// "Shape: kind 0 has only roots; kinds 1 and 2 have one root." And every
/// chain of helpands must reach it.
fn wrong_shape(kind: u32, helpands: &[u32]) -> bool {
    let n = helpands.len();
    let roots = (0..n).filter(|&node| is_root(helpands, node)).count();
    if kind == 0 {
        return roots != n;
    }
    roots != 1 || (0..n).any(|node| !reaches_root(helpands, node))
}

/// "whose chain of helpands fails to reach the root within N steps"
fn reaches_root(helpands: &[u32], node: usize) -> bool {
    let mut at = node;
    for _ in 0..helpands.len() {
        at = helpands[at] as usize;
    }
    // Once at the root, the chain stays there.
    is_root(helpands, at)
}

impl Plan {
    /// The record.
    pub fn bytes(&self) -> Vec<u8> {
        let sizes = [self.n, self.kind, self.limit];
        record(&sizes, &self.helpands, &self.shares)
    }
}

/// *Read plan* "gives N, kind, L". "A refusal's other values are all 0".
pub fn read_plan(bytes: &[u8]) -> PlanAnswer {
    match read(bytes) {
        Ok(plan) => PlanAnswer {
            refusal: 0,
            n: plan.n,
            kind: plan.kind,
            limit: plan.limit,
        },
        Err(refusal) => PlanAnswer::refused(refusal),
    }
}
