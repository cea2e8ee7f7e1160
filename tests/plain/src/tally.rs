//! A tally: opened, and changed in place. Only the leasts that a change reaches are
//! worked out again, from its subdomain up the tree.

use crate::records::{add, Plan, Sheet};
use crate::{deciding, tree};
use firrozka::ffi::Tally;

/// Opens a tally from an accepted sheet and a plan with a tree. Gives whether it holds.
pub fn open(tally: &mut Tally, sheet: &Sheet, sheet_bytes: &[u8], plan: &Plan) -> bool {
    let n = sheet.n as usize;
    tally.n = sheet.n;
    tally.limit = sheet.limit;
    tally.total = sheet.p;
    tally.helpands = plan.helpands;
    tally.counts.fill(0);
    add(&mut tally.counts, sheet_bytes, sheet.e as usize);
    tally.totals = deciding::totals(&tally.counts, n);
    let order = &tree::downwards(&plan.helpands, n)[..n];
    tally.leasts = tree::leasts(&tally.totals, &plan.helpands, order, sheet.limit);
    holds(tally)
}

/// *Tally add*: whether the tree holds.
pub fn tally_add(tally: &mut Tally, holder: u32, subdomain: u32, count: u32) -> Result<bool, u32> {
    let cell = find(tally, holder, subdomain, count)?;
    if count > 1_000_000_000u32.saturating_sub(tally.total) {
        return Err(60);
    }
    tally.counts[cell] += count;
    tally.totals[subdomain as usize] += count;
    tally.total += count;
    renew(tally, subdomain as usize);
    Ok(holds(tally))
}

/// *Tally remove*: whether the tree holds.
pub fn tally_remove(
    tally: &mut Tally,
    holder: u32,
    subdomain: u32,
    count: u32,
) -> Result<bool, u32> {
    let cell = find(tally, holder, subdomain, count)?;
    if count > tally.counts[cell] {
        return Err(59);
    }
    tally.counts[cell] -= count;
    tally.totals[subdomain as usize] -= count;
    tally.total -= count;
    renew(tally, subdomain as usize);
    Ok(holds(tally))
}

/// The place of a cell, in a tally that can be changed there.
fn find(tally: &Tally, holder: u32, subdomain: u32, count: u32) -> Result<usize, u32> {
    let n = tally.n;
    if n > 64 || holder >= n || subdomain >= n || count == 0 {
        return Err(58);
    }
    let cell = (64 * holder + subdomain) as usize;
    let total = tally.totals[subdomain as usize];
    let helpands = &tally.helpands[..n as usize];
    let fine = helpands.iter().all(|&helpand| helpand < n);
    if !fine || tally.counts[cell] > total || total > tally.total {
        return Err(58);
    }
    Ok(cell)
}

/// No node.
const NONE: u8 = 64;

/// The helpers of each node: the first of them, and behind each the next.
struct Helpers {
    first: [u8; 64],
    next: [u8; 64],
}

fn helpers(helpands: &[u32]) -> Helpers {
    let (mut first, mut next) = ([NONE; 64], [NONE; 64]);
    for (node, &helpand) in helpands.iter().enumerate() {
        if helpand as usize != node {
            next[node] = first[helpand as usize];
            first[helpand as usize] = node as u8;
        }
    }
    Helpers { first, next }
}

/// Works out leasts again from a node up, as far as they change.
fn renew(tally: &mut Tally, node: usize) {
    let helpers = helpers(&tally.helpands[..tally.n as usize]);
    let mut at = node;
    for _ in 0..=tally.n {
        let mut least = tally.totals[at];
        let mut helper = helpers.first[at];
        while helper < NONE {
            let spare = tally.limit.saturating_sub(tally.leasts[helper as usize]);
            least = least.saturating_sub(spare);
            helper = helpers.next[helper as usize];
        }
        if least == tally.leasts[at] {
            return;
        }
        tally.leasts[at] = least;
        let helpand = tally.helpands[at] as usize;
        if helpand == at {
            return;
        }
        at = helpand;
    }
}

fn holds(tally: &Tally) -> bool {
    let leasts = &tally.leasts[..tally.n as usize];
    leasts.iter().all(|&least| least <= tally.limit)
}
