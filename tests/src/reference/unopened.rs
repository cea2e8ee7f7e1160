//! A call on a tally of which nothing is known: the caller owns its memory, so it may
//! hold anything. docs/FORMATS.md says what a call then answers and leaves. On an open
//! tally this is the answer of `tallying`, found by going up the tree.

use super::tree::helpers;
use super::words::to_word;
use crate::answers::{self, Answer, TalliedAnswer};
use crate::bounds::{MOST_PARTICLES, NODES};
use crate::tally::{Change, Tally, Way};

/// A call on any tally.
pub fn call(tally: &mut Tally, change: &Change) -> TalliedAnswer {
    if let Err(refusal) = check(tally, change) {
        return Answer::refused(refusal);
    }
    let [holder, subdomain] = change.cell();
    for amount in [
        &mut tally.counts[holder * 64 + subdomain],
        &mut tally.totals[subdomain],
        &mut tally.total,
    ] {
        match change.way {
            Way::Add => *amount += change.count,
            Way::Remove => *amount -= change.count,
        }
    }
    renew(tally, subdomain);
    let leasts = &tally.leasts[..tally.n as usize];
    answers::tallied(leasts.iter().all(|&least| least <= tally.limit))
}

fn check(tally: &Tally, change: &Change) -> Result<(), u32> {
    if !reasons(tally, change).is_empty() {
        return Err(58);
    }
    let [holder, subdomain] = change.cell();
    let (total, count) = (u64::from(tally.total), u64::from(change.count));
    match change.way {
        // "59 for removing more than the cell has"
        Way::Remove if change.count > tally.counts[holder * 64 + subdomain] => Err(59),
        // "60 for a total above the maximum"
        Way::Add if total + count > u64::from(MOST_PARTICLES) => Err(60),
        _ => Ok(()),
    }
}

/// Why a call is refused with 58.
#[derive(Clone, Copy, Debug, PartialEq, Eq)]
pub enum Reason {
    /// N is above 64.
    Nodes,
    /// "a node not below N"
    Node,
    /// "a count of 0"
    Count,
    /// One of the first N helpands is not below N.
    Helpand,
    /// The cell's count is above its subdomain's total.
    Cell,
    /// That total is above the total of all.
    Total,
}

/// All the reasons, as far as the tally has what they speak of.
pub fn reasons(tally: &Tally, change: &Change) -> Vec<Reason> {
    let n = tally.n.min(*NODES.end()) as usize;
    let [holder, subdomain] = change.cell();
    let there = holder.max(subdomain) < n;
    let count = || tally.counts[holder * 64 + subdomain];
    let total = || tally.totals[subdomain];
    let all = [
        (Reason::Nodes, tally.n > *NODES.end()),
        (Reason::Node, change.holder.max(change.subdomain) >= tally.n),
        (Reason::Count, change.count == 0),
        (
            Reason::Helpand,
            tally.helpands[..n].iter().any(|&it| it >= tally.n),
        ),
        (Reason::Cell, there && count() > total()),
        (Reason::Total, there && total() > tally.total),
    ];
    let met = all.into_iter().filter(|&(_, is_met)| is_met);
    met.map(|(reason, _)| reason).collect()
}

/// Works out the least of a node anew. If it is what stood there the work ends;
/// otherwise it is noted, and the same is done for the node's helpand, up to a root or
/// N steps up.
fn renew(tally: &mut Tally, subdomain: usize) {
    let mut node = subdomain;
    for _ in 0..=tally.n {
        let least = least(tally, node);
        let helpand = tally.helpands[node] as usize;
        if least == tally.leasts[node] {
            return;
        }
        tally.leasts[node] = least;
        if helpand == node {
            return;
        }
        node = helpand;
    }
}

/// The total of the owner's subdomain less what its helpers can spare by the leasts
/// that stand there, and never below 0.
fn least(tally: &Tally, owner: usize) -> u32 {
    let helpers = helpers(&tally.helpands[..tally.n as usize], owner);
    let spare = |helper: usize| u64::from(tally.limit.saturating_sub(tally.leasts[helper]));
    let spared: u64 = helpers.into_iter().map(spare).sum();
    to_word(u64::from(tally.totals[owner]).saturating_sub(spared))
}
