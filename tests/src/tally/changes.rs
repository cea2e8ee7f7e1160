//! Calls on a tally: nodes and counts at and past each bound.

use super::{Change, Tally, Way};
use crate::bounds::{MOST_PARTICLES, NODES};
use crate::random::Random;
use crate::records::sheets::cell;

/// Some call on this tally, which may be none that was opened.
pub fn some(tally: &Tally, random: &mut Random) -> Change {
    let way = random.one_of(&[Way::Add, Way::Remove]);
    let [holder, subdomain] = some_cell(tally, way, random);
    let change = Change {
        way,
        holder,
        subdomain,
        count: 0,
    };
    let counts = counts(tally, &change, random);
    let count = random.one_of(&counts);
    Change { count, ..change }
}

/// Often a cell that has something to be removed, and now and then none.
fn some_cell(tally: &Tally, way: Way, random: &mut Random) -> [u32; 2] {
    let n = tally.n.clamp(*NODES.start(), *NODES.end());
    let any = [random.below(n), random.below(n)];
    match (random.below(12), way) {
        (0, _) => [no_node(tally.n, random), any[1]],
        (1, _) => [any[0], no_node(tally.n, random)],
        (2..=8, Way::Remove) => filled(tally, n, random).unwrap_or(any),
        (2..=4, Way::Add) => filled(tally, n, random).unwrap_or(any),
        _ => any,
    }
}

/// A number that is not below N: just so, far from it, or such that 64 times it is 0 in
/// 32 bits.
pub fn no_node(n: u32, random: &mut Random) -> u32 {
    let more = n.saturating_add(random.below(64));
    let far = random.one_of(&[63, 64, 65, 1 << 26, 1 << 31, u32::MAX]);
    random.one_of(&[n, n, more, far]).max(n)
}

/// One of the first N × N cells with a count above 0.
fn filled(tally: &Tally, n: u32, random: &mut Random) -> Option<[u32; 2]> {
    let filled =
        |&[holder, subdomain]: &[u32; 2]| tally.counts[cell(holder, subdomain) as usize] > 0;
    let cells = (0..n * n).map(|k| [k / n, k % n]).filter(filled);
    let cells: Vec<[u32; 2]> = cells.collect();
    (!cells.is_empty()).then(|| random.one_of(&cells))
}

/// Counts for a call on this cell: 0, small ones, what the cell has, what is left to the
/// maximum, what changes a least or the answer, those that wrap in 32 bits, and on
/// either side of each.
fn counts(tally: &Tally, change: &Change, random: &mut Random) -> Vec<u32> {
    let (small, any) = (random.between(1, 9), random.between(1, MOST_PARTICLES));
    let left = MOST_PARTICLES.saturating_sub(tally.total);
    // The sum with the total is 0 in 32 bits, or little more.
    let wrapping = 0u32.wrapping_sub(tally.total).wrapping_add(random.below(3));
    let mut counts = vec![0, 1, 1, small, small, any, wrapping, u32::MAX];
    let mut around = |count: u32| {
        counts.extend([count.saturating_sub(1), count, count.saturating_add(1)]);
    };
    match change.way {
        Way::Add => around(left),
        Way::Remove => around(MOST_PARTICLES),
    }
    if change.holder.max(change.subdomain) < *NODES.end() {
        let least = tally.leasts[change.subdomain as usize];
        let held = tally.counts[cell(change.holder, change.subdomain) as usize];
        let total = tally.totals[change.subdomain as usize];
        around(least);
        match change.way {
            Way::Add => around(tally.limit.saturating_sub(least)),
            Way::Remove => {
                around(held);
                around(random.between(0, held));
                around(total);
                around(least.saturating_sub(tally.limit));
            }
        }
    }
    counts
}
