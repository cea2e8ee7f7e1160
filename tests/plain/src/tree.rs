//! A tree of helpands: its order, its leasts, and shares in it.

use crate::records::{Nodes, Table};

/// All nodes from the root down: every node stands behind its helpand.
pub fn downwards(helpands: &Nodes, n: usize) -> [usize; 64] {
    let mut order = [0; 64];
    let mut found = 0;
    for (node, &helpand) in helpands[..n].iter().enumerate() {
        if helpand as usize == node {
            order[0] = node;
            found = 1;
        }
    }
    for next in 0..n {
        let owner = order[next];
        for (node, &helpand) in helpands[..n].iter().enumerate() {
            if helpand as usize == owner && node != owner {
                order[found] = node;
                found += 1;
            }
        }
    }
    order
}

/// The least of every node: helpers before owners.
pub fn leasts(totals: &Nodes, helpands: &Nodes, order: &[usize], limit: u32) -> Nodes {
    let mut leasts = *totals;
    for &node in order.iter().rev() {
        let helpand = helpands[node] as usize;
        if helpand != node {
            let spare = limit.saturating_sub(leasts[node]);
            leasts[helpand] = leasts[helpand].saturating_sub(spare);
        }
    }
    leasts
}

/// What helpers leave in place where their family affords it.
struct Holds {
    /// The hold of every node.
    of: Nodes,
    /// The sum over each owner's helpers.
    sums: [u64; 64],
    /// The size of each owner's family.
    sizes: [u64; 64],
}

fn holds(table: &Table, leasts: &Nodes, helpands: &Nodes, n: usize, limit: u32) -> Holds {
    let mut holds = Holds {
        of: [0; 64],
        sums: [0; 64],
        sizes: [1; 64],
    };
    for node in 0..n {
        let own = table[64 * node + node];
        holds.of[node] = leasts[node].max(own.min(limit));
        let helpand = helpands[node] as usize;
        if helpand != node {
            holds.sums[helpand] += u64::from(holds.of[node]);
            holds.sizes[helpand] += 1;
        }
    }
    holds
}

/// The shares in a kept tree, from the root down.
pub fn shares(
    table: &Table,
    totals: &Nodes,
    leasts: &Nodes,
    helpands: &Nodes,
    order: &[usize],
    limit: u32,
) -> Nodes {
    let n = order.len();
    let holds = holds(table, leasts, helpands, n, limit);
    let mut shares = [0; 64];
    for &owner in order {
        let load = u64::from(totals[owner]) + u64::from(shares[owner]) + holds.sums[owner];
        let affords = load <= u64::from(limit) * holds.sizes[owner];
        let beside = if affords { &holds.of } else { leasts };
        // first what each member keeps, in its standing load
        let (mut nodes, mut standing, mut members) = ([0; 64], [0; 64], 0);
        let mut rest = totals[owner];
        for node in 0..n {
            if helpands[node] as usize == owner || node == owner {
                let base = if node == owner {
                    shares[node]
                } else {
                    beside[node]
                };
                let keeps = (limit - base).min(table[64 * node + owner]);
                nodes[members] = node;
                standing[members] = base + keeps;
                members += 1;
                rest -= keeps;
            }
        }
        // then the rest
        if rest > 0 {
            fill(&mut standing[..members], rest);
        }
        for at in 0..members {
            if nodes[at] != owner {
                shares[nodes[at]] = standing[at] - beside[nodes[at]];
            }
        }
    }
    shares
}

/// Gives the rest to the lowest of some standing loads, by rising number. There
/// is space for it, so nobody comes above the limit.
fn fill(standing: &mut [u32], rest: u32) {
    let (level, mut over) = level(standing, rest);
    for load in standing {
        if *load <= level {
            let more = over.min(1);
            *load = level + more;
            over -= more;
        }
    }
}

/// How high the lowest loads rise, and what is then left over for some of them.
fn level(standing: &[u32], rest: u32) -> (u32, u32) {
    let mut sorted = [0; 64];
    let sorted = &mut sorted[..standing.len()];
    sorted.copy_from_slice(standing);
    sorted.sort_unstable();
    let (mut level, mut lowest, mut rest) = (sorted[0], 1, u64::from(rest));
    for &next in &sorted[1..] {
        let missing = u64::from(next - level) * lowest;
        if missing > rest {
            break;
        }
        rest -= missing;
        level = next;
        lowest += 1;
    }
    (level + (rest / lowest) as u32, (rest % lowest) as u32)
}
