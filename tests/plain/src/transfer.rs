//! Moves: found, applied, and counted by node.

use crate::deciding::Decision;
use crate::records::{entries, Nodes, Table};

/// Writes the moves to the front of two arrays, and gives their number.
pub fn moves(
    table: &Table,
    totals: &Nodes,
    decision: &Decision,
    n: usize,
    routes: &mut Table,
    counts: &mut Table,
) -> usize {
    let own = own_amounts(totals, decision, n);
    let mut e = 0;
    for subdomain in 0..n {
        let (mut senders, mut receivers) = (NOBODY, NOBODY);
        sides(
            table,
            &own,
            decision,
            n,
            subdomain,
            [&mut senders, &mut receivers],
        );
        e = match_up(subdomain, &senders, &receivers, routes, counts, e);
    }
    e
}

/// What each node is due of its own subdomain.
fn own_amounts(totals: &Nodes, decision: &Decision, n: usize) -> Nodes {
    let mut own = *totals;
    for node in 0..n {
        let helpand = decision.helpands[node] as usize;
        if helpand != node {
            own[helpand] -= decision.shares[node];
        }
    }
    own
}

/// Those who send or those who receive, with how much.
struct Side {
    nodes: [(usize, u32); 65],
    len: usize,
}

const NOBODY: Side = Side {
    nodes: [(0, 0); 65],
    len: 0,
};

/// Finds those who send particles of a subdomain, and those who receive some.
fn sides(
    table: &Table,
    own: &Nodes,
    decision: &Decision,
    n: usize,
    subdomain: usize,
    [senders, receivers]: [&mut Side; 2],
) {
    for node in 0..n {
        let due = if node == subdomain {
            own[node]
        } else if decision.helpands[node] as usize == subdomain {
            decision.shares[node]
        } else {
            0
        };
        let held = table[64 * node + subdomain];
        senders.nodes[senders.len] = (node, held.saturating_sub(due));
        receivers.nodes[receivers.len] = (node, due.saturating_sub(held));
        senders.len += usize::from(held > due);
        receivers.len += usize::from(held < due);
    }
}

/// Adds the moves of a subdomain to the `e` before them, and gives their number.
fn match_up(
    subdomain: usize,
    senders: &Side,
    receivers: &Side,
    routes: &mut Table,
    counts: &mut Table,
    mut e: usize,
) -> usize {
    let (mut s, mut r) = (0, 0);
    let (mut sender, mut surplus) = senders.nodes[0];
    let (mut receiver, mut shortage) = receivers.nodes[0];
    while s < senders.len && r < receivers.len {
        let count = surplus.min(shortage);
        routes[e] = (subdomain * 4096 + sender * 64 + receiver) as u32;
        counts[e] = count;
        e += 1;
        surplus -= count;
        shortage -= count;
        if surplus == 0 {
            s += 1;
            (sender, surplus) = senders.nodes[s];
        }
        if shortage == 0 {
            r += 1;
            (receiver, shortage) = receivers.nodes[r];
        }
    }
    e
}

/// Applies accepted moves to a table, or refuses with 42.
pub fn apply(table: &mut Table, moves: &[u8], e: usize) -> Result<(), u32> {
    let mut received = [0; 4096];
    send(table, moves, e, |subdomain, _, receiver, count| {
        received[64 * receiver + subdomain] += count;
    })?;
    for (count, more) in table.iter_mut().zip(&received) {
        *count += more;
    }
    Ok(())
}

/// What each node sends and receives in all.
pub struct Traffic {
    pub sent: Nodes,
    pub received: Nodes,
}

/// The traffic of accepted moves, or the refusal 42.
pub fn traffic(table: &mut Table, moves: &[u8], e: usize) -> Result<Traffic, u32> {
    let (mut sent, mut received) = ([0; 64], [0; 64]);
    send(table, moves, e, |_, sender, receiver, count| {
        sent[sender] += count;
        received[receiver] += count;
    })?;
    Ok(Traffic { sent, received })
}

/// Takes what accepted moves send from a table, or refuses with 42. Each move is
/// handed on: subdomain, sender, receiver and count.
fn send(
    table: &mut Table,
    moves: &[u8],
    e: usize,
    mut hand_on: impl FnMut(usize, usize, usize, u32),
) -> Result<(), u32> {
    for (route, count) in entries(moves, 2, e) {
        let route = route as usize;
        let (subdomain, sender, receiver) = (route / 4096, route / 64 % 64, route % 64);
        let left = &mut table[64 * sender + subdomain];
        if *left < count {
            return Err(42);
        }
        *left -= count;
        hand_on(subdomain, sender, receiver, count);
    }
    Ok(())
}
