//! Due amounts, the "Moves" that bring them about, and moves applied to a sheet.

use super::moves::{parts, Moves};
use super::plan::Plan;
use super::table::Table;
use super::tree::helpers;
use super::words::to_word;

/// "The due amount of a subdomain is its share for a helper of the owner, Pn
/// less those shares for the owner, and 0 for any other node."
pub fn due(plan: &Plan, totals: &[u64]) -> Table {
    let mut due = Table::empty(totals.len());
    for (owner, &total) in totals.iter().enumerate() {
        let mut own = total;
        for helper in helpers(&plan.helpands, owner) {
            let share = u64::from(plan.shares[helper]);
            due.counts[helper][owner] = share;
            own -= share;
        }
        due.counts[owner][owner] = own;
    }
    due
}

/// The moves from what is held to what is due, "by rising subdomain".
pub fn moves(held: &Table, due: &Table) -> Moves {
    let mut moves = Moves {
        n: held.nodes() as u32,
        routes: Vec::new(),
        counts: Vec::new(),
    };
    for subdomain in 0..held.nodes() {
        match_up(subdomain, held, due, &mut moves);
    }
    moves
}

/// The moves in one subdomain.
fn match_up(subdomain: usize, held: &Table, due: &Table, moves: &mut Moves) {
    let nodes = 0..held.nodes();
    let holding = |node: usize| held.counts[node][subdomain];
    let due = |node: usize| due.counts[node][subdomain];
    // "Each node keeps the smaller of holding and due amount."
    let keeps = |node: usize| holding(node).min(due(node));
    // "Nodes with a surplus send, nodes with a shortage receive."
    let over = nodes.clone().map(|node| holding(node) - keeps(node));
    let under = nodes.map(|node| due(node) - keeps(node));
    let mut surplus: Vec<u64> = over.collect();
    let mut shortage: Vec<u64> = under.collect();
    // "Both are gone through by rising number, and each pair moves the smaller
    // of what remains. No zero move is written."
    while let (Some(sender), Some(receiver)) = (first(&surplus), first(&shortage)) {
        let count = surplus[sender].min(shortage[receiver]);
        surplus[sender] -= count;
        shortage[receiver] -= count;
        let route = subdomain * 4096 + sender * 64 + receiver;
        moves.routes.push(route as u32);
        moves.counts.push(to_word(count));
    }
}

/// The lowest node with something left.
fn first(amounts: &[u64]) -> Option<usize> {
    amounts.iter().position(|&amount| amount > 0)
}

/// "each cell less what it sends, plus what it receives", or nothing if "some
/// cell sends in all more than the old sheet gives it".
pub fn apply(moves: &Moves, held: &Table) -> Option<Table> {
    let mut sent = Table::empty(held.nodes());
    let mut received = Table::empty(held.nodes());
    for (&route, &count) in moves.routes.iter().zip(&moves.counts) {
        let [subdomain, sender, receiver] = parts(route);
        sent.counts[sender][subdomain] += u64::from(count);
        received.counts[receiver][subdomain] += u64::from(count);
    }
    let mut next = held.clone();
    for holder in 0..held.nodes() {
        for subdomain in 0..held.nodes() {
            // Against the old sheet alone: what arrives does not count.
            let left = held.counts[holder][subdomain].checked_sub(sent.counts[holder][subdomain]);
            next.counts[holder][subdomain] = left? + received.counts[holder][subdomain];
        }
    }
    Some(next)
}
