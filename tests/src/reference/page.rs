//! The lines of the traffic page, request 2026-04.

use super::moves::{parts, Moves};

/// "N lines of 25 bytes", and "A last line has `==` for the node and the two
/// totals."
pub fn page(moves: &Moves) -> Vec<u8> {
    let mut page = String::new();
    for node in 0..moves.n as usize {
        let sent = sum(moves, |[_, sender, _]| sender == node);
        let received = sum(moves, |[_, _, receiver]| receiver == node);
        page += &line(&node.to_string(), sent, received);
    }
    // "Both printed totals must equal the sum of the counts in the moves record."
    let total = sum(moves, |_| true);
    page += &line("==", total, total);
    page.into_bytes()
}

/// "node in 2 columns, blank, sent in 10, blank, received in 10, newline, all
/// right-aligned"
fn line(node: &str, sent: u64, received: u64) -> String {
    format!("{node:>2} {sent:>10} {received:>10}\n")
}

/// The counts of all moves with such subdomain, sender and receiver.
fn sum(moves: &Moves, chosen: impl Fn([usize; 3]) -> bool) -> u64 {
    let all = moves.routes.iter().zip(&moves.counts);
    let some = all.filter(|(&route, _)| chosen(parts(route)));
    some.map(|(_, &count)| u64::from(count)).sum()
}
