//! The moves: "N, E; E routes; E counts", *read moves*, and the moves written.

use super::words::{length_of, record, rising, word, words};
use crate::answers::{Answer, MovesAnswer};
use crate::bounds::{MOST_PARTICLES, NODES};

/// Moves that *read moves* accepts.
#[derive(Clone, Debug, PartialEq, Eq)]
pub struct Moves {
    pub n: u32,
    pub routes: Vec<u32>,
    pub counts: Vec<u32>,
}

/// The moves, or their refusal. "Checks run in the order written."
pub fn read(bytes: &[u8]) -> Result<Moves, u32> {
    // "31, under 8 bytes"
    if bytes.len() < 8 {
        return Err(31);
    }
    let (n, e) = (word(bytes, 0), word(bytes, 1));
    // "32, N"
    if !NODES.contains(&n) {
        return Err(32);
    }
    // "33, E above N × (N−1)"
    if e > n * (n - 1) {
        return Err(33);
    }
    // "34, length not 4 × (2+2E)"
    if bytes.len() as u64 != length_of(2 + 2 * u64::from(e)) {
        return Err(34);
    }
    let routes = words(bytes, 2, e as usize);
    let counts = words(bytes, 2 + e as usize, e as usize);
    // "35, a route not rising, naming a node not below N, or with sender equal to receiver"
    if !rising(&routes) || routes.iter().any(|&route| bad_route(route, n)) {
        return Err(35);
    }
    // "36, a count of 0 or above 1,000,000,000"
    if counts
        .iter()
        .any(|&count| count == 0 || count > MOST_PARTICLES)
    {
        return Err(36);
    }
    Ok(Moves { n, routes, counts })
}

/// "A route is subdomain × 4,096 + sender × 64 + receiver."
fn bad_route(route: u32, n: u32) -> bool {
    let (subdomain, sender, receiver) = (route / 4096, route / 64 % 64, route % 64);
    subdomain >= n || sender >= n || receiver >= n || sender == receiver
}

/// Subdomain, sender and receiver of a route.
pub fn parts(route: u32) -> [usize; 3] {
    [route / 4096, route / 64 % 64, route % 64].map(|part| part as usize)
}

impl Moves {
    /// The record.
    pub fn bytes(&self) -> Vec<u8> {
        let sizes = [self.n, self.routes.len() as u32];
        record(&sizes, &self.routes, &self.counts)
    }
}

/// *Read moves* "gives N, E". "A refusal's other values are all 0".
pub fn read_moves(bytes: &[u8]) -> MovesAnswer {
    match read(bytes) {
        Ok(moves) => MovesAnswer {
            refusal: 0,
            n: moves.n,
            e: moves.routes.len() as u32,
        },
        Err(refusal) => MovesAnswer::refused(refusal),
    }
}
