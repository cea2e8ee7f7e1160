//! Moves: valid ones, and each fault of *read moves*.

use super::{distinct, how_many, injection, nodes, Record};
use crate::bounds::{MOST_PARTICLES, NODES};
use crate::random::Random;

/// "A route is subdomain × 4,096 + sender × 64 + receiver." Wraps, so that
/// subdomains out of range can be written too.
pub fn route(subdomain: u32, sender: u32, receiver: u32) -> u32 {
    let pair = sender.wrapping_mul(64).wrapping_add(receiver);
    subdomain.wrapping_mul(4096).wrapping_add(pair)
}

/// Moves of words from their parts.
pub fn moves(n: u32, routes: &[u32], counts: &[u32]) -> Record {
    Record::new(1, &[n, routes.len() as u32], routes, counts)
}

/// Moves from the bytes of valid ones.
pub fn of(bytes: &[u8]) -> Record {
    Record::of(1, 2, bytes)
}

/// Some valid moves.
pub fn build(random: &mut Random) -> Record {
    let n = nodes(random);
    let e = how_many(n * (n - 1), random);
    let any = random.between(1, MOST_PARTICLES);
    let choice = match random.below(4) {
        0 => [1, 1, 1],
        1 => [MOST_PARTICLES; 3],
        _ => [1, any, MOST_PARTICLES],
    };
    let counts: Vec<u32> = (0..e).map(|_| random.one_of(&choice)).collect();
    moves(n, &some_routes(e, n, random), &counts)
}

/// Different routes among n nodes, rising.
fn some_routes(e: u32, n: u32, random: &mut Random) -> Vec<u32> {
    let places = distinct(e, n * n * (n - 1), random);
    places.iter().map(|&k| route_at(k, n)).collect()
}

/// The route at place `k` when all routes among n nodes stand in rising order.
fn route_at(k: u32, n: u32) -> u32 {
    let receivers = n - 1;
    let (subdomain, sender, receiver) = (k / receivers / n, k / receivers % n, k % receivers);
    route(subdomain, sender, receiver + u32::from(receiver >= sender))
}

/// Brings a fault in, as far as the record allows it.
pub fn inject(record: &mut Record, fault: u32, random: &mut Random) {
    match fault {
        31 => injection::cut_the_sizes(record, random),
        32 => record.words[0] = injection::outside(NODES, random),
        33 => too_many_routes(record, random),
        34 => injection::change_the_length(record, random),
        35 => bad_route(record, random),
        36 => bad_count(record, random),
        _ => panic!("{fault} is no refusal of read moves"),
    }
}

/// E above N × (N−1): good routes to match where there are any, or rising
/// numbers, or the word alone.
fn too_many_routes(record: &mut Record, random: &mut Random) {
    let n = record.words[0];
    let more = random.one_of(&[1, 1, 2, 100]);
    let most = u64::from(n) * u64::from(n.saturating_sub(1));
    let e = (most + more).min(u64::from(u32::MAX)) as u32;
    if e >= 5_000 || random.chance(1, 3) {
        let far = random.one_of(&injection::FAR);
        record.words[1] = random.one_of(&[e, e, far]);
        return;
    }
    let routes = if n * n * n.saturating_sub(1) >= e {
        some_routes(e, n, random)
    } else {
        (1..=e).collect()
    };
    record.replace(&routes, &vec![1; e as usize]);
}

/// A route that does not rise, names no node, or leads back. Takes an entry.
fn bad_route(record: &mut Record, random: &mut Random) {
    let at = match injection::some_entry(record, random) {
        Some(at) => at,
        None => return,
    };
    let n = record.words[0];
    let old = record.first()[at];
    let (subdomain, sender, receiver) = (old / 4096, old / 64 % 64, old % 64);
    record.first()[at] = match random.below(6) {
        0 => return injection::stop_rising(record.first(), random),
        1 => route(n.wrapping_add(random.below(2)), sender, receiver),
        2 => route(subdomain, n.min(63), receiver),
        3 => route(subdomain, sender, n.min(63)),
        4 => route(subdomain, sender, sender),
        _ => old | 1 << random.between(18, 31),
    };
}

/// A count of 0 or above the most. Takes an entry.
fn bad_count(record: &mut Record, random: &mut Random) {
    if record.entries() > 0 {
        let at = random.place(record.entries());
        record.second()[at] = match random.below(4) {
            0 | 1 => 0,
            2 => MOST_PARTICLES + 1,
            _ => random.one_of(&[1 << 30, 1 << 31, u32::MAX]),
        };
    }
}
