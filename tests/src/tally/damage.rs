//! Tallies that no opening and calls can have given: opened ones with some words
//! changed, and noise.

use super::changes::no_node;
use super::{noise, openings, Tally};
use crate::bounds::{MOST_LIMIT, MOST_PARTICLES, NODES};
use crate::random::Random;

/// What is done to a tally.
type Damage = fn(&mut Tally, &mut Random);

const DAMAGES: [Damage; 14] = [
    |tally, random| tally.n = some_nodes(tally.n, random),
    |tally, random| tally.limit = near(tally.limit, MOST_LIMIT, random),
    |tally, random| tally.total = near(tally.total, MOST_PARTICLES, random),
    |tally, random| {
        let largest = tally.totals.into_iter().max().unwrap_or(0);
        tally.total = largest.saturating_sub(random.below(2));
    },
    |tally, random| tally.helpands[node(tally, random)] = no_node(tally.n, random),
    second_root,
    without_root,
    |tally, random| {
        let n = tally.n.max(1);
        tally
            .helpands
            .iter_mut()
            .for_each(|it| *it = random.below(n));
    },
    |tally, random| {
        let at = node(tally, random);
        tally.totals[at] = near(tally.totals[at], MOST_PARTICLES, random);
    },
    |tally, random| {
        let at = node(tally, random);
        tally.leasts[at] = near(tally.leasts[at], tally.limit, random);
    },
    |tally, random| fill(&mut tally.leasts, random),
    |tally, random| {
        let (holder, subdomain) = (node(tally, random), node(tally, random));
        let total = tally.totals[subdomain];
        tally.counts[holder * 64 + subdomain] = near(total, MOST_PARTICLES, random);
    },
    behind,
    |tally, random| {
        // Room for large totals, and limits that let sums of spares go beyond 32 bits.
        tally.total = random.one_of(&[MOST_PARTICLES - 1, 3 << 30, u32::MAX]);
        tally.limit = random.one_of(&[1 << 31, u32::MAX]);
        fill(&mut tally.totals, random);
    },
];

/// Some tally.
pub fn some(random: &mut Random) -> Tally {
    if random.chance(1, 8) {
        return some_noise(random);
    }
    let mut tally = openings::some(random).open.tally();
    for _ in 0..random.one_of(&[1, 1, 2, 3]) {
        random.one_of(&DAMAGES)(&mut tally, random);
    }
    tally
}

/// Noise everywhere. Some of it has nodes, and some of that a helpand for each.
fn some_noise(random: &mut Random) -> Tally {
    let mut tally = noise(random);
    let n = random.between(1, *NODES.end());
    if random.chance(3, 4) {
        tally.n = n;
    }
    if random.chance(3, 4) {
        tally.helpands.iter_mut().for_each(|it| *it %= n);
        // Cells are below their totals, and totals below the total, more often than not.
        tally.counts.iter_mut().for_each(|it| *it >>= 3);
        tally.totals.iter_mut().for_each(|it| *it >>= 1);
        tally.total |= 1 << 31;
    }
    tally
}

/// One of the first N nodes.
fn node(tally: &Tally, random: &mut Random) -> usize {
    random.place((tally.n as usize).clamp(1, 64))
}

/// Another N: none, one more or less, above 64, or such that N × 64 is 0 in 32 bits.
fn some_nodes(n: u32, random: &mut Random) -> u32 {
    let far = random.one_of(&[0, 1, 64, 65, 66, 128, 1 << 26, 1 << 31, u32::MAX]);
    random.one_of(&[n.wrapping_sub(1), n.wrapping_add(1), far, far])
}

/// A word beside what stands there, at a bound, or any.
fn near(word: u32, bound: u32, random: &mut Random) -> u32 {
    let any = random.word();
    let few = random.below(1_000);
    random.one_of(&[
        0,
        word.wrapping_add(1),
        word.wrapping_sub(1),
        bound,
        bound.wrapping_add(1),
        1 << 31,
        u32::MAX,
        few,
        any,
    ])
}

/// One more node helps nobody.
fn second_root(tally: &mut Tally, random: &mut Random) {
    let at = node(tally, random);
    tally.helpands[at] = at as u32;
}

/// Whoever helps nobody helps some node, which is another one if there is one: chains
/// of helpands go round.
fn without_root(tally: &mut Tally, random: &mut Random) {
    let n = tally.n.clamp(1, 64) as usize;
    for at in 0..n {
        if tally.helpands[at] as usize == at {
            let further = 1 + random.place(n.max(2) - 1);
            tally.helpands[at] = ((at + further) % n) as u32;
        }
    }
}

/// Something stands at nodes that are not there.
fn behind(tally: &mut Tally, random: &mut Random) {
    let n = (tally.n as usize).min(64);
    for words in [&mut tally.helpands, &mut tally.totals, &mut tally.leasts] {
        words[n..].iter_mut().for_each(|it| *it = random.word());
    }
    for (cell, count) in tally.counts.iter_mut().enumerate() {
        if cell / 64 >= n || cell % 64 >= n {
            *count = random.word();
        }
    }
}

/// Small words, large ones, or words of all sizes.
fn fill(words: &mut [u32], random: &mut Random) {
    let shift = random.one_of(&[0, 1, 2, 16, 24]);
    words.iter_mut().for_each(|it| *it = random.word() >> shift);
}
