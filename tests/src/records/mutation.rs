//! Mutations of a record of any kind, blind to what its words mean.

use super::Record;
use crate::bounds::{MOST_LIMIT, MOST_PARTICLES};
use crate::random::Random;

/// Small values at which some check changes its mind.
const SMALL: [u32; 15] = [
    0, 1, 2, 3, 62, 63, 64, 65, 998, 999, 1_000, 4_095, 4_096, 262_143, 262_144,
];

/// Large ones, and those at which narrow sums wrap or turn negative.
const LARGE: [u32; 6] = [
    MOST_PARTICLES,
    MOST_LIMIT,
    1 << 29,
    1 << 30,
    1 << 31,
    u32::MAX,
];

/// One mutation or two, other sizes throughout, or other words throughout.
pub fn mutate(record: &mut Record, random: &mut Random) {
    match random.below(9) {
        0..=4 => mutate_once(record, random),
        5 | 6 => {
            mutate_once(record, random);
            mutate_once(record, random);
        }
        7 => random_sizes(record, random),
        _ => random_entries(record, random),
    }
}

/// One mutation.
pub fn mutate_once(record: &mut Record, random: &mut Random) {
    let at = some_word(record, random);
    let length = 4 * record.words.len();
    match random.below(12) {
        0 => record.words[at] = record.words[at].wrapping_add(1),
        1 => record.words[at] = record.words[at].wrapping_sub(1),
        2 | 3 => record.words[at] = some_edge(random),
        4 => record.words[at] ^= 1 << random.below(32),
        5 => record.words[at] = random.word(),
        6 => record.words.swap(at, at.max(1) - 1),
        7 => record.words[at] = record.words[at.max(1) - 1],
        8 => record.cut = Some(length - random.one_of(&[1, 4])),
        9 => record.cut = Some(random.place(length)),
        10 => record.tail = some_bytes(random.one_of(&[1, 4]), random),
        _ => record.tail = some_bytes(random.place(40), random),
    }
}

/// A place among the words; half the time among the sizes, which say most.
fn some_word(record: &Record, random: &mut Random) -> usize {
    let reach = random.one_of(&[record.head, record.words.len()]);
    random.place(reach)
}

/// A value at a bound or beside it.
fn some_edge(random: &mut Random) -> u32 {
    let (small, large) = (random.one_of(&SMALL), random.one_of(&LARGE));
    random.one_of(&[small, large, large - 1, large.wrapping_add(1)])
}

/// Bytes without any sense.
pub fn some_bytes(length: usize, random: &mut Random) -> Vec<u8> {
    (0..length).map(|_| random.word() as u8).collect()
}

/// Gives all sizes other values. The arrays stay.
fn random_sizes(record: &mut Record, random: &mut Random) {
    for at in 0..record.head {
        let (small, any) = (random.below(5), random.word());
        let edge = some_edge(random);
        record.words[at] = random.one_of(&[small, edge, any]);
    }
}

/// Small sizes, arrays of the length they say, and words that could be
/// entries: often wrong in one place only.
fn random_entries(record: &mut Record, random: &mut Random) {
    for at in 0..record.head {
        record.words[at] = random.between(0, 4);
    }
    let entries = record.words[record.size];
    let n = record.words[0];
    let mut entry = || {
        let node = |random: &mut Random| random.between(0, n);
        let (a, b, c) = (node(random), node(random), node(random));
        random.one_of(&[a, 64 * a + b, 4096 * a + 64 * b + c])
    };
    let mut first: Vec<u32> = (0..entries).map(|_| entry()).collect();
    let second: Vec<u32> = (0..entries).map(|_| entry()).collect();
    if random.chance(1, 2) {
        first.sort_unstable();
    }
    record.replace(&first, &second);
}
