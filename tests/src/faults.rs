//! Every check of a record looked at on its own: which refusal numbers have
//! their condition met in a record, whatever the other checks say. A check
//! sees the words that are there and is silent about those that are not; sizes
//! are taken as they stand, even out of range. The refusal that the papers
//! ask for is the smallest number found, 0 if there is none: a second look at
//! the papers beside the reference, and the measure of which faults came together.

use crate::bounds::{MOST_LIMIT, MOST_PARTICLES, NODES, TOLERANCE};
use crate::records::to_words;

/// The refusal numbers of *read sheet*.
pub const OF_SHEET: [u32; 7] = [1, 2, 3, 4, 5, 6, 7];

/// The refusal numbers of *read plan*.
pub const OF_PLAN: [u32; 8] = [11, 12, 13, 14, 15, 16, 17, 18];

/// The refusal numbers of *read moves*.
pub const OF_MOVES: [u32; 6] = [31, 32, 33, 34, 35, 36];

/// The refusal numbers of *read archive*, buffer aside: 54, 2, 3 and 55. They have
/// hundreds here, so that they rise in the order of the checks.
pub const OF_Z_ORDER: [u32; 4] = [54, 302, 303, 355];

/// The pairs of faults that cannot come together, with the reason. All other
/// pairs of one operation can, and a run has to meet them.
pub const IMPOSSIBLE: [(u32, u32, &str); 20] = [
    (1, 4, "E ends at byte 12"),
    (1, 5, "E, from which the length follows, ends at byte 12"),
    (1, 6, "the first cell begins at byte 12"),
    (1, 7, "the counts begin at byte 12 or later"),
    (11, 14, "the limit ends at byte 12"),
    (11, 16, "the first helpand begins at byte 12"),
    (11, 17, "the helpands begin at byte 12"),
    (11, 18, "the shares begin at byte 12 or later"),
    (31, 33, "E ends at byte 8"),
    (31, 34, "E, from which the length follows, ends at byte 8"),
    (31, 35, "the first route begins at byte 8"),
    (31, 36, "the counts begin at byte 8 or later"),
    (13, 24, "kind 0 goes with any N"),
    (31, 42, "no send ends before byte 16"),
    (101, 104, "E ends at byte 12"),
    (
        101,
        105,
        "E, from which the length follows, ends at byte 12",
    ),
    (101, 106, "the first cell begins at byte 12"),
    (101, 107, "the counts begin at byte 12 or later"),
    (
        101,
        207,
        "the first sheet has too many by itself, which is 7",
    ),
    (59, 60, "nobody adds and removes in one call"),
];

/// The pairs of these faults that can come together, the smaller first.
pub fn pairs(numbers: &[u32]) -> Vec<(u32, u32)> {
    let above = |&a: &u32| numbers.iter().map(move |&b| (a, b));
    let pairs = numbers.iter().flat_map(above).filter(|(a, b)| a < b);
    let impossible = |&(a, b): &(u32, u32)| IMPOSSIBLE.iter().any(|&(x, y, _)| (x, y) == (a, b));
    pairs.filter(|pair| !impossible(pair)).collect()
}

/// The faults of a sheet, rising.
pub fn sheet(bytes: &[u8]) -> Vec<u32> {
    let words = to_words(bytes);
    let (n, t, e) = (word_at(&words, 0), word_at(&words, 1), word_at(&words, 2));
    let cells = stretch(&words, 3, e.unwrap_or(0));
    let counts = stretch(&words, 3 + e.unwrap_or(0), e.unwrap_or(0));
    let no_node = |cell: u64| there_and(n, |n| cell / 64 >= n || cell % 64 >= n);
    let too_much = sum(counts) > u64::from(MOST_PARTICLES);
    holding(&[
        (1, bytes.len() < 12),
        (2, there_and(n, |n| outside(n, NODES))),
        (3, there_and(t, |t| outside(t, TOLERANCE))),
        (4, there_and(n.zip(e), |(n, e)| e > square(n))),
        (5, there_and(e, |e| bytes.len() as u64 != 4 * (3 + 2 * e))),
        (6, not_rising(cells) || any(cells, no_node)),
        (7, any(counts, |count| count == 0) || too_much),
    ])
}

/// The faults of a plan, rising.
pub fn plan(bytes: &[u8]) -> Vec<u32> {
    let words = to_words(bytes);
    let (n, kind, limit) = (word_at(&words, 0), word_at(&words, 1), word_at(&words, 2));
    let helpands = stretch(&words, 3, n.unwrap_or(0));
    let shares = stretch(&words, 3 + n.unwrap_or(0), n.unwrap_or(0));
    let alone = n == Some(1);
    // A shape can be seen once all helpands are there.
    let whole = limit.is_some() && n == Some(helpands.len() as u64);
    let misshapen = there_and(kind, |kind| wrong_shape(kind, helpands));
    let above = there_and(limit, |limit| any(shares, |share| share > limit));
    holding(&[
        (11, bytes.len() < 12),
        (12, there_and(n, |n| outside(n, NODES))),
        (13, there_and(kind, |kind| kind > 2 || alone && kind != 0)),
        (14, there_and(limit, |limit| limit > u64::from(MOST_LIMIT))),
        (15, there_and(n, |n| bytes.len() as u64 != 4 * (3 + 2 * n))),
        (16, there_and(n, |n| any(helpands, |helpand| helpand >= n))),
        (17, whole && misshapen),
        (18, above || root_with_share(helpands, shares)),
    ])
}

/// The faults of moves, rising.
pub fn moves(bytes: &[u8]) -> Vec<u32> {
    let words = to_words(bytes);
    let (n, e) = (word_at(&words, 0), word_at(&words, 1));
    let routes = stretch(&words, 2, e.unwrap_or(0));
    let counts = stretch(&words, 2 + e.unwrap_or(0), e.unwrap_or(0));
    let most = u64::from(MOST_PARTICLES);
    let bad_route = |route: u64| {
        let (sender, receiver) = (route / 64 % 64, route % 64);
        let highest = sender.max(receiver).max(route / 4096);
        sender == receiver || there_and(n, |n| highest >= n)
    };
    holding(&[
        (31, bytes.len() < 8),
        (32, there_and(n, |n| outside(n, NODES))),
        (33, there_and(n.zip(e), |(n, e)| e > square(n) - n)),
        (34, there_and(e, |e| bytes.len() as u64 != 4 * (2 + 2 * e))),
        (35, not_rising(routes) || any(routes, bad_route)),
        (36, any(counts, |count| count == 0 || count > most)),
    ])
}

/// The faults of a sheet in Z order, rising.
pub fn z_order(bytes: &[u8]) -> Vec<u32> {
    let words = to_words(bytes);
    let (n, t) = (word_at(&words, 0), word_at(&words, 1));
    let counts = stretch(&words, 2, 4_096);
    let no_node = |position: u64| {
        let [holder, subdomain] = quadrants(position);
        there_and(n, |n| holder >= n || subdomain >= n)
    };
    let mut above_0 = (0..).zip(counts).filter(|(_, &count)| count > 0);
    let elsewhere = above_0.any(|(position, _)| no_node(position));
    holding(&[
        (54, bytes.len() != 16_392),
        (302, there_and(n, |n| outside(n, NODES))),
        (303, there_and(t, |t| outside(t, TOLERANCE))),
        (355, elsewhere || sum(counts) > u64::from(MOST_PARTICLES)),
    ])
}

/// The holder and the subdomain of a position, looked at from the largest square
/// down, unlike the reference: a square has four quadrants one behind the other, the
/// second and the fourth with higher subdomains, the last two with higher holders.
fn quadrants(position: u64) -> [u64; 2] {
    let mut node = [0, 0];
    for side in [32, 16, 8, 4, 2, 1] {
        let quadrant = position / (side * side) % 4;
        node[0] += side * (quadrant / 2);
        node[1] += side * (quadrant % 2);
    }
    node
}

/// The numbers whose condition holds.
pub fn holding(checks: &[(u32, bool)]) -> Vec<u32> {
    let held = checks.iter().filter(|(_, holds)| *holds);
    held.map(|&(number, _)| number).collect()
}

/// The word at this place, if it is there.
pub fn word_at(words: &[u32], index: usize) -> Option<u64> {
    words.get(index).map(|&word| u64::from(word))
}

/// Whether a value is there and has this fault.
fn there_and<T>(value: Option<T>, faulty: impl FnOnce(T) -> bool) -> bool {
    value.map_or(false, faulty)
}

/// `count` words from `from` on, as far as they are there.
pub fn stretch(words: &[u32], from: u64, count: u64) -> &[u32] {
    let there = words.len() as u64;
    &words[from.min(there) as usize..(from + count).min(there) as usize]
}

fn outside(value: u64, range: std::ops::RangeInclusive<u32>) -> bool {
    value < u64::from(*range.start()) || value > u64::from(*range.end())
}

fn square(n: u64) -> u64 {
    n * n
}

fn any(entries: &[u32], bad: impl Fn(u64) -> bool) -> bool {
    entries.iter().any(|&entry| bad(u64::from(entry)))
}

fn sum(entries: &[u32]) -> u64 {
    entries.iter().map(|&entry| u64::from(entry)).sum()
}

fn not_rising(entries: &[u32]) -> bool {
    entries.windows(2).any(|pair| pair[0] >= pair[1])
}

/// Whether some root has a share. All helpands are there if one share is.
fn root_with_share(helpands: &[u32], shares: &[u32]) -> bool {
    let mut nodes = helpands.iter().zip(shares).enumerate();
    nodes.any(|(node, (&helpand, &share))| helpand as usize == node && share != 0)
}

/// Document 01 gives a shape to kinds 0, 1 and 2 only. Looked at from the root
/// down, unlike the reference: a tree is what one root reaches whole.
fn wrong_shape(kind: u64, helpands: &[u32]) -> bool {
    let mut reached: Vec<usize> = (0..helpands.len())
        .filter(|&node| helpands[node] as usize == node)
        .collect();
    match kind {
        0 => reached.len() != helpands.len(),
        1 | 2 if reached.len() == 1 => {
            let mut next = 0;
            while next < reached.len() {
                let owner = reached[next];
                let helps = |&node: &usize| node != owner && helpands[node] as usize == owner;
                reached.extend((0..helpands.len()).filter(helps));
                next += 1;
            }
            reached.len() != helpands.len()
        }
        1 | 2 => true,
        _ => false,
    }
}
