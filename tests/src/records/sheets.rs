//! Sheets: valid ones, and each fault of *read sheet*.

use super::{distinct, how_many, injection, nodes, Record};
use crate::bounds::{MOST_PARTICLES, NODES, TOLERANCE};
use crate::random::Random;
use std::collections::BTreeMap;

/// "A cell is holder × 64 + subdomain." Wraps, so that holders out of range
/// can be written too.
pub fn cell(holder: u32, subdomain: u32) -> u32 {
    holder.wrapping_mul(64).wrapping_add(subdomain)
}

/// All N × N cells, rising.
pub fn all_cells(n: u32) -> Vec<u32> {
    (0..n * n).map(|k| cell(k / n, k % n)).collect()
}

/// A sheet of words from its parts.
pub fn sheet(n: u32, t: u32, cells: &[u32], counts: &[u32]) -> Record {
    Record::new(2, &[n, t, cells.len() as u32], cells, counts)
}

/// The same from cells given as holder, subdomain and count.
pub fn held(n: u32, t: u32, cells: &[(u32, u32, u32)]) -> Record {
    let each = cells
        .iter()
        .map(|&(holder, subdomain, count)| (cell(holder, subdomain), count));
    let (cells, counts): (Vec<u32>, Vec<u32>) = each.unzip();
    sheet(n, t, &cells, &counts)
}

/// The cells of a valid sheet and their counts.
pub fn by_cell(bytes: &[u8]) -> BTreeMap<u32, u32> {
    let mut sheet = of(bytes);
    let (cells, counts) = (sheet.first().to_vec(), sheet.second().to_vec());
    cells.into_iter().zip(counts).collect()
}

/// A sheet from the bytes of a valid one.
pub fn of(bytes: &[u8]) -> Record {
    Record::of(2, 3, bytes)
}

/// Some valid sheet.
pub fn build(random: &mut Random) -> Record {
    let n = nodes(random);
    let (low, high) = (*TOLERANCE.start(), *TOLERANCE.end());
    let any = random.between(low, high);
    let t = random.one_of(&[low, high, 35, any]);
    let cells = some_cells(n, random);
    let e = cells.len() as u32;
    let total = some_total(e, random);
    sheet(n, t, &cells, &counts(e, total, random))
}

/// Two valid sheets of one N and t whose joint total is accepted: with the same
/// cells, with some in common, with all cells between them, or one with none.
pub fn pair(random: &mut Random) -> [Record; 2] {
    let mut first = build(random);
    let (n, t) = (first.words[0], first.words[1]);
    let cells = first.first().to_vec();
    let is_other = |cell: &u32| cells.binary_search(cell).is_err();
    let more: Vec<u32> = match random.below(8) {
        0 => Vec::new(),
        1 => all_cells(n).into_iter().filter(is_other).collect(),
        2 | 3 => cells,
        _ => some_cells(n, random),
    };
    let second = sheet(n, t, &more, &vec![1; more.len()]);
    let joint = some_total((first.entries() + more.len()) as u32, random);
    let mut pair = [first, second];
    recount(&mut pair, joint, random);
    pair
}

/// A sheet as two that it can be joined from: a part of each count, and the rest.
pub fn parted(bytes: &[u8], part: impl FnMut(u32) -> u32) -> [Record; 2] {
    let mut whole = of(bytes);
    let (n, t, cells) = (whole.words[0], whole.words[1], whole.first().to_vec());
    let counts = whole.second();
    let parts: Vec<u32> = counts.iter().copied().map(part).collect();
    let rests = counts.iter().zip(&parts).map(|(count, part)| count - part);
    let rests: Vec<u32> = rests.collect();
    [parts, rests].map(|counts| {
        let held = cells.iter().zip(counts).filter(|&(_, count)| count > 0);
        let (cells, counts): (Vec<u32>, Vec<u32>) = held.unzip();
        sheet(n, t, &cells, &counts)
    })
}

/// Some of all cells, rising.
fn some_cells(n: u32, random: &mut Random) -> Vec<u32> {
    let e = how_many(n * n, random);
    let places = distinct(e, n * n, random);
    places.iter().map(|k| cell(k / n, k % n)).collect()
}

/// A total of so many counts, from the smallest to the largest.
pub fn some_total(e: u32, random: &mut Random) -> u32 {
    if e == 0 {
        return 0;
    }
    let any = random.between(e, MOST_PARTICLES);
    let few = e + random.below(200);
    random.one_of(&[e, few, any, MOST_PARTICLES - 1, MOST_PARTICLES])
}

/// Gives two sheets other counts, with this joint total. If both have cells,
/// neither has more than it may have by itself.
pub fn recount(pair: &mut [Record; 2], joint: u32, random: &mut Random) {
    let [a, b] = [0, 1].map(|at| pair[at].entries() as u32);
    let first = match (a, b) {
        (0, _) => 0,
        (_, 0) => joint,
        _ => {
            let low = a.max(joint.saturating_sub(MOST_PARTICLES));
            let high = (joint - b).min(MOST_PARTICLES);
            let any = random.between(low, high);
            random.one_of(&[low, any, any, high])
        }
    };
    for (record, total) in pair.iter_mut().zip([first, joint - first]) {
        let counts = counts(record.entries() as u32, total, random);
        record.second().copy_from_slice(&counts);
    }
}

/// Counts of at least 1, with this total.
pub fn counts(e: u32, total: u32, random: &mut Random) -> Vec<u32> {
    if e == 0 {
        return Vec::new();
    }
    let even = random.chance(1, 2);
    let mut left = total - e;
    let mut counts = vec![1; e as usize];
    for (k, count) in (0..e).zip(&mut counts) {
        let most = if even { left / (e - k) } else { left };
        let more = if k + 1 == e {
            left
        } else {
            random.between(0, most)
        };
        *count += more;
        left -= more;
    }
    counts
}

/// Brings a fault in, as far as the record allows it.
pub fn inject(record: &mut Record, fault: u32, random: &mut Random) {
    match fault {
        1 => injection::cut_the_sizes(record, random),
        2 => record.words[0] = injection::outside(NODES, random),
        3 => record.words[1] = injection::outside(TOLERANCE, random),
        4 => too_many_cells(record, random),
        5 => injection::change_the_length(record, random),
        6 => bad_cell(record, random),
        7 => bad_count(record, random),
        _ => panic!("{fault} is no refusal of read sheet"),
    }
}

/// E above N × N, with cells to match where they are not too many.
fn too_many_cells(record: &mut Record, random: &mut Random) {
    let n = u64::from(record.words[0]);
    let more = random.one_of(&[1, 1, 2, 100]);
    let e = (n * n + more).min(u64::from(u32::MAX)) as u32;
    if e < 5_000 && random.chance(1, 2) {
        let cells: Vec<u32> = (0..e).collect();
        record.replace(&cells, &vec![1; e as usize]);
    } else {
        let far = random.one_of(&injection::FAR);
        record.words[2] = random.one_of(&[e, e, far]);
    }
}

/// A cell that does not rise or names no node. Takes an entry.
fn bad_cell(record: &mut Record, random: &mut Random) {
    let at = match injection::some_entry(record, random) {
        Some(at) => at,
        None => return,
    };
    let n = record.words[0];
    let (holder, subdomain) = (record.first()[at] / 64, record.first()[at] % 64);
    match random.below(4) {
        0 => injection::stop_rising(record.first(), random),
        1 => record.first()[at] = cell(n.wrapping_add(random.below(2)), subdomain),
        2 => record.first()[at] = cell(holder, n.min(63)),
        _ => record.first()[at] |= 1 << random.between(12, 31),
    }
}

/// A count of 0, a total one too high, or sums that wrap in 32 bits. Takes an entry.
fn bad_count(record: &mut Record, random: &mut Random) {
    if record.entries() == 0 {
        return;
    }
    let counts = record.second();
    let at = random.place(counts.len());
    match random.below(6) {
        0 => counts[at] = 0,
        way => injection::sum_too_large(counts, at, way, random),
    }
}
