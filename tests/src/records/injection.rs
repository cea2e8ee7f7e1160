//! Fault injection, as far as more than one kind of record can have the fault.

use super::mutation::some_bytes;
use super::Record;
use crate::bounds::MOST_PARTICLES;
use crate::random::Random;
use std::ops::RangeInclusive;

/// Sizes far too large; eight times each is 0 or little less in 32 bits.
pub const FAR: [u32; 4] = [1 << 29, 1 << 30, 1 << 31, u32::MAX];

/// Leaves less than the sizes.
pub fn cut_the_sizes(record: &mut Record, random: &mut Random) {
    record.cut = Some(random.place(4 * record.head));
}

/// A value just outside the range, or far from it.
pub fn outside(range: RangeInclusive<u32>, random: &mut Random) -> u32 {
    let (low, high) = (*range.start(), *range.end());
    match random.below(5) {
        0 if low > 0 => low - 1,
        1 => random.between(high + 1, u32::MAX),
        2 => random.one_of(&FAR).max(high + 1),
        _ => high + random.between(1, 3),
    }
}

/// A length that does not go with the sizes: some bytes more or fewer, or
/// another size over the same bytes.
pub fn change_the_length(record: &mut Record, random: &mut Random) {
    let some = random.one_of(&[1, 2, 3, 4, 8]);
    match random.below(4) {
        0 => record.tail = some_bytes(some, random),
        1 => record.cut = Some((4 * record.words.len()).saturating_sub(some)),
        2 => {
            let size = &mut record.words[record.size];
            *size = size.wrapping_add(1);
        }
        _ => {
            let size = &mut record.words[record.size];
            *size = size.wrapping_sub(1);
        }
    }
}

/// The place of an entry, if there is one. Often it is the last: there a higher
/// one still rises, so that nothing else is wrong.
pub fn some_entry(record: &Record, random: &mut Random) -> Option<usize> {
    let last = record.entries().checked_sub(1)?;
    let any = random.place(last + 1);
    Some(random.one_of(&[any, last, last]))
}

/// Two neighbours in the wrong order, or equal. Takes two entries.
pub fn stop_rising(entries: &mut [u32], random: &mut Random) {
    if entries.len() < 2 {
        return;
    }
    let at = random.place(entries.len() - 1);
    match random.below(3) {
        0 => entries.swap(at, at + 1),
        1 => entries[at + 1] = entries[at],
        _ => entries[at] = entries[at + 1],
    }
}

/// Changes a count, or some from it on, so that the sum is one too high or wraps in
/// 32 bits, in one of six ways from 1 on.
pub fn sum_too_large(counts: &mut [u32], at: usize, way: u32, random: &mut Random) {
    let sum = |counts: &[u32]| counts.iter().map(|&count| u64::from(count)).sum::<u64>();
    let before = sum(&counts[..at]);
    let others = before + sum(&counts[at + 1..]);
    match way {
        1 => counts[at] = MOST_PARTICLES + 1,
        2 => counts[at] = u64::from(MOST_PARTICLES + 1).saturating_sub(others) as u32,
        // The running sum comes back to something small in 32 bits.
        3 => counts[at] = 0u32.wrapping_sub(random.between(0, before as u32)),
        4 => set(counts, at, 2, 1 << 31),
        5 => counts[at] = random.one_of(&[1 << 30, 1 << 31, u32::MAX]),
        _ => set(counts, at, 4, 1 << 30),
    }
}

/// Sets so many entries from a place on, and goes on at the first behind the last.
fn set(entries: &mut [u32], from: usize, number: usize, value: u32) {
    for at in from..from + number {
        entries[at % entries.len()] = value;
    }
}
