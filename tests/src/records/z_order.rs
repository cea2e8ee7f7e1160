//! Sheets in Z order: valid ones, and each fault of *read archive*.

use super::{injection, mutation, sheets, to_words, Record};
use crate::bounds::{NODES, TOLERANCE};
use crate::random::Random;
use crate::reference::z_order::position;

/// How many words stand before the counts: N and t.
const HEAD: usize = 2;

/// A valid sheet in Z order. It has "4,096 counts" in place of two arrays, so here its
/// words are named by their place.
pub fn of(sheet: &[u8]) -> Record {
    let mut record = Record::new(0, &to_words(&sheet[..4 * HEAD]), &[0; 4_096], &[]);
    for (cell, count) in sheets::by_cell(sheet) {
        record.words[word(cell / 64, cell % 64)] = count;
    }
    record
}

/// Which word the count of a cell is.
fn word(holder: u32, subdomain: u32) -> usize {
    HEAD + position(holder as usize, subdomain as usize)
}

/// Brings a fault in, as far as the record allows it.
pub fn inject(record: &mut Record, fault: u32, random: &mut Random) {
    match fault {
        54 => change_the_length(record, random),
        2 => record.words[0] = injection::outside(NODES, random),
        3 => record.words[1] = injection::outside(TOLERANCE, random),
        55 if random.chance(1, 2) => count_elsewhere(record, random),
        55 => bad_sum(record, random),
        _ => panic!("{fault} is no refusal of read archive"),
    }
}

/// Some bytes more or fewer, or far fewer.
fn change_the_length(record: &mut Record, random: &mut Random) {
    let (some, length) = (random.one_of(&[1, 2, 3, 4, 8]), 4 * record.words.len());
    match random.below(4) {
        0 | 1 => record.tail = mutation::some_bytes(some, random),
        2 => record.cut = Some(length - some),
        _ => record.cut = Some(random.place(length)),
    }
}

/// A count above 0 where the holder, the subdomain or both are not below N. Takes an
/// N below 64.
fn count_elsewhere(record: &mut Record, random: &mut Random) {
    let n = record.words[0];
    if n >= 64 {
        return;
    }
    let beyond = random.between(n, 63);
    let beyond = random.one_of(&[n, beyond]);
    let below = random.below(n.max(1));
    let (holder, subdomain) = random.one_of(&[(beyond, below), (below, beyond), (beyond, beyond)]);
    record.words[word(holder, subdomain)] = random.one_of(&[1, 1, 1 << 31, u32::MAX]);
}

/// Counts of nodes below N whose sum is too large.
fn bad_sum(record: &mut Record, random: &mut Random) {
    let n = record.words[0].clamp(1, 64);
    let mut places: Vec<usize> = sheets::all_cells(n)
        .into_iter()
        .map(|cell| word(cell / 64, cell % 64))
        .collect();
    places.sort_unstable();
    let mut counts: Vec<u32> = places.iter().map(|&at| record.words[at]).collect();
    let (at, way) = (random.place(counts.len()), random.between(1, 6));
    injection::sum_too_large(&mut counts, at, way, random);
    for (at, count) in places.into_iter().zip(counts) {
        record.words[at] = count;
    }
}
