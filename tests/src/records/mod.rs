//! Records before they become bytes: builders of valid ones over the whole
//! input space (one file for each kind), faults
//! brought in on purpose, and mutations.

mod injection;
pub mod moves;
pub mod mutation;
pub mod plans;
pub mod sheets;
pub mod z_order;

use crate::bounds::NODES;
use crate::random::Random;
use std::collections::BTreeSet;

/// "Sizes stand first, then two parallel arrays."
pub struct Record {
    /// How many words stand before the arrays.
    head: usize,
    /// Which of them says how long each array is.
    size: usize,
    /// All words: sizes, first array, second array.
    pub words: Vec<u32>,
    /// Bytes behind the last word.
    pub tail: Vec<u8>,
    /// The length in bytes that the record is cut to.
    pub cut: Option<usize>,
}

impl Record {
    pub fn new(size: usize, head: &[u32], first: &[u32], second: &[u32]) -> Record {
        Record {
            head: head.len(),
            size,
            words: [head, first, second].concat(),
            tail: Vec::new(),
            cut: None,
        }
    }

    /// The record that these bytes are: so many words of sizes, one of which
    /// says how long the arrays are.
    fn of(size: usize, head: usize, bytes: &[u8]) -> Record {
        let words = to_words(bytes);
        let (sizes, arrays) = words.split_at(head);
        let (first, second) = arrays.split_at(arrays.len() / 2);
        Record::new(size, sizes, first, second)
    }

    /// No record.
    pub fn none() -> Record {
        Record::new(0, &[], &[], &[])
    }

    /// Some bytes that were never a record.
    pub fn noise(random: &mut Random) -> Record {
        Record {
            tail: mutation::some_bytes(random.place(48), random),
            ..Record::none()
        }
    }

    /// The record as an operation gets it.
    pub fn bytes(&self) -> Vec<u8> {
        let mut bytes = to_bytes(&self.words);
        bytes.extend(&self.tail);
        bytes.truncate(self.cut.unwrap_or(bytes.len()));
        bytes
    }

    /// Whether the record is a sheet, whose third word is E.
    pub fn is_sheet(&self) -> bool {
        self.size == 2
    }

    /// Whether there is none.
    pub fn is_none(&self) -> bool {
        self.words.is_empty()
    }

    /// How many entries each array has, whatever the sizes say.
    pub fn entries(&self) -> usize {
        (self.words.len() - self.head) / 2
    }

    /// Cells, helpands or routes.
    pub fn first(&mut self) -> &mut [u32] {
        let entries = self.entries();
        &mut self.words[self.head..][..entries]
    }

    /// Counts or shares.
    pub fn second(&mut self) -> &mut [u32] {
        let entries = self.entries();
        &mut self.words[self.head + entries..]
    }

    /// Puts other arrays behind the sizes, and their length into the sizes.
    pub fn replace(&mut self, first: &[u32], second: &[u32]) {
        self.words.truncate(self.head);
        self.words[self.size] = first.len() as u32;
        self.words.extend(first);
        self.words.extend(second);
    }
}

pub fn to_bytes(words: &[u32]) -> Vec<u8> {
    words.iter().flat_map(|word| word.to_le_bytes()).collect()
}

/// The whole words in the bytes; what is over is left out.
pub fn to_words(bytes: &[u8]) -> Vec<u32> {
    let word = |chunk: &[u8]| u32::from_le_bytes([chunk[0], chunk[1], chunk[2], chunk[3]]);
    bytes.chunks_exact(4).map(word).collect()
}

/// The record for a message: its first words and its length.
pub fn shown(bytes: &[u8]) -> String {
    let words = to_words(bytes);
    let few: Vec<String> = words.iter().take(40).map(u32::to_string).collect();
    let over = if words.len() > 40 { " ..." } else { "" };
    let rest = &bytes[4 * words.len()..];
    let length = bytes.len();
    let few = few.join(" ");
    format!("{length} bytes, words {few}{over}, then bytes {rest:?}")
}

/// N: often the smallest and the largest.
pub fn nodes(random: &mut Random) -> u32 {
    match random.below(10) {
        0 => 1,
        1 => 2,
        2 => 3,
        3 => 63,
        4 => 64,
        5 | 6 => random.between(2, 8),
        _ => random.between(*NODES.start(), *NODES.end()),
    }
}

/// How many entries of at most `most`: mostly few, but also none and all.
fn how_many(most: u32, random: &mut Random) -> u32 {
    match random.below(16) {
        0 => 0,
        1 => most.min(1),
        2 => most,
        3 => most.saturating_sub(1),
        4 => random.between(0, most),
        _ => random.between(0, most.min(12)),
    }
}

/// `count` different numbers below `bound`, rising.
fn distinct(count: u32, bound: u32, random: &mut Random) -> Vec<u32> {
    // Of many numbers, it is quicker to draw those left out.
    let draw_out = count > bound / 2;
    let wanted = if draw_out { bound - count } else { count };
    let mut drawn = BTreeSet::new();
    while (drawn.len() as u32) < wanted {
        drawn.insert(random.below(bound));
    }
    if draw_out {
        (0..bound).filter(|k| !drawn.contains(k)).collect()
    } else {
        drawn.into_iter().collect()
    }
}
