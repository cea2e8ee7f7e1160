//! "A word is 4 bytes, unsigned, low byte first."

use std::fmt;
use std::iter::Map;
use std::slice::ChunksExact;

/// Words in bytes. They may lie at any address, so there is no `&u32` to any of
/// them: `get` gives the value itself, and so does going through them.
#[derive(Clone, Copy, PartialEq, Eq)]
pub struct Words<'a>(&'a [u8]);

impl<'a> Words<'a> {
    /// The whole words in the bytes; what is over is left out.
    pub fn of(bytes: &'a [u8]) -> Words<'a> {
        Words(bytes)
    }

    /// How many there are.
    pub fn len(self) -> usize {
        self.0.len() / 4
    }

    /// Whether there is none.
    pub fn is_empty(self) -> bool {
        self.len() == 0
    }

    /// The word at a place, counted from 0, if there is one.
    pub fn get(self, place: usize) -> Option<u32> {
        self.0.chunks_exact(4).nth(place).map(word)
    }

    /// The words, first to last.
    pub fn iter(self) -> WordsIter<'a> {
        self.0.chunks_exact(4).map(word as fn(&'a [u8]) -> u32)
    }

    /// `count` words from the word `from` on, or panics where there are fewer.
    pub(crate) fn part(self, from: usize, count: usize) -> Words<'a> {
        Words(&self.0[4 * from..][..4 * count])
    }
}

fn word(bytes: &[u8]) -> u32 {
    u32::from_le_bytes([bytes[0], bytes[1], bytes[2], bytes[3]])
}

/// Goes through words, from either end.
pub type WordsIter<'a> = Map<ChunksExact<'a, u8>, fn(&'a [u8]) -> u32>;

impl<'a> IntoIterator for Words<'a> {
    type Item = u32;
    type IntoIter = WordsIter<'a>;

    fn into_iter(self) -> WordsIter<'a> {
        self.iter()
    }
}

impl fmt::Debug for Words<'_> {
    fn fmt(&self, f: &mut fmt::Formatter) -> fmt::Result {
        f.debug_list().entries(self.iter()).finish()
    }
}

/// The bytes of these words.
pub fn to_bytes(words: &[u32]) -> Vec<u8> {
    words.iter().flat_map(|word| word.to_le_bytes()).collect()
}
