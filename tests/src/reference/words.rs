//! Words in bytes, both ways, and what two records ask of them.

/// "A word is 4 bytes, unsigned, low byte first."
pub fn word(bytes: &[u8], index: usize) -> u32 {
    let at = 4 * index;
    u32::from_le_bytes([bytes[at], bytes[at + 1], bytes[at + 2], bytes[at + 3]])
}

/// `count` words from the word `from` on.
pub fn words(bytes: &[u8], from: usize, count: usize) -> Vec<u32> {
    (from..from + count)
        .map(|index| word(bytes, index))
        .collect()
}

/// The length in bytes of `words` words.
pub fn length_of(words: u64) -> u64 {
    4 * words
}

/// "Cells rise strictly." "Routes rise strictly."
pub fn rising(entries: &[u32]) -> bool {
    (1..entries.len()).all(|index| entries[index - 1] < entries[index])
}

/// The bytes of these words, low byte first.
pub fn to_bytes(words: &[u32]) -> Vec<u8> {
    words.iter().flat_map(|word| word.to_le_bytes()).collect()
}

/// A record: "Sizes stand first, then two parallel arrays."
pub fn record(sizes: &[u32], first: &[u32], second: &[u32]) -> Vec<u8> {
    to_bytes(&[sizes, first, second].concat())
}

/// An amount as a word. No amount of document 01 is too large for that.
pub fn to_word(amount: u64) -> u32 {
    u32::try_from(amount).expect("the amount fits into a word")
}
