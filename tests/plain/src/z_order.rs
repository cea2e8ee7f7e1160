//! The archive in Z order, written and read.

use crate::records::{check_ranges, entries, put_words, word, Sheet, Table};

/// The length of N, t and 4,096 counts.
pub const BYTES: usize = 4 * (2 + 4096);

/// Where the count of each cell stands: a fixed table, which is made when this is
/// compiled.
static POSITIONS: [u16; 4096] = positions();

const fn positions() -> [u16; 4096] {
    let (mut table, mut cell) = ([0; 4096], 0);
    while cell < 4096 {
        table[cell as usize] = position(cell / 64, cell % 64);
        cell += 1;
    }
    table
}

/// The bits of the subdomain are the even ones, those of the holder the odd ones.
const fn position(holder: u16, subdomain: u16) -> u16 {
    spread(subdomain) | spread(holder) << 1
}

/// Six bits with a 0 before each: four and two of them are parted, then pairs,
/// then all.
const fn spread(bits: u16) -> u16 {
    let bits = (bits | bits << 4) & 0b0011_0000_1111;
    let bits = (bits | bits << 2) & 0b0011_0011_0011;
    (bits | bits << 1) & 0b0101_0101_0101
}

/// Writes an accepted sheet into a buffer of this length.
pub fn put(out: &mut [u8], sheet: &Sheet, sheet_bytes: &[u8]) {
    put_words(out, &[sheet.n, sheet.t]);
    let counts = &mut out[8..];
    counts.fill(0);
    for (cell, count) in entries(sheet_bytes, 3, sheet.e as usize) {
        let at = 4 * usize::from(POSITIONS[cell as usize]);
        counts[at..at + 4].copy_from_slice(&count.to_le_bytes());
    }
}

/// N, t and the count of each cell.
pub fn read(bytes: &[u8]) -> Result<([u32; 2], Table), u32> {
    if bytes.len() != BYTES {
        return Err(54);
    }
    let (n, t) = (word(bytes, 0), word(bytes, 1));
    check_ranges(n, t)?;
    let counts = &bytes[8..];
    let (mut table, mut p) = ([0; 4096], 0);
    let rows = table.chunks_exact_mut(64).zip(POSITIONS.chunks_exact(64));
    for (holder, (held, positions)) in (0..).zip(rows) {
        for (subdomain, (place, &position)) in (0..).zip(held.iter_mut().zip(positions)) {
            let count = word(counts, position.into());
            let no_node = holder >= n || subdomain >= n;
            if count != 0 && no_node || count > 1_000_000_000 - p {
                return Err(55);
            }
            p += count;
            *place = count;
        }
    }
    Ok(([n, t], table))
}
