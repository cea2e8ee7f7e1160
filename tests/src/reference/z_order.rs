//! Request 2026-05, the archive in Z order: "Write N, t and then 4,096 counts
//! (16,392 bytes)."

use super::sheet::Sheet;
use super::table::Table;
use super::words::{to_bytes, word, words};
use crate::bounds::{MOST_PARTICLES, NODES, TOLERANCE};

/// "Bit i of the subdomain becomes bit 2i of the position, and bit i of the holder
/// bit 2i+1, for i from 0 to 5."
pub fn position(holder: usize, subdomain: usize) -> usize {
    let mut position = 0;
    for i in 0..=5 {
        position += bit(subdomain, i) << (2 * i);
        position += bit(holder, i) << (2 * i + 1);
    }
    position
}

fn bit(number: usize, i: usize) -> usize {
    number >> i & 1
}

/// The sheet in Z order.
pub fn bytes(sheet: &Sheet) -> Vec<u8> {
    // "Cells absent from the sheet count as 0."
    let mut counts = vec![0; 4_096];
    for (&cell, &count) in sheet.cells.iter().zip(&sheet.counts) {
        // "A cell is holder × 64 + subdomain."
        let (holder, subdomain) = (cell as usize / 64, cell as usize % 64);
        counts[position(holder, subdomain)] = count;
    }
    to_bytes(&[&[sheet.n, sheet.t], &counts[..]].concat())
}

/// The sheet that stands here in Z order, or the refusal.
pub fn read(bytes: &[u8]) -> Result<Sheet, u32> {
    // "54 for another length"
    if bytes.len() != 16_392 {
        return Err(54);
    }
    let (n, t) = (word(bytes, 0), word(bytes, 1));
    // "2"
    if !NODES.contains(&n) {
        return Err(2);
    }
    // "3"
    if !TOLERANCE.contains(&t) {
        return Err(3);
    }
    let counts = words(bytes, 2, 4_096);
    // "55 for a count above 0 at a node not below N or a sum above the maximum"
    let table = table(n as usize, &counts).ok_or(55u32)?;
    if counts.into_iter().map(u64::from).sum::<u64>() > u64::from(MOST_PARTICLES) {
        return Err(55);
    }
    Ok(table.sheet(t))
}

/// The counts by holder and subdomain, unless one is "above 0 at a node not below
/// N".
fn table(n: usize, counts: &[u32]) -> Option<Table> {
    let mut table = Table::empty(n);
    for holder in 0..64 {
        for subdomain in 0..64 {
            let count = counts[position(holder, subdomain)];
            if holder < n && subdomain < n {
                table.counts[holder][subdomain] = u64::from(count);
            } else if count > 0 {
                return None;
            }
        }
    }
    Some(table)
}
