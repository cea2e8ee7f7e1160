//! The sheet: "N, t, E; E cells; E counts", *read sheet*, and the sheet written.

use super::words::{length_of, record, rising, to_word, word, words};
use crate::answers::{Answer, SheetAnswer};
use crate::bounds::{MOST_PARTICLES, NODES, TOLERANCE};

/// A sheet that *read sheet* accepts.
#[derive(Clone, Debug, PartialEq, Eq)]
pub struct Sheet {
    pub n: u32,
    pub t: u32,
    pub cells: Vec<u32>,
    pub counts: Vec<u32>,
}

/// The sheet, or its refusal. "Checks run in the order written."
pub fn read(bytes: &[u8]) -> Result<Sheet, u32> {
    // "1, under 12 bytes"
    if bytes.len() < 12 {
        return Err(1);
    }
    let (n, t, e) = (word(bytes, 0), word(bytes, 1), word(bytes, 2));
    // "2, N"
    if !NODES.contains(&n) {
        return Err(2);
    }
    // "3, t"
    if !TOLERANCE.contains(&t) {
        return Err(3);
    }
    // "4, E above N × N"
    if e > n * n {
        return Err(4);
    }
    // "5, length not 4 × (3+2E)"
    if bytes.len() as u64 != length_of(3 + 2 * u64::from(e)) {
        return Err(5);
    }
    let cells = words(bytes, 3, e as usize);
    let counts = words(bytes, 3 + e as usize, e as usize);
    // "6, a cell not rising or naming a node not below N"
    if !rising(&cells) || cells.iter().any(|&cell| names_no_node(cell, n)) {
        return Err(6);
    }
    // "7, a count of 0 or a running sum above 1,000,000,000"
    if bad_counts(&counts) {
        return Err(7);
    }
    Ok(Sheet {
        n,
        t,
        cells,
        counts,
    })
}

/// "A cell is holder × 64 + subdomain."
fn names_no_node(cell: u32, n: u32) -> bool {
    let (holder, subdomain) = (cell / 64, cell % 64);
    holder >= n || subdomain >= n
}

/// "a count of 0 or a running sum above 1,000,000,000"
fn bad_counts(counts: &[u32]) -> bool {
    let mut sum = 0u64;
    for &count in counts {
        sum += u64::from(count);
        if count == 0 || sum > u64::from(MOST_PARTICLES) {
            return true;
        }
    }
    false
}

impl Sheet {
    /// P, the sum of all counts.
    pub fn total(&self) -> u32 {
        self.counts.iter().sum()
    }

    /// L, the limit.
    pub fn limit(&self) -> u32 {
        to_word(limit(
            u64::from(self.total()),
            u64::from(self.n),
            u64::from(self.t),
        ))
    }

    /// The record.
    pub fn bytes(&self) -> Vec<u8> {
        let sizes = [self.n, self.t, self.cells.len() as u32];
        record(&sizes, &self.cells, &self.counts)
    }
}

/// L: "the larger of P/N rounded up and" the second part, which "is P × (1000+t) /
/// (1000 × N) rounded down".
pub fn limit(p: u64, n: u64, t: u64) -> u64 {
    let even = (p + n - 1) / n;
    let tolerated = p * (1000 + t) / (1000 * n);
    even.max(tolerated)
}

/// *Read sheet* "gives N, t, E, P, L". "A refusal's other values are all 0".
pub fn read_sheet(bytes: &[u8]) -> SheetAnswer {
    match read(bytes) {
        Ok(sheet) => SheetAnswer {
            refusal: 0,
            n: sheet.n,
            t: sheet.t,
            e: sheet.cells.len() as u32,
            p: sheet.total(),
            limit: sheet.limit(),
        },
        Err(refusal) => SheetAnswer::refused(refusal),
    }
}
