//! Particles by holder and subdomain: what a sheet says, and what is due.

use super::sheet::Sheet;
use super::words::to_word;

/// How many particles of each subdomain each node holds.
#[derive(Clone, Debug, PartialEq, Eq)]
pub struct Table {
    /// By holder, then by subdomain.
    pub counts: Vec<Vec<u64>>,
}

impl Table {
    /// N nodes that hold nothing.
    pub fn empty(n: usize) -> Table {
        Table {
            counts: vec![vec![0; n]; n],
        }
    }

    /// The sheet as a table: "Cells absent from the sheet count as 0."
    pub fn of(sheet: &Sheet) -> Table {
        let mut table = Table::empty(sheet.n as usize);
        for (&cell, &count) in sheet.cells.iter().zip(&sheet.counts) {
            // "A cell is holder × 64 + subdomain."
            let (holder, subdomain) = (cell as usize / 64, cell as usize % 64);
            table.counts[holder][subdomain] = u64::from(count);
        }
        table
    }

    /// The table as a sheet: "Cells rise strictly. Counts are at least 1."
    pub fn sheet(&self, t: u32) -> Sheet {
        let mut sheet = Sheet {
            n: self.nodes() as u32,
            t,
            cells: Vec::new(),
            counts: Vec::new(),
        };
        for (holder, counts) in self.counts.iter().enumerate() {
            for (subdomain, &count) in counts.iter().enumerate() {
                if count > 0 {
                    sheet.cells.push((holder * 64 + subdomain) as u32);
                    sheet.counts.push(to_word(count));
                }
            }
        }
        sheet
    }

    /// "every cell the sum of both", for two of as many nodes.
    pub fn plus(&self, other: &Table) -> Table {
        let mut sum = self.clone();
        for (held, more) in sum.counts.iter_mut().zip(&other.counts) {
            for (count, more) in held.iter_mut().zip(more) {
                *count += more;
            }
        }
        sum
    }

    /// N.
    pub fn nodes(&self) -> usize {
        self.counts.len()
    }

    /// "Pn is the sum of all counts for subdomain n, whoever holds them."
    pub fn totals(&self) -> Vec<u64> {
        let total = |subdomain: usize| self.counts.iter().map(|held| held[subdomain]).sum();
        (0..self.nodes()).map(total).collect()
    }
}
