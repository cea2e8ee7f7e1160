//! "Weighing": least, spare, and whether the tree holds.

use super::tree::helpers;

/// A tree under the loads and the limit of a sheet.
pub struct Weighing<'a> {
    pub helpands: &'a [u32],
    pub totals: &'a [u64],
    pub limit: u64,
}

impl Weighing<'_> {
    /// "What a helper can spare is L less its least, or 0 if its least is above L."
    fn spare(&self, helper: usize) -> u64 {
        self.limit.saturating_sub(self.least(helper))
    }

    /// "An owner's least is its count less what all its helpers can spare, and never below 0."
    pub fn least(&self, owner: usize) -> u64 {
        let helpers = helpers(self.helpands, owner);
        let spared: u64 = helpers.iter().map(|&helper| self.spare(helper)).sum();
        self.totals[owner].saturating_sub(spared)
    }

    /// The least of every node.
    pub fn leasts(&self) -> Vec<u64> {
        (0..self.totals.len())
            .map(|node| self.least(node))
            .collect()
    }

    /// "The tree holds if no least is above L."
    pub fn holds(&self) -> bool {
        self.leasts().iter().all(|&least| least <= self.limit)
    }
}
