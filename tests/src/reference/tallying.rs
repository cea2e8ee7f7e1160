//! Request 2026-08, arrivals between steps. An open tally is the present counts, the
//! limit and the tree, and nothing else: totals and leasts are worked out afresh
//! whenever they are asked for, and after each call the tally that the caller has is
//! made anew from all of them.

use super::operations::with_tree;
use super::plan::{self, Plan};
use super::table::Table;
use super::unopened;
use super::weighing::Weighing;
use super::words::to_word;
use crate::answers::{self, Answer, TalliedAnswer};
use crate::bounds::{MOST_PARTICLES, NODES};
use crate::tally::{Change, Tally, Way};

/// An open tally.
#[derive(Clone, Debug, PartialEq, Eq)]
pub struct Open {
    /// "the present counts"
    pub held: Table,
    /// "its limit stays that of the opening sheet"
    pub limit: u64,
    pub helpands: Vec<u32>,
}

impl Open {
    /// "A tally is opened from a sheet and a plan of kind 1 or 2". "Checks: opening has
    /// those of *weigh* up to 24".
    pub fn new(sheet: &[u8], plan: &[u8]) -> Result<Open, u32> {
        let (sheet, plan) = with_tree(sheet, plan)?;
        Ok(Open {
            held: Table::of(&sheet),
            limit: u64::from(sheet.limit()),
            helpands: plan.helpands,
        })
    }

    /// N.
    pub fn nodes(&self) -> usize {
        self.helpands.len()
    }

    /// P at present.
    pub fn total(&self) -> u64 {
        self.held.totals().iter().sum()
    }

    /// A call "adds or removes a count in a cell, named by holder and subdomain". "A
    /// refused call alters nothing."
    pub fn change(&mut self, change: &Change) -> Result<(), u32> {
        let [holder, subdomain] = change.cell();
        let count = u64::from(change.count);
        // "58 for a node not below N or a count of 0"
        if holder.max(subdomain) >= self.nodes() || count == 0 {
            return Err(58);
        }
        let total = self.total();
        let cell = &mut self.held.counts[holder][subdomain];
        match change.way {
            // "60 for a total above the maximum"
            Way::Add if total + count > u64::from(MOST_PARTICLES) => return Err(60),
            Way::Add => *cell += count,
            // "59 for removing more than the cell has"
            Way::Remove if count > *cell => return Err(59),
            Way::Remove => *cell -= count,
        }
        Ok(())
    }

    /// The tree under the totals of "the present counts with that limit".
    fn weighing<'a>(&'a self, totals: &'a [u64]) -> Weighing<'a> {
        Weighing {
            helpands: &self.helpands,
            totals,
            limit: self.limit,
        }
    }

    /// "says whether the tree holds"
    pub fn holds(&self) -> bool {
        self.weighing(&self.held.totals()).holds()
    }

    /// The tally as the caller has it.
    pub fn tally(&self) -> Tally {
        let mut tally = Tally::NONE;
        tally.n = self.nodes() as u32;
        tally.limit = to_word(self.limit);
        tally.total = to_word(self.total());
        let totals = self.held.totals();
        let leasts = self.weighing(&totals).leasts();
        for node in 0..self.nodes() {
            tally.helpands[node] = self.helpands[node];
            tally.totals[node] = to_word(totals[node]);
            tally.leasts[node] = to_word(leasts[node]);
            for (subdomain, &count) in self.held.counts[node].iter().enumerate() {
                tally.counts[node * 64 + subdomain] = to_word(count);
            }
        }
        tally
    }

    /// The open tally that stands here. Nothing if no opening and calls can have given
    /// this, with whatever limit.
    fn of(tally: &Tally) -> Option<Open> {
        let n = NODES.contains(&tally.n).then_some(tally.n as usize)?;
        let tree = Plan {
            n: tally.n,
            kind: 2,
            limit: 0,
            helpands: tally.helpands[..n].to_vec(),
            shares: vec![0; n],
        };
        let mut open = Open {
            held: Table::empty(n),
            limit: u64::from(tally.limit),
            helpands: plan::read(&tree.bytes()).ok()?.helpands,
        };
        for (holder, counts) in open.held.counts.iter_mut().enumerate() {
            for (subdomain, count) in counts.iter_mut().enumerate() {
                *count = u64::from(tally.counts[holder * 64 + subdomain]);
            }
        }
        let fits = open.total() <= u64::from(MOST_PARTICLES);
        Some(open).filter(|open| fits && open.tally() == *tally)
    }
}

/// *Open tally*. It "says whether the tree holds", as *weigh* does. "A refused opening
/// gives a tally with N 0", and 0 everywhere else.
pub fn open_tally(sheet: &[u8], plan: &[u8], tally: &mut Tally) -> TalliedAnswer {
    match Open::new(sheet, plan) {
        Ok(open) => {
            *tally = open.tally();
            answers::tallied(open.holds())
        }
        Err(refusal) => {
            *tally = Tally::NONE;
            Answer::refused(refusal)
        }
    }
}

/// *Tally add*.
pub fn tally_add(tally: &mut Tally, holder: u32, subdomain: u32, count: u32) -> TalliedAnswer {
    call(tally, &Change::add(holder, subdomain, count))
}

/// *Tally remove*.
pub fn tally_remove(tally: &mut Tally, holder: u32, subdomain: u32, count: u32) -> TalliedAnswer {
    call(tally, &Change::remove(holder, subdomain, count))
}

/// A call, "which adds or removes a count in a cell [...] and says whether the tree
/// holds."
fn call(tally: &mut Tally, change: &Change) -> TalliedAnswer {
    let mut open = match Open::of(tally) {
        Some(open) => open,
        None => return unopened::call(tally, change),
    };
    match open.change(change) {
        Ok(()) => {
            *tally = open.tally();
            answers::tallied(open.holds())
        }
        Err(refusal) => Answer::refused(refusal),
    }
}
