//! The tally: arrivals between steps.

use crate::ffi::{self, TalliedAnswer};
use crate::operations::accepted;
use crate::records::NODES;
use crate::refusal::Refusal;
use std::fmt;

/// The counts of a sheet with the tree of a plan, kept up to date as particles
/// arrive and leave, and whether the tree holds them.
///
/// The limit stays that of the opening sheet. A call that is refused alters nothing.
///
/// ```
/// // Step D, and its plan, in which nodes 1 and 2 help node 0.
/// let sheet = firrozka::to_bytes(&[3, 100, 3, 0, 65, 130, 90, 6, 4]);
/// let plan = firrozka::to_bytes(&[3, 2, 36, 0, 0, 0, 0, 27, 29]);
/// let mut tally = firrozka::Tally::open(&sheet, &plan)?;
/// assert!(tally.add(0, 0, 8)?);
/// assert!(!tally.add(0, 0, 1)?);
/// assert_eq!((tally.limit(), tally.leasts()), (36, &[37, 6, 4][..]));
/// # Ok::<(), firrozka::Refusal>(())
/// ```
#[derive(Clone, PartialEq, Eq)]
pub struct Tally {
    // In a box, so that a tally can be moved without its 17 KB.
    now: Box<ffi::Tally>,
    holds: bool,
}

impl Tally {
    /// *Open tally*: that of a sheet and a plan of kind 1 or 2, also where the tree
    /// does not hold.
    pub fn open(sheet: &[u8], plan: &[u8]) -> Result<Tally, Refusal> {
        let mut now = Box::new(ffi::Tally::NONE);
        let holds = holds(ffi::open_tally(sheet, plan, &mut now))?;
        Ok(Tally { now, holds })
    }

    /// *Tally add*: so many particles more of a subdomain at a holder. Says whether
    /// the tree holds.
    pub fn add(&mut self, holder: u32, subdomain: u32, count: u32) -> Result<bool, Refusal> {
        self.holds = holds(ffi::tally_add(&mut self.now, holder, subdomain, count))?;
        Ok(self.holds)
    }

    /// *Tally remove*: so many fewer. Says whether the tree holds.
    pub fn remove(&mut self, holder: u32, subdomain: u32, count: u32) -> Result<bool, Refusal> {
        self.holds = holds(ffi::tally_remove(&mut self.now, holder, subdomain, count))?;
        Ok(self.holds)
    }

    /// Whether the tree holds the present counts.
    pub fn holds(&self) -> bool {
        self.holds
    }

    /// N, the number of nodes.
    pub fn n(&self) -> u32 {
        self.now.n
    }

    /// L of the opening sheet.
    pub fn limit(&self) -> u32 {
        self.now.limit
    }

    /// How many particles there are in all.
    pub fn total(&self) -> u32 {
        self.now.total
    }

    /// The N helpands of the plan.
    pub fn helpands(&self) -> &[u32] {
        self.of_nodes(&self.now.helpands)
    }

    /// How many particles there are of each of the N subdomains.
    pub fn totals(&self) -> &[u32] {
        self.of_nodes(&self.now.totals)
    }

    /// The N leasts, for the present counts and the limit.
    pub fn leasts(&self) -> &[u32] {
        self.of_nodes(&self.now.leasts)
    }

    /// How many particles of a subdomain a node holds, if there are these nodes.
    pub fn count(&self, holder: u32, subdomain: u32) -> Option<u32> {
        let there = holder < self.n() && subdomain < self.n();
        there.then(|| self.now.counts[(holder * NODES + subdomain) as usize])
    }

    /// The entries of the nodes that are there.
    fn of_nodes<'a>(&self, entries: &'a [u32]) -> &'a [u32] {
        &entries[..self.now.n as usize]
    }
}

fn holds(answer: TalliedAnswer) -> Result<bool, Refusal> {
    accepted(answer.refusal)?;
    Ok(answer.holds != 0)
}

/// All but the counts, of which there are 4,096.
impl fmt::Debug for Tally {
    fn fmt(&self, f: &mut fmt::Formatter) -> fmt::Result {
        f.debug_struct("Tally")
            .field("n", &self.n())
            .field("limit", &self.limit())
            .field("total", &self.total())
            .field("helpands", &self.helpands())
            .field("totals", &self.totals())
            .field("leasts", &self.leasts())
            .field("holds", &self.holds)
            .finish_non_exhaustive()
    }
}
