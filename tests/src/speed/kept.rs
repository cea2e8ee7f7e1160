//! Sheets for which an old tree is kept, with a small or a large rest, and with
//! families that afford their helpers' holds beside families that do not.

use super::inputs::{level, Filling, TOLERANCE};
use crate::division::members;
use crate::random::Random;
use crate::records::plans::Form;
use crate::reference::keeping::Family;
use crate::reference::sheet;
use crate::reference::table::Table;
use crate::reference::tree::helpers;
use crate::steps::totals;

/// How much of the particles of families in a kept tree is given out as the rest.
#[derive(Clone, Copy, Debug, PartialEq, Eq)]
pub enum Rest {
    /// A few percent, and something in most families.
    Small,
    /// More than half.
    Large,
}

impl Rest {
    /// How many of a subdomain's particles, in thousandths.
    fn part(self, random: &mut Random) -> u64 {
        match self {
            Rest::Small => random.amount(1, 40),
            Rest::Large => random.amount(700, 950),
        }
    }

    /// Whether the rests of these families are such.
    pub fn is_met(self, families: &[Family]) -> bool {
        let members = families.iter().flat_map(|family| &family.members);
        let kept: u64 = members.map(|member| member.amount).sum();
        let rest: u64 = families.iter().map(|family| family.rest).sum();
        let some = families.iter().filter(|family| family.rest > 0).count();
        match self {
            Rest::Small => 2 * some > families.len() && 20 * rest <= kept + rest,
            Rest::Large => rest > kept,
        }
    }
}

/// Whether some of these families afford holds and some do not. In a star no helper
/// has helpers, so that all holds are leasts.
pub fn are_met(form: Form, decisions: &[Option<bool>]) -> bool {
    let both = [true, false].map(Some);
    form == Form::Star || both.iter().all(|decision| decisions.contains(decision))
}

/// The particles of one subdomain in a division along a tree.
struct Divided {
    owner: usize,
    total: u64,
    /// The helpers and what it gives them.
    shares: Vec<(usize, u64)>,
    /// Nodes outside the family that hold some.
    others: Vec<usize>,
}

/// The sheet of a division along the tree with loads within a few percent of each
/// other, in which each node has a part of its helpand's subdomain. The members
/// hold what it gives them, but for what is to be the rest. So much every family
/// affords. Of those who help and have helpers, one in sixteen holds nearly all of
/// its own subdomain, which its helpand's family often does not afford.
pub fn divided(helpands: &[u32], filling: Filling, rest: Rest, random: &mut Random) -> Table {
    let n = helpands.len();
    let loads = level(n, random);
    let limit = sheet::limit(loads.iter().sum(), n as u64, u64::from(TOLERANCE));
    let mut shares = vec![0; n];
    let totals = totals::divided(&loads, helpands, |node, load| {
        shares[node] = random.amount(0, load * 3 / 4);
        shares[node]
    });
    let mut table = Table::empty(n);
    for (owner, total) in totals.into_iter().enumerate() {
        let helpers = helpers(helpands, owner).into_iter();
        let divided = Divided {
            owner,
            total,
            shares: helpers.map(|helper| (helper, shares[helper])).collect(),
            others: others(owner, helpands, filling, random),
        };
        let rest = total * rest.part(random) / 1000;
        divided.spread(rest, limit, &mut table, random);
        let inner = !divided.shares.is_empty() && helpands[owner] as usize != owner;
        if inner && random.chance(1, 16) {
            gather(owner, &mut table);
        }
    }
    table
}

/// Who holds particles of a subdomain and is not of its family: all others or one,
/// and nobody where all are members.
fn others(owner: usize, helpands: &[u32], filling: Filling, random: &mut Random) -> Vec<usize> {
    let family = members(helpands, &[owner]);
    let others = (0..helpands.len()).filter(|node| !family.contains(node));
    let others: Vec<usize> = others.collect();
    match filling {
        Filling::Sparse if !others.is_empty() => vec![random.one_of(&others)],
        _ => others,
    }
}

/// Leaves the other holders of a subdomain one particle each.
fn gather(owner: usize, table: &mut Table) {
    let total: u64 = table.counts.iter().map(|held| held[owner]).sum();
    let mut others = 0;
    for (holder, held) in table.counts.iter_mut().enumerate() {
        if holder != owner && held[owner] > 0 {
            held[owner] = 1;
            others += 1;
        }
    }
    table.counts[owner][owner] = total - others;
}

impl Divided {
    /// Gives the particles to holders, each of whom has one at least: the rest to
    /// the others, or to the owner beyond its space if there are none.
    fn spread(&self, rest: u64, limit: u64, table: &mut Table, random: &mut Random) {
        let shared: u64 = self.shares.iter().map(|(_, share)| share).sum();
        let missing = match self.others.is_empty() {
            true => (rest + limit - (self.total - shared)).min(shared),
            false => rest * shared / self.total,
        };
        let mut left = self.total;
        let mut hold = |holder: usize, count: u64| {
            table.counts[holder][self.owner] = count;
            left -= count;
        };
        for &(helper, share) in &self.shares {
            // Nothing may be shared at all.
            hold(helper, (share - share * missing / shared.max(1)).max(1));
        }
        for &other in &self.others {
            let most = rest / self.others.len() as u64;
            hold(other, random.amount(most * 9 / 10, most).max(1));
        }
        table.counts[self.owner][self.owner] = left;
    }
}
