//! How much a helper holds of its own subdomain, seen from what its helpand's family
//! affords (request 2026-07). Totals, leasts and what is given above that family do
//! not depend on it.

use super::Fitted;
use crate::random::Random;
use crate::reference::keeping::{shares, Helper, Undivided, RULES};
use crate::reference::table::Table;
use crate::reference::weighing::Weighing;

/// The table with some helper's own particles held so that its helpand's family has
/// nothing to spare; and the same with one particle more at that helper. Nothing, if
/// there is no such amount between the least and the limit for the first node that is
/// tried.
pub fn just_afforded(fitted: &Fitted, random: &mut Random) -> Option<[Table; 2]> {
    let Tried {
        helper,
        total,
        most,
    } = tried(fitted, random)?;
    let decides = helper.least < most && most < fitted.limit().min(total);
    decides.then(|| {
        let within = with_own(&fitted.table, helper.node, most, random);
        let above = with_own(&within, helper.node, most + 1, random);
        [within, above]
    })
}

/// The table in which some helper holds so much of its own that its helpand's family
/// affords it only as its hold is capped at the limit. Nothing, if there is no such
/// amount for the first node that is tried.
pub fn capped(fitted: &Fitted, random: &mut Random) -> Option<Table> {
    let Tried {
        helper,
        total,
        most,
    } = tried(fitted, random)?;
    let limit = fitted.limit();
    let decides = helper.least < limit && limit <= most && most < total;
    decides.then(|| {
        let held = random.amount(most + 1, total);
        with_own(&fitted.table, helper.node, held, random)
    })
}

/// Some helper in a tree that is needed, how many particles its subdomain has, and the
/// most that its hold may be for its helpand's family to afford all holds.
struct Tried {
    helper: Helper,
    total: u64,
    most: u64,
}

fn tried(fitted: &Fitted, random: &mut Random) -> Option<Tried> {
    let Fitted {
        helpands, table, ..
    } = fitted;
    let (totals, limit) = (&table.totals(), fitted.limit());
    if totals.iter().all(|&total| total <= limit) {
        return None;
    }
    let weighing = Weighing {
        helpands,
        totals,
        limit,
    };
    let node = random.place(table.nodes());
    let shares = shares(&weighing, table, RULES);
    let family = Undivided::new(helpands[node] as usize, &shares, &weighing, table);
    let helper = *family.helpers.iter().find(|helper| helper.node == node)?;
    Some(Tried {
        helper,
        total: totals[node],
        // What the others leave to this one.
        most: (family.room() + helper.hold).checked_sub(family.load_with_holds())?,
    })
}

/// The table in which this node holds so many of its own subdomain's particles. Those
/// that it has too many go to another node, and those that it lacks come from others.
fn with_own(table: &Table, node: usize, count: u64, random: &mut Random) -> Table {
    let mut next = table.clone();
    let own = table.counts[node][node];
    let mut others: Vec<usize> = (0..table.nodes()).filter(|&other| other != node).collect();
    random.shuffle(&mut others);
    next.counts[node][node] = count;
    next.counts[others[0]][node] += own.saturating_sub(count);
    let mut missing = count.saturating_sub(own);
    for other in others {
        let more = missing.min(next.counts[other][node]);
        next.counts[other][node] -= more;
        missing -= more;
    }
    next
}
