//! Two steps with the same old plan that differ in one particle. It is of one
//! subdomain in the first and of another in the second, or one node holds it in the
//! first and another in the second. The first is just within a bound, the second
//! just above.

use super::afforded::just_afforded;
use super::setting::Setting;
use super::tight::tight_set;
use super::totals::share_out;
use super::{holders, some_tree_plan, step, until, Fitted, Size, Step};
use crate::random::Random;
use crate::records::plans;
use crate::reference::table::Table;

pub struct Pair {
    pub within: Step,
    pub above: Step,
}

impl Pair {
    pub fn either(self, random: &mut Random) -> Step {
        match random.chance(1, 2) {
            true => self.within,
            false => self.above,
        }
    }
}

/// Both need a tree; the old tree holds in the first and not in the second.
pub fn tree(size: Size, random: &mut Random) -> Pair {
    until(|| {
        let setting = Setting::of_many(size, random);
        let helpands = plans::tree(setting.n as u32, random);
        let tight = tight_set(&setting, &helpands, random)?;
        let limit = setting.limit();
        if tight.totals.iter().all(|&total| total <= limit) {
            return None;
        }
        let table = holders::spread(&tight.totals, &helpands, size, random);
        let next = with_one_more(&table, &tight.subdomains, random)?;
        Some(along(&helpands, [table, next], setting.t, random))
    })
}

/// A total is at the limit and none above in the first: primary. In the second
/// a tree is needed, and the old one may hold or not.
pub fn primary(size: Size, random: &mut Random) -> Pair {
    until(|| {
        let setting = Setting::of_many(size, random);
        let limit = setting.limit();
        let full = random.place(setting.n);
        let rest = setting.p.checked_sub(limit)?;
        let mut totals = share_out(rest, setting.n - 1, limit, random);
        totals.insert(full, limit);
        let helpands = plans::tree(setting.n as u32, random);
        let table = holders::spread(&totals, &helpands, size, random);
        let next = with_one_more(&table, &[full], random)?;
        Some(along(&helpands, [table, next], setting.t, random))
    })
}

/// Both are kept. Some family affords its helpers' holds in the first, with nothing
/// to spare, and not in the second, in which a helper itself holds one particle more
/// of its own subdomain.
pub fn holds(size: Size, random: &mut Random) -> Pair {
    until(|| {
        let fitted = Fitted::some(size, random);
        let tables = just_afforded(&fitted, random)?;
        Some(along(&fitted.helpands, tables, fitted.setting.t, random))
    })
}

/// The steps with these tables and an old plan of this tree.
fn along(helpands: &[u32], tables: [Table; 2], t: u32, random: &mut Random) -> Pair {
    let old = some_tree_plan(helpands, random);
    let [within, above] = tables.map(|table| step(&table, t, &old));
    Pair { within, above }
}

/// The table with one particle of some other subdomain in one of these.
fn with_one_more(table: &Table, these: &[usize], random: &mut Random) -> Option<Table> {
    let nodes = 0..table.nodes();
    let cells = nodes
        .clone()
        .flat_map(|holder| nodes.clone().map(move |subdomain| (holder, subdomain)));
    let others: Vec<(usize, usize)> = cells
        .filter(|&(holder, subdomain)| {
            table.counts[holder][subdomain] > 0 && !these.contains(&subdomain)
        })
        .collect();
    if others.is_empty() {
        return None;
    }
    let (holder, subdomain) = random.one_of(&others);
    let mut next = table.clone();
    next.counts[holder][subdomain] -= 1;
    next.counts[holder][random.one_of(these)] += 1;
    Some(next)
}
