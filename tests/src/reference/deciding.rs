//! "Deciding": which of the three kinds of plan a step gets.

use super::keeping::{self, Rules};
use super::plan::Plan;
use super::rebuilding::rebuild;
use super::sheet::Sheet;
use super::table::Table;
use super::weighing::Weighing;
use super::words::to_word;

/// The plan for a sheet and an old tree, with shares by these rules if it is kept.
pub fn plan(sheet: &Sheet, old_tree: Option<&[u32]>, rules: Rules) -> Plan {
    let table = Table::of(sheet);
    let totals = table.totals();
    let limit = u64::from(sheet.limit());
    // "if every Pn is at most L, the plan is kind 0 whatever the old tree"
    if totals.iter().all(|&total| total <= limit) {
        return primary(sheet);
    }
    // "A tree that holds is kept (kind 1)."
    if let Some(helpands) = old_tree {
        let weighing = Weighing {
            helpands,
            totals: &totals,
            limit,
        };
        if weighing.holds() {
            let shares = keeping::shares(&weighing, &table, rules);
            return written(sheet, 1, helpands.to_vec(), &shares);
        }
    }
    let (helpands, shares) = rebuild(&totals, old_tree);
    written(sheet, 2, helpands, &shares)
}

/// "A root's helpand is its own number and its share is 0." "In kind 0 every
/// node is such a root."
fn primary(sheet: &Sheet) -> Plan {
    let shares = vec![0; sheet.n as usize];
    written(sheet, 0, (0..sheet.n).collect(), &shares)
}

/// "A plan written carries L as its limit."
fn written(sheet: &Sheet, kind: u32, helpands: Vec<u32>, shares: &[u64]) -> Plan {
    Plan {
        n: sheet.n,
        kind,
        limit: sheet.limit(),
        helpands,
        shares: shares.iter().map(|&share| to_word(share)).collect(),
    }
}
