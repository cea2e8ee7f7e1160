//! Sheets and plans that a tally is opened from, all of them accepted.

use crate::calls::drafts;
use crate::random::Random;
use crate::records::plans::{self, Form};
use crate::records::{sheets, Record};
use crate::reference::table::Table;
use crate::reference::tallying::Open;

/// What a tally is opened from, and the tally that the second implementation opens.
pub struct Opening {
    pub sheet: Vec<u8>,
    pub plan: Vec<u8>,
    pub open: Open,
}

/// Some opening: on a step with an old tree, on any sheet and any tree, or on one whose
/// leasts are above 0 far up the tree.
pub fn some(random: &mut Random) -> Opening {
    loop {
        let [sheet, plan] = match random.below(8) {
            0..=4 => drafts::weigh(random).records,
            5 => any(random),
            _ => tense(random),
        }
        .map(|record| record.bytes());
        if let Ok(open) = Open::new(&sheet, &plan) {
            return Opening { sheet, plan, open };
        }
    }
}

/// Any sheet with any tree of as many nodes. One node has none.
fn any(random: &mut Random) -> [Record; 2] {
    let sheet = sheets::build(random);
    let n = sheet.words[0];
    let plan = match n {
        1 => plans::build(random),
        _ => some_plan(&plans::tree(n, random), random),
    };
    [sheet, plan]
}

/// Nodes of which each but the leaves can spare little more than its helpand needs: a
/// change of one total reaches far up the tree, often to the root.
fn tense(random: &mut Random) -> [Record; 2] {
    let any = random.between(2, 64);
    let n = random.one_of(&[2, 3, 4, 5, 8, any, 63, 64]);
    let mut order: Vec<u32> = (0..n).collect();
    random.shuffle(&mut order);
    let form = random.one_of(&[Form::Chain, Form::Chain, Form::Random]);
    let helpands = plans::tree_over(&order, form, random);
    let average = random.one_of(&[1_000, 15_000, 15_000_000]);
    let table = tense_table(&helpands, average, random);
    let sheet = sheets::of(&table.sheet(1).bytes());
    [sheet, some_plan(&helpands, random)]
}

/// Every node but the leaves owns as many particles as it and the others have on
/// average; leaves own half as many. All are held by their owners and one other node.
pub fn tense_table(helpands: &[u32], average: u64, random: &mut Random) -> Table {
    let n = helpands.len();
    let mut table = Table::empty(n);
    for owner in 0..n {
        let is_leaf = !helpands.contains(&(owner as u32));
        let total = average / if is_leaf { 2 } else { 1 } + random.amount(0, average / 10_000);
        let part = random.amount(1, total / 2);
        table.counts[random.place(n)][owner] += part;
        table.counts[owner][owner] += total - part;
    }
    table
}

/// A plan of kind 1 or 2 with this tree and any limit and shares, which play no part.
fn some_plan(helpands: &[u32], random: &mut Random) -> Record {
    plans::over(random.between(1, 2), helpands, random)
}
