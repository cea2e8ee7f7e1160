//! Steps: planned and printed as the bench program prints them, weighed, and
//! carried out, with their traffic; and sheets joined before a step. What is
//! decided, the library decides.

use crate::record::explained;
use crate::tolerance::to_percent;
use firrozka::{
    carry_out, join_sheets, plan_step, read_moves, read_plan, read_sheet, traffic_text, weigh,
    Moves, Refusal, Sheet, LEAST_BYTES, MOVES_BYTES, NO_PLAN, PLAN_BYTES, SHEET_BYTES,
};
use std::collections::BTreeMap;
use std::fmt::Display;

/// A record that was read, and from where.
pub struct Source<'a> {
    pub name: &'a str,
    pub bytes: &'a [u8],
}

impl<'a> Source<'a> {
    /// What the reader says of it, or what is wrong with it.
    fn read<T>(&self, reader: fn(&'a [u8]) -> Result<T, Refusal>) -> Result<T, String> {
        self.named(reader(self.bytes).map_err(|refusal| explained(refusal, self.bytes)))
    }

    /// What is made of it, or where it is from and what is wrong with it.
    pub fn named<T>(&self, made: Result<T, String>) -> Result<T, String> {
        made.map_err(|what| format!("{}: {what}", self.name))
    }

    /// Why an operation refuses it beside another record, and a detail, if there
    /// is one.
    fn refused(&self, refusal: Refusal, detail: &str) -> String {
        format!("{}: {}", self.name, refused(refusal, detail))
    }
}

/// Why an operation refuses, where each record by itself was accepted, and a detail,
/// if there is one.
pub fn refused(refusal: Refusal, detail: &str) -> String {
    let (number, reason) = (refusal.number(), reason_beside(refusal));
    let mark = if detail.is_empty() { "" } else { ": " };
    format!("refused {number}: {reason}{mark}{detail}")
}

/// The reason in words, where each record by itself was accepted.
fn reason_beside(refusal: Refusal) -> &'static str {
    match refusal {
        Refusal::SheetCount => "the two totals together are above 1,000,000,000",
        _ => refusal.reason(),
    }
}

/// A planned step: its two records, and the bench program's lines.
#[derive(Clone, Debug, PartialEq, Eq)]
pub struct Planned {
    pub plan: Vec<u8>,
    pub moves: Vec<u8>,
    pub text: String,
}

/// *Plan a step*.
pub fn plan(sheet: &Source, old: Option<&Source>) -> Result<Planned, String> {
    let table = sheet.read(read_sheet)?;
    let (mut plan, mut moves) = ([0; PLAN_BYTES], [0; MOVES_BYTES]);
    let step = match old {
        None => plan_step(sheet.bytes, NO_PLAN, &mut plan, &mut moves)
            .map_err(|refusal| sheet.refused(refusal, ""))?,
        Some(old) => {
            let nodes = old_plan(old)?;
            plan_step(sheet.bytes, old.bytes, &mut plan, &mut moves)
                .map_err(|refusal| old.refused(refusal, &beside(nodes, sheet, table.n)))?
        }
    };
    let text = step_text(table, step.plan, step.moves);
    Ok(Planned {
        plan: step.plan.to_vec(),
        moves: step.moves.to_vec(),
        text: text.map_err(|refusal| refusal.to_string())?,
    })
}

/// The N of an old plan. An empty one would be none; an empty file is more likely
/// a mistake.
fn old_plan(old: &Source) -> Result<u32, String> {
    if old.bytes.is_empty() {
        let name = old.name;
        let what = "it is empty and no plan; where there is no old plan, leave it away";
        return Err(format!("{name}: {what}"));
    }
    Ok(old.read(read_plan)?.n)
}

/// What stands in both records, such as the N where these differ.
fn beside(here: impl Display, sheet: &Source, there: impl Display) -> String {
    format!("{here} here, {there} in {}", sheet.name)
}

/// The bench program's lines.
fn step_text(sheet: Sheet, plan: &[u8], moves: &[u8]) -> Result<String, Refusal> {
    let plan = read_plan(plan)?;
    let mut own = totals(sheet);
    for node in plan.nodes() {
        own[node.helpand as usize] -= node.share;
    }
    let mut text = format!("kind {} limit {}\n", plan.kind.number(), plan.limit);
    for (node, own) in plan.nodes().zip(own) {
        let (number, helpand, share) = (node.node, node.helpand, node.share);
        text += &format!("node {number} helps {helpand} share {share} own {own}\n");
    }
    for entry in read_moves(moves)?.entries() {
        let (subdomain, from, to) = (entry.subdomain, entry.sender, entry.receiver);
        text += &format!(
            "move {subdomain} from {from} to {to} count {}\n",
            entry.count
        );
    }
    Ok(text)
}

/// Each Pn: "the sum of all counts for subdomain n, whoever holds them".
fn totals(sheet: Sheet) -> Vec<u32> {
    let mut totals = vec![0; sheet.n as usize];
    for cell in sheet.entries() {
        totals[cell.subdomain as usize] += cell.count;
    }
    totals
}

/// *Weigh*: the limit, the leasts, and what follows for the tree.
pub fn weighed(sheet: &Source, plan: &Source) -> Result<String, String> {
    let mut least = [0; LEAST_BYTES];
    let (table, weighed) = of_tree(sheet, plan, |sheet, plan| weigh(sheet, plan, &mut least))?;
    let limit = table.limit;
    let mut text = format!("limit {limit}\n");
    for (node, least) in weighed.leasts.iter().enumerate() {
        text += &format!("node {node} {}\n", least_text(least, limit));
    }
    // Then the tree holds, but the plan is primary and keeps none.
    let unneeded = totals(table).iter().all(|total| *total <= limit);
    let what = match weighed.holds {
        true if unneeded => "no subdomain is above the limit: no tree is needed",
        holds => verdict(holds),
    };
    Ok(format!("{text}{what}\n"))
}

/// A node's least, and whether it is the reason why a tree does not hold.
pub fn least_text(least: u32, limit: u32) -> String {
    let above = if least > limit {
        " above the limit"
    } else {
        ""
    };
    format!("least {least}{above}")
}

/// Whether a tree holds, in words.
pub fn verdict(holds: bool) -> &'static str {
    match holds {
        true => "the tree holds",
        false => "the tree does not hold",
    }
}

/// The sheet, and what an operation makes of it and of a plan's tree, or what is
/// wrong with these.
pub fn of_tree<'a, T>(
    sheet: &Source<'a>,
    plan: &Source,
    operation: impl FnOnce(&[u8], &[u8]) -> Result<T, Refusal>,
) -> Result<(Sheet<'a>, T), String> {
    let (table, tree) = (sheet.read(read_sheet)?, plan.read(read_plan)?);
    let made = operation(sheet.bytes, plan.bytes).map_err(|refusal| match refusal {
        Refusal::PlanNodesDiffer => plan.refused(refusal, &beside(tree.n, sheet, table.n)),
        _ => plan.refused(refusal, ""),
    })?;
    Ok((table, made))
}

/// *Carry out*: the sheet that follows.
pub fn carried(sheet: &Source, moves: &Source) -> Result<Vec<u8>, String> {
    let mut next = [0; SHEET_BYTES];
    of_moves(sheet, moves, |sheet, moves| {
        carry_out(sheet, moves, &mut next).map(<[u8]>::to_vec)
    })
}

/// *Traffic page*: what each node sends and receives.
pub fn traffic(sheet: &Source, moves: &Source) -> Result<String, String> {
    of_moves(sheet, moves, traffic_text)
}

/// What an operation makes of a sheet and moves, or what is wrong with these.
fn of_moves<T>(
    sheet: &Source,
    moves: &Source,
    operation: impl FnOnce(&[u8], &[u8]) -> Result<T, Refusal>,
) -> Result<T, String> {
    let (table, list) = (sheet.read(read_sheet)?, moves.read(read_moves)?);
    operation(sheet.bytes, moves.bytes).map_err(|refusal| {
        let detail = match refusal {
            Refusal::MovesNodesDiffer => beside(list.n, sheet, table.n),
            _ => too_much(table, list, sheet.name),
        };
        moves.refused(refusal, &detail)
    })
}

/// The first cell that sends more than it has.
fn too_much(sheet: Sheet, moves: Moves, name: &str) -> String {
    let mut sent = BTreeMap::new();
    for entry in moves.entries() {
        *sent.entry((entry.sender, entry.subdomain)).or_insert(0) += u64::from(entry.count);
    }
    let mut held = BTreeMap::new();
    for cell in sheet.entries() {
        held.insert((cell.holder, cell.subdomain), u64::from(cell.count));
    }
    for (cell, sent) in sent {
        let held = held.get(&cell).copied().unwrap_or(0);
        if sent > held {
            let (node, subdomain) = cell;
            return format!(
                "node {node} sends {sent} of subdomain {subdomain}, and has {held} in {name}"
            );
        }
    }
    String::new()
}

/// *Join sheets*: the sheet with the counts of both.
pub fn joined(sheet: &Source, inlet: &Source) -> Result<Vec<u8>, String> {
    let (table, new) = (sheet.read(read_sheet)?, inlet.read(read_sheet)?);
    let mut joined = [0; SHEET_BYTES];
    let joined = join_sheets(sheet.bytes, inlet.bytes, &mut joined).map_err(|refusal| {
        let detail = match refusal {
            Refusal::SheetsDiffer => sizes_beside(new, sheet, table),
            _ => beside(new.p, sheet, table.p),
        };
        inlet.refused(refusal, &detail)
    })?;
    Ok(joined.to_vec())
}

/// The N and the tolerance of both sheets, where these differ.
fn sizes_beside(new: Sheet, sheet: &Source, table: Sheet) -> String {
    let mut differ = Vec::new();
    if new.n != table.n {
        differ.push(format!("nodes {}", beside(new.n, sheet, table.n)));
    }
    if new.t != table.t {
        let [here, there] = [new.t, table.t].map(|t| to_percent(t) + " percent");
        differ.push(format!("tolerance {}", beside(here, sheet, there)));
    }
    differ.join("; ")
}
