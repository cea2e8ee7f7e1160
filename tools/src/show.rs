//! A record as text that `write` takes: a line of what follows from it, which
//! `write` passes over, and then its table.

use crate::record::{explained, sheet_in, Record};
use crate::table::{Form, MOVES, PLAN, SHEET};
use crate::tolerance::to_percent;
use firrozka::{read_moves, read_plan, read_sheet, Refusal};

/// The record in these bytes as text, or why the library refuses it.
pub fn show(record: Record, bytes: &[u8]) -> Result<String, String> {
    let shown = match record {
        Record::Sheet => sheet("sheet", bytes),
        Record::Plan => plan(bytes),
        Record::Moves => moves(bytes),
    };
    shown.map_err(|refusal| explained(refusal, bytes))
}

/// The archive in these bytes as the table of its sheet, or why the library
/// refuses it.
pub fn show_archive(bytes: &[u8]) -> Result<String, String> {
    let shown = sheet_in(bytes).and_then(|held| sheet("archive", &held));
    shown.map_err(|refusal| explained(refusal, bytes))
}

/// The table of a sheet, which was read from a record of this name.
fn sheet(name: &str, bytes: &[u8]) -> Result<String, Refusal> {
    let sheet = read_sheet(bytes)?;
    let (n, e, p, limit) = (sheet.n, sheet.e, sheet.p, sheet.limit);
    let percent = to_percent(sheet.t);
    let cells = sheet.entries();
    Ok(table(
        &format!("{name}: cells {e}, particles {p}, limit {limit}"),
        &format!("nodes {n} tolerance {percent} percent"),
        &SHEET,
        cells.map(|cell| format!("{},{},{}", cell.holder, cell.subdomain, cell.count)),
    ))
}

fn plan(bytes: &[u8]) -> Result<String, Refusal> {
    let plan = read_plan(bytes)?;
    let (n, kind, limit) = (plan.n, plan.kind, plan.limit);
    let nodes = plan.nodes();
    Ok(table(
        &format!("plan: nodes {n}, {}", kind.word()),
        &format!("kind {} limit {limit}", kind.number()),
        &PLAN,
        nodes.map(|node| format!("{},{},{}", node.node, node.helpand, node.share)),
    ))
}

fn moves(bytes: &[u8]) -> Result<String, Refusal> {
    let moves = read_moves(bytes)?;
    let entries = moves.entries();
    Ok(table(
        &format!("moves: {}", moves.e),
        &format!("nodes {}", moves.n),
        &MOVES,
        entries.map(|entry| {
            let (subdomain, from, to) = (entry.subdomain, entry.sender, entry.receiver);
            format!("{subdomain},{from},{to},{}", entry.count)
        }),
    ))
}

fn table(about: &str, head: &str, form: &Form, rows: impl Iterator<Item = String>) -> String {
    let mut text = format!("# {about}\n{head}\n{}\n", form.columns);
    rows.for_each(|row| text += &(row + "\n"));
    text
}
