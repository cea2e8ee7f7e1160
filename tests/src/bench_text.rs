//! "The bench program": what it prints.

use crate::implementations::{Planned, REFERENCE};
use crate::records::to_words;
use crate::reference::moves::{self, parts};
use crate::reference::plan;
use crate::reference::sheet;
use crate::reference::table::Table;
use crate::reference::transfer::due;
use std::fmt::Write;

/// What the program prints for this input.
pub fn bench(input: &[u8]) -> String {
    match split(input) {
        Ok((sheet, old)) => text(sheet, old),
        Err(refusal) => refused(refusal),
    }
}

/// "Standard input is a sheet followed at once by an old plan or nothing. The
/// sheet is the first 4 × (3+2E) bytes, or all the input if that is shorter; a
/// header refused by 1 to 4 ends the run with that number."
pub fn split(input: &[u8]) -> Result<(&[u8], &[u8]), u32> {
    // These four look at the header only.
    if let Err(refusal @ 1..=4) = sheet::read(input) {
        return Err(refusal);
    }
    let e = to_words(&input[..12])[2] as usize;
    let length = 4 * (3 + 2 * e);
    Ok(input.split_at(length.min(input.len())))
}

/// What the program prints for this sheet and this old plan.
pub fn text(sheet: &[u8], old: &[u8]) -> String {
    match REFERENCE.planned(sheet, old) {
        Ok(planned) => lines(sheet, &planned).expect("what was planned is accepted"),
        Err(refusal) => refused(refusal),
    }
}

/// "A refusal prints only `refused 5` with its number."
fn refused(refusal: u32) -> String {
    format!("refused {refusal}\n")
}

fn lines(sheet: &[u8], planned: &Planned) -> Result<String, u32> {
    let totals = Table::of(&sheet::read(sheet)?).totals();
    let plan = plan::read(&planned.plan)?;
    let moves = moves::read(&planned.moves)?;
    // "Line 1: kind and L."
    let mut text = format!("kind {} limit {}\n", plan.kind, plan.limit);
    // "Node lines: node, helpand, share, amount of its own subdomain."
    let due = due(&plan, &totals);
    for node in 0..totals.len() {
        let (helpand, share) = (plan.helpands[node], plan.shares[node]);
        let own = due.counts[node][node];
        line(
            &mut text,
            format_args!("node {node} helps {helpand} share {share} own {own}"),
        );
    }
    // "Move lines: subdomain, sender, receiver, particles."
    for (&route, &count) in moves.routes.iter().zip(&moves.counts) {
        let [subdomain, sender, receiver] = parts(route);
        line(
            &mut text,
            format_args!("move {subdomain} from {sender} to {receiver} count {count}"),
        );
    }
    Ok(text)
}

fn line(text: &mut String, line: std::fmt::Arguments) {
    writeln!(text, "{line}").expect("a string takes any text");
}
