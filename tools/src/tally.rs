//! A tally from files: opened from a sheet and a plan, the calls of a text made one
//! after the other, and what they led to.

use crate::step::{least_text, of_tree, refused, verdict, Source};
use crate::text::{Fault, Piece};
use firrozka::{Refusal, Tally};
use std::fmt;

/// What a line of the text is.
const FORM: &str = "add HOLDER SUBDOMAIN COUNT, or remove HOLDER SUBDOMAIN COUNT";

/// A call on the tally: "adds or removes a count in a cell".
#[derive(Clone, Copy, Debug, PartialEq, Eq)]
pub struct Call {
    adds: bool,
    holder: u32,
    subdomain: u32,
    count: u32,
}

impl fmt::Display for Call {
    fn fmt(&self, f: &mut fmt::Formatter) -> fmt::Result {
        let verb = if self.adds { "add" } else { "remove" };
        let (holder, subdomain, count) = (self.holder, self.subdomain, self.count);
        write!(f, "{verb} {holder} {subdomain} {count}")
    }
}

/// The calls of a text, a line for each.
pub fn calls(text: &str) -> Result<Vec<Call>, String> {
    let calls: Result<_, Fault> = Piece::lines(text).map(call).collect();
    Ok(calls?)
}

fn call(line: Piece) -> Result<Call, Fault> {
    let line_is = || format!("a line is {FORM}");
    let [verb, holder, subdomain, count] = line.parts(line.words(), line_is())?;
    let adds = verb.is("add");
    if !adds && !verb.is("remove") {
        return Err(verb.fault(line_is()));
    }
    Ok(Call {
        adds,
        holder: holder.number()?,
        subdomain: subdomain.number()?,
        count: count.number()?,
    })
}

/// *Open tally*.
pub fn opened(sheet: &Source, plan: &Source) -> Result<Tally, String> {
    let (_, tally) = of_tree(sheet, plan, Tally::open)?;
    Ok(tally)
}

/// What is said to the opening and to each call, a line for each, and then the tally.
/// A call that is refused alters nothing, and the next is made.
pub fn tallied(mut tally: Tally, calls: &[Call]) -> String {
    let mut text = format!("open: {}\n", verdict(tally.holds()));
    for call in calls {
        text += &format!("{call}: {}\n", answer(&mut tally, *call));
    }
    text + &shown(&tally)
}

/// What the tally says to a call.
fn answer(tally: &mut Tally, call: Call) -> String {
    let (holder, subdomain, count) = (call.holder, call.subdomain, call.count);
    let holds = match call.adds {
        true => tally.add(holder, subdomain, count),
        false => tally.remove(holder, subdomain, count),
    };
    match holds {
        Ok(holds) => String::from(verdict(holds)),
        Err(refusal) => refused(refusal, &detail(tally, call, refusal)),
    }
}

/// What the tally has where a call is refused.
fn detail(tally: &Tally, call: Call, refusal: Refusal) -> String {
    match (refusal, tally.count(call.holder, call.subdomain)) {
        (Refusal::TallyRemoves, Some(count)) => format!("it has {count}"),
        (Refusal::TallyTotal, _) => format!("it is {}", tally.total()),
        _ => format!("N is {}", tally.n()),
    }
}

/// The limit, the total, and a line for each node.
fn shown(tally: &Tally) -> String {
    let limit = tally.limit();
    let mut text = format!("limit {limit} total {}\n", tally.total());
    let nodes = tally.totals().iter().zip(tally.leasts()).enumerate();
    for (node, (total, least)) in nodes {
        text += &format!("node {node} total {total} {}\n", least_text(*least, limit));
    }
    text
}
