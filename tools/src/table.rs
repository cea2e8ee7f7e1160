//! Records as tables: a head line with the sizes, a header line with the names of
//! the columns, and a line for each entry. What `show` prints, this module reads.
//!
//! Lines stand in any order, since an entry says itself where it belongs. The
//! header line may be left away.

use crate::record::Record;
use crate::text::{Fault, Piece};
use crate::tolerance::{of_percent, to_percent};
use std::collections::BTreeMap;

/// How a record looks as a table: its head line, in which names and numbers take
/// turns, and its columns.
pub struct Form {
    pub head: &'static str,
    pub columns: &'static str,
}

pub const SHEET: Form = Form {
    head: "nodes N tolerance T percent",
    columns: "holder,subdomain,count",
};

pub const PLAN: Form = Form {
    head: "kind K limit L",
    columns: "node,helps,share",
};

pub const MOVES: Form = Form {
    head: "nodes N",
    columns: "subdomain,from,to,count",
};

/// "at most 1,000,000,000" particles on a sheet.
const MOST_PARTICLES: u64 = 1_000_000_000;

/// What a call says of a sheet.
#[derive(Clone, Copy, Debug, PartialEq, Eq)]
pub struct Sizes {
    pub n: u32,
    pub t: u32,
    /// Whether a table without a count is meant.
    pub empty: bool,
}

/// The words of the sheet in this table. The call may give the sizes.
pub fn sheet(text: &str, given: Option<Sizes>) -> Result<Vec<u32>, String> {
    let mut lines = Piece::lines(text).peekable();
    let is_head = |line: &Piece| line.words().next().map_or(false, |word| word.is("nodes"));
    let [n, t] = match given {
        None => sheet_sizes(lines.next())?,
        Some(sizes) => match lines.next_if(is_head) {
            Some(line) => agreed(line, [sizes.n, sizes.t])?,
            None => [sizes.n, sizes.t],
        },
    };
    // N by itself: a cell is made of nodes below 64.
    Record::Sheet.of_words(&[n, t, 0])?;
    let rows = SHEET.rows(lines)?;
    if rows.is_empty() && given.map_or(false, |sizes| !sizes.empty) {
        let what = "there is no count in it; --empty makes a sheet without particles";
        return Err(String::from(what));
    }
    let counts = counts(n, &rows)?;
    Ok(record(
        &[n, t, counts.len() as u32],
        counts.keys(),
        counts.values(),
    ))
}

/// N and t in the head line of a sheet.
fn sheet_sizes(line: Option<Piece>) -> Result<[u32; 2], Fault> {
    let [n, percent] = SHEET.sizes(line)?;
    Ok([n.number()?, of_percent(percent)?])
}

/// The sizes, if the head line and the call agree.
fn agreed(line: Piece, given: [u32; 2]) -> Result<[u32; 2], Fault> {
    let [n, t] = given;
    match sheet_sizes(Some(line))? {
        sizes if sizes == given => Ok(given),
        _ => {
            let percent = to_percent(t);
            Err(line.fault(format!("this line differs from -n {n} -t {percent}")))
        }
    }
}

/// The counts by cell: "A cell is holder × 64 + subdomain." Counts of 0 are left
/// out: "Cells absent from the sheet count as 0."
fn counts(n: u32, rows: &[[Piece; 3]]) -> Result<BTreeMap<u32, u32>, Fault> {
    let mut counts = BTreeMap::new();
    let mut total = 0;
    for [holder, subdomain, count] in rows {
        let cell = holder.below(n)? * 64 + subdomain.below(n)?;
        let number = count.number()?;
        if counts.insert(cell, number).is_some() {
            return Err(holder.fault("this holder and subdomain stand above already"));
        }
        total += u64::from(number);
        if total > MOST_PARTICLES {
            return Err(count.fault("this count brings the total above 1,000,000,000"));
        }
    }
    counts.retain(|_, count| *count > 0);
    Ok(counts)
}

/// The words of the plan in this table: N is the number of its lines.
pub fn plan(text: &str) -> Result<Vec<u32>, String> {
    let mut lines = Piece::lines(text);
    let [kind, limit] = PLAN.numbers(lines.next())?;
    let rows: Vec<[Piece; 3]> = PLAN.rows(lines)?;
    let n = rows.len() as u32;
    let (mut helpands, mut shares) = (BTreeMap::new(), BTreeMap::new());
    for [node, helps, share] in rows {
        let number = node.number()?;
        if number >= n {
            let what = format!("{n} lines are for nodes 0 to {}", n - 1);
            return Err(node.fault(what).into());
        }
        if helpands.insert(number, helps.below(n)?).is_some() {
            return Err(node.fault("this node stands above already").into());
        }
        shares.insert(number, share.number()?);
    }
    Ok(record(
        &[n, kind, limit],
        helpands.values(),
        shares.values(),
    ))
}

/// The words of the moves in this table: "A route is subdomain × 4,096 + sender ×
/// 64 + receiver."
pub fn moves(text: &str) -> Result<Vec<u32>, String> {
    let mut lines = Piece::lines(text);
    let [n] = MOVES.numbers(lines.next())?;
    // N by itself: a route is made of nodes below 64.
    Record::Moves.of_words(&[n, 0])?;
    let mut counts = BTreeMap::new();
    for [subdomain, from, to, count] in MOVES.rows(lines)? {
        let route = subdomain.below(n)? * 4_096 + from.below(n)? * 64 + to.below(n)?;
        if counts.insert(route, count.number()?).is_some() {
            return Err(subdomain.fault("this move stands above already").into());
        }
    }
    Ok(record(
        &[n, counts.len() as u32],
        counts.keys(),
        counts.values(),
    ))
}

/// "Sizes stand first, then two parallel arrays."
fn record<'a>(
    sizes: &'a [u32],
    first: impl Iterator<Item = &'a u32>,
    second: impl Iterator<Item = &'a u32>,
) -> Vec<u32> {
    sizes.iter().chain(first).chain(second).copied().collect()
}

impl Form {
    /// The K sizes of the head line, as they stand there.
    fn sizes<'a, const K: usize>(&self, line: Option<Piece<'a>>) -> Result<[Piece<'a>; K], Fault> {
        let head = self.head;
        let line = line.unwrap_or_else(|| Piece::first(""));
        let words: Vec<Piece> = line.words().collect();
        let mut names = words.iter().step_by(2).zip(head.split(' ').step_by(2));
        if words.len() != head.split(' ').count() || !names.all(|(word, name)| word.is(name)) {
            let what = format!("the first line is {}, not '{head}'", line.quoted());
            return Err(line.fault(what));
        }
        let sizes: Vec<Piece> = words.into_iter().skip(1).step_by(2).collect();
        Ok(sizes.try_into().expect("the head line has K sizes"))
    }

    /// The K sizes of the head line, where all are numbers.
    fn numbers<const K: usize>(&self, line: Option<Piece>) -> Result<[u32; K], Fault> {
        let mut numbers = [0; K];
        for (number, size) in numbers.iter_mut().zip(self.sizes::<K>(line)?) {
            *number = size.number()?;
        }
        Ok(numbers)
    }

    /// The K fields of each further line.
    fn rows<'a, const K: usize>(
        &self,
        lines: impl Iterator<Item = Piece<'a>>,
    ) -> Result<Vec<[Piece<'a>; K]>, Fault> {
        let mut rows = Vec::new();
        for (place, line) in lines.enumerate() {
            let named = |c: char| c.is_alphabetic() || c == '"';
            if place == 0 && line.text.starts_with(named) {
                self.check_header(line)?;
            } else {
                rows.push(self.fields(line)?);
            }
        }
        Ok(rows)
    }

    fn check_header(&self, line: Piece) -> Result<(), Fault> {
        let columns = self.columns;
        let names = line
            .split(|c| c == ',')
            .map(|name| name.text.to_lowercase());
        if names.eq(columns.split(',')) {
            return Ok(());
        }
        let line_is = format!("the header line is {}", line.quoted());
        Err(line.fault(format!("{line_is}, not '{columns}'; it may be left away")))
    }

    fn fields<'a, const K: usize>(&self, line: Piece<'a>) -> Result<[Piece<'a>; K], Fault> {
        let line_is = format!("a line is {}, with commas between", self.columns);
        line.parts(line.split(|c| c == ','), line_is)
    }
}
