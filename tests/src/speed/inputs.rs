//! Sheets and old plans for each outcome. Every input is asked whether it has
//! the outcome that it is meant for.

use super::kept::{self, Rest};
use crate::implementations::REFERENCE;
use crate::random::Random;
use crate::records::plans::{self, Form};
use crate::reference::keeping::{hold_or_least, Undivided};
use crate::reference::plan;
use crate::reference::table::Table;
use crate::steps::Step;
use crate::tally::openings::tense_table;

/// The tolerance of all sheets but tense ones, in tenths of a percent.
pub const TOLERANCE: u32 = 100;

/// How many particles a node has on average.
const AVERAGE: u64 = 100_000;

/// How much of a sheet is filled.
#[derive(Clone, Copy, Debug, PartialEq, Eq)]
pub enum Filling {
    /// All N × N cells.
    Dense,
    /// About 3N cells: of each subdomain, what its owner, one of its helpers
    /// and one other node hold; in a kept tree, what its family and one other
    /// node hold.
    Sparse,
}

/// What a step comes to.
#[derive(Clone, Copy, Debug, PartialEq, Eq)]
pub enum Outcome {
    Primary,
    Kept(Form, Rest),
    /// Rebuilt, with an old tree that does not hold or with none.
    Rebuilt(Option<Form>),
    /// Kept, a chain with a small tolerance, so that one particle more in the deepest
    /// node's subdomain changes all leasts up to the root's.
    Tense,
    /// Primary, and the sheet is joined with another, which is filled so.
    Joined(Filling),
}

pub const FILLINGS: [Filling; 2] = [Filling::Dense, Filling::Sparse];

pub const OUTCOMES: [Outcome; 12] = [
    Outcome::Primary,
    Outcome::Kept(Form::Chain, Rest::Small),
    Outcome::Kept(Form::Chain, Rest::Large),
    Outcome::Kept(Form::Star, Rest::Small),
    Outcome::Kept(Form::Star, Rest::Large),
    Outcome::Kept(Form::Random, Rest::Small),
    Outcome::Kept(Form::Random, Rest::Large),
    Outcome::Rebuilt(None),
    Outcome::Rebuilt(Some(Form::Random)),
    Outcome::Tense,
    Outcome::Joined(Filling::Dense),
    Outcome::Joined(Filling::Sparse),
];

impl Outcome {
    pub fn kind(self) -> u32 {
        match self {
            Outcome::Primary | Outcome::Joined(_) => 0,
            Outcome::Kept(..) | Outcome::Tense => 1,
            Outcome::Rebuilt(_) => 2,
        }
    }

    /// The form of the old tree, if there is one.
    pub fn form(self) -> Option<Form> {
        match self {
            Outcome::Primary | Outcome::Joined(_) => None,
            Outcome::Kept(form, _) => Some(form),
            Outcome::Tense => Some(Form::Chain),
            Outcome::Rebuilt(form) => form,
        }
    }

    pub fn name(self) -> String {
        match (self, self.form()) {
            (Outcome::Primary, _) => "primary".into(),
            (Outcome::Kept(form, rest), _) => {
                format!("kept, {form:?}, {rest:?} rest").to_lowercase()
            }
            (Outcome::Tense, _) => "chain, from the deepest".into(),
            (Outcome::Joined(filling), _) => format!("with {filling:?}").to_lowercase(),
            (_, Some(_)) => "rebuilt, old tree".into(),
            (_, None) => "rebuilt, no tree".into(),
        }
    }
}

/// The first step of a run that has this outcome.
pub fn step(n: usize, filling: Filling, outcome: Outcome, random: &mut Random) -> Step {
    loop {
        let step = attempt(n, filling, outcome, random);
        if is_met(outcome, &step) {
            return step;
        }
    }
}

/// Whether the step comes to this.
fn is_met(outcome: Outcome, step: &Step) -> bool {
    let planned = REFERENCE.plan(step);
    let plan = plan::read(&planned.plan).expect("the plan is accepted");
    plan.kind == outcome.kind()
        && match outcome {
            Outcome::Kept(form, rest) => {
                let decision = |family: &Undivided| (hold_or_least(family), family.decision());
                let families = step.in_kept_families(decision);
                let (families, decisions): (Vec<_>, Vec<_>) = families.into_iter().unzip();
                rest.is_met(&families) && kept::are_met(form, &decisions)
            }
            Outcome::Tense => {
                let (leasts, _) = REFERENCE.weighed(&step.sheet, &step.old).expect("a tree");
                leasts.iter().all(|&least| 0 < least && least < plan.limit)
            }
            _ => true,
        }
}

fn attempt(n: usize, filling: Filling, outcome: Outcome, random: &mut Random) -> Step {
    let helpands = match outcome.form() {
        Some(form) => tree(n, form, random),
        None => (0..n as u32).collect(),
    };
    let table = match outcome {
        Outcome::Primary | Outcome::Joined(_) => {
            spread(&level(n, random), &helpands, filling, random)
        }
        Outcome::Kept(_, rest) => kept::divided(&helpands, filling, rest, random),
        Outcome::Rebuilt(_) => spread(&uneven(n, random), &helpands, filling, random),
        Outcome::Tense => tense_table(&helpands, AVERAGE, random),
    };
    let t = match outcome {
        Outcome::Tense => 1,
        _ => TOLERANCE,
    };
    let old = match outcome.form() {
        Some(_) => plans::plan(2, 0, &helpands, &vec![0; n]).bytes(),
        None => Vec::new(),
    };
    Step {
        sheet: table.sheet(t).bytes(),
        old,
    }
}

/// The helpands of a tree of this form, over nodes in any order.
fn tree(n: usize, form: Form, random: &mut Random) -> Vec<u32> {
    let mut order: Vec<u32> = (0..n as u32).collect();
    random.shuffle(&mut order);
    plans::tree_over(&order, form, random)
}

/// Totals within a few percent of each other.
pub fn level(n: usize, random: &mut Random) -> Vec<u64> {
    let (low, high) = (AVERAGE - AVERAGE / 40, AVERAGE + AVERAGE / 40);
    (0..n).map(|_| random.amount(low, high)).collect()
}

/// Totals of which some are many times others, and one is about half of all.
fn uneven(n: usize, random: &mut Random) -> Vec<u64> {
    let some = |random: &mut Random| random.amount(1, AVERAGE) * random.amount(1, 100) / 50;
    let mut totals: Vec<u64> = (0..n).map(|_| n as u64 + some(random)).collect();
    totals[random.place(n)] += AVERAGE * n as u64 / 2;
    totals
}

/// The particles of each subdomain given to holders.
fn spread(totals: &[u64], helpands: &[u32], filling: Filling, random: &mut Random) -> Table {
    let mut table = Table::empty(totals.len());
    for (subdomain, &total) in totals.iter().enumerate() {
        let holders = holders(subdomain, helpands, filling, random);
        // Most stays with the first, who owns them; everybody has one at least.
        let others = holders.len() as u64 - 1;
        let most = (total / 2 / others.max(1)).max(1);
        let mut left = total;
        for &holder in &holders[1..] {
            let piece = random.amount(1, most);
            table.counts[holder][subdomain] += piece;
            left -= piece;
        }
        table.counts[subdomain][subdomain] += left;
    }
    table
}

/// The holders of one subdomain's particles, its owner first.
fn holders(
    subdomain: usize,
    helpands: &[u32],
    filling: Filling,
    random: &mut Random,
) -> Vec<usize> {
    let n = helpands.len();
    let others = (0..n).filter(|&node| node != subdomain);
    if filling == Filling::Dense {
        return std::iter::once(subdomain).chain(others).collect();
    }
    let helpers: Vec<usize> = others
        .clone()
        .filter(|&node| helpands[node] as usize == subdomain)
        .collect();
    let others: Vec<usize> = others.collect();
    let helper = match helpers[..] {
        [] => random.one_of(&others),
        _ => random.one_of(&helpers),
    };
    vec![subdomain, helper, random.one_of(&others)]
}
