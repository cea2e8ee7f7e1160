//! Calls on tallies that no opening and calls can have given: the caller owns their
//! memory. The answer and the whole tally are compared with what is defined for them.

use super::{changes, compare, damage, lent, shown, Change, Tally, Way};
use crate::answers::TalliedAnswer;
use crate::bounds::{MOST_LIMIT, MOST_PARTICLES};
use crate::implementations::{Implementation, ARCHIVE};
use crate::random::Random;
use crate::reference::tree::helpers;
use crate::reference::unopened::{self, reasons, Reason};
use crate::settings::{seed, setting, SEED};

/// A call, with the tally before it and behind it.
struct Called<'a> {
    change: &'a Change,
    before: &'a Tally,
    after: &'a Tally,
    answer: TalliedAnswer,
}

/// Whether a call is of some sort.
type Corner = (&'static str, fn(&Called) -> bool);

/// What every run has to meet.
const CORNERS: [Corner; 16] = [
    ("58 for N alone", |it| it.reasons() == [Reason::Nodes]),
    ("58 for a node alone", |it| it.reasons() == [Reason::Node]),
    ("58 for a count of 0 alone", |it| {
        it.reasons() == [Reason::Count]
    }),
    ("58 for a helpand alone", |it| {
        it.reasons() == [Reason::Helpand]
    }),
    ("58 for a cell alone", |it| it.reasons() == [Reason::Cell]),
    ("58 for a total alone", |it| it.reasons() == [Reason::Total]),
    ("N 0", |it| it.before.n == 0),
    ("59", |it| it.answer.refusal == 59),
    ("60", |it| it.answer.refusal == 60),
    ("one node accepted", |it| it.accepted() && it.before.n == 1),
    ("something behind N left", |it| {
        it.accepted() && it.before.n < 64 && it.before.leasts[63] != 0
    }),
    ("a chain that goes round, with leasts renewed", |it| {
        it.accepted() && it.goes_round() && it.renewed() > 1
    }),
    ("removing from a total above the maximum", |it| {
        it.accepted() && it.change.way == Way::Remove && it.after.total > MOST_PARTICLES
    }),
    ("a limit that no sheet has", |it| {
        it.accepted() && it.before.limit > MOST_LIMIT
    }),
    ("spares beyond 32 bits", |it| {
        it.accepted() && it.spares_much()
    }),
    ("a least above the limit elsewhere", |it| {
        it.accepted() && it.answer.holds == 0 && it.renewed() == 0
    }),
];

impl Called<'_> {
    fn accepted(&self) -> bool {
        self.answer.refusal == 0
    }

    fn reasons(&self) -> Vec<Reason> {
        reasons(self.before, self.change)
    }

    fn renewed(&self) -> usize {
        let leasts = self.before.leasts.iter().zip(&self.after.leasts);
        leasts.filter(|(a, b)| a != b).count()
    }

    /// Whether the chain of helpands from the subdomain reaches no root.
    fn goes_round(&self) -> bool {
        let helpand = |node: usize| self.before.helpands[node] as usize;
        let subdomain = self.change.subdomain as usize;
        let end = (0..self.before.n).fold(subdomain, |node, _| helpand(node));
        helpand(end) != end
    }

    /// Whether the subdomain's helpers spare more than a word holds.
    fn spares_much(&self) -> bool {
        let (tally, owner) = (self.after, self.change.subdomain as usize);
        let helpers = helpers(&tally.helpands[..tally.n as usize], owner);
        let spare = |node: usize| u64::from(tally.limit.saturating_sub(tally.leasts[node]));
        helpers.into_iter().map(spare).sum::<u64>() > u64::from(u32::MAX)
    }
}

/// The archive's run, on so many tallies unless FIRROZKA_ROUNDS says otherwise. Panics
/// if something is wrong or missing.
pub fn test(usual: usize) {
    let tallies = setting("FIRROZKA_ROUNDS", usual);
    let met = run(&ARCHIVE, seed(), tallies).unwrap_or_else(|wrong| panic!("{wrong}"));
    let corners = CORNERS.iter().zip(met);
    for ((what, _), times) in corners {
        println!("{times} calls with {what}");
        assert!(times > 0 || tallies < usual, "no call with {what}");
    }
}

/// Panics unless a short run reports this one, who does something else on such tallies.
pub fn must_report(wrong: &Implementation) {
    let reported = run(wrong, SEED, 6_000).is_err();
    assert!(reported, "{}: not reported", wrong.name);
}

/// Compares what the one under test does to so many tallies with what should be done.
/// Gives how often each corner was met, or the first thing that is wrong.
pub fn run(tested: &Implementation, seed: u64, tallies: usize) -> Result<Vec<usize>, String> {
    let mut met = vec![0; CORNERS.len()];
    for index in 0..tallies {
        let random = &mut Random::at(seed, index as u64);
        let mut tally = damage::some(random);
        for place in 0..4 {
            let change = changes::some(&tally, random);
            let called = call(tested, &tally, &change, place);
            let (answer, after) = called.map_err(|wrong| {
                let case = format!("{change:?} on {}", shown(&tally));
                format!(
                    "{}, FIRROZKA_SEED={seed}, tally {index}: {wrong}\n  {case}",
                    tested.name
                )
            })?;
            let called = Called {
                change: &change,
                before: &tally,
                after: &after,
                answer,
            };
            for ((_, is_met), times) in CORNERS.iter().zip(&mut met) {
                *times += usize::from(is_met(&called));
            }
            tally = after;
        }
    }
    Ok(met)
}

/// One call: the answer and the tally behind it, or what is wrong.
fn call(
    tested: &Implementation,
    tally: &Tally,
    change: &Change,
    place: usize,
) -> Result<(TalliedAnswer, Tally), String> {
    let mut expected = tally.clone();
    let answer = unopened::call(&mut expected, change);
    let (got, after) = lent::lend(tally, place, |tally| change.by(tested, tally))?;
    if got != answer {
        return Err(format!("expected {answer:?}, got {got:?}"));
    }
    compare(&expected, &after)?;
    Ok((answer, after))
}
