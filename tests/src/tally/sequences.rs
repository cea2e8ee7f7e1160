//! Tallies opened, and many calls on each, one after the other: after every call the
//! answer and the whole tally beside those of the second implementation, which works
//! out everything afresh. With few nodes a search by flow says what the answer has to
//! be, and at the end of a sequence *weigh* and another opening say what the leasts are.

use super::openings::{self, Opening};
use super::{changes, compare, has_division, lent, shown, Change, Tally, Way};
use crate::answers::{self, Answer, TalliedAnswer};
use crate::bounds::{MOST_PARTICLES, TOLERANCE};
use crate::coverage::Coverage;
use crate::faults::{holding, pairs};
use crate::implementations::{Implementation, ARCHIVE};
use crate::random::Random;
use crate::reference::sheet;
use crate::reference::tallying::Open;
use crate::reference::unopened;
use crate::settings::{seed, setting, SEED};

/// The refusal numbers of a call.
pub const OF_CALL: [u32; 3] = [58, 59, 60];

/// Up to so many nodes a flow is searched for after each call, and counts are aimed.
const FEW: usize = 8;

/// What a run has met.
pub struct Met {
    coverage: Coverage,
    /// How often each corner was met by a call that was accepted.
    corners: Vec<usize>,
    /// How many tallies *weigh* was asked about at the end.
    weighed: usize,
}

/// A call that was accepted, with the tally and what was said of the tree before it and
/// behind it.
struct Accepted<'a> {
    change: &'a Change,
    tallies: [&'a Tally; 2],
    held: [bool; 2],
}

/// Whether an accepted call is of some sort.
type Corner = (&'static str, fn(&Accepted) -> bool);

/// What every run has to meet.
const CORNERS: [Corner; 15] = [
    ("N 2", |it| it.after().n == 2),
    ("N 63", |it| it.after().n == 63),
    ("N 64", |it| it.after().n == 64),
    ("a tree that gives way", |it| it.held == [true, false]),
    ("a tree that holds again", |it| it.held == [false, true]),
    ("no least renewed", |it| it.renewed() == 0),
    ("one least renewed, that of no root", |it| {
        it.renewed() == 1 && it.helpand() != it.change.subdomain
    }),
    ("the leasts of a chain of 64 renewed", |it| {
        it.renewed() == 64
    }),
    ("the least of a helpand renewed and not the next", |it| {
        it.renewed() == 2
    }),
    ("a least above the limit renewed", |it| {
        it.renewed() > 0 && it.after().leasts[it.change.subdomain as usize] > it.after().limit
    }),
    ("the largest total", |it| it.after().total == MOST_PARTICLES),
    ("no particles left", |it| it.after().total == 0),
    ("limit 0", |it| it.after().limit == 0),
    ("a total above N times the limit", |it| {
        it.after().total > it.after().n.saturating_mul(it.after().limit)
    }),
    ("a node that holds another's subdomain", |it| {
        it.change.holder != it.change.subdomain
    }),
];

impl Accepted<'_> {
    fn after(&self) -> &Tally {
        self.tallies[1]
    }

    fn helpand(&self) -> u32 {
        self.after().helpands[self.change.subdomain as usize]
    }

    /// How many leasts have changed.
    fn renewed(&self) -> usize {
        let [before, after] = self.tallies.map(|tally| &tally.leasts);
        before.iter().zip(after).filter(|(a, b)| a != b).count()
    }
}

/// The archive's run, with so many sequences unless FIRROZKA_ROUNDS says otherwise.
/// Prints what was met, and panics if something is wrong or missing.
pub fn test(usual: usize) {
    let sequences = setting("FIRROZKA_ROUNDS", usual);
    let met = run(&ARCHIVE, seed(), sequences).unwrap_or_else(|wrong| panic!("{wrong}"));
    println!("calls on tallies: {}", met.coverage);
    println!("  {} tallies weighed at the end", met.weighed);
    let mut gaps = met.coverage.gaps(&OF_CALL, &pairs(&OF_CALL));
    if sequences >= usual {
        let corners = CORNERS.iter().zip(&met.corners);
        let unmet = corners.filter(|(_, &times)| times == 0);
        gaps.extend(unmet.map(|((what, _), _)| format!("no call with {what}")));
    }
    assert!(gaps.is_empty(), "{gaps:#?}");
    assert!(met.weighed > 0, "weigh was never asked");
}

/// Panics unless a short run reports this one, who makes calls on tallies wrong.
pub fn must_report(wrong: &Implementation) {
    let reported = run(wrong, SEED, 400).is_err();
    assert!(reported, "{}: not reported", wrong.name);
}

/// Compares what the one under test does to so many tallies with what should be done.
/// Gives what was met, or the first thing that is wrong.
pub fn run(tested: &Implementation, seed: u64, sequences: usize) -> Result<Met, String> {
    let mut met = Met {
        coverage: Coverage::default(),
        corners: vec![0; CORNERS.len()],
        weighed: 0,
    };
    for index in 0..sequences {
        let random = &mut Random::at(seed, index as u64);
        let place = |wrong| {
            format!(
                "{}, FIRROZKA_SEED={seed}, sequence {index}: {wrong}",
                tested.name
            )
        };
        sequence(tested, random, &mut met).map_err(place)?;
    }
    Ok(met)
}

/// One tally opened, and some calls on it.
fn sequence(tested: &Implementation, random: &mut Random, met: &mut Met) -> Result<(), String> {
    let Opening {
        sheet,
        plan,
        mut open,
    } = openings::some(random);
    let (mut tally, mut holds) = tested
        .opened(&sheet, &plan)
        .map_err(|refusal| format!("the opening is refused with {refusal}"))?;
    compare(&open.tally(), &tally)?;
    for place in 0..random.one_of(&[1, 5, 20, 60]) {
        let change = some_change(&open, &tally, random);
        let (answer, after) = lent::lend(&tally, place, |tally| change.by(tested, tally))?;
        let faults = faults(&tally, &change);
        let case = |wrong| format!("{wrong}\n  {change:?} on {}", shown(&tally));
        check(&mut open, &tally, &change, (answer, &after)).map_err(case)?;
        met.coverage.note(&faults);
        if faults.is_empty() {
            met.note(&Accepted {
                change: &change,
                tallies: [&tally, &after],
                held: [holds, answer.holds == 1],
            });
            holds = answer.holds == 1;
        }
        tally = after;
    }
    met.weighed += usize::from(weigh(tested, &open, &plan, &tally)?);
    Ok(())
}

impl Met {
    fn note(&mut self, accepted: &Accepted) {
        for ((_, is_met), times) in CORNERS.iter().zip(&mut self.corners) {
            *times += usize::from(is_met(accepted));
        }
    }
}

/// Some call; with few nodes it is sometimes the one that brings the tree to the brink,
/// or one particle beyond.
fn some_change(open: &Open, tally: &Tally, random: &mut Random) -> Change {
    let change = changes::some(tally, random);
    if open.nodes() > FEW || random.chance(3, 4) {
        return change;
    }
    match brink(open, &change) {
        Some(count) => Change {
            way: Way::Add,
            count: count + random.below(2),
            ..change
        },
        None => change,
    }
}

/// The most that can be added in the cell of a change with the tree still holding.
fn brink(open: &Open, change: &Change) -> Option<u32> {
    let left = u64::from(MOST_PARTICLES) - open.total();
    let [holder, subdomain] = change.cell();
    let holds_with = |more: u64| {
        let mut fuller = open.clone();
        *fuller.held.counts.get_mut(holder)?.get_mut(subdomain)? += more;
        Some(fuller.holds())
    };
    if !holds_with(0)? {
        return None;
    }
    let (mut low, mut high) = (0, left + 1);
    while high - low > 1 {
        let middle = (low + high) / 2;
        match holds_with(middle)? {
            true => low = middle,
            false => high = middle,
        }
    }
    Some(low as u32)
}

/// Every check of a call looked at on its own, by the words of the tally. A cell of
/// nodes that are not there has nothing.
fn faults(tally: &Tally, change: &Change) -> Vec<u32> {
    let [holder, subdomain] = change.cell();
    let n = tally.n as usize;
    let there = holder < 64 && subdomain < 64;
    let cell = if there {
        tally.counts[holder * 64 + subdomain]
    } else {
        0
    };
    let sum = u64::from(tally.total) + u64::from(change.count);
    let (adds, removes) = (change.way == Way::Add, change.way == Way::Remove);
    holding(&[
        (58, holder >= n || subdomain >= n || change.count == 0),
        (59, removes && change.count > cell),
        (60, adds && sum > u64::from(MOST_PARTICLES)),
    ])
}

/// Compares all answers to one call on an open tally, which is brought forward: the
/// second implementation against the faults, its two ways against each other, and the
/// one under test against both.
fn check(
    open: &mut Open,
    before: &Tally,
    change: &Change,
    (answer, after): (TalliedAnswer, &Tally),
) -> Result<(), String> {
    let expected = match open.change(change) {
        Ok(()) => answers::tallied(open.holds()),
        Err(refusal) => Answer::refused(refusal),
    };
    let faults = faults(before, change);
    if expected.refusal != faults.first().copied().unwrap_or(0) {
        return Err(format!(
            "the reference answers {expected:?}, but the faults are {faults:?}"
        ));
    }
    let tally = open.tally();
    let mut other = before.clone();
    if (unopened::call(&mut other, change), &other) != (expected, &tally) {
        return Err("the two ways of the reference differ".into());
    }
    if answer != expected {
        return Err(format!("expected {expected:?}, got {answer:?}"));
    }
    compare(&tally, after)?;
    judge(answer, after)
}

/// A tree holds exactly when there is a division along it within the tally's limit.
fn judge(answer: TalliedAnswer, tally: &Tally) -> Result<(), String> {
    if tally.n as usize > FEW || answer.refusal != 0 {
        return Ok(());
    }
    match has_division(tally)? == (answer.holds == 1) {
        true => Ok(()),
        false => Err("the flow and the tally disagree".into()),
    }
}

/// Asks *weigh* and another opening about a sheet of the present counts, if some
/// tolerance gives it the tally's limit. Gives whether there is one.
fn weigh(tested: &Implementation, open: &Open, plan: &[u8], tally: &Tally) -> Result<bool, String> {
    let n = open.nodes();
    let limit = |t: u32| sheet::limit(open.total(), n as u64, t.into());
    let t = match TOLERANCE.into_iter().find(|&t| limit(t) == open.limit) {
        Some(t) => t,
        None => return Ok(false),
    };
    let sheet = open.held.sheet(t).bytes();
    let refused = |refusal| format!("the present counts are refused with {refusal}");
    let (leasts, _) = tested.weighed(&sheet, plan).map_err(refused)?;
    if leasts != tally.leasts[..n] {
        return Err("weigh writes other leasts".into());
    }
    compare(&tested.opened(&sheet, plan).map_err(refused)?.0, tally)?;
    Ok(true)
}
