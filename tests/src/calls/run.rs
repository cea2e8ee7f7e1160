//! Which calls stand at which index of a run, and the run itself. First come
//! those with wanted faults, so that a run of any length meets them all; then
//! mixed ones.

use super::check::{check, Checked, TIMES};
use super::{Call, Operation};
use crate::coverage::Coverage;
use crate::faults::pairs;
use crate::implementations::{Implementation, ARCHIVE};
use crate::random::Random;
use crate::records::shown;
use crate::settings::{seed, setting, SEED};

/// How many calls a run has for each fault and each pair of faults.
const FOR_EACH: usize = 20;

/// What a run has met.
pub struct Met {
    pub coverage: Coverage,
    /// How often each corner was met by a call that was accepted.
    pub corners: Vec<usize>,
    /// How many calls the one under test has answered.
    pub calls: usize,
}

impl Operation {
    /// The archive's run, with so many rounds unless FIRROZKA_ROUNDS says
    /// otherwise. Prints what was met, and panics if something is wrong or missing.
    pub fn test(&self, usual: usize) {
        let rounds = setting("FIRROZKA_ROUNDS", usual);
        let met = self.run(&ARCHIVE, seed(), rounds);
        let met = met.unwrap_or_else(|wrong| panic!("{wrong}"));
        println!("{}: {} calls, {}", self.name, met.calls, met.coverage);
        let mut gaps = self.gaps(&met);
        // The corners are among the mixed calls, of which a short run has too few.
        if rounds >= usual {
            gaps.extend(self.corners_unmet(&met));
        }
        assert!(gaps.is_empty(), "{}: {gaps:#?}", self.name);
    }

    /// Panics unless a short run reports this one, who does the operation wrong.
    pub fn must_report(&self, wrong: &Implementation) {
        let reported = self.run(wrong, SEED, 2_000).is_err();
        assert!(reported, "{}, {}: not reported", self.name, wrong.name);
    }

    /// Compares the answers of the one under test to the calls of a run: all
    /// wanted ones and `rounds` mixed ones. Gives what was met, or the first
    /// thing that is wrong.
    pub fn run(&self, tested: &Implementation, seed: u64, rounds: usize) -> Result<Met, String> {
        let wanted = wanted(&self.numbers(), &self.pairs());
        let mut met = Met {
            coverage: Coverage::default(),
            corners: vec![0; self.corners().count()],
            calls: 0,
        };
        for index in 0..FOR_EACH * wanted.len() + rounds {
            let mut random = Random::at(seed, index as u64);
            let calls = match wanted.get(index / FOR_EACH) {
                Some(faults) => vec![self.with_faults(faults, &mut random)],
                None => self.mixed(&mut random),
            };
            for call in calls {
                let place = |wrong| self.place(tested, seed, index, &call, wrong);
                let checked = check(self, tested, &call).map_err(place)?;
                met.note(self, &call, &checked);
            }
        }
        Ok(met)
    }

    /// The pairs of faults whose order can be seen.
    fn pairs(&self) -> Vec<(u32, u32)> {
        match self.ordered {
            true => pairs(&self.numbers()),
            false => Vec::new(),
        }
    }

    fn with_faults(&self, faults: &[u32], random: &mut Random) -> Call {
        let mut faults_in_turn = faults.to_vec();
        first_with(faults, || {
            let mut draft = (self.build)(random);
            // Some replace what others have changed.
            random.shuffle(&mut faults_in_turn);
            for &fault in &faults_in_turn {
                draft.inject(fault, random);
            }
            let call = draft.call(self);
            let found = (self.faults)(&call);
            (call, found)
        })
    }

    /// Calls with the same two records and buffers of all lengths.
    fn mixed(&self, random: &mut Random) -> Vec<Call> {
        let mut draft = (self.build)(random);
        draft.mutate(&self.numbers(), random);
        draft.all_calls(self)
    }

    fn place(
        &self,
        tested: &Implementation,
        seed: u64,
        index: usize,
        call: &Call,
        wrong: String,
    ) -> String {
        let [first, second] = [0, 1].map(|at| shown(&call.records[at]));
        let (name, lengths) = (self.name, call.lengths);
        let who = tested.name;
        format!(
            "{who}, {name}, FIRROZKA_SEED={seed}, input {index}: {wrong}\n  {first}\n  {second}\n  \
             buffers of {lengths:?} bytes"
        )
    }

    /// The refusals and orders of two faults that a run should have met and has not.
    fn gaps(&self, met: &Met) -> Vec<String> {
        met.coverage.gaps(&self.numbers(), &self.pairs())
    }

    /// The corners that no accepted call of a run has met.
    fn corners_unmet(&self, met: &Met) -> Vec<String> {
        let corners = self.corners().zip(&met.corners);
        let unmet = corners.filter(|(_, &times)| times == 0);
        unmet
            .map(|((what, _), _)| format!("no call with {what}"))
            .collect()
    }
}

impl Met {
    fn note(&mut self, operation: &Operation, call: &Call, checked: &Checked) {
        self.calls += TIMES;
        self.coverage.note(&checked.faults);
        if checked.faults.is_empty() {
            for ((_, is_met), times) in operation.corners().zip(&mut self.corners) {
                *times += usize::from(is_met(call, &checked.answer));
            }
        }
    }
}

/// No fault, every fault, and every pair.
fn wanted(numbers: &[u32], pairs: &[(u32, u32)]) -> Vec<Vec<u32>> {
    let none = std::iter::once(Vec::new());
    let alone = numbers.iter().map(|&fault| vec![fault]);
    let pairs = pairs.iter().map(|&(a, b)| vec![a, b]);
    none.chain(alone).chain(pairs).collect()
}

/// What the first attempt gives whose first fault is the first one wanted, and
/// which has the others too. Faults can hide each other, so it may take some.
pub fn first_with<T>(wanted: &[u32], mut attempt: impl FnMut() -> (T, Vec<u32>)) -> T {
    let suits = |found: &[u32]| {
        found.first() == wanted.first() && wanted.iter().all(|fault| found.contains(fault))
    };
    let mut attempts = (0..10_000).map(|_| attempt());
    let found = attempts.find(|(_, faults)| suits(faults));
    found
        .unwrap_or_else(|| panic!("no input with faults {wanted:?} came up"))
        .0
}
