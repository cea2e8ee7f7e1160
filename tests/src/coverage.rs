//! Which refusals and which pairs of faults a run has met. A pair (a, b) counts
//! when a is the first fault of a record that also has b: then a is the
//! answer, and whoever checks b before a answers otherwise.

use crate::faults::IMPOSSIBLE;
use std::collections::BTreeMap;
use std::fmt;

/// The tally of one run.
#[derive(Default)]
pub struct Coverage {
    inputs: usize,
    refusals: BTreeMap<u32, usize>,
    pairs: BTreeMap<(u32, u32), usize>,
}

impl Coverage {
    /// Counts one input with these faults, rising.
    pub fn note(&mut self, faults: &[u32]) {
        self.inputs += 1;
        let first = faults.first().copied().unwrap_or(0);
        *self.refusals.entry(first).or_default() += 1;
        for &other in faults.iter().skip(1) {
            *self.pairs.entry((first, other)).or_default() += 1;
        }
    }

    /// Which of these numbers and pairs did not come up, and what came up and
    /// cannot.
    pub fn gaps(&self, numbers: &[u32], pairs: &[(u32, u32)]) -> Vec<String> {
        let numbers = std::iter::once(&0).chain(numbers);
        let unmet = numbers.filter(|number| !self.refusals.contains_key(number));
        let unpaired = pairs.iter().filter(|pair| !self.pairs.contains_key(pair));
        let wrong = IMPOSSIBLE.iter();
        let wrong = wrong.filter(|(a, b, _)| self.pairs.contains_key(&(*a, *b)));
        unmet
            .map(|number| format!("{number} was not met"))
            .chain(unpaired.map(|(a, b)| format!("{a} with {b} was not met")))
            .chain(wrong.map(|(a, b, why)| format!("{a} with {b} was met, although {why}")))
            .collect()
    }
}

impl fmt::Display for Coverage {
    fn fmt(&self, out: &mut fmt::Formatter) -> fmt::Result {
        writeln!(out, "{} inputs", self.inputs)?;
        for (number, times) in &self.refusals {
            write!(out, "  {number}: {times}")?;
            let with = self.pairs.iter().filter(|((a, _), _)| a == number);
            for ((_, other), times) in with {
                write!(out, ", with {other}: {times}")?;
            }
            writeln!(out)?;
        }
        Ok(())
    }
}
