//! What the benchmark prints: a row for each operation, filling, outcome and
//! sort of inputs.

use super::inputs::{Filling, Outcome, FILLINGS, OUTCOMES};
use super::jobs::{Job, Measured, MEASURED};
use super::timing::{time, Times};

/// The numbers of nodes, the largest last.
pub const NODES: [usize; 4] = [8, 16, 32, 64];

/// How many calls a sample has.
const CALLS: usize = 32;

/// One row.
#[derive(Clone, Copy, Debug)]
pub struct Row {
    pub measured: Measured,
    pub filling: Filling,
    pub outcome: Outcome,
    pub changing: bool,
}

pub const HEAD: &str = "\
operation            sheet   outcome                  inputs   |      8     16     32     64 |  plain beside | /plain /beside noise | 64/32
---------------------------------------------------------------+-----------------------------+---------------+----------------------+-----";

/// All rows, in the order in which they are printed.
pub fn rows() -> Vec<Row> {
    let mut rows = Vec::new();
    for measured in MEASURED {
        for filling in FILLINGS {
            for outcome in OUTCOMES
                .into_iter()
                .filter(|&it| measured.takes(filling, it))
            {
                rows.extend([false, true].map(|changing| Row {
                    measured,
                    filling,
                    outcome,
                    changing,
                }));
            }
        }
    }
    rows
}

impl Row {
    /// The times for each number of nodes.
    pub fn times(&self, samples: usize) -> [Times; 4] {
        NODES.map(|n| time(&self.job(n), samples))
    }

    /// The calls of a sample, with so many nodes.
    pub fn job(&self, n: usize) -> Job {
        let input = (n, self.filling, self.outcome);
        Job::new(self.measured, input, CALLS, self.changing)
    }

    /// What the row is of: operation, sheet, outcome and inputs, as printed.
    pub fn name(&self) -> String {
        let inputs = if self.changing {
            "changing"
        } else {
            "repeated"
        };
        format!(
            "{:20} {:7} {:24} {:8}",
            self.measured.name(),
            format!("{:?}", self.filling).to_lowercase(),
            self.outcome.name(),
            inputs,
        )
    }

    /// The row as it is printed.
    pub fn line(&self, times: &[Times; 4]) -> String {
        let [a, b, c, last] = times;
        let sizes = [a, b, c, last].map(|times| format!("{:6.3}", times.archive));
        format!(
            "{} | {} | {:6.3} {:6.3} | {:6.2} {:7.2} {:4.1}% | {:5.2}",
            self.name(),
            sizes.join(" "),
            last.plain,
            last.beside,
            last.archive / last.plain,
            last.archive / last.beside,
            100.0 * last.noise,
            last.archive / c.archive,
        )
    }
}
