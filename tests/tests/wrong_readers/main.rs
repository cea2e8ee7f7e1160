//! The readers' run can fail: a reader that is wrong in a plausible way is
//! reported. The wrong ones make one check otherwise, or two in the wrong
//! order, or answer with the wrong values.
#![forbid(unsafe_code)]

mod moves;
mod plans;
mod sheets;

use firrozka_tests::answers::Answer;
use firrozka_tests::calls::{READ_MOVES, READ_PLAN, READ_SHEET};
use firrozka_tests::faults::{stretch, word_at};
use firrozka_tests::implementations::{Implementation, REFERENCE};
use firrozka_tests::records::to_words;
use firrozka_tests::settings::SEED;

/// "the total P is at most 1,000,000,000"
const MOST: u32 = 1_000_000_000;

/// A reader, and what is wrong with it.
type Wrong<A> = (&'static str, fn(&[u8]) -> A);

/// Readers that make one check otherwise: what is wrong, the check's number,
/// and whether it refuses.
macro_rules! otherwise {
    ($reader:ident: $($name:literal, $number:literal, $check:expr;)*) => {
        [$(($name, (|bytes| $reader(bytes, $number, $check)) as fn(&[u8]) -> _)),*]
    };
}
use otherwise;

/// A record as far as its words are there. Sizes that are not there are 0.
struct Parts {
    length: u64,
    sizes: [u64; 3],
    first: Vec<u32>,
    second: Vec<u32>,
}

impl Parts {
    /// Behind so many sizes, one of which says how long the arrays are.
    fn of(bytes: &[u8], head: u64, size: usize) -> Parts {
        let words = to_words(bytes);
        let sizes = [0, 1, 2].map(|at| word_at(&words, at).unwrap_or(0));
        let entries = sizes[size];
        Parts {
            length: bytes.len() as u64,
            sizes,
            first: stretch(&words, head, entries).to_vec(),
            second: stretch(&words, head + entries, entries).to_vec(),
        }
    }

    /// N, which stands first in all three.
    fn n(&self) -> u32 {
        self.sizes[0] as u32
    }

    /// Whether N is not in this range.
    fn n_outside(&self, low: u32, high: u32) -> bool {
        !(low..=high).contains(&self.n())
    }

    /// Whether some neighbours in the first array do not go so.
    fn falls(&self, goes: fn(u32, u32) -> bool) -> bool {
        self.first.windows(2).any(|pair| !goes(pair[0], pair[1]))
    }

    /// Whether some cell, helpand or route is so.
    fn any_first(&self, bad: impl Fn(u32) -> bool) -> bool {
        self.first.iter().any(|&entry| bad(entry))
    }

    /// Whether some count or share is so.
    fn any_second(&self, bad: impl Fn(u32) -> bool) -> bool {
        self.second.iter().any(|&entry| bad(entry))
    }

    /// The sum of all counts.
    fn sum(&self) -> u64 {
        self.second.iter().map(|&count| u64::from(count)).sum()
    }

    /// All counts but the last.
    fn but_the_last(&self) -> &[u32] {
        match self.second.split_last() {
            Some((_, others)) => others,
            None => &[],
        }
    }
}

/// The first of these faults, if in place of one of them stands what another
/// check has found; or the answer.
fn instead<A: Answer>(faults: Vec<u32>, number: u32, found: bool, accepted: A) -> A {
    let others = faults.into_iter().filter(|&fault| fault != number);
    let refusal = others.chain(found.then_some(number)).min();
    refusal.map_or(accepted, A::refused)
}

/// The second of two faults, if the first is the answer and both are there.
fn later<A: Answer>(answer: A, faults: &[u32], first: u32, second: u32) -> A {
    match answer.refusal() == first && faults.contains(&second) {
        true => A::refused(second),
        false => answer,
    }
}

/// With the right check in its place nothing is reported: what is reported
/// elsewhere is the check that is another.
#[test]
fn the_right_checks() {
    let right = Implementation {
        name: "right",
        read_sheet: sheets::right,
        read_plan: plans::right,
        read_moves: moves::right,
        ..REFERENCE
    };
    for reader in [READ_SHEET, READ_PLAN, READ_MOVES] {
        let met = reader.run(&right, SEED, 2_000);
        assert!(met.is_ok(), "{:?}", met.err());
    }
}
