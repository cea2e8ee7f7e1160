//! An operation on some inputs, ready to be timed: done by somebody, or as a
//! mere copy of the bytes that it reads and writes. Beside calls on a tally, which read
//! and write few of its bytes, stands *weigh* of the sheet and the tree.

use super::inputs::{self, Filling, Outcome};
use super::kept::Rest;
use crate::answers::WrittenAnswer;
use crate::implementations::{
    Implementation, ARCHIVE, MOVES_BYTES, PLAN_BYTES, REFERENCE, SHEET_BYTES,
};
use crate::random::Random;
use crate::records::plans::{self, Form};
use crate::records::{to_bytes, to_words, z_order};
use crate::tally::{self, Change, Tally};
use std::mem;
use std::ops::Range;
use std::sync::atomic::{compiler_fence, Ordering};

/// What is measured.
#[derive(Clone, Copy, Debug, PartialEq, Eq)]
pub enum Measured {
    PlanStep,
    CarryOut,
    Weigh,
    JoinSheets,
    TrafficPage,
    WriteArchive,
    ReadArchive,
    Groups,
    OpenTally,
    TallyCalls,
}

pub const MEASURED: [Measured; 10] = [
    Measured::PlanStep,
    Measured::CarryOut,
    Measured::Weigh,
    Measured::JoinSheets,
    Measured::TrafficPage,
    Measured::WriteArchive,
    Measured::ReadArchive,
    Measured::Groups,
    Measured::OpenTally,
    Measured::TallyCalls,
];

impl Measured {
    pub fn name(self) -> &'static str {
        match self {
            Measured::PlanStep => "plan a step",
            Measured::CarryOut => "carry out",
            Measured::Weigh => "weigh",
            Measured::JoinSheets => "join sheets",
            Measured::TrafficPage => "traffic page",
            Measured::WriteArchive => "write archive",
            Measured::ReadArchive => "read archive",
            Measured::Groups => "groups",
            Measured::OpenTally => "open tally",
            Measured::TallyCalls => "tally add and remove",
        }
    }

    /// *Weigh* takes a tree, whoever holds the particles, and *join sheets* a
    /// second sheet. To *traffic page* all moves are alike: one outcome of each kind.
    /// To *write archive* and *read archive* all sheets of one filling are. *Groups*
    /// takes a plan, whatever its sheet and its shares are: one of each tree. A tally has a
    /// tree, too, and calls on it do not ask how many cells are filled.
    pub fn takes(self, filling: Filling, outcome: Outcome) -> bool {
        let joined = matches!(outcome, Outcome::Joined(_));
        let kept = matches!(outcome, Outcome::Kept(_, Rest::Small));
        let tense = outcome == Outcome::Tense;
        match self {
            Measured::PlanStep | Measured::CarryOut => !joined && !tense,
            Measured::Weigh => kept || matches!(outcome, Outcome::Rebuilt(Some(_))),
            Measured::OpenTally => kept,
            Measured::TallyCalls => filling == Filling::Sparse && (kept || tense),
            Measured::JoinSheets => joined,
            Measured::TrafficPage => matches!(
                outcome,
                Outcome::Primary
                    | Outcome::Kept(Form::Random, Rest::Small)
                    | Outcome::Rebuilt(None)
            ),
            Measured::WriteArchive | Measured::ReadArchive => outcome == Outcome::Primary,
            Measured::Groups => {
                filling == Filling::Sparse
                    && (kept || matches!(outcome, Outcome::Primary | Outcome::Rebuilt(None)))
            }
        }
    }
}

/// One call: two records to read, the sheet first, in Z order where that is read, or
/// a plan alone; and the lengths of what is written. On a tally that is opened from the
/// records there is a change, too.
#[derive(Clone)]
struct Call {
    records: [Vec<u8>; 2],
    written: [usize; 2],
    change: Option<Change>,
    /// Which of the tallies it is.
    tally: usize,
}

/// What calls write to: two buffers that are long enough for everything, and tallies.
pub struct Buffers {
    bytes: [Vec<u8>; 2],
    tallies: Vec<Tally>,
}

/// What somebody writes in a call: lengths, buffers and a tally.
pub type Written = ([usize; 2], [Vec<u8>; 2], Tally);

/// Where a sheet's tolerance lies.
const TOLERANCE: Range<usize> = 4..8;

/// Some calls of one operation.
#[derive(Clone)]
pub struct Job {
    measured: Measured,
    calls: Vec<Call>,
}

impl Job {
    /// So many calls, all the same or each with another input. Calls on a tally take turns
    /// in adding and removing a particle, which leaves the tally as it was, and go through
    /// all subdomains.
    pub fn new(
        measured: Measured,
        (n, filling, outcome): (usize, Filling, Outcome),
        calls: usize,
        changing: bool,
    ) -> Job {
        let input = |index: usize| {
            let mut random = Random::at(n as u64, index as u64);
            let step = inputs::step(n, filling, outcome, &mut random);
            let records = match (measured, outcome) {
                (Measured::CarryOut | Measured::TrafficPage, _) => {
                    let moves = REFERENCE.plan(&step).moves;
                    [step.sheet, moves]
                }
                (_, Outcome::Joined(other)) => {
                    let second = inputs::step(n, other, outcome, &mut random).sheet;
                    [step.sheet, second]
                }
                (Measured::WriteArchive, _) => [step.sheet, Vec::new()],
                (Measured::ReadArchive, _) => [z_order::of(&step.sheet).bytes(), Vec::new()],
                (Measured::Groups, _) => [REFERENCE.plan(&step).plan, Vec::new()],
                _ => [step.sheet, step.old],
            };
            Call {
                records,
                written: [0, 0],
                change: None,
                tally: match measured {
                    Measured::TallyCalls => index,
                    _ => 0,
                },
            }
        };
        let inputs: Vec<Call> = (0..if changing { calls } else { 1 }).map(input).collect();
        let calls = match measured {
            Measured::TallyCalls => on_tallies(&inputs, outcome),
            _ => (0..calls)
                .map(|at| inputs[at % inputs.len()].clone())
                .collect(),
        };
        let mut job = Job { measured, calls };
        job.settle();
        job
    }

    /// The same calls for an archive of version 1.0, which counts the tolerance in
    /// percents: its sheets have a tenth of it.
    pub fn in_percent(&self) -> Job {
        let mut job = self.clone();
        for call in &mut job.calls {
            let t = &mut call.records[0][TOLERANCE];
            let tenth = to_words(t)[0] / 10;
            t.copy_from_slice(&to_bytes(&[tenth]));
        }
        job
    }

    pub fn buffers(&self) -> Buffers {
        Buffers {
            bytes: bytes(),
            tallies: self.tallies(),
        }
    }

    /// A tally that is opened for each input, where it is to be changed; else one.
    fn tallies(&self) -> Vec<Tally> {
        let mut tallies = Vec::new();
        for call in &self.calls {
            if call.tally == tallies.len() {
                let [sheet, plan] = &call.records;
                tallies.push(match self.measured {
                    Measured::TallyCalls => REFERENCE.opened(sheet, plan).expect("accepted").0,
                    _ => Tally::NONE,
                });
            }
        }
        tallies
    }

    /// How many calls there are.
    pub fn calls(&self) -> usize {
        self.calls.len()
    }

    /// Notes how much each call writes.
    fn settle(&mut self) {
        let mut buffers = self.buffers();
        let measured = self.measured;
        for call in &mut self.calls {
            call.written = one(measured, &REFERENCE, call, &mut buffers);
        }
    }

    /// All calls, done by somebody.
    pub fn run(&self, by: &Implementation, buffers: &mut Buffers) {
        for call in &self.calls {
            one(self.measured, by, call, buffers);
        }
    }

    /// What stands beside the calls: for each a copy of its bytes or, where it is one on a
    /// tally, *weigh* by the archive.
    pub fn beside(&self, scratch: &mut Buffers, buffers: &mut Buffers) {
        for call in &self.calls {
            match self.measured {
                Measured::TallyCalls => {
                    one(Measured::Weigh, &ARCHIVE, call, buffers);
                }
                _ => copy(call, &mut scratch.bytes, &mut buffers.bytes),
            }
        }
    }

    /// Compares what two write, call by call.
    pub fn check(&self, by: &Implementation, other: &Implementation) {
        let agree = self.written(by) == self.written(other);
        assert!(agree, "{} and {} differ", by.name, other.name);
    }

    /// What somebody writes in each call. In place of a sheet's tolerance, which may be
    /// counted in another unit elsewhere, stands whether it is that of the sheet before.
    pub fn written(&self, by: &Implementation) -> Vec<Written> {
        let mut buffers = self.buffers();
        let write = |call: &Call| {
            let lengths = one(self.measured, by, call, &mut buffers);
            let mut written = mem::replace(&mut buffers.bytes, bytes());
            if self.measured == Measured::CarryOut {
                let same = written[0][TOLERANCE] == call.records[0][TOLERANCE];
                written[0][TOLERANCE].fill(same.into());
            }
            (lengths, written, buffers.tallies[call.tally].clone())
        };
        self.calls.iter().map(write).collect()
    }
}

/// Two buffers that are long enough for everything.
fn bytes() -> [Vec<u8>; 2] {
    [vec![0; SHEET_BYTES.max(MOVES_BYTES)], vec![0; PLAN_BYTES]]
}

/// Calls on tallies that are opened from these: for each of 64 subdomains one that adds
/// a particle and one that removes it again. In a tense chain it is the deepest node's.
fn on_tallies(inputs: &[Call], outcome: Outcome) -> Vec<Call> {
    let calls = |at: usize| {
        let call = &inputs[at % inputs.len()];
        let helpands = plans::of(&call.records[1]).first().to_vec();
        let n = helpands.len() as u32;
        let leaf = (0..n).find(|node| !helpands.contains(node));
        let subdomain = match outcome {
            Outcome::Tense => leaf.expect("a chain ends"),
            _ => at as u32 % n,
        };
        let holder = Random::at(at as u64, u64::from(n)).below(n);
        let change = Change::add(holder, subdomain, 1);
        [change, change.back()].map(|change| Call {
            change: Some(change),
            ..call.clone()
        })
    };
    (0..64).flat_map(calls).collect()
}

/// A copy of the bytes that a call reads and of as many as it writes. The fence keeps the
/// compiler from leaving out a copy.
fn copy(call: &Call, scratch: &mut [Vec<u8>; 2], buffers: &mut [Vec<u8>; 2]) {
    for at in [0, 1] {
        let (record, length) = (&call.records[at], call.written[at]);
        scratch[0][..record.len()].copy_from_slice(record);
        buffers[at][..length].copy_from_slice(&scratch[at][..length]);
        compiler_fence(Ordering::SeqCst);
    }
}

/// One call. Gives how many bytes were written to each buffer.
fn one(measured: Measured, by: &Implementation, call: &Call, buffers: &mut Buffers) -> [usize; 2] {
    let [first, second] = &call.records;
    let ([a, b], tally) = (&mut buffers.bytes, &mut buffers.tallies[call.tally]);
    match measured {
        Measured::PlanStep => {
            let answer = (by.plan_step)(first, second, b, a);
            assert_eq!(answer.refusal, 0);
            [answer.moves_bytes as usize, answer.plan_bytes as usize]
        }
        Measured::CarryOut => written((by.carry_out)(first, second, a)),
        Measured::JoinSheets => written((by.join_sheets)(first, second, a)),
        Measured::TrafficPage => written((by.traffic_page)(first, second, a)),
        Measured::WriteArchive => written((by.write_archive)(first, a)),
        Measured::ReadArchive => written((by.read_archive)(first, a)),
        Measured::Groups => written((by.groups)(first, a)),
        Measured::Weigh => {
            let answer = (by.weigh)(first, second, a);
            assert_eq!(answer.refusal, 0);
            [second.len() / 2 - 6, 0]
        }
        Measured::OpenTally => {
            let answer = (by.open_tally)(first, second, tally);
            assert_eq!(answer.refusal, 0);
            [4 * tally::WORDS, 0]
        }
        Measured::TallyCalls => {
            let change = call.change.expect("a change");
            assert_eq!(change.by(by, tally).refusal, 0);
            [0, 0]
        }
    }
}

fn written(answer: WrittenAnswer) -> [usize; 2] {
    assert_eq!(answer.refusal, 0);
    [answer.bytes as usize, 0]
}
