//! Request 2026-10, half a list first: moves in two parts with no subdomain in both,
//! and what must hold of whoever carries them out. Splits at random, on both sides of
//! 42, with the second implementation beside every call.

use crate::answers::{MovesAnswer, WrittenAnswer};
use crate::calls::drafts;
use crate::implementations::{Implementation, ARCHIVE, REFERENCE};
use crate::random::Random;
use crate::records::{shown, to_words};
use crate::reference::moves::{self, parts, Moves};
use crate::settings::{seed, setting, SEED};

/// "For an accepted sheet and accepted moves of equal N, divide the moves, their order
/// kept, into any two lists whose subdomains are disjoint."
pub struct Split {
    pub sheet: Vec<u8>,
    pub whole: Vec<u8>,
    pub parts: [Vec<u8>; 2],
}

/// What carrying out the whole came to.
#[derive(Clone, Copy, Debug, PartialEq, Eq)]
pub enum Verdict {
    Carried,
    /// Refused with 42, as each part is on the first sheet or is not.
    Refused([bool; 2]),
}

impl Split {
    /// The moves of the subdomains in a set, bit k for subdomain k, and all others.
    pub fn by(sheet: &[u8], whole: &[u8], set: u64) -> Split {
        let all = moves::read(whole).expect("moves that are accepted");
        let part = |wanted: bool| {
            let pairs = all.routes.iter().zip(&all.counts);
            let chosen = pairs.filter(|(&route, _)| (set >> parts(route)[0] & 1 == 1) == wanted);
            let (routes, counts) = chosen.unzip();
            Moves {
                n: all.n,
                routes,
                counts,
            }
            .bytes()
        };
        Split {
            sheet: sheet.to_vec(),
            whole: whole.to_vec(),
            parts: [part(true), part(false)],
        }
    }

    /// Some split of moves that are carried out or refused with 42.
    pub fn some(random: &mut Random) -> Split {
        let [sheet, whole] = sheet_and_moves(random);
        let set = some_set(&whole, random);
        Split::by(&sheet, &whole, set)
    }

    fn nodes(&self) -> usize {
        to_words(&self.sheet)[0] as usize
    }

    /// "With long enough buffers": 4 × (3+2N²) bytes.
    fn long(&self) -> usize {
        4 * (3 + 2 * self.nodes() * self.nodes())
    }

    /// A buffer that is long enough, one as long as the last sheet, and one a byte shorter.
    fn lengths(&self) -> Vec<usize> {
        let mut lengths = vec![self.long()];
        if let Ok(last) = REFERENCE.carried_out(&self.sheet, &self.whole) {
            lengths.extend([last.len(), last.len() - 1]);
        }
        lengths
    }

    /// How many moves each part has.
    fn moves(&self) -> [u32; 2] {
        [0, 1].map(|at| to_words(&self.parts[at])[1])
    }
}

/// An accepted sheet and accepted moves of as many nodes. In half of them one cell or
/// several send too much.
fn sheet_and_moves(random: &mut Random) -> [Vec<u8>; 2] {
    loop {
        let mut draft = drafts::carry_out(random);
        for _ in 0..random.one_of(&[0, 0, 0, 1, 2, 5]) {
            draft.inject(42, random);
        }
        let [sheet, whole] = [0, 1].map(|at| draft.records[at].bytes());
        if matches!(REFERENCE.carried_out(&sheet, &whole), Ok(_) | Err(42)) {
            return [sheet, whole];
        }
    }
}

/// Some subdomains: none, all, one of those that occur, those up to one, or any.
fn some_set(whole: &[u8], random: &mut Random) -> u64 {
    let routes = moves::read(whole).map_or(Vec::new(), |moves| moves.routes);
    let one = match routes.is_empty() {
        true => 0,
        false => parts(random.one_of(&routes))[0],
    };
    match random.below(8) {
        0 => random.one_of(&[0, u64::MAX]),
        1 | 2 => 1 << one,
        3 => !(1 << one),
        4 => u64::MAX >> (63 - one),
        _ => random.draw(),
    }
}

/// What a call answers and leaves in its buffer.
#[derive(Debug, PartialEq, Eq)]
struct Left {
    answer: WrittenAnswer,
    buffer: Vec<u8>,
}

impl Left {
    /// *Carry out* with a buffer of this length, full of noise.
    fn by(by: &Implementation, sheet: &[u8], moves: &[u8], length: usize) -> Left {
        let random = &mut Random::at(SEED, length as u64);
        let mut buffer: Vec<u8> = (0..length).map(|_| random.word() as u8).collect();
        let answer = (by.carry_out)(sheet, moves, &mut buffer);
        Left { answer, buffer }
    }

    /// The sheet that follows, if there is one.
    fn sheet(&self) -> Option<&[u8]> {
        let sheet = self.buffer.get(..self.answer.bytes as usize);
        sheet.filter(|_| self.answer.refusal == 0)
    }

    fn refused_with(&self, refusal: u32) -> bool {
        self.answer.refusal == refusal
    }
}

/// All calls for a split.
#[derive(Debug, PartialEq, Eq)]
struct Outcome {
    /// The parts as *read moves* reads them.
    read: [MovesAnswer; 2],
    /// The whole on the first sheet.
    whole: Left,
    /// Each part on the first sheet.
    alone: [Left; 2],
    /// The other part on the sheet that follows, if there is one.
    behind: [Option<Left>; 2],
}

/// The calls with buffers of this length for the last sheet, and long ones between.
fn outcome(by: &Implementation, split: &Split, length: usize) -> Outcome {
    let [first, second] = &split.parts;
    let alone = [first, second].map(|part| Left::by(by, &split.sheet, part, split.long()));
    let behind = [(0, second), (1, first)].map(|(before, part)| {
        let between = alone[before].sheet()?;
        Some(Left::by(by, between, part, length))
    });
    Outcome {
        read: [first, second].map(|part| (by.read_moves)(part)),
        whole: Left::by(by, &split.sheet, &split.whole, length),
        alone,
        behind,
    }
}

impl Outcome {
    /// What must hold, whoever made the calls: what they came to, or what is wrong.
    fn judged(&self, split: &Split) -> Result<Verdict, String> {
        // Either part is a record of its own, which *read moves* accepts.
        for (read, e) in self.read.iter().zip(split.moves()) {
            let is_part = (read.refusal, read.n as usize, read.e) == (0, split.nodes(), e);
            ensure(is_part, || format!("a part is read as {read:?}"))?;
        }
        // "the whole is refused with 42 exactly when at least one part is refused with 42
        // on the first sheet"
        let refused = [0, 1].map(|at| self.alone[at].refused_with(42));
        let whole = &self.whole.answer;
        ensure((whole.refusal == 42) == refused.contains(&true), || {
            format!("the whole: {whole:?}; the parts refused with 42: {refused:?}")
        })?;
        // "where the whole list is carried out, either list first and then the other gives
        // the same sheet": the other is answered as the whole, and leaves the same bytes.
        for (at, refused) in refused.into_iter().enumerate() {
            let behind = self.behind[at].as_ref();
            ensure(refused || behind == Some(&self.whole), || {
                let behind = behind.map(|left| &left.answer);
                format!("part {} first: {behind:?}; the whole: {whole:?}", at + 1)
            })?;
        }
        Ok(match whole.refusal {
            42 => Verdict::Refused(refused),
            _ => Verdict::Carried,
        })
    }
}

fn ensure(holds: bool, wrong: impl FnOnce() -> String) -> Result<(), String> {
    match holds {
        true => Ok(()),
        false => Err(wrong()),
    }
}

/// What must hold of who carries out the whole and the parts in either order, with last
/// buffers that are long enough, just so, and one byte short: what it came to, or what is
/// wrong.
pub fn judge(tested: &Implementation, split: &Split) -> Result<Verdict, String> {
    let lengths = split.lengths().into_iter();
    let mut verdicts = lengths.map(|length| outcome(tested, split, length).judged(split));
    let verdict = verdicts.next().expect("a length that is long enough");
    verdicts.find(Result::is_err).unwrap_or(verdict)
}

/// The same, and every call beside the second implementation.
pub fn check(tested: &Implementation, split: &Split) -> Result<Verdict, String> {
    for length in split.lengths() {
        let [got, expected] = [tested, &REFERENCE].map(|by| outcome(by, split, length));
        ensure(got == expected, || "other answers or bytes".into())?;
    }
    judge(tested, split)
}

/// Whether a split and what it came to are of some sort.
type Corner = (&'static str, fn(&Split, Verdict) -> bool);

/// What every run has to meet.
const CORNERS: [Corner; 11] = [
    ("N 1", |split, _| split.nodes() == 1),
    ("N 2", |split, _| split.nodes() == 2),
    ("N 64", |split, _| split.nodes() == 64),
    ("no moves", |split, _| split.moves() == [0, 0]),
    ("no moves in the first part", |split, _| {
        let [first, second] = split.moves();
        first == 0 && second > 0
    }),
    ("no moves in the second part", |split, _| {
        let [first, second] = split.moves();
        first > 0 && second == 0
    }),
    ("hundreds of moves in each, carried out", |split, verdict| {
        verdict == Verdict::Carried && split.moves().iter().all(|&e| e > 200)
    }),
    ("moves in each, carried out", |split, verdict| {
        verdict == Verdict::Carried && !split.moves().contains(&0)
    }),
    ("the first part refused alone", |split, verdict| {
        verdict == Verdict::Refused([true, false]) && !split.moves().contains(&0)
    }),
    ("the second part refused alone", |split, verdict| {
        verdict == Verdict::Refused([false, true]) && !split.moves().contains(&0)
    }),
    ("both parts refused", |_, verdict| {
        verdict == Verdict::Refused([true, true])
    }),
];

/// Checks so many splits: how often each corner was met, or the first thing that is
/// wrong.
pub fn run(tested: &Implementation, seed: u64, rounds: usize) -> Result<Vec<usize>, String> {
    let mut met = vec![0; CORNERS.len()];
    for index in 0..rounds {
        let split = Split::some(&mut Random::at(seed, index as u64));
        let verdict = check(tested, &split).map_err(|wrong| {
            let (who, records) = (tested.name, [&split.sheet, &split.parts[0], &split.parts[1]]);
            let [sheet, first, second] = records.map(|bytes| shown(bytes));
            format!(
                "{who}, FIRROZKA_SEED={seed}, split {index}: {wrong}\n  {sheet}\n  {first}\n  {second}"
            )
        })?;
        for ((_, is_met), times) in CORNERS.iter().zip(&mut met) {
            *times += usize::from(is_met(&split, verdict));
        }
    }
    Ok(met)
}

/// The archive's run, with so many splits unless FIRROZKA_ROUNDS says otherwise. Prints
/// what was met, and panics if something is wrong or missing.
pub fn test(usual: usize) {
    let rounds = setting("FIRROZKA_ROUNDS", usual);
    let met = run(&ARCHIVE, seed(), rounds).unwrap_or_else(|wrong| panic!("{wrong}"));
    let corners: Vec<_> = CORNERS.iter().map(|(what, _)| what).zip(&met).collect();
    println!("halves: {rounds} splits, {corners:?}");
    // A short run has too few.
    if rounds >= usual {
        let unmet: Vec<_> = corners.iter().filter(|(_, &times)| times == 0).collect();
        assert!(unmet.is_empty(), "no split with {unmet:?}");
    }
}

/// Panics unless a short run reports this one, who carries out wrong.
pub fn must_report(wrong: &Implementation) {
    let reported = run(wrong, SEED, 2_000).is_err();
    assert!(reported, "halves, {}: not reported", wrong.name);
}

/// Panics unless the request is broken in some of a few splits, by this one alone.
pub fn must_judge(wrong: &Implementation) {
    let mut splits = (0..2_000).map(|index| Split::some(&mut Random::at(SEED, index)));
    let broken = splits.any(|split| judge(wrong, &split).is_err());
    assert!(broken, "halves, {}: nothing is wrong", wrong.name);
}
