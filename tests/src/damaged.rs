//! Damaged inputs of the bench program: each word off, every length, 2^32 − 1
//! everywhere, values at and one past each bound, and two faults at once. They
//! are small, so that a file can have many.

use crate::bench_text::split;
use crate::bounds::{MOST_LIMIT, MOST_PARTICLES};
use crate::calls::drafts::{sheet_and_old, Draft};
use crate::calls::faults::plan_step;
use crate::calls::run::first_with;
use crate::calls::Call;
use crate::faults::{pairs, OF_PLAN, OF_SHEET};
use crate::random::Random;
use crate::records::{plans, sheets, to_bytes, to_words, Record};
use crate::steps::Step;
use crate::worked;

/// How many inputs there are for each fault and each pair of faults.
const FOR_EACH: u64 = 2;

/// The longest input with two faults.
const LONGEST: usize = 600;

/// All of them.
pub fn all() -> Vec<Vec<u8>> {
    let steps = [worked::e(), worked::h()];
    let inputs = steps.iter().map(Step::input);
    let changed = inputs.flat_map(|input| [words_off(&input), highest(&input)].concat());
    let bounds = [sheet_bounds(), plan_bounds(), trees(), deep_trees()].concat();
    changed
        .chain(lengths())
        .chain(bounds)
        .chain(two_faults())
        .collect()
}

/// Each word one less, one more, 0, and as high as it can be.
fn words_off(input: &[u8]) -> Vec<Vec<u8>> {
    let words = to_words(input);
    let mut all = Vec::new();
    for (at, &word) in words.iter().enumerate() {
        for other in [word.wrapping_sub(1), word.wrapping_add(1), 0, u32::MAX] {
            let mut words = words.clone();
            words[at] = other;
            all.push(to_bytes(&words));
        }
    }
    all
}

/// 2^32 − 1 in all words, and in all from some word on.
fn highest(input: &[u8]) -> Vec<Vec<u8>> {
    let from = |at: usize| [&input[..at], &vec![0xff; input.len() - at]].concat();
    (0..input.len()).step_by(4).map(from).collect()
}

/// A sheet and an old plan cut to every length, and some bytes behind the plan
/// and behind a sheet without one.
fn lengths() -> Vec<Vec<u8>> {
    let (d, e) = (worked::d().sheet, worked::e().input());
    let cut = (0..e.len()).map(|length| e[..length].to_vec());
    let longer = |input: &[u8], more: usize| [input, &vec![0; more]].concat();
    let behind_the_plan = [1, 2, 3, 4, 8, 36].map(|more| longer(&e, more));
    let behind_the_sheet = [1, 3, 4, 8, 11, 12, 13].map(|more| longer(&d, more));
    cut.chain(behind_the_plan).chain(behind_the_sheet).collect()
}

/// Sheets at each bound and one past it.
fn sheet_bounds() -> Vec<Vec<u8>> {
    let own = [0, 65];
    let sheet = |t: u32, cells: &[u32], counts: &[u32]| sheets::sheet(2, t, cells, counts);
    let nodes = [0, 1, 2, 63, 64, 65].map(|n| sheets::sheet(n, 10, &[], &[]));
    let tolerances = [0, 1, 999, 1_000].map(|t| sheet(t, &own, &[3, 1]));
    let entries = [(1, 1), (1, 2), (2, 4), (2, 5)].map(|(n, e)| {
        let cells: Vec<u32> = (0..e).map(|k| sheets::cell(k / n, k % n)).collect();
        sheets::sheet(n, 10, &cells, &vec![1; cells.len()])
    });
    let cells = [
        [0, 1],
        [0, 2],
        [64, 65],
        [64, 66],
        [65, 128],
        [65, 65],
        [65, 64],
    ];
    let cells = cells.map(|cells| sheet(10, &cells, &[1, 2]));
    let most = MOST_PARTICLES;
    let counts = [
        [1, most - 1],
        [1, most],
        [most, 1],
        [most + 1, 1],
        [1 << 31, 1 << 31],
        [u32::MAX, 2],
        [2, u32::MAX],
    ];
    let counts = counts.map(|counts| sheet(10, &own, &counts));
    let all = nodes.into_iter().chain(tolerances).chain(entries);
    let all = all.chain(cells).chain(counts);
    all.map(|record| record.bytes()).chain(headers()).collect()
}

/// Nothing but sizes, with E at its bound, one past it, and so large that its
/// length is 0 or little in 32 bits.
fn headers() -> [Vec<u8>; 5] {
    let entries = [4_096, 4_097, 1 << 29, 1 << 30, u32::MAX];
    entries.map(|e| to_bytes(&[64, 10, e]))
}

/// Old plans at each bound and one past it, behind the sheet of step D; and
/// some for one node, behind that of step A.
fn plan_bounds() -> Vec<Vec<u8>> {
    let tree = |kind, limit, shares: [u32; 3]| plans::plan(kind, limit, &[0, 0, 0], &shares);
    let nodes = [0, 1, 2, 4, 65].map(|n: u32| {
        let zeros = vec![0; n as usize];
        plans::plan(if n == 1 { 0 } else { 2 }, 36, &zeros, &zeros)
    });
    let kinds = [0, 1, 2, 3, 256].map(|kind| tree(kind, 36, [0, 27, 29]));
    let limits = [0, 28, 29, MOST_LIMIT, MOST_LIMIT + 1];
    let limits = limits.map(|limit| tree(2, limit, [0, 27, 29]));
    let shares = [[0, 36, 37], [0, 0, u32::MAX], [1, 0, 0]];
    let shares = shares.map(|shares| tree(2, 36, shares));
    let all = nodes.into_iter().chain(kinds).chain(limits).chain(shares);
    let alone = [0, 1, 2].map(|kind| behind(&worked::a(), plans::plan(kind, 0, &[0], &[0])));
    all.map(behind_d).chain(alone).collect()
}

/// Helpands of three nodes that are no tree of their kind, or just one.
fn trees() -> Vec<Vec<u8>> {
    let helpands = [
        [0, 0, 2],
        [0, 0, 3],
        [0, 1, 0],
        [0, 1, 2],
        [0, 2, 1],
        [1, 0, 0],
        [1, 1, 3],
        [1, 2, 0],
        [1, 2, 2],
    ];
    let with_kind =
        |kind| helpands.map(|helpands| behind_d(plans::plan(kind, 36, &helpands, &[0; 3])));
    [0, 1, 2].map(with_kind).concat()
}

/// Chains of 64 nodes, from either end; and with the last two nodes in a ring.
fn deep_trees() -> Vec<Vec<u8>> {
    let up = plans::chain(64);
    let down: Vec<u32> = (0..64).map(|node: u32| 63.min(node + 1)).collect();
    let mut ring = up.clone();
    ring[62] = 63;
    let step = worked::own(
        worked::TEN_PERCENT,
        &[[9, 0].as_slice(), &[0; 62]].concat(),
        Vec::new(),
    );
    let old = |helpands: Vec<u32>| plans::plan(1, 36, &helpands, &[0; 64]);
    [up, down, ring]
        .map(|helpands| behind(&step, old(helpands)))
        .to_vec()
}

fn behind_d(plan: Record) -> Vec<u8> {
    behind(&worked::d(), plan)
}

fn behind(step: &Step, plan: Record) -> Vec<u8> {
    [&step.sheet[..], &plan.bytes()].concat()
}

/// Inputs with each fault that the bench program can meet, and with each pair.
fn two_faults() -> Vec<Vec<u8>> {
    let alone = numbers().into_iter().map(|number| vec![number]);
    let pairs = pairs_met().into_iter().map(|(a, b)| vec![a, b]);
    let wanted: Vec<Vec<u32>> = alone.chain(pairs).collect();
    let each = |(at, wanted): (usize, &Vec<u32>)| {
        let index = at as u64 * FOR_EACH;
        let inputs =
            (index..index + FOR_EACH).map(|index| with_faults(wanted, &mut Random::at(1, index)));
        inputs.collect::<Vec<_>>()
    };
    wanted.iter().enumerate().flat_map(each).collect()
}

/// Step E with these faults. Without its old plan, if none of them is a plan's:
/// what stands behind a sheet is never a part of it.
fn with_faults(wanted: &[u32], random: &mut Random) -> Vec<u8> {
    let mut in_turn = wanted.to_vec();
    let of_sheet = wanted.iter().all(|fault| OF_SHEET.contains(fault));
    first_with(wanted, || {
        let mut draft = Draft::new(sheet_and_old(&worked::e()));
        if of_sheet {
            draft.records[1] = Record::none();
        }
        random.shuffle(&mut in_turn);
        for &fault in &in_turn {
            draft.inject(fault, random);
        }
        let [sheet, old] = draft.records.map(|record| record.bytes());
        let input = Step { sheet, old }.input();
        let found = match input.len() <= LONGEST {
            true => faults(&input),
            false => Vec::new(),
        };
        (input, found)
    })
}

/// All refusals of the bench program.
pub fn numbers() -> Vec<u32> {
    [&OF_SHEET[..], &OF_PLAN, &[21]].concat()
}

/// The pairs of faults that it can meet. A header that is refused and a sheet
/// that is too short leave nothing behind them.
pub fn pairs_met() -> Vec<(u32, u32)> {
    let all = pairs(&numbers()).into_iter();
    all.filter(|&(a, b)| a > 5 || b < 10).collect()
}

/// The faults of an input, rising, as the bench program takes it apart.
pub fn faults(input: &[u8]) -> Vec<u32> {
    let (sheet, old) = split(input).unwrap_or((input, &[]));
    let records = [sheet.to_vec(), old.to_vec()];
    plan_step(&Call::without_buffers(records))
}
