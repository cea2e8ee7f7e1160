//! Every check of an operation looked at on its own, as `crate::faults` does
//! for the readers. The refusal that the papers ask for is the smallest number
//! found, but for its hundreds, and 0 if there is none.

use super::Call;
use crate::bounds::MOST_PARTICLES;
use crate::faults::{holding, moves, plan, sheet, stretch, word_at, z_order};
use crate::records::to_words;
use std::collections::{BTreeMap, BTreeSet};

/// "Refused: the sheet's; the plan's; 21, their N differ; 24, kind 0; 25,
/// buffer under 4N bytes."
pub fn weigh(call: &Call) -> Vec<u32> {
    let rest = holding(&[(25, is_short(call, 0))]);
    [open_tally(call), rest].concat()
}

/// Request 2026-08: "opening has those of *weigh* up to 24".
pub fn open_tally(call: &Call) -> Vec<u32> {
    let [first, second] = &call.records;
    let rest = holding(&[(21, differ(call, 0)), (24, kind(second) == Some(0))]);
    [sheet(first), plan(second), rest].concat()
}

/// "Refused: the sheet's; the plan's; 21; 22, plan buffer too short; 23, moves
/// buffer too short." The old plan "may have length 0".
pub fn plan_step(call: &Call) -> Vec<u32> {
    let [first, second] = &call.records;
    let old = match second.is_empty() {
        true => Vec::new(),
        false => plan(second),
    };
    let rest = holding(&[
        (21, differ(call, 0)),
        (22, is_short(call, 0)),
        (23, is_short(call, 1)),
    ]);
    [sheet(first), old, rest].concat()
}

/// "Refused: the sheet's; the moves'; 41, N differ; 42, some cell sends in all
/// more than the old sheet gives it; 43, buffer too short."
pub fn carry_out(call: &Call) -> Vec<u32> {
    carrying_out(call, 43)
}

/// Request 2026-04: "Checks: those of *carry out* up to 42, then 53 for a buffer
/// under 25 × (N+1) bytes."
pub fn traffic_page(call: &Call) -> Vec<u32> {
    carrying_out(call, 53)
}

/// Those of *carry out* with this number for a short buffer.
fn carrying_out(call: &Call, too_short: u32) -> Vec<u32> {
    let [first, second] = &call.records;
    let rest = holding(&[
        (41, differ(call, 0)),
        (42, sends_too_much(first, second)),
        (too_short, is_short(call, 0)),
    ]);
    [sheet(first), moves(second), rest].concat()
}

/// "when either is refused, the N differ, or the new kind is 1 and the old is
/// kind 0 or has other helpands"
pub fn tree_in_force(call: &Call) -> Vec<u32> {
    let [old, new] = &call.records;
    let kept = kind(new) == Some(1);
    let rest = holding(&[
        (121, differ(call, 0)),
        (122, kept && kind(old) == Some(0)),
        (123, kept && helpands(old) != helpands(new)),
    ]);
    [plan(old), of_second(plan(new)), rest].concat()
}

/// Request 2026-02: "Checks: the first sheet's, the second's, 51 for unequal N or
/// t, 7 for a joint total above the maximum, 52 for a short buffer."
pub fn join_sheets(call: &Call) -> Vec<u32> {
    let [first, second] = &call.records;
    let rest = holding(&[
        (151, differ(call, 0) || differ(call, 1)),
        (207, joint_total(call) > u64::from(MOST_PARTICLES)),
        (252, is_short(call, 0)),
    ]);
    [sheet(first), of_second(sheet(second)), rest].concat()
}

/// Request 2026-05: "writing has the sheet's, then 56 for a short buffer".
pub fn write_archive(call: &Call) -> Vec<u32> {
    let rest = holding(&[(56, is_short(call, 0))]);
    [sheet(&call.records[0]), rest].concat()
}

/// Request 2026-05: "reading has 54 for another length, 2, 3, 55 for a count above 0
/// at a node not below N or a sum above the maximum, then 56."
pub fn read_archive(call: &Call) -> Vec<u32> {
    let rest = holding(&[(356, is_short(call, 0))]);
    [z_order(&call.records[0]), rest].concat()
}

/// Request 2026-06: "Checks: the plan's, then 57 for a buffer under 4 × (1+2N)
/// bytes."
pub fn groups(call: &Call) -> Vec<u32> {
    let rest = holding(&[(57, is_short(call, 0))]);
    [plan(&call.records[0]), rest].concat()
}

/// The faults of a second record that is of the same sort as the first.
fn of_second(faults: Vec<u32>) -> Vec<u32> {
    faults.into_iter().map(|number| 100 + number).collect()
}

/// Whether both records have the word at this place and these differ.
fn differ(call: &Call, place: usize) -> bool {
    let [a, b] = [0, 1].map(|at| word_at(&to_words(&call.records[at]), place));
    a.zip(b).map_or(false, |(a, b)| a != b)
}

fn kind(plan: &[u8]) -> Option<u64> {
    word_at(&to_words(plan), 1)
}

pub fn helpands(plan: &[u8]) -> Vec<u32> {
    let words = to_words(plan);
    stretch(&words, 3, word_at(&words, 0).unwrap_or(0)).to_vec()
}

fn is_short(call: &Call, buffer: usize) -> bool {
    call.lengths[buffer] < call.needed[buffer]
}

/// Whether some cell sends more than it has, as far as the words are there.
fn sends_too_much(sheet: &[u8], moves: &[u8]) -> bool {
    let held: BTreeMap<u64, u64> = entries(sheet, 3).into_iter().collect();
    let mut sent: BTreeMap<u64, u64> = BTreeMap::new();
    for (route, count) in entries(moves, 2) {
        let (subdomain, sender) = (route / 4096, route / 64 % 64);
        *sent.entry(sender * 64 + subdomain).or_default() += count;
    }
    let has = |cell: u64| held.get(&cell).copied().unwrap_or(0);
    sent.into_iter().any(|(cell, count)| count > has(cell))
}

/// The counts of two sheets in all, as far as they are there.
pub fn joint_total(call: &Call) -> u64 {
    let [first, second] = [0, 1].map(|at| entries(&call.records[at], 3));
    first.iter().chain(&second).map(|(_, count)| count).sum()
}

/// The counts of moves in all, as far as they are there.
pub fn all_moved(call: &Call) -> u64 {
    entries(&call.records[1], 2)
        .iter()
        .map(|(_, count)| count)
        .sum()
}

/// The counts of a sheet in Z order, as far as they are there.
pub fn counts_in_z_order(archive: &[u8]) -> Vec<u32> {
    stretch(&to_words(archive), 2, 4_096).to_vec()
}

/// The length of the sheet with the counts of one in Z order.
pub fn length_back(archive: &[u8]) -> usize {
    let counts = counts_in_z_order(archive);
    4 * (3 + 2 * counts.iter().filter(|&&count| count > 0).count())
}

/// The length of a sheet with each cell that one of two sheets has, as far as
/// they are there.
pub fn joint_length(first: &[u8], second: &[u8]) -> usize {
    let both = [entries(first, 3), entries(second, 3)].concat();
    let cells: BTreeSet<u64> = both.into_iter().map(|(cell, _)| cell).collect();
    4 * (3 + 2 * cells.len())
}

/// The entries of both arrays side by side, behind so many sizes, the last of
/// which says how many they are.
fn entries(bytes: &[u8], head: u64) -> Vec<(u64, u64)> {
    let words = to_words(bytes);
    let count = word_at(&words, head as usize - 1).unwrap_or(0);
    let first = stretch(&words, head, count);
    let second = stretch(&words, head + count, count);
    let wide = |(&a, &b): (&u32, &u32)| (u64::from(a), u64::from(b));
    first.iter().zip(second).map(wide).collect()
}
