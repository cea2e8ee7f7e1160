//! Request 2026-02, joining sheets: what is written, and every refusal in its
//! order. The expectations are the paper's or worked out by hand.
#![forbid(unsafe_code)]

use firrozka_tests::answers::SheetAnswer;
use firrozka_tests::buffers::{all_refuse, all_write};
use firrozka_tests::implementations::{Implementation, Planned, IMPLEMENTATIONS, REFERENCE};
use firrozka_tests::random::Random;
use firrozka_tests::records::sheets::{all_cells, by_cell, pair, parted, sheet};
use firrozka_tests::records::{to_bytes, to_words};
use firrozka_tests::settings::SEED;
use firrozka_tests::steps::{self, Size};
use firrozka_tests::{bench_text, refused, worked};
use std::collections::BTreeMap;
use std::fs;

const MOST: u32 = 1_000_000_000;

/// All write this sheet, whichever of the two comes first.
fn join_to(first: &[u8], second: &[u8], joint: &[u8]) {
    for [a, b] in [[first, second], [second, first]] {
        all_write(|by, out| (by.join_sheets)(a, b, out), joint, 52);
    }
    for implementation in IMPLEMENTATIONS {
        assert_eq!(joined(implementation, first, second), joint);
    }
}

/// All refuse the two, in this order.
fn refuse(first: &[u8], second: &[u8], lengths: &[usize], refusal: u32) {
    all_refuse(
        |by, out| (by.join_sheets)(first, second, out),
        lengths,
        refusal,
    );
}

/// All refuse the two, in either order.
fn refuse_both_ways(first: &[u8], second: &[u8], lengths: &[usize], refusal: u32) {
    refuse(first, second, lengths, refusal);
    refuse(second, first, lengths, refusal);
}

/// The joined sheet, and what must hold of it, whatever the two are.
fn joined(implementation: &Implementation, first: &[u8], second: &[u8]) -> Vec<u8> {
    let joint = implementation.joined(first, second).expect("accepted");
    assert_eq!(implementation.joined(second, first).as_ref(), Ok(&joint));
    // It is a sheet of the same N and t, with the sum of both totals.
    let [a, b, both] = [first, second, &joint].map(implementation.read_sheet);
    let (n, t, p) = (a.n, a.t, a.p + b.p);
    let limit = limit(p, n, t);
    assert_eq!([b.n, b.t], [n, t]);
    assert_eq!([both.refusal, both.n, both.t], [0, n, t]);
    assert_eq!([both.p, both.limit], [p, limit]);
    // "every cell the sum of both", and so every subdomain.
    let [a, b, both] = [first, second, &joint].map(by_cell);
    for cell in all_cells(n) {
        assert_eq!(count(&both, cell), count(&a, cell) + count(&b, cell));
    }
    for subdomain in 0..n {
        let [a, b, both] = [&a, &b, &both].map(|counts| total(counts, subdomain));
        assert_eq!(both, a + b);
    }
    // "joined with the resident sheet before planning"
    let planned = implementation.planned(&joint, &[]).expect("accepted");
    assert_eq!(to_words(&planned.plan)[2], limit);
    joint
}

/// "the larger of P/N rounded up and" "P × (1000+t) / (1000 × N) rounded down"
fn limit(p: u32, n: u32, t: u32) -> u32 {
    let [p, n, t] = [p, n, t].map(u64::from);
    let (up, down) = ((p + n - 1) / n, p * (1000 + t) / (1000 * n));
    up.max(down) as u32
}

/// "Cells absent from the sheet count as 0."
fn count(counts: &BTreeMap<u32, u32>, cell: u32) -> u32 {
    counts.get(&cell).copied().unwrap_or(0)
}

fn total(counts: &BTreeMap<u32, u32>, subdomain: u32) -> u32 {
    let of_it = counts.iter().filter(|(&cell, _)| cell % 64 == subdomain);
    of_it.map(|(_, &count)| count).sum()
}

/// A sheet of one cell.
fn one(n: u32, t: u32, cell: u32, count: u32) -> Vec<u8> {
    sheet(n, t, &[cell], &[count]).bytes()
}

fn empty(n: u32, t: u32) -> Vec<u8> {
    sheet(n, t, &[], &[]).bytes()
}

/// Particles for step D's nodes: 10 of subdomain 0 and 20 of subdomain 1 at node
/// 0, 1 of subdomain 0 at node 2.
fn inlet() -> Vec<u8> {
    to_bytes(&[3, 100, 3, 0, 1, 128, 10, 20, 1])
}

/// Step D has 90, 6 and 4. With the inlet's the subdomains have 101, 26 and 4,
/// which is 131, so the limit is 48 and the targets are 44, 44 and 43.
#[test]
fn step_d_with_an_inlet() {
    let joint = [3, 100, 5, 0, 1, 65, 128, 130, 100, 20, 6, 1, 4];
    let joint = to_bytes(&joint);
    join_to(&worked::d().sheet, &inlet(), &joint);
    for implementation in IMPLEMENTATIONS {
        let read = (implementation.read_sheet)(&joint);
        assert_eq!([read.refusal, read.e, read.p, read.limit], [0, 5, 131, 48]);
        let planned = implementation.planned(&joint, &[]).expect("accepted");
        let plan = [3, 2, 48, 0, 0, 0, 0, 18, 39];
        assert_eq!(to_words(&planned.plan), plan);
    }
}

/// What examples/join must print: the inlet opens after step D, and the joined
/// sheet is shown and planned with D's plan as the old one.
#[test]
fn the_example() {
    let d = worked::d();
    let Planned { plan, moves } = REFERENCE.plan(&d);
    let resident = REFERENCE.carried_out(&d.sheet, &moves).expect("accepted");
    let inlet = to_bytes(&[3, 100, 2, 0, 1, 5, 3]);
    let joint = REFERENCE.joined(&resident, &inlet).expect("accepted");
    join_to(&resident, &inlet, &joint);
    let SheetAnswer { e, p, limit, .. } = (REFERENCE.read_sheet)(&joint);
    let mut text = format!("# sheet: cells {e}, particles {p}, limit {limit}\n");
    text += "nodes 3 tolerance 10 percent\nholder,subdomain,count\n";
    for (cell, count) in by_cell(&joint) {
        text += &format!("{},{},{count}\n", cell / 64, cell % 64);
    }
    text += &bench_text::text(&joint, &plan);
    let path = concat!(env!("CARGO_MANIFEST_DIR"), "/../examples/join.expected");
    let expected = fs::read_to_string(path).expect("the file is there");
    assert!(expected == text, "it should be:\n{text}");
}

/// "Cells absent from the sheet count as 0": with no cell in common, with all,
/// and with none at all.
#[test]
fn cells_of_one_of_both_and_of_none() {
    let joint = to_bytes(&[3, 100, 4, 0, 65, 129, 130, 90, 6, 1, 4]);
    join_to(&worked::d().sheet, &one(3, 100, 129, 1), &joint);
    let d = worked::d().sheet;
    join_to(&d, &d, &to_bytes(&[3, 100, 3, 0, 65, 130, 180, 12, 8]));
    join_to(&d, &empty(3, 100), &d);
    join_to(&empty(3, 100), &empty(3, 100), &empty(3, 100));
    join_to(&one(1, 1, 0, 2), &one(1, 1, 0, 3), &one(1, 1, 0, 5));
    join_to(
        &one(64, 999, 4_095, 2),
        &empty(64, 999),
        &one(64, 999, 4_095, 2),
    );
}

/// "7 for a joint total above the maximum", which is 1,000,000,000.
#[test]
fn joint_totals() {
    let two = |counts: [u32; 2]| sheet(2, 1, &[0, 65], &counts).bytes();
    for (a, b) in [(MOST - 1, 1), (MOST / 2, MOST / 2), (1, MOST - 1)] {
        join_to(&one(2, 1, 0, a), &one(2, 1, 0, b), &one(2, 1, 0, MOST));
        join_to(&one(2, 1, 0, a), &one(2, 1, 65, b), &two([a, b]));
    }
    join_to(&one(2, 1, 0, MOST), &empty(2, 1), &one(2, 1, 0, MOST));
    for (a, b) in [(MOST, 1), (MOST / 2, MOST / 2 + 1), (MOST, MOST)] {
        let lengths = [0, 12, 20, 28, 99];
        refuse_both_ways(&one(2, 1, 0, a), &one(2, 1, 0, b), &lengths, 7);
        refuse_both_ways(&one(2, 1, 0, a), &one(2, 1, 65, b), &lengths, 7);
    }
    refuse_both_ways(&two([MOST - 2, 1]), &two([1, 1]), &[0, 28, 99], 7);
}

/// "the first sheet's, the second's"
#[test]
fn refused_sheets() {
    let lengths = [0, 12, 99];
    let (same, other) = (worked::d().sheet, worked::b().sheet);
    for (refusal, bad) in refused::sheets() {
        for (_, second) in refused::sheets() {
            refuse(&bad, &second, &lengths, refusal);
        }
        refuse_both_ways(&bad, &same, &lengths, refusal);
        // Before 51: N and t of this one are others.
        refuse_both_ways(&bad, &other, &lengths, refusal);
    }
    // No sheet is left out by giving it length 0.
    refuse_both_ways(&[], &same, &lengths, 1);
}

/// "N and t must be equal."
#[test]
fn unequal_nodes_or_tolerances() {
    let lengths = [0, 12, 20, 28, 99];
    let first = one(3, 100, 0, 1);
    let nodes = [1, 2, 4, 64].map(|n| (n, 100));
    // One of them has the same low byte.
    let tolerances = [1, 99, 101, 356, 999].map(|t| (3, t));
    for (n, t) in nodes.into_iter().chain(tolerances).chain([(2, 101)]) {
        refuse_both_ways(&first, &one(n, t, 0, 1), &lengths, 51);
        refuse_both_ways(&first, &empty(n, t), &lengths, 51);
        // Before the joint total.
        refuse_both_ways(&first, &one(n, t, 0, MOST), &lengths, 51);
    }
    refuse_both_ways(&one(3, 64, 0, 1), &one(64, 3, 0, 1), &lengths, 51);
}

/// "52 for a short buffer": of 5 cells joined from two sheets of 3.
#[test]
fn short_buffers() {
    refuse_both_ways(&worked::d().sheet, &inlet(), &[0, 11, 12, 36, 51], 52);
    refuse_both_ways(&empty(3, 100), &empty(3, 100), &[0, 11], 52);
    // As long as the longer of the two is enough if it has all cells.
    let (d, more) = (worked::d().sheet, one(3, 100, 65, 1));
    refuse_both_ways(&d, &more, &[20, 35], 52);
    join_to(&d, &more, &to_bytes(&[3, 100, 3, 0, 65, 130, 90, 7, 4]));
}

/// 64 nodes and all 4,096 cells, in both sheets or in the two halves of a table,
/// with few particles and with as many as there can be.
#[test]
fn all_cells_of_all_nodes() {
    let cells = all_cells(64);
    let full = |counts: &[u32]| sheet(64, 35, &cells, counts).bytes();
    join_to(&full(&[1; 4_096]), &full(&[2; 4_096]), &full(&[3; 4_096]));
    // 4,096 × 122,070 and 1,280 are half of the most.
    let [mut half, mut all] = [[122_070; 4_096], [244_140; 4_096]];
    (half[4_095], all[4_095]) = (123_350, 246_700);
    join_to(&full(&half), &full(&half), &full(&all));
    let (low, high) = cells.split_at(2_048);
    let part = |cells, counts: &[u32]| sheet(64, 35, cells, counts).bytes();
    let (low, high) = (part(low, &all[..2_048]), part(high, &all[2_048..]));
    join_to(&low, &high, &full(&all));
    all[0] += 1;
    refuse_both_ways(&full(&all), &empty(64, 35), &[0, 32_780], 7);
    half[0] += 1;
    refuse_both_ways(&full(&half), &full(&half), &[0, 32_780], 7);
}

/// Whatever two sheets are joined.
#[test]
fn seeded_pairs() {
    for index in 0..300 {
        let [first, second] = pair(&mut Random::at(SEED, index)).map(|record| record.bytes());
        for implementation in IMPLEMENTATIONS {
            joined(implementation, &first, &second);
        }
    }
}

/// A sheet in three parts is joined to what it was, whichever two come first.
#[test]
fn parts_of_a_sheet() {
    for index in 0..300 {
        let mut random = Random::at(SEED, index);
        let whole = steps::some(Size::Any, &mut random).sheet;
        let mut cut = |sheet: &[u8]| {
            let parts = parted(sheet, |count| random.between(0, count));
            parts.map(|record| record.bytes())
        };
        let [first, rest] = cut(&whole);
        let [second, third] = cut(&rest);
        for implementation in IMPLEMENTATIONS {
            assert_eq!(joined(implementation, &second, &third), rest);
            assert_eq!(joined(implementation, &first, &rest), whole);
            let front = joined(implementation, &first, &second);
            assert_eq!(joined(implementation, &front, &third), whole);
        }
    }
}
