//! Every bound of document 01 and of request 2026-01: the value at it is
//! accepted, the value one past it is refused with the number that the paper
//! gives. The numbers here are written down from the papers and shared with no
//! other file.
#![forbid(unsafe_code)]

use firrozka_tests::boundary;
use firrozka_tests::calls::check::check;
use firrozka_tests::calls::{Call, Operation};
use firrozka_tests::calls::{READ_MOVES as MOVES, READ_PLAN as PLAN, READ_SHEET as SHEET};
use firrozka_tests::implementations::ARCHIVE;
use firrozka_tests::records::moves::{moves, route};
use firrozka_tests::records::plans::{chain, plan};
use firrozka_tests::records::sheets::{all_cells, cell, sheet};
use firrozka_tests::records::{shown, to_bytes, Record};

const MOST: u32 = 1_000_000_000;
const MOST_LIMIT: u32 = 1_999_000_000;
const TOP: u32 = u32::MAX;

/// All answers agree, and the refusal is this one.
fn expect(reader: &Operation, bytes: &[u8], refusal: u32) {
    let (name, record) = (reader.name, shown(bytes));
    let call = Call::without_buffers([bytes.to_vec(), Vec::new()]);
    let checked = check(reader, &ARCHIVE, &call);
    let checked = checked.unwrap_or_else(|wrong| panic!("{name}: {wrong}\n  {record}"));
    assert_eq!(checked.answer[0], refusal, "{name}: {record}");
}

fn expect_record(reader: &Operation, record: Record, refusal: u32) {
    expect(reader, &record.bytes(), refusal);
}

/// The valid record cut or lengthened to every length up to 8 bytes past it.
/// Refused with the first number if the sizes are cut, else with the second.
fn expect_lengths(reader: &Operation, record: Record, sizes: usize, refusals: [u32; 2]) {
    let whole = record.bytes();
    for length in 0..whole.len() + 9 {
        let mut bytes = whole.clone();
        bytes.resize(length, 1);
        let refusal = if length < sizes {
            refusals[0]
        } else if length == whole.len() {
            0
        } else {
            refusals[1]
        };
        expect(reader, &bytes, refusal);
    }
}

/// A sheet of all N × N cells, and then `more` cells above them.
fn full_sheet(n: u32, more: u32) -> Record {
    let more = (0..more).map(|k| cell(n, k));
    let cells: Vec<u32> = all_cells(n).into_iter().chain(more).collect();
    sheet(n, 10, &cells, &vec![1; cells.len()])
}

fn sheet_of(n: u32, cells: &[u32]) -> Record {
    sheet(n, 10, cells, &vec![1; cells.len()])
}

fn counted(counts: &[u32]) -> Record {
    let cells: Vec<u32> = (0..counts.len() as u32).map(|k| cell(k, 0)).collect();
    sheet(64, 10, &cells, counts)
}

#[test]
fn sheet_length() {
    expect_lengths(&SHEET, sheet(1, 1, &[], &[]), 12, [1, 5]);
    expect_lengths(
        &SHEET,
        sheet(3, 100, &[0, 65, 130], &[90, 6, 4]),
        12,
        [1, 5],
    );
}

#[test]
fn sheet_nodes_and_tolerance() {
    for (n, refusal) in [(0, 2), (1, 0), (2, 0), (63, 0), (64, 0), (65, 2), (TOP, 2)] {
        expect_record(&SHEET, sheet(n, 1, &[], &[]), refusal);
    }
    for (t, refusal) in [
        (0, 3),
        (1, 0),
        (99, 0),
        (100, 0),
        (998, 0),
        (999, 0),
        (1_000, 3),
        (TOP, 3),
    ] {
        expect_record(&SHEET, sheet(1, t, &[], &[]), refusal);
    }
}

#[test]
fn sheet_entries() {
    for n in 1..=64 {
        expect_record(&SHEET, full_sheet(n, 0), 0);
        expect_record(&SHEET, full_sheet(n, 1), 4);
    }
    // In 32 bits, each of these E asks for the 12 bytes that are there.
    for e in [1 << 29, 1 << 30, 1 << 31, 3 << 30] {
        expect(&SHEET, &to_bytes(&[64, 1, e]), 4);
    }
}

#[test]
fn sheet_cells() {
    for n in 1..=64 {
        expect_record(&SHEET, sheet_of(n, &[0]), 0);
        expect_record(&SHEET, sheet_of(n, &[cell(n - 1, n - 1)]), 0);
        expect_record(&SHEET, sheet_of(n, &[cell(n, 0)]), 6);
        expect_record(&SHEET, sheet_of(n, &[4096]), 6);
        expect_record(&SHEET, sheet_of(n, &[65_536]), 6);
        expect_record(&SHEET, sheet_of(n, &[TOP]), 6);
    }
    for n in 1..=63 {
        expect_record(&SHEET, sheet_of(n, &[cell(0, n)]), 6);
        expect_record(&SHEET, sheet_of(n, &[cell(n - 1, n)]), 6);
    }
    expect_record(&SHEET, sheet_of(64, &[4095]), 0);
    expect_record(&SHEET, sheet_of(64, &[0, 1]), 0);
    expect_record(&SHEET, sheet_of(64, &[1, 1]), 6);
    expect_record(&SHEET, sheet_of(64, &[1, 0]), 6);
    expect_record(&SHEET, sheet_of(64, &[0, 4095, 4095]), 6);
}

#[test]
fn sheet_counts() {
    expect_record(&SHEET, counted(&[1]), 0);
    expect_record(&SHEET, counted(&[0]), 7);
    expect_record(&SHEET, counted(&[1, 1, 0]), 7);
    expect_record(&SHEET, counted(&[MOST]), 0);
    expect_record(&SHEET, counted(&[MOST + 1]), 7);
    expect_record(&SHEET, counted(&[MOST - 1, 1]), 0);
    expect_record(&SHEET, counted(&[MOST, 1]), 7);
    expect_record(&SHEET, counted(&[1, MOST]), 7);
    expect_record(&SHEET, counted(&[TOP]), 7);
    // Sums that are small in 32 bits.
    expect_record(&SHEET, counted(&[1 << 31, 1 << 31]), 7);
    expect_record(&SHEET, counted(&[1 << 31, 1 << 31, 5]), 7);
    expect_record(&SHEET, counted(&[5, TOP - 3, 1]), 7);
    expect_record(&SHEET, counted(&[MOST, TOP - 10, 7]), 7);
    expect_record(&SHEET, counted(&[1 << 30; 4]), 7);
    expect_record(&SHEET, counted(&[MOST; 5]), 7);
}

/// "All cells come before all counts."
#[test]
fn sheet_cells_before_counts() {
    expect_record(&SHEET, sheet(2, 10, &[0, 2], &[0, 1]), 6);
    expect_record(&SHEET, sheet(2, 10, &[0, 65], &[0, 1]), 7);
}

#[test]
fn sheet_limit() {
    let cases = [
        // N, t, P, L
        (1, 1, 1, 1),
        (1, 999, 2, 3),
        (1, 990, MOST, 1_990_000_000),
        (1, 999, MOST, 1_999_000_000),
        (2, 999, 1, 1),
        (2, 10, 3, 2),
        (3, 10, 7, 3),
        (3, 100, 100, 36),
        (3, 500, 100, 50),
        (7, 330, 1_000, 190),
        (3, 1, MOST, 333_666_666),
        (3, 10, MOST, 336_666_666),
        (64, 1, 65, 2),
        (64, 1, MOST, 15_640_625),
        (64, 10, MOST, 15_781_250),
        (64, 999, MOST, 31_234_375),
        // Between 3 and 4 percent: 10,300,000, 10,350,000 and 10,400,000 over 3,000.
        (3, 30, 10_000, 3_433),
        (3, 35, 10_000, 3_450),
        (3, 40, 10_000, 3_466),
    ];
    for (n, t, p, limit) in cases {
        let bytes = sheet(n, t, &[0], &[p]).bytes();
        expect(&SHEET, &bytes, 0);
        let answer = boundary::read_sheet(&bytes);
        assert_eq!((answer.p, answer.limit), (p, limit), "N {n}, t {t}");
    }
}

fn roots(n: u32) -> Vec<u32> {
    (0..n).collect()
}

/// The last node is the root and every node helps the one behind it.
fn rising_chain(n: u32) -> Vec<u32> {
    (0..n).map(|k| (k + 1).min(n - 1)).collect()
}

fn plan_of(kind: u32, limit: u32, helpands: &[u32]) -> Record {
    plan(kind, limit, helpands, &vec![0; helpands.len()])
}

#[test]
fn plan_length() {
    expect_lengths(&PLAN, plan_of(0, 0, &[0]), 12, [11, 15]);
    expect_lengths(&PLAN, plan(2, 36, &[0; 3], &[0, 27, 29]), 12, [11, 15]);
}

#[test]
fn plan_nodes_and_kind() {
    for n in 1..=64 {
        expect_record(&PLAN, plan_of(0, 0, &roots(n)), 0);
    }
    expect_record(&PLAN, plan_of(0, 0, &[]), 12);
    expect_record(&PLAN, plan_of(0, 0, &roots(65)), 12);
    expect(&PLAN, &to_bytes(&[TOP, 0, 0]), 12);
    for (kind, refusal) in [(0, 17), (1, 0), (2, 0), (3, 13), (TOP, 13)] {
        expect_record(&PLAN, plan_of(kind, 0, &[0, 0]), refusal);
    }
    for (kind, refusal) in [(0, 0), (1, 13), (2, 13), (3, 13), (TOP, 13)] {
        expect_record(&PLAN, plan_of(kind, 0, &[0]), refusal);
    }
}

#[test]
fn plan_limit() {
    let accepted = [0, 1_990_000_000, 1_990_000_001, MOST_LIMIT - 1, MOST_LIMIT];
    let refused = [MOST_LIMIT + 1, TOP];
    let accepted = accepted.map(|limit| (limit, 0));
    for (limit, refusal) in accepted.into_iter().chain(refused.map(|limit| (limit, 14))) {
        expect_record(&PLAN, plan_of(0, limit, &[0]), refusal);
        expect_record(&PLAN, plan_of(1, limit, &[0, 0]), refusal);
    }
}

#[test]
fn plan_helpands() {
    for n in 2..=64 {
        let last = n as usize - 1;
        for (helpand, refusal) in [(n - 1, 0), (n, 16), (TOP, 16)] {
            let mut helpands = vec![n - 1; n as usize];
            helpands[0] = helpand;
            expect_record(&PLAN, plan_of(1, 0, &helpands), refusal);
        }
        let mut helpands = roots(n);
        helpands[last] = n;
        expect_record(&PLAN, plan_of(0, 0, &helpands), 16);
    }
    expect_record(&PLAN, plan_of(0, 0, &[1]), 16);
}

#[test]
fn plan_shape() {
    for kind in 1..=2 {
        for n in 2..=64 {
            expect_record(&PLAN, plan_of(kind, 0, &chain(n)), 0);
            expect_record(&PLAN, plan_of(kind, 0, &rising_chain(n)), 0);
            expect_record(&PLAN, plan_of(kind, 0, &roots(n)), 17);
            // No root: the chain's end helps its beginning.
            let mut ring = chain(n);
            ring[0] = n - 1;
            expect_record(&PLAN, plan_of(kind, 0, &ring), 17);
            // Two roots, the whole rest in order.
            let mut two = chain(n);
            two[n as usize / 2] = n / 2;
            expect_record(&PLAN, plan_of(kind, 0, &two), 17);
        }
        for n in 3..=64 {
            // One root, and a ring of all other nodes, or of the last two.
            let mut ring = chain(n);
            ring[1] = n - 1;
            expect_record(&PLAN, plan_of(kind, 0, &ring), 17);
            let mut pair = chain(n);
            pair[n as usize - 2] = n - 1;
            expect_record(&PLAN, plan_of(kind, 0, &pair), 17);
        }
    }
    for n in 2..=64 {
        let mut one_helps = roots(n);
        one_helps[n as usize - 1] = 0;
        expect_record(&PLAN, plan_of(0, 0, &one_helps), 17);
        expect_record(&PLAN, plan_of(0, 0, &chain(n)), 17);
    }
}

#[test]
fn plan_shares() {
    for limit in [0, 1, 36, MOST_LIMIT] {
        for n in [2, 3, 63, 64] {
            let last = n as usize - 1;
            let mut shares = vec![0; n as usize];
            shares[last] = limit;
            expect_record(&PLAN, plan(2, limit, &chain(n), &shares), 0);
            shares[last] = limit + 1;
            expect_record(&PLAN, plan(2, limit, &chain(n), &shares), 18);
            shares[last] = TOP;
            expect_record(&PLAN, plan(1, limit, &chain(n), &shares), 18);
            // The last node is the root.
            shares[last] = 1;
            expect_record(&PLAN, plan(1, limit, &rising_chain(n), &shares), 18);
            expect_record(&PLAN, plan(2, limit, &rising_chain(n), &shares), 18);
            expect_record(&PLAN, plan(0, limit, &roots(n), &shares), 18);
        }
    }
}

/// Helpands, shape and shares are each looked at over all nodes before the next.
#[test]
fn plan_helpands_before_shape_before_shares() {
    expect_record(&PLAN, plan(1, 5, &[0, 2], &[9, 9]), 16);
    expect_record(&PLAN, plan(1, 5, &[0, 1], &[9, 9]), 17);
    expect_record(&PLAN, plan(1, 5, &[1, 0, 3], &[9, 9, 9]), 16);
    expect_record(&PLAN, plan(1, 5, &[0, 0], &[9, 5]), 18);
}

fn moves_of(n: u32, routes: &[u32]) -> Record {
    moves(n, routes, &vec![1; routes.len()])
}

/// The lowest E routes among N nodes.
fn lowest_routes(n: u32, e: u32) -> Vec<u32> {
    let all = (0..n).flat_map(|subdomain| {
        let pairs = (0..n).flat_map(move |sender| (0..n).map(move |receiver| (sender, receiver)));
        let apart = pairs.filter(|(sender, receiver)| sender != receiver);
        apart.map(move |(sender, receiver)| route(subdomain, sender, receiver))
    });
    all.take(e as usize).collect()
}

#[test]
fn moves_length() {
    expect_lengths(&MOVES, moves_of(1, &[]), 8, [31, 34]);
    expect_lengths(&MOVES, moves(3, &[1, 2], &[27, 29]), 8, [31, 34]);
}

#[test]
fn moves_nodes() {
    for (n, refusal) in [
        (0, 32),
        (1, 0),
        (2, 0),
        (63, 0),
        (64, 0),
        (65, 32),
        (TOP, 32),
    ] {
        expect_record(&MOVES, moves_of(n, &[]), refusal);
    }
}

#[test]
fn moves_entries() {
    for n in 2..=64 {
        let most = n * (n - 1);
        expect_record(&MOVES, moves_of(n, &lowest_routes(n, most)), 0);
        expect_record(&MOVES, moves_of(n, &lowest_routes(n, most + 1)), 33);
    }
    expect_record(&MOVES, moves_of(1, &[1]), 33);
    // In 32 bits, each of these E asks for the 8 bytes that are there.
    for e in [1 << 29, 1 << 30, 1 << 31, 3 << 30] {
        expect(&MOVES, &to_bytes(&[64, e]), 33);
    }
}

#[test]
fn moves_routes() {
    for n in 2..=64 {
        let last = n - 1;
        expect_record(&MOVES, moves_of(n, &[route(0, 0, 1)]), 0);
        expect_record(&MOVES, moves_of(n, &[route(last, last, last - 1)]), 0);
        expect_record(&MOVES, moves_of(n, &[route(n, 0, 1)]), 35);
        expect_record(&MOVES, moves_of(n, &[route(64, 0, 1)]), 35);
        expect_record(&MOVES, moves_of(n, &[TOP - 1]), 35);
        expect_record(&MOVES, moves_of(n, &[route(0, 0, 0)]), 35);
        expect_record(&MOVES, moves_of(n, &[route(last, last, last)]), 35);
    }
    for n in 2..=63 {
        expect_record(&MOVES, moves_of(n, &[route(0, n, 0)]), 35);
        expect_record(&MOVES, moves_of(n, &[route(0, 0, n)]), 35);
    }
    expect_record(&MOVES, moves_of(64, &[262_142]), 0);
    expect_record(&MOVES, moves_of(64, &[262_143]), 35);
    expect_record(&MOVES, moves_of(64, &[262_145]), 35);
    expect_record(&MOVES, moves_of(64, &[1, 2]), 0);
    expect_record(&MOVES, moves_of(64, &[2, 2]), 35);
    expect_record(&MOVES, moves_of(64, &[2, 1]), 35);
}

#[test]
fn moves_counts() {
    for (count, refusal) in [
        (0, 36),
        (1, 0),
        (MOST, 0),
        (MOST + 1, 36),
        (1 << 31, 36),
        (TOP, 36),
    ] {
        expect_record(&MOVES, moves(3, &[1], &[count]), refusal);
        expect_record(&MOVES, moves(3, &[1, 2, 64], &[1, 1, count]), refusal);
    }
    // Each count is bounded, their sum is not.
    let routes = lowest_routes(64, 64 * 63);
    let counts = vec![MOST; routes.len()];
    expect_record(&MOVES, moves(64, &routes, &counts), 0);
}

/// "Routes come before counts."
#[test]
fn moves_routes_before_counts() {
    expect_record(&MOVES, moves(3, &[1, 3], &[0, 1]), 35);
    expect_record(&MOVES, moves(3, &[1, 2], &[0, 1]), 36);
}
