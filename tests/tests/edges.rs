//! Calls at the edges, gone through one by one: every word of a record off,
//! every length, 2^32 − 1 everywhere, and the largest records. Of a sheet in Z order,
//! which is never small, it is the words and the lengths at either end.
#![forbid(unsafe_code)]

use firrozka_tests::calls::check::check;
use firrozka_tests::calls::drafts::Draft;
use firrozka_tests::calls::{Operation, CARRY_OUT, OPERATIONS, TRAFFIC_PAGE};
use firrozka_tests::implementations::ARCHIVE;
use firrozka_tests::records::{moves, plans, sheets, shown, Record};
use firrozka_tests::steps::Step;
use firrozka_tests::worked;

const MOST: u32 = 1_000_000_000;

/// The archive answers as it should, whatever the buffers.
fn expect(operation: &Operation, draft: &Draft) {
    for call in draft.all_calls(operation) {
        if let Err(wrong) = check(operation, &ARCHIVE, &call) {
            let [first, second] = [0, 1].map(|at| shown(&call.records[at]));
            panic!("{}: {wrong}\n  {first}\n  {second}", operation.name);
        }
    }
}

/// The same for the operations that take a sheet and moves.
fn expect_moves(records: [Record; 2]) {
    let draft = Draft::new(records);
    for operation in [&CARRY_OUT, &TRAFFIC_PAGE] {
        expect(operation, &draft);
    }
}

/// Small calls, most of them accepted.
fn small(operation: &Operation) -> Vec<[Record; 2]> {
    let steps = [
        worked::a(),
        worked::d(),
        worked::e(),
        worked::h(),
        worked::i(),
    ];
    steps.iter().map(|step| (operation.records)(step)).collect()
}

/// Each small call with one of its records changed in every such way.
fn changed(change: impl Fn(&Operation, [Record; 2], usize)) {
    for operation in OPERATIONS {
        for which in [0, 1] {
            let there = |records: &[Record; 2]| !records[which].is_none();
            for records in small(operation).into_iter().filter(there) {
                change(operation, records, which);
            }
        }
    }
}

/// All places below this. If they are many, so many at the beginning, which are all
/// of a small record's, and so many at the end.
fn ends(length: usize, [first, last]: [usize; 2]) -> impl Iterator<Item = usize> {
    (0..length).filter(move |&at| at < first || at + last >= length)
}

#[test]
fn every_word() {
    changed(|operation, records, which| {
        let mut draft = Draft::new(records);
        for at in ends(draft.records[which].words.len(), [24, 4]) {
            let word = draft.records[which].words[at];
            let (less, more) = (word.wrapping_sub(1), word.wrapping_add(1));
            let edges = [0, 1, 2, 3, 4, 63, 64, 65, 999, 1_000, 4_095, 4_096, 36, 37];
            let high = [
                MOST,
                MOST + 1,
                1_999_000_000,
                1_999_000_001,
                1 << 31,
                u32::MAX,
            ];
            for value in edges.into_iter().chain(high).chain([less, more]) {
                draft.records[which].words[at] = value;
                expect(operation, &draft);
            }
            draft.records[which].words[at] = word;
        }
    });
}

#[test]
fn every_length() {
    changed(|operation, records, which| {
        let mut draft = Draft::new(records);
        draft.records[which].tail = vec![1; 9];
        let longest = 4 * draft.records[which].words.len() + 9;
        for length in ends(longest + 1, [80, 20]) {
            draft.records[which].cut = Some(length);
            expect(operation, &draft);
        }
    });
}

/// 2^32 − 1 in every word, of one record and of both.
#[test]
fn the_highest_word_everywhere() {
    changed(|operation, records, which| {
        let mut draft = Draft::new(records);
        let words = draft.records[which].words.clone();
        draft.records[which].words.fill(u32::MAX);
        expect(operation, &draft);
        // Sizes as they should be, entries not.
        for sizes in 1..=3 {
            draft.records[which].words.clone_from(&words);
            draft.records[which].words[sizes.min(words.len())..].fill(u32::MAX);
            expect(operation, &draft);
        }
        draft.records[1 - which].words.fill(u32::MAX);
        draft.records[which].words.fill(u32::MAX);
        expect(operation, &draft);
    });
}

/// Sheets with all cells for 1, 2, 3, 63 and 64 nodes and as many particles as
/// there can be, and old trees as deep and as wide as they can be.
#[test]
fn the_largest_records() {
    for n in [1, 2, 3, 63, 64] {
        let cells = sheets::all_cells(n);
        let each = MOST / (n * n);
        let mut counts = vec![each; cells.len()];
        // One cell has the rest, and then nearly all.
        let last = counts.len() - 1;
        counts[last] += MOST - each * n * n;
        let even = sheets::sheet(n, 1, &cells, &counts).bytes();
        counts.fill(1);
        counts[last] = MOST - (n * n - 1);
        let uneven = sheets::sheet(n, 999, &cells, &counts).bytes();
        for sheet in [even, uneven] {
            for helpands in [plans::chain(n), vec![0; n as usize]] {
                let old = match n {
                    1 => Vec::new(),
                    _ => worked::old(&helpands),
                };
                let sheet = sheet.clone();
                let step = Step { sheet, old };
                for operation in OPERATIONS {
                    expect(operation, &Draft::new((operation.records)(&step)));
                }
            }
        }
    }
}

/// Every cell sends all it can, to one node or to all others, up to
/// N × (N−1) moves; one particle more is refused.
#[test]
fn the_most_moves() {
    for n in [2, 3, 63, 64] {
        let others = n - 1;
        let sheet = sheets::sheet(n, 1, &[0], &[others]);
        let all: Vec<u32> = (1..n)
            .map(|receiver| moves::route(0, 0, receiver))
            .collect();
        let mut counts = vec![1; all.len()];
        expect_moves([sheet, moves::moves(n, &all, &counts)]);
        counts[0] = 2;
        let sheet = sheets::sheet(n, 1, &[0], &[others]);
        expect_moves([sheet, moves::moves(n, &all, &counts)]);
        // Every holder of subdomains 0 and up sends to its neighbour.
        let cells = sheets::all_cells(n);
        let route = |k: u32| {
            let (subdomain, sender) = (k / n, k % n);
            moves::route(subdomain, sender, (sender + 1) % n)
        };
        let routes: Vec<u32> = (0..n * (n - 1)).map(route).collect();
        for count in [1, 2, 3] {
            let sheet = sheets::sheet(n, 1, &cells, &vec![2; cells.len()]);
            let sends = moves::moves(n, &routes, &vec![count; routes.len()]);
            expect_moves([sheet, sends]);
        }
    }
}
