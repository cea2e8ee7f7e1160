//! A small step for each refusal that *plan a step* can give whatever the
//! buffers, 1 to 7, 11 to 18 and 21; small moves for each of *read moves*; and sheets
//! in Z order for each of *read archive*.

use crate::records::{moves, plans, sheets, z_order, Record};
use crate::steps::Step;
use crate::worked::{self, TEN_PERCENT};

/// The refusal numbers and their steps.
pub fn all() -> Vec<(u32, Step)> {
    let sheets = sheets().into_iter().map(|(refusal, sheet)| {
        // "A refused sheet ends planning before the old plan is looked at": where
        // the sheet's end can be told, a bad old plan stands behind it.
        let old = match refusal {
            1 | 5 => Vec::new(),
            _ => vec![0; 12],
        };
        (refusal, Step { sheet, old })
    });
    let two_nodes = plans::plan(2, 36, &[0, 0], &[0, 27]).bytes();
    let plans = plans().into_iter().chain([(21, two_nodes)]);
    let with_plan = |(refusal, old): (u32, Vec<u8>)| (refusal, Step { old, ..worked::d() });
    sheets.chain(plans.map(with_plan)).collect()
}

/// Sheets, 1 to 7.
pub fn sheets() -> Vec<(u32, Vec<u8>)> {
    let cells = [0, 65, 130];
    let sheet = |n, cells: &[u32], counts: &[u32]| sheets::sheet(n, TEN_PERCENT, cells, counts);
    let good = || sheet(3, &cells, &[90, 6, 4]);
    let ten: Vec<u32> = (0..10).collect();
    let beyond = sheet(3, &[0, 65, 131], &[90, 6, 4]);
    vec![
        (1, cut(good(), 11)),
        (2, sheet(65, &[], &[]).bytes()),
        (3, sheets::sheet(3, 1_000, &[], &[]).bytes()),
        (4, sheet(3, &ten, &[1; 10]).bytes()),
        (5, cut(good(), 35)),
        (6, beyond.bytes()),
        (7, sheet(3, &cells, &[90, 0, 4]).bytes()),
    ]
}

/// Old plans for the sheet of step D, 11 to 18.
pub fn plans() -> Vec<(u32, Vec<u8>)> {
    let star = [0, 0, 0];
    let shares = [0, 27, 29];
    let good = || plans::plan(2, 36, &star, &shares);
    vec![
        (11, cut(good(), 11)),
        (12, plans::plan(2, 36, &[], &[]).bytes()),
        (13, plans::plan(3, 36, &star, &shares).bytes()),
        (14, plans::plan(2, 1_999_000_001, &star, &shares).bytes()),
        (15, cut(good(), 35)),
        (16, plans::plan(2, 36, &[0, 0, 3], &shares).bytes()),
        (17, plans::plan(2, 36, &[0, 2, 1], &shares).bytes()),
        (18, plans::plan(2, 28, &star, &shares).bytes()),
    ]
}

/// Moves for the sheet of step D, 31 to 36.
pub fn moves() -> Vec<(u32, Vec<u8>)> {
    let route = moves::route;
    let moves = |n, routes: &[u32], counts: &[u32]| moves::moves(n, routes, counts).bytes();
    let seven: Vec<u32> = (0..7).map(|k| route(k / 2, 0, 1 + k % 2)).collect();
    vec![
        (31, vec![3; 7]),
        (32, moves(0, &[], &[])),
        (33, moves(3, &seven, &[1; 7])),
        (34, [moves(3, &[], &[]), vec![0]].concat()),
        (35, moves(3, &[route(0, 1, 1)], &[1])),
        (36, moves(3, &[route(0, 0, 1)], &[0])),
    ]
}

/// The sheet of step D in Z order, 54, 2, 3 and 55.
pub fn archives() -> Vec<(u32, Vec<u8>)> {
    let with = |word: usize, value: u32| {
        let mut record = z_order::of(&worked::d().sheet);
        record.words[word] = value;
        record
    };
    vec![
        (54, cut(with(0, 3), 16_391)),
        (2, with(0, 65).bytes()),
        (3, with(1, 1_000).bytes()),
        // The position of holder 0 and subdomain 3.
        (55, with(2 + 5, 1).bytes()),
    ]
}

fn cut(mut record: Record, length: usize) -> Vec<u8> {
    record.cut = Some(length);
    record.bytes()
}
