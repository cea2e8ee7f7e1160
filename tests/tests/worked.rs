//! The records that document 01 works out by hand, with the values it names and,
//! by request 2026-01, ten times their t.
#![forbid(unsafe_code)]

use firrozka_tests::answers::{MovesAnswer, PlanAnswer, SheetAnswer};
use firrozka_tests::implementations::IMPLEMENTATIONS;
use firrozka_tests::records::to_bytes;

fn sheet_gives(words: &[u32], [n, t, e, p, limit]: [u32; 5]) {
    let expected = SheetAnswer {
        refusal: 0,
        n,
        t,
        e,
        p,
        limit,
    };
    let bytes = to_bytes(words);
    for implementation in IMPLEMENTATIONS {
        assert_eq!((implementation.read_sheet)(&bytes), expected);
    }
}

fn plan_gives(words: &[u32], [n, kind, limit]: [u32; 3]) {
    let expected = PlanAnswer {
        refusal: 0,
        n,
        kind,
        limit,
    };
    let bytes = to_bytes(words);
    for implementation in IMPLEMENTATIONS {
        assert_eq!((implementation.read_plan)(&bytes), expected);
    }
}

fn moves_give(words: &[u32], [n, e]: [u32; 2]) {
    let expected = MovesAnswer { refusal: 0, n, e };
    let bytes = to_bytes(words);
    for implementation in IMPLEMENTATIONS {
        assert_eq!((implementation.read_moves)(&bytes), expected);
    }
}

#[test]
fn step_a() {
    sheet_gives(&[1, 10, 0], [1, 10, 0, 0, 0]);
}

#[test]
fn step_b() {
    sheet_gives(&[2, 10, 2, 0, 65, 2, 1], [2, 10, 2, 3, 2]);
}

#[test]
fn step_c() {
    sheet_gives(&[2, 10, 1, 0, 3], [2, 10, 1, 3, 2]);
    plan_gives(&[2, 2, 2, 0, 0, 0, 1], [2, 2, 2]);
}

#[test]
fn step_d() {
    sheet_gives(&[3, 100, 3, 0, 65, 130, 90, 6, 4], [3, 100, 3, 100, 36]);
    plan_gives(&[3, 2, 36, 0, 0, 0, 0, 27, 29], [3, 2, 36]);
    moves_give(&[3, 2, 1, 2, 27, 29], [3, 2]);
}

#[test]
fn step_e() {
    let sheet = [3, 100, 6, 0, 2, 64, 65, 128, 130, 30, 3, 27, 6, 30, 4];
    sheet_gives(&sheet, [3, 100, 6, 100, 36]);
    plan_gives(&[3, 1, 36, 0, 0, 0, 0, 27, 29], [3, 1, 36]);
    moves_give(&[3, 2, 128, 8194, 1, 3], [3, 2]);
}

#[test]
fn step_f() {
    plan_gives(&[3, 2, 36, 1, 1, 0, 7, 0, 23], [3, 2, 36]);
}

#[test]
fn step_g() {
    sheet_gives(&[3, 10, 2, 65, 130, 5, 2], [3, 10, 2, 7, 3]);
    plan_gives(&[3, 2, 36, 2, 0, 2, 0, 0, 0], [3, 2, 36]);
    plan_gives(&[3, 2, 3, 1, 1, 1, 3, 0, 0], [3, 2, 3]);
}

#[test]
fn step_j() {
    sheet_gives(&[3, 100, 3, 0, 65, 130, 36, 36, 28], [3, 100, 3, 100, 36]);
    plan_gives(&[3, 0, 36, 0, 1, 2, 0, 0, 0], [3, 0, 36]);
}
