//! Wrong readers of sheets.

use super::{instead, later, otherwise, Parts, Wrong, MOST};
use firrozka_tests::answers::SheetAnswer;
use firrozka_tests::calls::READ_SHEET;
use firrozka_tests::faults;
use firrozka_tests::implementations::{Implementation, REFERENCE};
use firrozka_tests::reference::{read_sheet, sheet as reference};

fn reported(wrong: &[Wrong<SheetAnswer>]) {
    for &(name, read_sheet) in wrong {
        READ_SHEET.must_report(&Implementation {
            name,
            read_sheet,
            ..REFERENCE
        });
    }
}

/// A reader whose check `number` is this one. Its sum wraps.
fn sheet(bytes: &[u8], number: u32, check: impl Fn(&Parts) -> bool) -> SheetAnswer {
    let parts = Parts::of(bytes, 3, 2);
    let [n, t, e] = parts.sizes.map(|size| size as u32);
    let p = parts.sum() as u32;
    let limit = reference::limit(p.into(), n.max(1).into(), t.into()) as u32;
    let accepted = SheetAnswer {
        refusal: 0,
        n,
        t,
        e,
        p,
        limit,
    };
    instead(faults::sheet(bytes), number, check(&parts), accepted)
}

pub fn right(bytes: &[u8]) -> SheetAnswer {
    sheet(bytes, 6, |s| s.falls(|a, b| a < b) || bad_cells(s, |c| c))
}

fn second_first<const FIRST: u32, const SECOND: u32>(bytes: &[u8]) -> SheetAnswer {
    later(read_sheet(bytes), &faults::sheet(bytes), FIRST, SECOND)
}

#[test]
fn orders() {
    reported(&[
        ("2 before 1", second_first::<1, 2>),
        ("3 before 2", second_first::<2, 3>),
        ("4 before 3", second_first::<3, 4>),
        ("5 before 4", second_first::<4, 5>),
        ("6 before 5", second_first::<5, 6>),
        // "All cells come before all counts."
        ("7 before 6", second_first::<6, 7>),
    ]);
}

#[test]
fn sizes() {
    reported(&otherwise! { sheet:
        "12 bytes are too few", 1, |s| s.length <= 12;
        "N 0 accepted", 2, |s| s.n_outside(0, 64);
        "N 64 refused", 2, |s| s.n_outside(1, 63);
        "N 65 accepted", 2, |s| s.n_outside(1, 65);
        "t 0 accepted", 3, |s| s.sizes[1] > 999;
        "t 999 refused", 3, |s| !(1..999).contains(&s.sizes[1]);
        "t 1,000 accepted", 3, |s| !(1..=1_000).contains(&s.sizes[1]);
        "t 100 refused", 3, |s| !(1..100).contains(&s.sizes[1]);
        "E at N × N refused", 4, |s| s.sizes[2] >= s.sizes[0].pow(2);
        "E up to 4,096 accepted", 4, |s| s.sizes[2] > 4_096;
        "longer sheets accepted", 5, |s| s.length < 4 * (3 + 2 * s.sizes[2]);
        "bytes behind the last word accepted", 5, |s| s.length / 4 != 3 + 2 * s.sizes[2];
    });
}

#[test]
fn limit() {
    fn in_percent(bytes: &[u8]) -> SheetAnswer {
        let answer = read_sheet(bytes);
        let [p, n, t] = [answer.p, answer.n, answer.t].map(u64::from);
        let limit = reference::limit(p, n.max(1), 10 * t) as u32;
        SheetAnswer { limit, ..answer }
    }
    reported(&[("t taken as percents", in_percent)]);
}

#[test]
fn entries() {
    reported(&otherwise! { sheet:
        "cells may repeat", 6, |s| s.falls(|a, b| a <= b) || bad_cells(s, |cell| cell);
        "the holder modulo 64", 6, |s| s.falls(|a, b| a < b) || bad_cells(s, |cell| cell % 4_096);
        "the holder not looked at", 6, |s| s.falls(|a, b| a < b) || bad_cells(s, |cell| cell % 64);
        "the subdomain not looked at", 6, |s| s.falls(|a, b| a < b) || bad_cells(s, |c| c & !63);
        "a count of 0 accepted", 7, |s| s.sum() > MOST.into();
        "the largest sum refused", 7, |s| s.second.contains(&0) || s.sum() >= MOST.into();
        "a larger sum accepted", 7, |s| s.second.contains(&0) || s.sum() > (MOST + 1).into();
        "each count, not their sum", 7, |s| s.any_second(|count| !(1..=MOST).contains(&count));
        "the sum in 32 bits", 7, |s| s.second.contains(&0) || sums(s).any(|sum| sum as u32 > MOST);
        "a last count of 0 accepted", 7, |s| s.but_the_last().contains(&0) || s.sum() > MOST.into();
    });
}

/// Whether some cell, looked at so, names a node that is not there.
fn bad_cells(sheet: &Parts, seen: fn(u32) -> u32) -> bool {
    sheet.any_first(|cell| seen(cell) / 64 >= sheet.n() || seen(cell) % 64 >= sheet.n())
}

/// The running sum at each count.
fn sums(sheet: &Parts) -> impl Iterator<Item = u64> + '_ {
    sheet.second.iter().scan(0, |sum, &count| {
        *sum += u64::from(count);
        Some(*sum)
    })
}
