//! The run of *join sheets* can fail: whoever joins them wrong, in ways that are
//! plausible, is reported. The wrong ones make one check otherwise, or two in the
//! wrong order, or write something else.
#![forbid(unsafe_code)]

use firrozka_tests::answers::{self, Answer, WrittenAnswer};
use firrozka_tests::calls::JOIN_SHEETS;
use firrozka_tests::careless::put;
use firrozka_tests::implementations::{Implementation, Write, REFERENCE, SHEET_BYTES};
use firrozka_tests::reference::join_sheets;
use firrozka_tests::reference::sheet::{self, Sheet};
use firrozka_tests::settings::SEED;
use std::collections::BTreeMap;

const MOST: u32 = 1_000_000_000;

/// Two accepted sheets, the sheet of both, and the length of the buffer.
struct Joining {
    first: Sheet,
    second: Sheet,
    joint: Sheet,
    room: usize,
}

impl Joining {
    fn total(&self) -> u32 {
        self.first.total() + self.second.total()
    }

    /// The largest count of both together.
    fn largest(&self) -> u32 {
        self.joint.counts.iter().copied().max().unwrap_or(0)
    }

    /// How many cells each of the two has.
    fn cells(&self) -> [usize; 2] {
        [&self.first, &self.second].map(|sheet| sheet.cells.len())
    }

    /// Whether the buffer is shorter than a sheet of so many cells.
    fn lacks_room(&self, cells: usize) -> bool {
        self.room < 4 * (3 + 2 * cells)
    }
}

/// A refusal and its check.
type Check = (u32, fn(&Joining) -> bool);

const UNEQUAL: Check = (51, |it| {
    it.first.n != it.second.n || it.first.t != it.second.t
});
const TOO_MANY: Check = (7, |it| it.total() > MOST);
const TOO_SHORT: Check = (52, |it| it.lacks_room(it.joint.cells.len()));

/// What a cell gets that has so much in the first sheet and so much in the second.
type Sum = fn(u32, u32) -> u32;

/// Joins with these checks and this sum.
fn join([first, second]: [&[u8]; 2], out: &mut [u8], checks: &[Check], sum: Sum) -> WrittenAnswer {
    let (first, second) = match (sheet::read(first), sheet::read(second)) {
        (Ok(first), Ok(second)) => (first, second),
        (Err(refusal), _) | (_, Err(refusal)) => return Answer::refused(refusal),
    };
    let joining = Joining {
        joint: joint(&first, &second, sum),
        first,
        second,
        room: out.len(),
    };
    if let Some((refusal, _)) = checks.iter().find(|(_, met)| met(&joining)) {
        return Answer::refused(*refusal);
    }
    let record = joining.joint.bytes();
    put(&record, out);
    answers::written(record.len() as u32)
}

fn joint(first: &Sheet, second: &Sheet, sum: Sum) -> Sheet {
    let mut both: BTreeMap<u32, [u32; 2]> = BTreeMap::new();
    for (at, sheet) in [first, second].into_iter().enumerate() {
        for (&cell, &count) in sheet.cells.iter().zip(&sheet.counts) {
            both.entry(cell).or_default()[at] = count;
        }
    }
    let sums = both.into_iter().map(|(cell, [a, b])| (cell, sum(a, b)));
    let (cells, counts) = sums.filter(|&(_, count)| count > 0).unzip();
    Sheet {
        cells,
        counts,
        ..*first
    }
}

/// Joiners with other checks.
macro_rules! checking {
    ($($name:literal, [$($check:expr),*];)*) => {
        [$(($name, |a, b, out| join([a, b], out, &[$($check),*], |a, b| a + b))),*]
    };
}

/// Joiners with other sums.
macro_rules! summing {
    ($($name:literal, $sum:expr;)*) => {
        [$(($name, |a, b, out| join([a, b], out, &[UNEQUAL, TOO_MANY, TOO_SHORT], $sum))),*]
    };
}

fn reported(wrong: &[(&'static str, Write)]) {
    for &(name, join_sheets) in wrong {
        JOIN_SHEETS.must_report(&Implementation {
            name,
            join_sheets,
            ..REFERENCE
        });
    }
}

/// With the right checks and the right sum nothing is reported.
#[test]
fn the_right_checks() {
    let [(name, join_sheets)]: [(_, Write); 1] = checking! {
        "right", [UNEQUAL, TOO_MANY, TOO_SHORT];
    };
    let right = Implementation {
        name,
        join_sheets,
        ..REFERENCE
    };
    let met = JOIN_SHEETS.run(&right, SEED, 2_000);
    assert!(met.is_ok(), "{:?}", met.err());
}

#[test]
fn checks() {
    reported(&checking! {
        "only N compared", [(51, |it| it.first.n != it.second.n), TOO_MANY, TOO_SHORT];
        "only t compared", [(51, |it| it.first.t != it.second.t), TOO_MANY, TOO_SHORT];
        "neither compared", [TOO_MANY, TOO_SHORT];
        "the largest joint total refused", [UNEQUAL, (7, |it| it.total() >= MOST), TOO_SHORT];
        "a larger one accepted", [UNEQUAL, (7, |it| it.total() > MOST + 1), TOO_SHORT];
        "each cell, not the total", [UNEQUAL, (7, |it| it.largest() > MOST), TOO_SHORT];
        "the joint total not tested", [UNEQUAL, TOO_SHORT];
    });
}

#[test]
fn rooms() {
    reported(&checking! {
        "a short buffer taken", [UNEQUAL, TOO_MANY];
        "one byte more wanted", [UNEQUAL, TOO_MANY, (52, |it| it.room <= it.joint.bytes().len())];
        "room for the longer of both",
            [UNEQUAL, TOO_MANY, (52, |it| it.lacks_room(it.cells()[0].max(it.cells()[1])))];
        "room for one behind the other",
            [UNEQUAL, TOO_MANY, (52, |it| it.lacks_room(it.cells()[0] + it.cells()[1]))];
        "room for all cells",
            [UNEQUAL, TOO_MANY, (52, |it| it.lacks_room(it.first.n.pow(2) as usize))];
    });
}

#[test]
fn orders() {
    reported(&checking! {
        "7 before 51", [TOO_MANY, UNEQUAL, TOO_SHORT];
        "52 before 7", [UNEQUAL, TOO_SHORT, TOO_MANY];
        "52 before 51", [TOO_SHORT, UNEQUAL, TOO_MANY];
    });
    reported(&[
        ("the second sheet before the first", second_first),
        ("51 before the second sheet is read", unequal_first),
        ("the second sheet's refusals not given", second_not_read),
    ]);
}

fn second_first(first: &[u8], second: &[u8], out: &mut [u8]) -> WrittenAnswer {
    match sheet::read(second) {
        Ok(_) => join_sheets(first, second, out),
        Err(refusal) => Answer::refused(refusal),
    }
}

fn unequal_first(first: &[u8], second: &[u8], out: &mut [u8]) -> WrittenAnswer {
    let unequal = second.len() >= 8 && !first.starts_with(&second[..8]);
    match sheet::read(first) {
        Ok(_) if unequal => Answer::refused(51),
        _ => join_sheets(first, second, out),
    }
}

/// A second sheet that is refused counts as empty.
fn second_not_read(first: &[u8], second: &[u8], out: &mut [u8]) -> WrittenAnswer {
    match (sheet::read(first), sheet::read(second)) {
        (Ok(Sheet { n, t, .. }), Err(_)) => {
            let (cells, counts) = (Vec::new(), Vec::new());
            let none = Sheet {
                n,
                t,
                cells,
                counts,
            };
            join_sheets(first, &none.bytes(), out)
        }
        _ => join_sheets(first, second, out),
    }
}

#[test]
fn sums() {
    reported(&summing! {
        "cells of the first alone left out", |a, b| if b == 0 { 0 } else { a + b };
        "cells of the second alone left out", |a, b| if a == 0 { 0 } else { a + b };
        "the second's count in place of the first's", |a, b| if b == 0 { a } else { b };
        "the first's count stays", |a, b| if a == 0 { b } else { a };
        "the larger count", |a, b| a.max(b);
        "the first sheet again", |a, _| a;
        "one particle more where both have some", |a, b| a + b + u32::from(a.min(b) > 0);
    });
    reported(&[(
        "the second's cells behind the first's",
        one_behind_the_other,
    )]);
}

/// Right where the second sheet's cells are all above the first's.
fn one_behind_the_other(first: &[u8], second: &[u8], out: &mut [u8]) -> WrittenAnswer {
    let (a, b) = match (sheet::read(first), sheet::read(second)) {
        (Ok(a), Ok(b)) if REFERENCE.joined(first, second).is_ok() => (a, b),
        _ => return join_sheets(first, second, out),
    };
    let record = Sheet {
        cells: [a.cells, b.cells].concat(),
        counts: [a.counts, b.counts].concat(),
        ..a
    };
    let record = record.bytes();
    if out.len() < record.len() {
        return Answer::refused(52);
    }
    put(&record, out);
    answers::written(record.len() as u32)
}

#[test]
fn buffers() {
    reported(&[
        ("writes before 51", writes_before::<51>),
        ("writes before 7", writes_before::<7>),
        ("writes before 52", writes_before::<52>),
        ("writes a byte behind the sheet", writes_behind),
        ("writes nothing", writes_nothing),
        ("a length with a refusal", length_with_refusal),
    ]);
}

/// Of two accepted sheets, the sizes are written before this refusal.
fn writes_before<const REFUSAL: u32>(first: &[u8], second: &[u8], out: &mut [u8]) -> WrittenAnswer {
    let answer = join_sheets(first, second, out);
    let accepted = [first, second]
        .into_iter()
        .all(|bytes| sheet::read(bytes).is_ok());
    if accepted && answer.refusal == REFUSAL {
        put(&first[..12], out);
    }
    answer
}

fn writes_behind(first: &[u8], second: &[u8], out: &mut [u8]) -> WrittenAnswer {
    let answer = join_sheets(first, second, out);
    if let (0, Some(byte)) = (answer.refusal, out.get_mut(answer.bytes as usize)) {
        *byte = 0;
    }
    answer
}

fn writes_nothing(first: &[u8], second: &[u8], out: &mut [u8]) -> WrittenAnswer {
    join_sheets(first, second, &mut out.to_vec())
}

/// What a buffer that is long enough would get.
fn length_with_refusal(first: &[u8], second: &[u8], out: &mut [u8]) -> WrittenAnswer {
    let answer = join_sheets(first, second, out);
    let longer = join_sheets(first, second, &mut [0; SHEET_BYTES]);
    WrittenAnswer {
        bytes: longer.bytes,
        ..answer
    }
}
