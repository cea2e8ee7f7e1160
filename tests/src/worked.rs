//! "Steps worked by hand": the inputs of steps A to K. What they lead to stands
//! in tests/steps.rs.

use crate::records::{plans, sheets};
use crate::steps::Step;

/// Document 01's t 1. Request 2026-01: "The worked steps take ten times their t."
pub const ONE_PERCENT: u32 = 10;

/// Its t 10.
pub const TEN_PERCENT: u32 = 100;

/// For steps with more room.
pub const FIFTY_PERCENT: u32 = 500;

/// All of them, with their letters.
pub fn all() -> [(char, Step); 11] {
    [
        ('A', a()),
        ('B', b()),
        ('C', c()),
        ('D', d()),
        ('E', e()),
        ('F', f()),
        ('G', g()),
        ('H', h()),
        ('I', i()),
        ('J', j()),
        ('K', k()),
    ]
}

/// "A: N 1, E 0", "A has t 1"
pub fn a() -> Step {
    let sheet = sheets::sheet(1, ONE_PERCENT, &[], &[]).bytes();
    Step {
        sheet,
        old: Vec::new(),
    }
}

/// "B: t 1, counts 2, 1"
pub fn b() -> Step {
    own(ONE_PERCENT, &[2, 1], Vec::new())
}

/// "C: t 1, counts 3, 0, no plan"
pub fn c() -> Step {
    own(ONE_PERCENT, &[3, 0], Vec::new())
}

/// "D: 90, 6, 4"
pub fn d() -> Step {
    own(TEN_PERCENT, &[90, 6, 4], Vec::new())
}

/// "E: D's plan; subdomain 0 held 30, 27, 30 by nodes 0, 1, 2; node 1 holds 6
/// of 1; nodes 0 and 2 hold 3 and 4 of 2"
pub fn e() -> Step {
    e_held([30, 27, 30])
}

/// Request 2026-03: "With subdomain 0 held 34, 23, 30 instead".
pub fn e_levelled() -> Step {
    e_held([34, 23, 30])
}

/// Step E with subdomain 0 held so.
fn e_held(held: [u32; 3]) -> Step {
    let cells = [(0, 0), (0, 2), (1, 0), (1, 1), (2, 0), (2, 2)];
    let cells = cells.map(|(holder, subdomain)| sheets::cell(holder, subdomain));
    let counts = [held[0], 3, held[1], 6, held[2], 4];
    Step {
        sheet: sheets::sheet(3, TEN_PERCENT, &cells, &counts).bytes(),
        old: d_plan(),
    }
}

/// Request 2026-07, a step with L 35: node 1 helps node 0 and is helped by node 2. Of
/// subdomain 0 node 0 holds 20 and node 1 30. Of subdomain 1, which has 21 particles,
/// node 1 holds this many and node 2 the others.
pub fn with_own(held: u32) -> Step {
    let cells = [(0, 0, 20), (1, 0, 30), (1, 1, held), (2, 1, 21 - held)];
    let cells: Vec<_> = cells
        .into_iter()
        .filter(|&(_, _, count)| count > 0)
        .collect();
    Step {
        sheet: sheets::held(3, FIFTY_PERCENT, &cells).bytes(),
        old: old(&[0, 0, 1]),
    }
}

/// "F: D's plan, 50, 40, 10"
pub fn f() -> Step {
    own(TEN_PERCENT, &[50, 40, 10], d_plan())
}

/// "G: t 1, counts 0, 5, 2, old helpands 2, 0, 2"
pub fn g() -> Step {
    own(ONE_PERCENT, &[0, 5, 2], old(&[2, 0, 2]))
}

/// "H: old helpands 0, 0, 1; 28, 72, 0"
pub fn h() -> Step {
    own(TEN_PERCENT, &[28, 72, 0], old(&[0, 0, 1]))
}

/// "I: the same, 27, 73, 0"
pub fn i() -> Step {
    own(TEN_PERCENT, &[27, 73, 0], old(&[0, 0, 1]))
}

/// "J: 36, 36, 28"
pub fn j() -> Step {
    own(TEN_PERCENT, &[36, 36, 28], Vec::new())
}

/// "K: 37, 35, 28, no plan"
pub fn k() -> Step {
    own(TEN_PERCENT, &[37, 35, 28], Vec::new())
}

/// "Each node holds its own subdomain unless said."
pub fn own(t: u32, counts: &[u32], old: Vec<u8>) -> Step {
    let held = (0..).zip(counts).filter(|(_, &count)| count > 0);
    let (cells, some): (Vec<u32>, Vec<u32>) = held
        .map(|(node, &count)| (sheets::cell(node, node), count))
        .unzip();
    let sheet = sheets::sheet(counts.len() as u32, t, &cells, &some).bytes();
    Step { sheet, old }
}

/// "An old plan given by helpands alone is kind 2 with limit 36 and shares 0."
pub fn old(helpands: &[u32]) -> Vec<u8> {
    plan(2, helpands)
}

/// The same, of any kind.
pub fn plan(kind: u32, helpands: &[u32]) -> Vec<u8> {
    plans::plan(kind, 36, helpands, &vec![0; helpands.len()]).bytes()
}

/// "plan words 3 2 36 0 0 0 0 27 29"
pub fn d_plan() -> Vec<u8> {
    plans::plan(2, 36, &[0, 0, 0], &[0, 27, 29]).bytes()
}
