//! Seeded whole steps: a sheet, and an old plan or none.
//!
//! | file | what it chooses |
//! |---|---|
//! | `setting` | N, t and P |
//! | `totals` | how many particles each subdomain has |
//! | `tight` | totals that fill a part of a tree to the last place |
//! | `holders` | who holds them |
//! | `afforded` | what a helper holds of its own, seen from what its helpand's family affords |
//! | `pairs` | two steps on either side of a bound, one particle apart |
//! | `walk` | steps that follow from steps |

mod afforded;
mod holders;
pub mod pairs;
mod setting;
mod tight;
pub mod totals;
mod walk;

use crate::implementations::REFERENCE;
use crate::random::Random;
use crate::records::{plans, sheets, shown};
use crate::reference::keeping::{in_families, Undivided};
use crate::reference::table::Table;
use crate::reference::{plan, sheet};
use setting::Setting;
use std::fmt;

/// What *plan a step* takes.
#[derive(Clone, Debug, PartialEq, Eq)]
pub struct Step {
    pub sheet: Vec<u8>,
    /// Empty if there is no old plan.
    pub old: Vec<u8>,
}

impl Step {
    /// What the bench program is given: "a sheet followed at once by an old plan
    /// or nothing".
    pub fn input(&self) -> Vec<u8> {
        [&self.sheet[..], &self.old].concat()
    }

    /// What is found in the families with helpers, if the step is kept.
    pub fn in_kept_families<T>(&self, find: impl Fn(&Undivided) -> T) -> Vec<T> {
        let plan = plan::read(&REFERENCE.plan(self).plan).expect("the plan is accepted");
        let sheet = sheet::read(&self.sheet).expect("the sheet is accepted");
        match plan.kind {
            1 => in_families(&plan, &Table::of(&sheet), find),
            _ => Vec::new(),
        }
    }
}

impl fmt::Display for Step {
    fn fmt(&self, out: &mut fmt::Formatter) -> fmt::Result {
        let (sheet, old) = (shown(&self.sheet), shown(&self.old));
        write!(out, "  sheet: {sheet}\n  old plan: {old}")
    }
}

/// How large a step may become.
#[derive(Clone, Copy, Debug, PartialEq, Eq)]
pub enum Size {
    /// N from 1 to 64, cells from none to all.
    Any,
    /// N from 1 to 8.
    Small,
    /// This N, which is 2 or more; cells from none to all.
    Of(u32),
    /// This N, which is 2 or more; few cells for so many nodes.
    Few(u32),
}

/// The step at this index of the run with this seed.
pub fn at(seed: u64, index: u64, size: Size) -> Step {
    some(size, &mut Random::at(seed, index))
}

/// Some step.
pub fn some(size: Size, random: &mut Random) -> Step {
    match random.below(15) {
        0 | 1 => scattered(size, random),
        2 => level(size, random),
        3 => tied(size, random),
        4 | 5 => fitting(size, random),
        6 | 7 => pairs::tree(size, random).either(random),
        8 => pairs::primary(size, random).either(random),
        9 | 10 => pairs::holds(size, random).either(random),
        11 => capped(size, random),
        _ => walk::walk(size, random),
    }
}

/// 64 nodes, each of which holds some of every subdomain, and an old chain that
/// is kept: the longest records that there are.
pub fn largest() -> Step {
    let cells = sheets::all_cells(64);
    let crowded = |cell: &u32| if cell % 64 == 7 { 12 } else { 10 };
    let counts: Vec<u32> = cells.iter().map(crowded).collect();
    Step {
        sheet: sheets::sheet(64, 100, &cells, &counts).bytes(),
        old: plans::plan(2, 36, &plans::chain(64), &[0; 64]).bytes(),
    }
}

/// Any totals with any old plan: mostly rebuilt.
fn scattered(size: Size, random: &mut Random) -> Step {
    let setting = Setting::some(size, random);
    let totals = totals::scattered(&setting, random);
    with_any_plan(setting.t, &totals, size, random)
}

/// Loads on both sides of the targets by a particle or two, with a limit at
/// the larger target: many ties.
fn level(size: Size, random: &mut Random) -> Step {
    let setting = Setting::tight(size, random);
    let totals = totals::level(&setting, random);
    with_any_plan(setting.t, &totals, size, random)
}

/// Totals that are all one of three numbers.
fn tied(size: Size, random: &mut Random) -> Step {
    let setting = Setting::some(size, random);
    let totals = totals::tied(setting.n, random);
    with_any_plan(setting.t, &totals, size, random)
}

/// A division along the old tree with every load at most L, often with little
/// room left: kept or primary.
fn fitting(size: Size, random: &mut Random) -> Step {
    let fitted = Fitted::some(size, random);
    fitted.holding(&fitted.table, random)
}

/// The same with a helper that holds more than L of its own, which its helpand's
/// family affords since it is capped: kept.
fn capped(size: Size, random: &mut Random) -> Step {
    until(|| {
        let fitted = Fitted::some(size, random);
        let table = afforded::capped(&fitted, random)?;
        Some(fitted.holding(&table, random))
    })
}

/// A setting, a tree, and the table of a division along it with every load at most L,
/// whoever holds the particles.
struct Fitted {
    setting: Setting,
    helpands: Vec<u32>,
    table: Table,
}

impl Fitted {
    fn some(size: Size, random: &mut Random) -> Fitted {
        let setting = Setting::of_many(size, random);
        let helpands = plans::tree(setting.n as u32, random);
        let loads = totals::share_out(setting.p, setting.n, setting.limit(), random);
        let totals = totals::around(&loads, &helpands, &[], random);
        let table = holders::spread(&totals, &helpands, size, random);
        Fitted {
            setting,
            helpands,
            table,
        }
    }

    fn limit(&self) -> u64 {
        self.setting.limit()
    }

    /// The step with this table, which has the same totals.
    fn holding(&self, table: &Table, random: &mut Random) -> Step {
        step(
            table,
            self.setting.t,
            &some_tree_plan(&self.helpands, random),
        )
    }
}

/// The first success of many tries.
fn until<T>(mut attempt: impl FnMut() -> Option<T>) -> T {
    (0..10_000)
        .find_map(|_| attempt())
        .expect("one of many tries succeeds")
}

/// A step with any old plan: none, without a tree, or with any tree.
fn with_any_plan(t: u32, totals: &[u64], size: Size, random: &mut Random) -> Step {
    let n = totals.len() as u32;
    let roots: Vec<u32> = (0..n).collect();
    let (helpands, old) = match random.below(6) {
        0 => (roots, Vec::new()),
        1 => {
            let old = plans::over(0, &roots, random).bytes();
            (roots, old)
        }
        _ if n == 1 => (roots, Vec::new()),
        _ => {
            let helpands = plans::tree(n, random);
            let old = some_tree_plan(&helpands, random);
            (helpands, old)
        }
    };
    let table = holders::spread(totals, &helpands, size, random);
    step(&table, t, &old)
}

/// An old plan with this tree and any limit and shares, which play no part.
fn some_tree_plan(helpands: &[u32], random: &mut Random) -> Vec<u8> {
    let kind = random.between(1, 2);
    plans::over(kind, helpands, random).bytes()
}

fn step(table: &Table, t: u32, old: &[u8]) -> Step {
    Step {
        sheet: table.sheet(t).bytes(),
        old: old.to_vec(),
    }
}
