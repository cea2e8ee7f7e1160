//! Steps that follow from steps, as in a simulation: the moves are carried out,
//! some particles cross into other subdomains, and the plan just written is the
//! next old plan.

use super::{fitting, scattered, step, Size, Step};
use crate::implementations::REFERENCE;
use crate::random::Random;
use crate::reference::sheet;
use crate::reference::table::Table;

/// The last of some steps.
pub fn walk(size: Size, random: &mut Random) -> Step {
    let mut last = match random.chance(1, 2) {
        true => scattered(size, random),
        false => fitting(size, random),
    };
    for _ in 0..random.between(1, 3) {
        last = follow(&last, random);
    }
    last
}

fn follow(last: &Step, random: &mut Random) -> Step {
    let planned = REFERENCE.plan(last);
    let next = REFERENCE.carried_out(&last.sheet, &planned.moves);
    let next = next.expect("its moves are accepted");
    let sheet = sheet::read(&next).expect("the sheet that follows is accepted");
    let mut table = Table::of(&sheet);
    drift(&mut table, random);
    step(&table, sheet.t, &planned.plan)
}

/// Some holders have some of their particles cross into another subdomain.
fn drift(table: &mut Table, random: &mut Random) {
    let n = table.nodes();
    let part = random.one_of(&[1, 2, 10, 100]);
    for holder in 0..n {
        let (from, to) = (random.place(n), random.place(n));
        // What a node holds most of is its own, often.
        let from = random.one_of(&[from, holder, holder]);
        let held = table.counts[holder][from];
        let crossing = random.amount(0, held / part);
        table.counts[holder][from] -= crossing;
        table.counts[holder][to] += crossing;
    }
}
