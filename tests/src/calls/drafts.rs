//! Calls before they become bytes: whole ones for each operation, and each
//! fault that they can have.

use super::{Call, Operation};
use crate::bounds::{MOST_PARTICLES, NODES, TOLERANCE};
use crate::implementations::REFERENCE;
use crate::random::Random;
use crate::records::mutation::{mutate, mutate_once};
use crate::records::{moves, plans, sheets, z_order, Record};
use crate::steps::{self, Size, Step};
use std::collections::BTreeMap;

/// Two records, the second of which may be none, and the room in two buffers.
pub struct Draft {
    pub records: [Record; 2],
    pub rooms: [Room; 2],
}

/// How long a buffer is beside what is needed.
#[derive(Clone, Copy, Debug, PartialEq, Eq)]
pub enum Room {
    Empty,
    OneShort,
    Exact,
    OneMore,
    Long,
}

impl Room {
    fn length(self, needed: usize) -> usize {
        match self {
            Room::Empty => 0,
            Room::OneShort => needed - 1,
            Room::Exact => needed,
            Room::OneMore => needed + 1,
            Room::Long => needed + 60,
        }
    }
}

/// All rooms in the first buffer, and with them some in the second.
const ROOMS: [[Room; 2]; 5] = [
    [Room::Exact, Room::Exact],
    [Room::OneMore, Room::Exact],
    [Room::Long, Room::OneMore],
    [Room::OneShort, Room::Exact],
    [Room::Empty, Room::Long],
];

/// The other ways to have a second buffer too short.
const MORE_ROOMS: [[Room; 2]; 4] = [
    [Room::Exact, Room::OneShort],
    [Room::Long, Room::Empty],
    [Room::OneShort, Room::OneShort],
    [Room::Empty, Room::Empty],
];

impl Draft {
    pub fn new(records: [Record; 2]) -> Draft {
        Draft {
            records,
            rooms: [Room::Exact; 2],
        }
    }

    /// The call with the draft's rooms.
    pub fn call(&self, operation: &Operation) -> Call {
        self.calls(operation, &[self.rooms]).remove(0)
    }

    /// The calls with rooms of all sorts.
    pub fn all_calls(&self, operation: &Operation) -> Vec<Call> {
        match operation.buffers {
            0 => self.calls(operation, &ROOMS[..1]),
            1 => self.calls(operation, &ROOMS),
            _ => self.calls(operation, &[&ROOMS[..], &MORE_ROOMS].concat()),
        }
    }

    fn calls(&self, operation: &Operation, rooms: &[[Room; 2]]) -> Vec<Call> {
        let records = [self.records[0].bytes(), self.records[1].bytes()];
        let needed = (operation.needed)(&records[0], &records[1]);
        let with = |rooms: &[Room; 2]| Call {
            records: records.clone(),
            lengths: lengths(rooms, needed),
            needed,
        };
        rooms.iter().map(with).collect()
    }

    /// Mutates a record or two, or brings some faults in, or does nothing.
    pub fn mutate(&mut self, numbers: &[u32], random: &mut Random) {
        let records = 2 - usize::from(self.records[1].is_none());
        let at = random.place(records);
        match random.below(16) {
            0..=6 => (),
            7 => self.records[at] = Record::noise(random),
            8 | 9 => mutate_once(&mut self.records[at], random),
            10 | 11 => mutate(&mut self.records[at], random),
            12 => {
                for record in &mut self.records[..records] {
                    mutate_once(record, random);
                }
            }
            13 | 14 => self.inject(random.one_of(numbers), random),
            _ => {
                self.inject(random.one_of(numbers), random);
                self.inject(random.one_of(numbers), random);
            }
        }
    }

    /// Brings a fault in, as far as the records allow it.
    pub fn inject(&mut self, fault: u32, random: &mut Random) {
        let [first, second] = &mut self.records;
        let short = random.one_of(&[Room::Empty, Room::OneShort]);
        match fault {
            1..=7 => sheets::inject(first, fault, random),
            101..=107 => sheets::inject(second, fault - 100, random),
            11..=18 => plans::inject(beside_sheet(first, second), fault, random),
            31..=36 => moves::inject(beside_sheet(first, second), fault, random),
            111..=118 => plans::inject(second, fault - 100, random),
            21 | 121 => *second = plans::build(random),
            54 => z_order::inject(first, fault, random),
            302 | 303 | 355 => z_order::inject(first, fault - 300, random),
            22 | 25 | 43 | 53 | 56 | 57 | 252 | 356 => self.rooms[0] = short,
            23 => self.rooms[1] = short,
            24 => *second = roots(second.words[0], random),
            122 => {
                *first = roots(first.words[0], random);
                second.words[1] = 1;
            }
            123 => *second = tree_plan(1, second.words[0], random),
            41 => *second = moves::build(random),
            42 => send_too_much(first, second, random),
            151 => make_other(&mut self.records[random.place(2)], random),
            207 => count_too_many(&mut self.records, random),
            _ => panic!("{fault} is no fault of a call"),
        }
    }
}

/// Of two records the one beside a sheet. Without a sheet, the first.
fn beside_sheet<'a>(first: &'a mut Record, second: &'a mut Record) -> &'a mut Record {
    match first.is_sheet() {
        true => second,
        false => first,
    }
}

/// A buffer that is not needed has no room.
fn lengths(rooms: &[Room; 2], needed: [usize; 2]) -> [usize; 2] {
    [0, 1].map(|at| match needed[at] {
        0 => 0,
        needed => rooms[at].length(needed),
    })
}

/// Sheet and plan, mostly with a tree of as many nodes.
pub fn weigh(random: &mut Random) -> Draft {
    let [sheet, old] = sheet_and_old(&some_step(random));
    let n = sheet.words[0];
    let any = random.between(1, 2);
    Draft::new(match random.below(8) {
        0 => [sheets::build(random), plans::build(random)],
        _ if old.cut == Some(0) || old.words[1] == 0 => [sheet, tree_plan(any, n, random)],
        _ => [sheet, old],
    })
}

/// Sheet and old plan or none, mostly of as many nodes.
pub fn plan_step(random: &mut Random) -> Draft {
    Draft::new(match random.below(12) {
        0 => [sheets::build(random), plans::build(random)],
        1 => [sheets::build(random), plan_or_none(&[])],
        _ => sheet_and_old(&some_step(random)),
    })
}

/// Sheet and moves: those of a step, others that the sheet allows, or any.
pub fn carry_out(random: &mut Random) -> Draft {
    let step = some_step(random);
    let mut sheet = sheets::of(&step.sheet);
    Draft::new(match random.below(8) {
        0 => [sheet, moves::build(random)],
        1..=3 => {
            let sends = allowed(&mut sheet, random);
            [sheet, sends]
        }
        _ => sheet_and_moves(&step),
    })
}

/// Two sheets: a step's sheet in two parts, others that can be joined, or any.
pub fn join_sheets(random: &mut Random) -> Draft {
    let mut records = match random.below(8) {
        0 => [sheets::build(random), sheets::build(random)],
        1..=3 => {
            let step = some_step(random);
            sheets::parted(&step.sheet, |count| {
                let any = random.between(0, count);
                random.one_of(&[0, any, any, count])
            })
        }
        _ => sheets::pair(random),
    };
    if random.chance(1, 2) {
        records.reverse();
    }
    Draft::new(records)
}

/// Sheet and moves: as for *carry out*, or moves that take all from a sheet.
pub fn traffic_page(random: &mut Random) -> Draft {
    match random.below(4) {
        0 => Draft::new(all_sent(random)),
        _ => carry_out(random),
    }
}

/// A sheet: a step's, or any.
pub fn write_archive(random: &mut Random) -> Draft {
    Draft::new([some_sheet(random), Record::none()])
}

/// The same in Z order.
pub fn read_archive(random: &mut Random) -> Draft {
    let archive = z_order::of(&some_sheet(random).bytes());
    Draft::new([archive, Record::none()])
}

/// A plan: a step's, or any.
pub fn groups(random: &mut Random) -> Draft {
    let plan = match random.below(4) {
        0 => plans::of(&REFERENCE.plan(&some_step(random)).plan),
        _ => plans::build(random),
    };
    Draft::new([plan, Record::none()])
}

/// Old and new plan: those of a step, or two with the same helpands, or with
/// others.
pub fn tree_in_force(random: &mut Random) -> Draft {
    let old = plans::build(random);
    let n = old.words[0];
    let any = random.between(1, 2);
    Draft::new(match random.below(8) {
        0 => [old, plans::build(random)],
        1 => [old, roots(n, random)],
        2 => [old, tree_plan(any, n, random)],
        3 | 4 => {
            let helpands = plans::tree(n, random);
            let old = plans::over(if n > 1 { any } else { 0 }, &helpands, random);
            let new = plans::over(u32::from(n > 1), &helpands, random);
            [old, new]
        }
        _ => old_and_new(&some_step(random)),
    })
}

/// A step's sheet and old plan.
pub fn sheet_and_old(step: &Step) -> [Record; 2] {
    [sheets::of(&step.sheet), plan_or_none(&step.old)]
}

/// A step's sheet and moves.
pub fn sheet_and_moves(step: &Step) -> [Record; 2] {
    let planned = REFERENCE.plan(step);
    [sheets::of(&step.sheet), moves::of(&planned.moves)]
}

/// A step's old and new plan.
pub fn old_and_new(step: &Step) -> [Record; 2] {
    let planned = REFERENCE.plan(step);
    [plan_or_none(&step.old), plans::of(&planned.plan)]
}

fn some_sheet(random: &mut Random) -> Record {
    match random.below(2) {
        0 => sheets::of(&some_step(random).sheet),
        _ => sheets::build(random),
    }
}

/// Mostly a small step, and now and then the largest.
fn some_step(random: &mut Random) -> Step {
    if random.chance(1, 400) {
        return steps::largest();
    }
    let size = match random.below(24) {
        0..=2 => Size::Any,
        3 | 4 => Size::Few(64),
        5 => Size::Of(64),
        _ => Size::Small,
    };
    steps::some(size, random)
}

/// The old plan of a step. Where there is none, a small one cut to nothing.
fn plan_or_none(old: &[u8]) -> Record {
    if !old.is_empty() {
        return plans::of(old);
    }
    let mut none = plans::plan(0, 0, &[0], &[0]);
    none.cut = Some(0);
    none
}

/// Some plan of kind 0.
fn roots(n: u32, random: &mut Random) -> Record {
    let roots: Vec<u32> = (0..n.clamp(1, 64)).collect();
    plans::over(0, &roots, random)
}

/// Some plan with a tree, unless there is one node only.
fn tree_plan(kind: u32, n: u32, random: &mut Random) -> Record {
    match n {
        2..=64 => plans::over(kind, &plans::tree(n, random), random),
        _ => roots(n, random),
    }
}

/// Gives a sheet another N, another t, or other words throughout. If it was valid
/// it stays so.
fn make_other(sheet: &mut Record, random: &mut Random) {
    let (n, t) = (sheet.words[0], sheet.words[1]);
    let (most_n, most_t) = (*NODES.end(), *TOLERANCE.end());
    match random.below(5) {
        0 => *sheet = sheets::build(random),
        1 | 2 if n < most_n => sheet.words[0] = random.between(n + 1, most_n),
        _ => {
            let any = random.between(1, most_t);
            sheet.words[1] = random.one_of(&[t % most_t + 1, any]);
        }
    }
}

/// Has two sheets count one particle too many together, or up to twice as many as
/// they may.
fn count_too_many(sheets: &mut [Record; 2], random: &mut Random) {
    let (least, most) = (MOST_PARTICLES + 1, 2 * MOST_PARTICLES);
    let any = random.between(least, most);
    let joint = random.one_of(&[least, least, any, most]);
    sheets::recount(sheets, joint, random);
}

/// Moves that a sheet allows: cells send parts of what they have, or all of it,
/// to one node or more.
fn allowed(sheet: &mut Record, random: &mut Random) -> Record {
    let n = sheet.words[0];
    let mut sends = BTreeMap::new();
    for (cell, count) in pairs(sheet) {
        let mut left = count;
        for _ in 0..random.one_of(&[0, 0, 1, 1, 3]) {
            let (holder, receiver) = (cell / 64, random.below(n));
            if receiver != holder && left > 0 {
                let any = random.between(1, left);
                let part = random.one_of(&[1, any, left]);
                *sends
                    .entry(moves::route(cell % 64, holder, receiver))
                    .or_insert(0) += part;
                left -= part;
            }
        }
    }
    listed(n, sends)
}

/// Some moves, often of as many particles as there can be, and the sheet that
/// has these and no others.
fn all_sent(random: &mut Random) -> [Record; 2] {
    let mut sends = moves::build(random);
    let e = sends.entries() as u32;
    let total = sheets::some_total(e, random);
    let counts = sheets::counts(e, total, random);
    sends.second().copy_from_slice(&counts);
    let mut held = BTreeMap::new();
    for (route, count) in pairs(&mut sends) {
        let cell = sheets::cell(route / 64 % 64, route / 4096);
        *held.entry(cell).or_insert(0) += count;
    }
    let (cells, counts): (Vec<u32>, Vec<u32>) = held.into_iter().unzip();
    let t = random.between(*TOLERANCE.start(), *TOLERANCE.end());
    [sheets::sheet(sends.words[0], t, &cells, &counts), sends]
}

/// Has some cell send one particle more than it has, to one node or to several.
/// Takes two nodes.
fn send_too_much(sheet: &mut Record, record: &mut Record, random: &mut Random) {
    let n = sheet.words[0];
    if !(2..=64).contains(&n) {
        return;
    }
    let held: BTreeMap<u32, u32> = pairs(sheet).collect();
    let absent = sheets::cell(random.below(n), random.below(n));
    let cells: Vec<u32> = held.keys().copied().chain([absent]).collect();
    let cell = random.one_of(&cells);
    let (holder, subdomain) = (cell / 64, cell % 64);
    let is_other =
        |&(route, _): &(u32, u32)| (route / 4096, route / 64 % 64) != (subdomain, holder);
    let mut sends: BTreeMap<u32, u32> = pairs(record).filter(is_other).collect();
    let others = (0..n).filter(|&node| node != holder);
    let receivers = others.take(random.one_of(&[1, 2, 5])).enumerate();
    let mut left = held.get(&cell).map_or(1, |count| count.saturating_add(1));
    for (at, receiver) in receivers.collect::<Vec<_>>().into_iter().rev() {
        // The first one gets what is left.
        let part = if at == 0 {
            left
        } else {
            random.between(0, left)
        };
        if part > 0 {
            sends.insert(moves::route(subdomain, holder, receiver), part);
        }
        left -= part;
    }
    *record = listed(n, sends);
}

fn pairs(record: &mut Record) -> impl Iterator<Item = (u32, u32)> {
    let (first, second) = (record.first().to_vec(), record.second().to_vec());
    first.into_iter().zip(second)
}

/// The sends as moves, as many as moves can be.
fn listed(n: u32, sends: BTreeMap<u32, u32>) -> Record {
    let most = (n * (n - 1)) as usize;
    let (routes, counts): (Vec<u32>, Vec<u32>) = sends.into_iter().take(most).unzip();
    moves::moves(n, &routes, &counts)
}
