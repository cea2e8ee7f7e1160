//! The operations on records, seen alike: one record or two are read, up to two
//! buffers are lent, and the answer is some words. Then one run serves all. Calls on a
//! tally, which read no record, have a run of their own in `crate::tally`.
//!
//! | file | what it holds |
//! |---|---|
//! | `faults` | every check of an operation looked at on its own |
//! | `drafts` | calls before they become bytes: whole ones, and faults brought in |
//! | `check` | one call, all answers |
//! | `run` | which calls stand at which index of a run, and the run |

pub mod check;
pub mod drafts;
pub mod faults;
pub mod run;

use crate::answers::{MovesAnswer, PlanAnswer, SheetAnswer};
use crate::bounds::{MOST_PARTICLES, NODES};
use crate::faults::{self as of_records, word_at, OF_MOVES, OF_PLAN, OF_SHEET, OF_Z_ORDER};
use crate::implementations::{
    Implementation, MOVES_BYTES, PLAN_BYTES, REFERENCE, SHEET_BYTES, Z_ORDER_BYTES,
};
use crate::random::Random;
use crate::records::{moves, plans, sheets, to_words, z_order, Record};
use crate::steps::Step;
use crate::tally::{self, lent};
use drafts::Draft;

/// What an operation is handed.
#[derive(Clone, Debug)]
pub struct Call {
    /// Two records to read, the second empty where it takes one only.
    pub records: [Vec<u8>; 2],
    /// How long its buffers are; 0 where it takes none.
    pub lengths: [usize; 2],
    /// How long they have to be. Where the records are refused, so long as the
    /// shortest record that could be written, or longer.
    pub needed: [usize; 2],
}

impl Call {
    /// One that is lent no buffers.
    pub fn without_buffers(records: [Vec<u8>; 2]) -> Call {
        Call {
            records,
            lengths: [0; 2],
            needed: [0; 2],
        }
    }
}

/// One operation and all that its tests need.
pub struct Operation {
    pub name: &'static str,
    /// What can be wrong, by number, in the order of the checks: of each record,
    /// then of the call.
    pub checks: &'static [&'static [u32]],
    /// Whether answers tell which of two faults comes first.
    pub ordered: bool,
    /// How many buffers it is lent.
    pub buffers: usize,
    /// The operation, done by someone: the words of the answer.
    pub answer: Answering,
    /// How long the buffers have to be.
    pub needed: fn(&[u8], &[u8]) -> [usize; 2],
    /// Every check on its own.
    pub faults: fn(&Call) -> Vec<u32>,
    /// Whether this answer goes with these faults.
    pub agrees: fn(&[u32], &[u32]) -> bool,
    /// The records that it is handed at an accepted step.
    pub records: fn(&Step) -> [Record; 2],
    /// Some call that is mostly accepted.
    pub build: fn(&mut Random) -> Draft,
    /// What a run has to meet among accepted calls: `EVERYWHERE`, and this.
    pub corners: &'static [Corner],
}

/// Someone, the records, the buffers; what is not lent has length 0.
pub type Answering = fn(&Implementation, [&[u8]; 2], [&mut [u8]; 2]) -> Vec<u32>;

/// Whether an accepted call and the answer to it are of some sort.
pub type Corner = (&'static str, fn(&Call, &[u32]) -> bool);

/// What every run has to meet.
pub const EVERYWHERE: [Corner; 3] = [
    ("N 2", |call, _| first_word(call) == 2),
    ("N 63", |call, _| first_word(call) == 63),
    ("N 64", |call, _| first_word(call) == 64),
];

pub const READ_SHEET: Operation = Operation {
    name: "read sheet",
    checks: &[&OF_SHEET],
    ordered: true,
    buffers: 0,
    answer: |implementation, [sheet, _], _| {
        let SheetAnswer {
            refusal,
            n,
            t,
            e,
            p,
            limit,
        } = (implementation.read_sheet)(sheet);
        vec![refusal, n, t, e, p, limit]
    },
    needed: |_, _| [0, 0],
    faults: |call| of_records::sheet(&call.records[0]),
    agrees: is_first,
    records: |step| [sheets::of(&step.sheet), Record::none()],
    build: |random| Draft::new([sheets::build(random), Record::none()]),
    corners: &[("4,096 cells", has_all_cells)],
};

pub const READ_PLAN: Operation = Operation {
    name: "read plan",
    checks: &[&OF_PLAN],
    answer: |implementation, [plan, _], _| {
        let PlanAnswer {
            refusal,
            n,
            kind,
            limit,
        } = (implementation.read_plan)(plan);
        vec![refusal, n, kind, limit]
    },
    faults: |call| of_records::plan(&call.records[0]),
    records: |step| [plans::of(&REFERENCE.plan(step).plan), Record::none()],
    build: |random| Draft::new([plans::build(random), Record::none()]),
    corners: &[],
    ..READ_SHEET
};

pub const READ_MOVES: Operation = Operation {
    name: "read moves",
    checks: &[&OF_MOVES],
    answer: |implementation, [moves, _], _| {
        let MovesAnswer { refusal, n, e } = (implementation.read_moves)(moves);
        vec![refusal, n, e]
    },
    faults: |call| of_records::moves(&call.records[0]),
    records: |step| [moves::of(&REFERENCE.plan(step).moves), Record::none()],
    build: |random| Draft::new([moves::build(random), Record::none()]),
    corners: &[],
    ..READ_SHEET
};

pub const WEIGH: Operation = Operation {
    name: "weigh",
    checks: &[&OF_SHEET, &OF_PLAN, &[21, 24, 25]],
    ordered: true,
    buffers: 1,
    answer: |implementation, [sheet, plan], [least, _]| {
        let answer = (implementation.weigh)(sheet, plan, least);
        vec![answer.refusal, answer.holds]
    },
    needed: |sheet, _| [4 * nodes(sheet), 0],
    faults: faults::weigh,
    agrees: is_first,
    records: drafts::sheet_and_old,
    build: drafts::weigh,
    corners: &[
        ("4,096 cells", has_all_cells),
        ("a tree that holds", |_, answer| answer[1] == 1),
        ("one that does not", |_, answer| answer[1] == 0),
    ],
};

pub const PLAN_STEP: Operation = Operation {
    name: "plan a step",
    checks: &[&OF_SHEET, &OF_PLAN, &[21, 22, 23]],
    ordered: true,
    buffers: 2,
    answer: |implementation, [sheet, old], [plan, moves]| {
        let answer = (implementation.plan_step)(sheet, old, plan, moves);
        let lengths = [answer.plan_bytes, answer.moves_bytes];
        [&[answer.refusal, answer.kind, answer.limit], &lengths[..]].concat()
    },
    needed: |sheet, old| {
        let (plan, moves) = (&mut [0; PLAN_BYTES], &mut [0; MOVES_BYTES]);
        let answer = (REFERENCE.plan_step)(sheet, old, plan, moves);
        [
            4 * (3 + 2 * nodes(sheet)),
            answer.moves_bytes.max(8) as usize,
        ]
    },
    faults: faults::plan_step,
    agrees: is_first,
    records: drafts::sheet_and_old,
    build: drafts::plan_step,
    corners: &[
        ("N 1", |call, _| first_word(call) == 1),
        ("4,096 cells", has_all_cells),
        ("no old plan", |call, _| call.records[1].is_empty()),
        ("kind 0", |_, answer| answer[1] == 0),
        ("kind 1", |_, answer| answer[1] == 1),
        ("kind 2", |_, answer| answer[1] == 2),
    ],
};

pub const CARRY_OUT: Operation = Operation {
    name: "carry out",
    checks: &[&OF_SHEET, &OF_MOVES, &[41, 42, 43]],
    ordered: true,
    buffers: 1,
    answer: |implementation, [sheet, moves], [next, _]| {
        let answer = (implementation.carry_out)(sheet, moves, next);
        vec![answer.refusal, answer.bytes]
    },
    needed: |sheet, moves| {
        let answer = (REFERENCE.carry_out)(sheet, moves, &mut [0; SHEET_BYTES]);
        [answer.bytes.max(12) as usize, 0]
    },
    faults: faults::carry_out,
    agrees: is_first,
    records: drafts::sheet_and_moves,
    build: drafts::carry_out,
    corners: &[
        ("N 1", |call, _| first_word(call) == 1),
        ("4,096 cells", has_all_cells),
        ("no moves", |call, _| call.records[1].len() == 8),
        ("hundreds of moves", |call, _| call.records[1].len() > 2_000),
    ],
};

/// Two sheets have refusals 1 to 7, and the joint total has 7 too. Here all have
/// numbers of their own, which rise in the order of the checks: those of the
/// second sheet are 100 more, and the rest is 151, 207 and 252.
pub const JOIN_SHEETS: Operation = Operation {
    name: "join sheets",
    checks: &[
        &OF_SHEET,
        &[101, 102, 103, 104, 105, 106, 107],
        &[151, 207, 252],
    ],
    answer: |implementation, [first, second], [out, _]| {
        let answer = (implementation.join_sheets)(first, second, out);
        vec![answer.refusal, answer.bytes]
    },
    needed: |first, second| [faults::joint_length(first, second), 0],
    faults: faults::join_sheets,
    records: |step| sheets::parted(&step.sheet, |count| count / 2),
    build: drafts::join_sheets,
    corners: &[
        ("N 1", |call, _| first_word(call) == 1),
        ("4,096 cells", has_all_cells),
        ("4,096 cells written", |_, answer| {
            answer[1] as usize == SHEET_BYTES
        }),
        ("a cell of both", |call, answer| {
            call.records[0].len() + call.records[1].len() > answer[1] as usize + 12
        }),
        ("a cell of the first alone", |call, answer| {
            answer[1] as usize > call.records[1].len()
        }),
        ("a cell of the second alone", |call, answer| {
            answer[1] as usize > call.records[0].len()
        }),
        ("no cells in the second", |call, answer| {
            call.records[1].len() == 12 && answer[1] > 12
        }),
        ("no cells in the first", |call, answer| {
            call.records[0].len() == 12 && answer[1] > 12
        }),
        ("no cells in either", |_, answer| answer[1] == 12),
        ("the largest joint total", |call, _| {
            faults::joint_total(call) == u64::from(MOST_PARTICLES)
        }),
    ],
    ..CARRY_OUT
};

pub const TRAFFIC_PAGE: Operation = Operation {
    name: "traffic page",
    checks: &[&OF_SHEET, &OF_MOVES, &[41, 42, 53]],
    answer: |implementation, [sheet, moves], [page, _]| {
        let answer = (implementation.traffic_page)(sheet, moves, page);
        vec![answer.refusal, answer.bytes]
    },
    needed: |sheet, _| [25 * (nodes(sheet) + 1), 0],
    faults: faults::traffic_page,
    build: drafts::traffic_page,
    corners: &[
        ("N 1", |call, _| first_word(call) == 1),
        ("4,096 cells", has_all_cells),
        ("no moves", |call, _| call.records[1].len() == 8),
        ("hundreds of moves", |call, _| call.records[1].len() > 2_000),
        ("999,999,999 particles moved", |call, _| {
            faults::all_moved(call) == 999_999_999
        }),
        ("1,000,000,000 by one move", |call, _| {
            faults::all_moved(call) == 1_000_000_000 && call.records[1].len() == 16
        }),
        ("1,000,000,000 by hundreds", |call, _| {
            faults::all_moved(call) == 1_000_000_000 && call.records[1].len() > 2_000
        }),
    ],
    ..CARRY_OUT
};

pub const WRITE_ARCHIVE: Operation = Operation {
    name: "write archive",
    checks: &[&OF_SHEET, &[56]],
    answer: |implementation, [sheet, _], [archive, _]| {
        let answer = (implementation.write_archive)(sheet, archive);
        vec![answer.refusal, answer.bytes]
    },
    needed: |_, _| [Z_ORDER_BYTES, 0],
    faults: faults::write_archive,
    records: |step| [sheets::of(&step.sheet), Record::none()],
    build: drafts::write_archive,
    corners: &[
        ("N 1", |call, _| first_word(call) == 1),
        ("4,096 cells", has_all_cells),
        ("no cells", |call, _| call.records[0].len() == 12),
        ("the largest total", |call, _| {
            (REFERENCE.read_sheet)(&call.records[0]).p == MOST_PARTICLES
        }),
    ],
    ..CARRY_OUT
};

/// Refusals 2 and 3 come behind 54. Here all but that have 300 more, so that they
/// rise in the order of the checks.
pub const READ_ARCHIVE: Operation = Operation {
    name: "read archive",
    checks: &[&OF_Z_ORDER, &[356]],
    answer: |implementation, [archive, _], [sheet, _]| {
        let answer = (implementation.read_archive)(archive, sheet);
        vec![answer.refusal, answer.bytes]
    },
    needed: |archive, _| [faults::length_back(archive), 0],
    faults: faults::read_archive,
    records: |step| [z_order::of(&step.sheet), Record::none()],
    build: drafts::read_archive,
    corners: &[
        ("N 1", |call, _| first_word(call) == 1),
        ("4,096 cells written", |_, answer| {
            answer[1] as usize == SHEET_BYTES
        }),
        ("no cells written", |_, answer| answer[1] == 12),
        ("the largest total", |call, _| {
            faults::counts_in_z_order(&call.records[0])
                .iter()
                .sum::<u32>()
                == MOST_PARTICLES
        }),
    ],
    ..CARRY_OUT
};

pub const GROUPS: Operation = Operation {
    name: "groups",
    checks: &[&OF_PLAN, &[57]],
    answer: |implementation, [plan, _], [groups, _]| {
        let answer = (implementation.groups)(plan, groups);
        vec![answer.refusal, answer.bytes]
    },
    needed: |plan, _| [4 * (1 + 2 * nodes(plan)), 0],
    faults: faults::groups,
    records: READ_PLAN.records,
    build: drafts::groups,
    corners: &[
        ("N 1", |call, _| first_word(call) == 1),
        ("kind 0", |call, _| kind(&call.records[0]) == 0),
        ("kind 1", |call, _| kind(&call.records[0]) == 1),
        ("kind 2", |call, _| kind(&call.records[0]) == 2),
        ("a chain of 64", |call, _| depth(call) == 63),
        ("a star of 64", |call, _| {
            first_word(call) == 64 && depth(call) == 1
        }),
        ("a tree between these", |call, _| {
            (3..30).contains(&depth(call))
        }),
    ],
    ..CARRY_OUT
};

/// The tally, which is never refused for its length, stands in the answer: all of it is
/// 0 in a refusal, too. It is full of noise before.
pub const OPEN_TALLY: Operation = Operation {
    name: "open tally",
    checks: &[&OF_SHEET, &OF_PLAN, &[21, 24]],
    buffers: 0,
    answer: |implementation, [sheet, plan], _| {
        let noise = tally::noise(&mut Random::at(sheet.len() as u64, plan.len() as u64));
        // It lies at another place where the sheet does.
        let place = sheet.as_ptr() as usize / 4;
        let open = |tally: &mut _| (implementation.open_tally)(sheet, plan, tally);
        let (answer, tally) = lent::lend(&noise, place, open).expect("guards as they were");
        [&[answer.refusal, answer.holds], &tally::words(&tally)[..]].concat()
    },
    needed: |_, _| [0, 0],
    faults: faults::open_tally,
    corners: &[
        ("4,096 cells", has_all_cells),
        ("no cells", |call, _| call.records[0].len() == 12),
        ("the largest total", |_, answer| answer[4] == MOST_PARTICLES),
        ("a tree that holds", |_, answer| answer[1] == 1),
        ("one that does not", |_, answer| answer[1] == 0),
        ("kind 1", |call, _| kind(&call.records[1]) == 1),
        ("kind 2", |call, _| kind(&call.records[1]) == 2),
        ("a plan of another limit", |call, answer| {
            to_words(&call.records[1])[2] != answer[3]
        }),
    ],
    ..WEIGH
};

/// It has no refusals; what leads to the empty stretch has numbers here. Those
/// of the old plan are *read plan*'s, those of the new plan 100 more, and the
/// rest is 121, N differ, 122, kind 1 after kind 0, 123, kind 1 with other
/// helpands.
pub const TREE_IN_FORCE: Operation = Operation {
    name: "tree in force",
    checks: &[
        &OF_PLAN,
        &[111, 112, 113, 114, 115, 116, 117, 118],
        &[121, 122, 123],
    ],
    ordered: false,
    buffers: 0,
    answer: |implementation, [old, new], _| {
        let part = (implementation.tree_in_force)(old, new);
        vec![part.source, part.start, part.length]
    },
    needed: |_, _| [0, 0],
    faults: faults::tree_in_force,
    agrees: |answer, faults| (answer[2] == 0) != faults.is_empty(),
    records: drafts::old_and_new,
    build: drafts::tree_in_force,
    corners: &[
        ("N 1", |call, _| first_word(call) == 1),
        ("the old plan's", |_, answer| answer[0] == 1),
        ("the new plan's", |_, answer| answer[0] == 2),
    ],
};

/// All of them.
pub const OPERATIONS: [&Operation; 13] = [
    &READ_SHEET,
    &READ_PLAN,
    &READ_MOVES,
    &WEIGH,
    &PLAN_STEP,
    &CARRY_OUT,
    &JOIN_SHEETS,
    &TRAFFIC_PAGE,
    &WRITE_ARCHIVE,
    &READ_ARCHIVE,
    &GROUPS,
    &OPEN_TALLY,
    &TREE_IN_FORCE,
];

/// Those that the benchmark measures.
pub const MEASURED_CALLS: [&Operation; 9] = [
    &WEIGH,
    &PLAN_STEP,
    &CARRY_OUT,
    &JOIN_SHEETS,
    &TRAFFIC_PAGE,
    &WRITE_ARCHIVE,
    &READ_ARCHIVE,
    &GROUPS,
    &OPEN_TALLY,
];

impl Operation {
    /// All numbers of its checks.
    pub fn numbers(&self) -> Vec<u32> {
        self.checks.concat()
    }

    /// All that a run has to meet among accepted calls.
    pub fn corners(&self) -> impl Iterator<Item = &Corner> {
        EVERYWHERE.iter().chain(self.corners)
    }
}

/// "Checks run in the order written", so the first fault is the answer, but for
/// its hundreds. "A refusal's other values are all 0".
fn is_first(answer: &[u32], faults: &[u32]) -> bool {
    let refusal = faults.first().copied().unwrap_or(0) % 100;
    answer[0] == refusal && (refusal == 0 || answer[1..].iter().all(|&value| value == 0))
}

/// N of a record, or the smallest if it has none.
fn nodes(record: &[u8]) -> usize {
    let n = word_at(&to_words(record), 0);
    n.filter(|&n| n <= u64::from(*NODES.end()))
        .unwrap_or(0)
        .max(1) as usize
}

fn first_word(call: &Call) -> u32 {
    to_words(&call.records[0][..4])[0]
}

/// The kind of an accepted plan.
fn kind(plan: &[u8]) -> u32 {
    to_words(plan)[1]
}

/// The most steps that a node of an accepted plan is away from the root.
fn depth(call: &Call) -> usize {
    plans::depth(&faults::helpands(&call.records[0]))
}

fn has_all_cells(call: &Call, _: &[u32]) -> bool {
    call.records[0].len() == SHEET_BYTES
}
