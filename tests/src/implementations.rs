//! Who does the operations, side by side, so that tests are written once for
//! whoever does them.

use crate::answers::{
    MovesAnswer, PartAnswer, PlanAnswer, SheetAnswer, StepAnswer, TalliedAnswer, WeighedAnswer,
    WrittenAnswer,
};
use crate::bounds::NODES;
use crate::records::{to_bytes, to_words};
use crate::reference::keeping;
use crate::steps::Step;
use crate::tally::Tally;
use crate::{boundary, plain, reference};

const MOST_NODES: usize = *NODES.end() as usize;

/// The longest sheet: 4 × (3+2E) with E = N × N.
pub const SHEET_BYTES: usize = 4 * (3 + 2 * MOST_NODES * MOST_NODES);

/// The longest plan: 4 × (3+2N).
pub const PLAN_BYTES: usize = 4 * (3 + 2 * MOST_NODES);

/// The longest moves: 4 × (2+2E) with E = N × (N−1).
pub const MOVES_BYTES: usize = 4 * (2 + 2 * MOST_NODES * (MOST_NODES - 1));

/// The longest page: 25 × (N+1).
pub const PAGE_BYTES: usize = 25 * (MOST_NODES + 1);

/// A sheet in Z order: N, t and a count for each cell that there can be.
pub const Z_ORDER_BYTES: usize = 4 * (2 + MOST_NODES * MOST_NODES);

/// The longest groups: 4 × (1+2N).
pub const GROUPS_BYTES: usize = 4 * (1 + 2 * MOST_NODES);

pub type PlanStep = fn(sheet: &[u8], old: &[u8], plan: &mut [u8], moves: &mut [u8]) -> StepAnswer;

/// An operation that reads two records and writes one, or a page.
pub type Write = fn(first: &[u8], second: &[u8], out: &mut [u8]) -> WrittenAnswer;

/// An operation that reads one record and writes another.
pub type Convert = fn(record: &[u8], out: &mut [u8]) -> WrittenAnswer;

/// The opening of a tally.
pub type OpenTally = fn(sheet: &[u8], plan: &[u8], tally: &mut Tally) -> TalliedAnswer;

/// A call on a tally.
pub type TallyCall =
    fn(tally: &mut Tally, holder: u32, subdomain: u32, count: u32) -> TalliedAnswer;

/// Someone who does all fifteen.
pub struct Implementation {
    pub name: &'static str,
    pub read_sheet: fn(sheet: &[u8]) -> SheetAnswer,
    pub read_plan: fn(plan: &[u8]) -> PlanAnswer,
    pub read_moves: fn(moves: &[u8]) -> MovesAnswer,
    pub weigh: fn(sheet: &[u8], plan: &[u8], least: &mut [u8]) -> WeighedAnswer,
    pub plan_step: PlanStep,
    pub carry_out: fn(sheet: &[u8], moves: &[u8], next: &mut [u8]) -> WrittenAnswer,
    pub join_sheets: fn(first: &[u8], second: &[u8], out: &mut [u8]) -> WrittenAnswer,
    pub traffic_page: fn(sheet: &[u8], moves: &[u8], page: &mut [u8]) -> WrittenAnswer,
    pub write_archive: fn(sheet: &[u8], archive: &mut [u8]) -> WrittenAnswer,
    pub read_archive: fn(archive: &[u8], sheet: &mut [u8]) -> WrittenAnswer,
    pub groups: fn(plan: &[u8], groups: &mut [u8]) -> WrittenAnswer,
    pub open_tally: OpenTally,
    pub tally_add: TallyCall,
    pub tally_remove: TallyCall,
    pub tree_in_force: fn(old: &[u8], new: &[u8]) -> PartAnswer,
}

/// The second implementation.
pub const REFERENCE: Implementation = Implementation {
    name: "the second implementation",
    read_sheet: reference::read_sheet,
    read_plan: reference::read_plan,
    read_moves: reference::read_moves,
    weigh: reference::weigh,
    plan_step: reference::plan_step,
    carry_out: reference::carry_out,
    join_sheets: reference::join_sheets,
    traffic_page: reference::traffic_page,
    write_archive: reference::write_archive,
    read_archive: reference::read_archive,
    groups: reference::groups,
    open_tally: reference::open_tally,
    tally_add: reference::tally_add,
    tally_remove: reference::tally_remove,
    tree_in_force: reference::tree_in_force,
};

/// The archive.
pub const ARCHIVE: Implementation = Implementation {
    name: "the archive",
    read_sheet: boundary::read_sheet,
    read_plan: boundary::read_plan,
    read_moves: boundary::read_moves,
    weigh: boundary::weigh,
    plan_step: boundary::plan_step,
    carry_out: boundary::carry_out,
    join_sheets: boundary::join_sheets,
    traffic_page: boundary::traffic_page,
    write_archive: boundary::write_archive,
    read_archive: boundary::read_archive,
    groups: boundary::groups,
    open_tally: boundary::open_tally,
    tally_add: boundary::tally_add,
    tally_remove: boundary::tally_remove,
    tree_in_force: boundary::tree_in_force,
};

/// The benchmark's baseline. What is not measured is the second implementation's.
pub const PLAIN: Implementation = Implementation {
    name: "plain Rust",
    weigh: plain::weigh,
    plan_step: plain::plan_step,
    carry_out: plain::carry_out,
    join_sheets: plain::join_sheets,
    traffic_page: plain::traffic_page,
    write_archive: plain::write_archive,
    read_archive: plain::read_archive,
    groups: plain::groups,
    open_tally: plain::open_tally,
    tally_add: plain::tally_add,
    tally_remove: plain::tally_remove,
    ..REFERENCE
};

/// The second implementation with t in whole percents, as version 1.0 had it.
pub const IN_PERCENT: Implementation = Implementation {
    name: "t in percents",
    weigh: |sheet, plan, least| reference::weigh(&from_percent(sheet), plan, least),
    plan_step: |sheet, old, plan, moves| {
        reference::plan_step(&from_percent(sheet), old, plan, moves)
    },
    ..REFERENCE
};

/// The second implementation as it was before request 2026-03: the rest of a
/// family goes to the owner first.
pub const OWNER_FIRST: Implementation = Implementation {
    name: "the owner first",
    plan_step: |sheet, old, plan, moves| {
        reference::plan_step_with(keeping::OWNER_FIRST, [sheet, old], plan, moves)
    },
    ..REFERENCE
};

/// The second implementation as it was before request 2026-07: space and standing
/// load use least, whatever helpers hold of their own.
pub const WITH_LEAST: Implementation = Implementation {
    name: "with least",
    plan_step: |sheet, old, plan, moves| {
        reference::plan_step_with(keeping::WITH_LEAST, [sheet, old], plan, moves)
    },
    ..REFERENCE
};

/// A sheet of version 1.0 as it is today: with ten times its t. A t that 1.0
/// refused stays.
fn from_percent(sheet: &[u8]) -> Vec<u8> {
    let mut today = sheet.to_vec();
    if let Some(&[t @ 1..=99, 0, 0, 0]) = sheet.get(4..8) {
        today[4..8].copy_from_slice(&to_bytes(&[10 * u32::from(t)]));
    }
    today
}

/// All who are tested.
pub const IMPLEMENTATIONS: [&Implementation; 2] = [&REFERENCE, &ARCHIVE];

/// The plan and the moves of a step.
#[derive(Clone, Debug, PartialEq, Eq)]
pub struct Planned {
    pub plan: Vec<u8>,
    pub moves: Vec<u8>,
}

impl Implementation {
    /// The plan and the moves of a step that is accepted.
    pub fn plan(&self, step: &Step) -> Planned {
        let planned = self.planned(&step.sheet, &step.old);
        planned.unwrap_or_else(|refusal| panic!("{} refuses with {refusal}:\n{step}", self.name))
    }

    /// *Plan a step* with buffers that are long enough: the records, or the refusal.
    pub fn planned(&self, sheet: &[u8], old: &[u8]) -> Result<Planned, u32> {
        let mut plan = vec![0; PLAN_BYTES];
        let mut moves = vec![0; MOVES_BYTES];
        let answer = (self.plan_step)(sheet, old, &mut plan, &mut moves);
        plan.truncate(answer.plan_bytes as usize);
        moves.truncate(answer.moves_bytes as usize);
        match answer.refusal {
            0 => Ok(Planned { plan, moves }),
            refusal => Err(refusal),
        }
    }

    /// *Carry out* with a buffer that is long enough: the sheet, or the refusal.
    pub fn carried_out(&self, sheet: &[u8], moves: &[u8]) -> Result<Vec<u8>, u32> {
        written(SHEET_BYTES, |next| (self.carry_out)(sheet, moves, next))
    }

    /// *Join sheets* with a buffer that is long enough: the sheet, or the refusal.
    pub fn joined(&self, first: &[u8], second: &[u8]) -> Result<Vec<u8>, u32> {
        written(SHEET_BYTES, |out| (self.join_sheets)(first, second, out))
    }

    /// *Traffic page* with a buffer that is long enough: the page, or the refusal.
    pub fn page(&self, sheet: &[u8], moves: &[u8]) -> Result<Vec<u8>, u32> {
        written(PAGE_BYTES, |page| (self.traffic_page)(sheet, moves, page))
    }

    /// *Write archive* with a buffer that is long enough: the record, or the refusal.
    pub fn archived(&self, sheet: &[u8]) -> Result<Vec<u8>, u32> {
        written(Z_ORDER_BYTES, |out| (self.write_archive)(sheet, out))
    }

    /// *Read archive* with a buffer that is long enough: the sheet, or the refusal.
    pub fn brought_back(&self, archive: &[u8]) -> Result<Vec<u8>, u32> {
        written(SHEET_BYTES, |sheet| (self.read_archive)(archive, sheet))
    }

    /// *Groups* with a buffer that is long enough: the record, or the refusal.
    pub fn grouped(&self, plan: &[u8]) -> Result<Vec<u8>, u32> {
        written(GROUPS_BYTES, |groups| (self.groups)(plan, groups))
    }

    /// *Open tally*: the tally and whether the tree holds, or the refusal.
    pub fn opened(&self, sheet: &[u8], plan: &[u8]) -> Result<(Tally, bool), u32> {
        let mut tally = Tally::NONE;
        let answer = (self.open_tally)(sheet, plan, &mut tally);
        match answer.refusal {
            0 => Ok((tally, answer.holds == 1)),
            refusal => Err(refusal),
        }
    }

    /// *Weigh* with a buffer that is long enough: the leasts and whether the
    /// tree holds, or the refusal.
    pub fn weighed(&self, sheet: &[u8], plan: &[u8]) -> Result<(Vec<u32>, bool), u32> {
        let mut least = vec![0; 4 * MOST_NODES];
        let answer = (self.weigh)(sheet, plan, &mut least);
        if answer.refusal != 0 {
            return Err(answer.refusal);
        }
        let n = to_words(plan)[0] as usize;
        Ok((to_words(&least[..4 * n]), answer.holds == 1))
    }
}

/// What is written to a buffer of this length, which is enough, or the refusal.
fn written(length: usize, write: impl FnOnce(&mut [u8]) -> WrittenAnswer) -> Result<Vec<u8>, u32> {
    let mut out = vec![0; length];
    let answer = write(&mut out);
    out.truncate(answer.bytes as usize);
    match answer.refusal {
        0 => Ok(out),
        refusal => Err(refusal),
    }
}
