//! The operations on more than one record, over bytes. "An answer carries 0 or
//! a refusal number, and the values named. A refusal's other values are all 0,
//! and buffers are untouched. Checks run in the order written."

use super::keeping::{Rules, RULES};
use super::moves::Moves;
use super::page::page;
use super::plan::Plan;
use super::sheet::Sheet;
use super::table::Table;
use super::tree::old_tree;
use super::weighing::Weighing;
use super::words::{to_bytes, to_word};
use super::{deciding, grouping, moves, plan, sheet, transfer, z_order};
use crate::answers::{self, Answer, PartAnswer, StepAnswer, WeighedAnswer, WrittenAnswer};
use crate::bounds::MOST_PARTICLES;

/// *Weigh* "takes sheet and plan, writes N words of least under the sheet's
/// limit, and says whether the tree holds."
pub fn weigh(sheet: &[u8], plan: &[u8], least: &mut [u8]) -> WeighedAnswer {
    try_weigh(sheet, plan, least).map_or_else(Answer::refused, answers::weighed)
}

fn try_weigh(sheet: &[u8], plan: &[u8], least: &mut [u8]) -> Result<bool, u32> {
    let (sheet, plan) = with_tree(sheet, plan)?;
    // "25, buffer under 4N bytes"
    if least.len() < 4 * sheet.n as usize {
        return Err(25);
    }
    let weighing = Weighing {
        helpands: &plan.helpands,
        totals: &Table::of(&sheet).totals(),
        limit: u64::from(sheet.limit()),
    };
    let words: Vec<u32> = weighing.leasts().into_iter().map(to_word).collect();
    store(&to_bytes(&words), least);
    Ok(weighing.holds())
}

/// The checks of *weigh* up to 24: a sheet, and a plan with a tree of as many nodes.
pub fn with_tree(sheet: &[u8], plan: &[u8]) -> Result<(Sheet, Plan), u32> {
    // "the sheet's; the plan's"
    let sheet = sheet::read(sheet)?;
    let plan = plan::read(plan)?;
    // "21, their N differ"
    if sheet.n != plan.n {
        return Err(21);
    }
    // "24, kind 0"
    if plan.kind == 0 {
        return Err(24);
    }
    Ok((sheet, plan))
}

/// *Plan a step* "takes a sheet and an old plan, which may have length 0, and
/// writes plan and moves. It gives kind, L and both lengths in bytes."
pub fn plan_step(
    sheet: &[u8],
    old: &[u8],
    plan_buffer: &mut [u8],
    moves_buffer: &mut [u8],
) -> StepAnswer {
    plan_step_with(RULES, [sheet, old], plan_buffer, moves_buffer)
}

/// The same with these rules for the shares in a kept tree.
pub fn plan_step_with(
    rules: Rules,
    records: [&[u8]; 2],
    plan_buffer: &mut [u8],
    moves_buffer: &mut [u8],
) -> StepAnswer {
    try_plan_step(rules, records, plan_buffer, moves_buffer)
        .map_or_else(Answer::refused, answers::planned)
}

fn try_plan_step(
    rules: Rules,
    [sheet, old]: [&[u8]; 2],
    plan_buffer: &mut [u8],
    moves_buffer: &mut [u8],
) -> Result<[u32; 4], u32> {
    // "A refused sheet ends planning before the old plan is looked at."
    let sheet = sheet::read(sheet)?;
    let old = match old {
        [] => None,
        bytes => Some(plan::read(bytes)?),
    };
    // "21"
    if old.as_ref().map_or(false, |old| old.n != sheet.n) {
        return Err(21);
    }
    let plan = deciding::plan(&sheet, old_tree(old.as_ref()), rules);
    let held = Table::of(&sheet);
    let moves = transfer::moves(&held, &transfer::due(&plan, &held.totals()));
    let (plan_bytes, moves_bytes) = (plan.bytes(), moves.bytes());
    // "22, plan buffer too short"
    if plan_buffer.len() < plan_bytes.len() {
        return Err(22);
    }
    // "23, moves buffer too short"
    if moves_buffer.len() < moves_bytes.len() {
        return Err(23);
    }
    store(&plan_bytes, plan_buffer);
    store(&moves_bytes, moves_buffer);
    let lengths = [plan_bytes, moves_bytes].map(|bytes| bytes.len() as u32);
    Ok([plan.kind, plan.limit, lengths[0], lengths[1]])
}

/// *Carry out* "takes a sheet and moves, writes the sheet that follows ... and
/// gives its length in bytes."
pub fn carry_out(sheet: &[u8], moves: &[u8], next: &mut [u8]) -> WrittenAnswer {
    try_carry_out(sheet, moves, next).map_or_else(Answer::refused, answers::written)
}

fn try_carry_out(sheet: &[u8], moves: &[u8], next: &mut [u8]) -> Result<u32, u32> {
    let Accepted { sheet, table, .. } = accepted(sheet, moves)?;
    // "same t"
    let record = table.sheet(sheet.t).bytes();
    // "43, buffer too short"
    written(&record, next).ok_or(43)
}

/// "a sheet and moves that *carry out* would accept, buffer aside", and the
/// table that follows.
struct Accepted {
    sheet: Sheet,
    moves: Moves,
    table: Table,
}

/// The checks of *carry out* up to 42.
fn accepted(sheet: &[u8], moves: &[u8]) -> Result<Accepted, u32> {
    // "the sheet's; the moves'"
    let sheet = sheet::read(sheet)?;
    let moves = moves::read(moves)?;
    // "41, N differ"
    if sheet.n != moves.n {
        return Err(41);
    }
    // "42, some cell sends in all more than the old sheet gives it"
    let table = transfer::apply(&moves, &Table::of(&sheet)).ok_or(42u32)?;
    Ok(Accepted {
        sheet,
        moves,
        table,
    })
}

/// *Traffic page*, request 2026-04: "From a sheet and moves that *carry out*
/// would accept, buffer aside, write N lines of 25 bytes". It gives the length in
/// bytes, as *carry out* does.
pub fn traffic_page(sheet: &[u8], moves: &[u8], out: &mut [u8]) -> WrittenAnswer {
    try_traffic_page(sheet, moves, out).map_or_else(Answer::refused, answers::written)
}

fn try_traffic_page(sheet: &[u8], moves: &[u8], out: &mut [u8]) -> Result<u32, u32> {
    // "those of *carry out* up to 42"
    let Accepted { sheet, moves, .. } = accepted(sheet, moves)?;
    // "then 53 for a buffer under 25 × (N+1) bytes"
    if out.len() < 25 * (sheet.n as usize + 1) {
        return Err(53);
    }
    let page = page(&moves);
    store(&page, out);
    Ok(page.len() as u32)
}

/// *Join sheets*, request 2026-02: "two accepted sheets in, one out, every cell
/// the sum of both." It gives the length in bytes, as *carry out* does.
pub fn join_sheets(first: &[u8], second: &[u8], out: &mut [u8]) -> WrittenAnswer {
    try_join_sheets(first, second, out).map_or_else(Answer::refused, answers::written)
}

fn try_join_sheets(first: &[u8], second: &[u8], out: &mut [u8]) -> Result<u32, u32> {
    // "the first sheet's, the second's"
    let first = sheet::read(first)?;
    let second = sheet::read(second)?;
    // "51 for unequal N or t"
    if first.n != second.n || first.t != second.t {
        return Err(51);
    }
    // "7 for a joint total above the maximum"
    if first.total() + second.total() > MOST_PARTICLES {
        return Err(7);
    }
    // "every cell the sum of both"
    let joint = Table::of(&first).plus(&Table::of(&second));
    let record = joint.sheet(first.t).bytes();
    // "52 for a short buffer"
    written(&record, out).ok_or(52)
}

/// *Write archive*, request 2026-05: "Write N, t and then 4,096 counts (16,392
/// bytes)." It gives the length in bytes, as *carry out* does.
pub fn write_archive(sheet: &[u8], archive: &mut [u8]) -> WrittenAnswer {
    try_write_archive(sheet, archive).map_or_else(Answer::refused, answers::written)
}

fn try_write_archive(sheet: &[u8], archive: &mut [u8]) -> Result<u32, u32> {
    // "writing has the sheet's"
    let sheet = sheet::read(sheet)?;
    // "then 56 for a short buffer"
    written(&z_order::bytes(&sheet), archive).ok_or(56)
}

/// *Read archive*, request 2026-05: "Going to the archive and back must give the
/// same sheet". It gives the length in bytes, too.
pub fn read_archive(archive: &[u8], sheet: &mut [u8]) -> WrittenAnswer {
    try_read_archive(archive, sheet).map_or_else(Answer::refused, answers::written)
}

fn try_read_archive(archive: &[u8], sheet: &mut [u8]) -> Result<u32, u32> {
    // "54 for another length, 2, 3, 55"
    let record = z_order::read(archive)?.bytes();
    // "then 56"
    written(&record, sheet).ok_or(56)
}

/// *Groups*, request 2026-06: "each family with a helper is a group". It gives the
/// length in bytes, as *carry out* does.
pub fn groups(plan: &[u8], groups: &mut [u8]) -> WrittenAnswer {
    try_groups(plan, groups).map_or_else(Answer::refused, answers::written)
}

fn try_groups(plan: &[u8], groups: &mut [u8]) -> Result<u32, u32> {
    // "the plan's"
    let plan = plan::read(plan)?;
    // "then 57 for a buffer under 4 × (1+2N) bytes"
    if groups.len() < 4 * (1 + 2 * plan.n as usize) {
        return Err(57);
    }
    let record = grouping::bytes(&plan);
    store(&record, groups);
    Ok(record.len() as u32)
}

/// *Tree in force* "takes an old and a new plan. If the new kind is 1, it hands
/// back the helpand stretch of the old plan, otherwise that of the new".
pub fn tree_in_force(old: &[u8], new: &[u8]) -> PartAnswer {
    // "It hands back an empty stretch of the new plan when either is refused"
    let (old, new) = match (plan::read(old), plan::read(new)) {
        (Ok(old), Ok(new)) => (old, new),
        _ => return answers::NOTHING,
    };
    // "the N differ"
    if old.n != new.n {
        return answers::NOTHING;
    }
    if new.kind != 1 {
        return answers::helpands(PartAnswer::NEW, new.n);
    }
    // "the new kind is 1 and the old is kind 0 or has other helpands"
    if old.kind == 0 || old.helpands != new.helpands {
        return answers::NOTHING;
    }
    answers::helpands(PartAnswer::OLD, old.n)
}

/// The record's length, once it is written; nothing if the buffer is too short.
fn written(record: &[u8], buffer: &mut [u8]) -> Option<u32> {
    if buffer.len() < record.len() {
        return None;
    }
    store(record, buffer);
    Some(record.len() as u32)
}

/// Writes the record at the beginning of a buffer that has room for it, and
/// nothing behind it.
fn store(record: &[u8], buffer: &mut [u8]) {
    buffer[..record.len()].copy_from_slice(record);
}
