//! The operations. Where one writes, the part of the buffer that it wrote is
//! handed back; where it refuses, the buffers are untouched.

use crate::ffi::{self, PartAnswer, WrittenAnswer};
use crate::records::{Kind, Moves, Plan, Sheet};
use crate::refusal::Refusal;
use crate::words::Words;
use std::str;

/// The version that this crate was written for: 100 × major + minor.
pub const VERSION: u32 = 109;

/// Enough for every sheet.
pub const SHEET_BYTES: usize = 4 * (3 + 2 * 64 * 64);

/// Enough for every plan.
pub const PLAN_BYTES: usize = 4 * (3 + 2 * 64);

/// Enough for every list of moves.
pub const MOVES_BYTES: usize = 4 * (2 + 2 * 64 * 63);

/// Enough for all leasts.
pub const LEAST_BYTES: usize = 4 * 64;

/// Enough for every traffic page.
pub const PAGE_BYTES: usize = 25 * (64 + 1);

/// The length of every archive.
pub const ARCHIVE_BYTES: usize = 4 * (2 + 64 * 64);

/// Enough for the groups of every plan.
pub const GROUPS_BYTES: usize = 4 * (1 + 2 * 64);

/// No old plan.
pub const NO_PLAN: &[u8] = &[];

/// The entry of a node that is in no group of a colour.
pub const NO_GROUP: u32 = 64;

/// *Read sheet*.
pub fn read_sheet(sheet: &[u8]) -> Result<Sheet<'_>, Refusal> {
    let answer = ffi::read_sheet(sheet);
    accepted(answer.refusal)?;
    let [cells, counts] = arrays(sheet, 3, answer.e);
    Ok(Sheet {
        n: answer.n,
        t: answer.t,
        e: answer.e,
        p: answer.p,
        limit: answer.limit,
        cells,
        counts,
    })
}

/// *Read plan*.
pub fn read_plan(plan: &[u8]) -> Result<Plan<'_>, Refusal> {
    let answer = ffi::read_plan(plan);
    accepted(answer.refusal)?;
    let [helpands, shares] = arrays(plan, 3, answer.n);
    Ok(Plan {
        n: answer.n,
        kind: kind(answer.kind),
        limit: answer.limit,
        helpands,
        shares,
    })
}

/// *Read moves*.
pub fn read_moves(moves: &[u8]) -> Result<Moves<'_>, Refusal> {
    let answer = ffi::read_moves(moves);
    accepted(answer.refusal)?;
    let [routes, counts] = arrays(moves, 2, answer.e);
    Ok(Moves {
        n: answer.n,
        e: answer.e,
        routes,
        counts,
    })
}

/// What *weigh* gives.
#[derive(Clone, Copy, Debug, PartialEq, Eq)]
pub struct Weighed<'a> {
    /// Whether the tree holds.
    pub holds: bool,
    /// The N leasts, also where it does not hold.
    pub leasts: Words<'a>,
}

/// *Weigh*: writes the leasts to the front of the buffer.
pub fn weigh<'a>(sheet: &[u8], plan: &[u8], least: &'a mut [u8]) -> Result<Weighed<'a>, Refusal> {
    let answer = ffi::weigh(sheet, plan, least);
    accepted(answer.refusal)?;
    let n = read_plan(plan)?.n as usize;
    Ok(Weighed {
        holds: answer.holds != 0,
        leasts: Words::of(least).part(0, n),
    })
}

/// What *plan a step* gives.
#[derive(Clone, Copy, Debug, PartialEq, Eq)]
pub struct Step<'a> {
    /// The kind of the new plan.
    pub kind: Kind,
    /// L, the limit.
    pub limit: u32,
    /// The new plan.
    pub plan: &'a [u8],
    /// The moves.
    pub moves: &'a [u8],
}

/// *Plan a step*: writes the new plan and the moves to the front of the buffers.
/// An old plan of length 0 is none (`NO_PLAN`).
pub fn plan_step<'a>(
    sheet: &[u8],
    old: &[u8],
    plan: &'a mut [u8],
    moves: &'a mut [u8],
) -> Result<Step<'a>, Refusal> {
    let answer = ffi::plan_step(sheet, old, plan, moves);
    accepted(answer.refusal)?;
    Ok(Step {
        kind: kind(answer.kind),
        limit: answer.limit,
        plan: &plan[..answer.plan_bytes as usize],
        moves: &moves[..answer.moves_bytes as usize],
    })
}

/// *Carry out*: writes the sheet that follows to the front of the buffer.
pub fn carry_out<'a>(sheet: &[u8], moves: &[u8], next: &'a mut [u8]) -> Result<&'a [u8], Refusal> {
    written(ffi::carry_out(sheet, moves, next), next)
}

/// *Join sheets*: writes the sheet that has in each cell the sum of both, such as
/// the resident sheet and that of the particles injected at the gas inlet, to the
/// front of the buffer.
///
/// Refusals 1 to 7 may be either sheet's, and 7 (`SheetCount`) may also be that of
/// the joint total: `read_sheet` of each tells which.
pub fn join_sheets<'a>(
    first: &[u8],
    second: &[u8],
    out: &'a mut [u8],
) -> Result<&'a [u8], Refusal> {
    written(ffi::join_sheets(first, second, out), out)
}

/// *Traffic page*: writes to the front of the buffer, as text to pin up, what each
/// node sends and receives when these moves are carried out.
///
/// A line has node, sent and received, in 2, 10 and 10 columns with a blank
/// between; the last has `==` for the node and the two totals.
pub fn traffic_page<'a>(
    sheet: &[u8],
    moves: &[u8],
    page: &'a mut [u8],
) -> Result<&'a str, Refusal> {
    let page = written(ffi::traffic_page(sheet, moves, page), page)?;
    Ok(str::from_utf8(page).expect("the page is ASCII"))
}

/// *Traffic page* as text of its own, which is long enough for every page: 53 is
/// no refusal of this function.
pub fn traffic_text(sheet: &[u8], moves: &[u8]) -> Result<String, Refusal> {
    traffic_page(sheet, moves, &mut [0; PAGE_BYTES]).map(String::from)
}

/// *Write archive*: writes the archive of a sheet to the front of the buffer:
/// `ARCHIVE_BYTES`, whatever the sheet.
///
/// An archive is N, t and 4,096 counts. Bit i of the subdomain is bit 2i of a
/// count's position, and bit i of the holder is bit 2i + 1.
pub fn write_archive<'a>(sheet: &[u8], archive: &'a mut [u8]) -> Result<&'a [u8], Refusal> {
    written(ffi::write_archive(sheet, archive), archive)
}

/// *Read archive*: writes the sheet that an archive holds to the front of the
/// buffer. It is the sheet that was written to the archive, byte for byte.
///
/// Refusals 2 and 3 are of the archive: `ArchiveNodes` and `ArchiveTolerance`.
pub fn read_archive<'a>(archive: &[u8], sheet: &'a mut [u8]) -> Result<&'a [u8], Refusal> {
    written(ffi::read_archive(archive, sheet), sheet).map_err(Refusal::of_archive)
}

/// What *groups* gives. An entry is the number of the group's owner, or `NO_GROUP`.
#[derive(Clone, Copy, Debug, PartialEq, Eq)]
pub struct Groups<'a> {
    /// The record: N, and the entries of both colours.
    pub record: &'a [u8],
    /// The N entries of the even colour.
    pub even: Words<'a>,
    /// The N entries of the odd colour.
    pub odd: Words<'a>,
}

/// *Groups*: writes each node's group in the even colour and in the odd to the front
/// of the buffer, for a message library.
///
/// Each family with a helper is a group. It is named by its owner, and even or odd
/// as its owner's distance from the root is.
pub fn groups<'a>(plan: &[u8], groups: &'a mut [u8]) -> Result<Groups<'a>, Refusal> {
    let record = written(ffi::groups(plan, groups), groups)?;
    let n = Words::of(record).get(0).expect("N stands first");
    let [even, odd] = arrays(record, 1, n);
    Ok(Groups { record, even, odd })
}

/// *Tree in force*: the helpands, a part of one of the two plans, or an empty
/// part of the new plan. A new plan of kind 0 gives its roots. `NO_PLAN` as the
/// old plan gives the empty part; only *plan a step* takes it as none.
pub fn tree_in_force<'a>(old: &'a [u8], new: &'a [u8]) -> &'a [u8] {
    let part = ffi::tree_in_force(old, new);
    let source = match part.source {
        PartAnswer::OLD => old,
        _ => new,
    };
    &source[part.start as usize..][..part.length as usize]
}

/// Nothing, or the refusal with this number.
pub(crate) fn accepted(refusal: u32) -> Result<(), Refusal> {
    match refusal {
        0 => Ok(()),
        number => Err(Refusal::from_number(number).expect("a number of document 01 or 02")),
    }
}

/// The part of the buffer that was written.
fn written(answer: WrittenAnswer, buffer: &[u8]) -> Result<&[u8], Refusal> {
    accepted(answer.refusal)?;
    Ok(&buffer[..answer.bytes as usize])
}

fn kind(number: u32) -> Kind {
    Kind::try_from(number).expect("a kind of document 01")
}

/// "Sizes stand first, then two parallel arrays", of an accepted record.
fn arrays(record: &[u8], sizes: usize, entries: u32) -> [Words<'_>; 2] {
    let (words, entries) = (Words::of(record), entries as usize);
    [
        words.part(sizes, entries),
        words.part(sizes + entries, entries),
    ]
}
