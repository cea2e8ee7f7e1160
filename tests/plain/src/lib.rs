//! Documents 01 and 02 in plain safe Rust: the benchmark's baseline. Fixed
//! arrays of 64 and 4,096, one pass where one will do, no memory from the heap;
//! and no trick that a reader would have to think about.
//!
//! Every operation gives its values, or the refusal.
#![forbid(unsafe_code)]

mod deciding;
mod grouping;
mod page;
mod records;
mod tally;
mod transfer;
mod tree;
mod z_order;

use firrozka::ffi::Tally;
use records::{
    put_record, put_words, read_moves, read_plan, read_sheet, Moves, Nodes, Plan, Sheet, Table,
};
pub use tally::{tally_add, tally_remove};

/// What *plan a step* gives: kind, L and both lengths in bytes.
pub struct Step {
    pub kind: u32,
    pub limit: u32,
    pub plan_bytes: u32,
    pub moves_bytes: u32,
}

/// *Plan a step*.
pub fn plan_step(
    sheet_bytes: &[u8],
    old_bytes: &[u8],
    plan: &mut [u8],
    moves: &mut [u8],
) -> Result<Step, u32> {
    let sheet = read_sheet(sheet_bytes)?;
    let old = match old_bytes {
        [] => None,
        bytes => Some(read_plan(bytes)?),
    };
    if old.as_ref().map_or(false, |old| old.n != sheet.n) {
        return Err(21);
    }
    let n = sheet.n as usize;
    let table = records::unpack(sheet_bytes, sheet.e as usize);
    let totals = deciding::totals(&table, n);
    let tree = old.filter(|old| old.kind != 0).map(|old| old.helpands);
    let decision = deciding::decide(&table, &totals, tree.as_ref(), n, &sheet);
    let (mut routes, mut counts) = ([0; 4096], [0; 4096]);
    let e = transfer::moves(&table, &totals, &decision, n, &mut routes, &mut counts);
    let (plan_bytes, moves_bytes) = (4 * (3 + 2 * n), 4 * (2 + 2 * e));
    if plan.len() < plan_bytes {
        return Err(22);
    }
    if moves.len() < moves_bytes {
        return Err(23);
    }
    let head = [sheet.n, decision.kind, sheet.limit];
    put_record(plan, &head, &decision.helpands[..n], &decision.shares[..n]);
    put_record(moves, &[sheet.n, e as u32], &routes[..e], &counts[..e]);
    Ok(Step {
        kind: decision.kind,
        limit: sheet.limit,
        plan_bytes: plan_bytes as u32,
        moves_bytes: moves_bytes as u32,
    })
}

/// *Weigh*: whether the tree holds.
pub fn weigh(sheet_bytes: &[u8], plan_bytes: &[u8], least: &mut [u8]) -> Result<bool, u32> {
    let (sheet, plan) = read_sheet_and_tree(sheet_bytes, plan_bytes)?;
    let n = sheet.n as usize;
    if least.len() < 4 * n {
        return Err(25);
    }
    let table = records::unpack(sheet_bytes, sheet.e as usize);
    let totals = deciding::totals(&table, n);
    let order = &tree::downwards(&plan.helpands, n)[..n];
    let leasts: Nodes = tree::leasts(&totals, &plan.helpands, order, sheet.limit);
    put_words(least, &leasts[..n]);
    Ok(leasts[..n].iter().all(|&least| least <= sheet.limit))
}

/// A sheet, and a plan with a tree of as many nodes.
fn read_sheet_and_tree(sheet: &[u8], plan: &[u8]) -> Result<(Sheet, Plan), u32> {
    let sheet = read_sheet(sheet)?;
    let plan = read_plan(plan)?;
    if sheet.n != plan.n {
        return Err(21);
    }
    if plan.kind == 0 {
        return Err(24);
    }
    Ok((sheet, plan))
}

/// *Carry out*: the length in bytes of the sheet that follows.
pub fn carry_out(sheet_bytes: &[u8], moves_bytes: &[u8], next: &mut [u8]) -> Result<u32, u32> {
    let (sheet, moves) = read_sheet_and_moves(sheet_bytes, moves_bytes)?;
    let mut table: Table = records::unpack(sheet_bytes, sheet.e as usize);
    transfer::apply(&mut table, moves_bytes, moves.e as usize)?;
    write_sheet(&table, [sheet.n, sheet.t], next).ok_or(43)
}

/// *Traffic page*: its length in bytes.
pub fn traffic_page(sheet_bytes: &[u8], moves_bytes: &[u8], out: &mut [u8]) -> Result<u32, u32> {
    let (sheet, moves) = read_sheet_and_moves(sheet_bytes, moves_bytes)?;
    let mut table: Table = records::unpack(sheet_bytes, sheet.e as usize);
    let traffic = transfer::traffic(&mut table, moves_bytes, moves.e as usize)?;
    let n = sheet.n as usize;
    let bytes = page::LINE * (n + 1);
    page::put_page(out.get_mut(..bytes).ok_or(53u32)?, &traffic, n);
    Ok(bytes as u32)
}

/// A sheet and moves of as many nodes.
fn read_sheet_and_moves(sheet: &[u8], moves: &[u8]) -> Result<(Sheet, Moves), u32> {
    let sheet = read_sheet(sheet)?;
    let moves = read_moves(moves)?;
    if sheet.n != moves.n {
        return Err(41);
    }
    Ok((sheet, moves))
}

/// *Join sheets*: the length in bytes of the sheet with the sums.
pub fn join_sheets(first_bytes: &[u8], second_bytes: &[u8], out: &mut [u8]) -> Result<u32, u32> {
    let first = read_sheet(first_bytes)?;
    let second = read_sheet(second_bytes)?;
    if first.n != second.n || first.t != second.t {
        return Err(51);
    }
    if first.p + second.p > 1_000_000_000 {
        return Err(7);
    }
    let mut table: Table = records::unpack(first_bytes, first.e as usize);
    records::add(&mut table, second_bytes, second.e as usize);
    write_sheet(&table, [first.n, first.t], out).ok_or(52)
}

/// *Write archive*: its length in bytes.
pub fn write_archive(sheet_bytes: &[u8], out: &mut [u8]) -> Result<u32, u32> {
    let sheet = read_sheet(sheet_bytes)?;
    let bytes = z_order::BYTES;
    z_order::put(out.get_mut(..bytes).ok_or(56u32)?, &sheet, sheet_bytes);
    Ok(bytes as u32)
}

/// *Read archive*: the length in bytes of the sheet.
pub fn read_archive(archive: &[u8], out: &mut [u8]) -> Result<u32, u32> {
    let (sizes, table) = z_order::read(archive)?;
    write_sheet(&table, sizes, out).ok_or(56)
}

/// *Groups*: their length in bytes.
pub fn groups(plan_bytes: &[u8], out: &mut [u8]) -> Result<u32, u32> {
    let plan = read_plan(plan_bytes)?;
    let bytes = 4 * (1 + 2 * plan.n as usize);
    grouping::put(out.get_mut(..bytes).ok_or(57u32)?, &plan);
    Ok(bytes as u32)
}

/// *Open tally*: whether the tree holds.
pub fn open_tally(sheet_bytes: &[u8], plan_bytes: &[u8], tally: &mut Tally) -> Result<bool, u32> {
    match read_sheet_and_tree(sheet_bytes, plan_bytes) {
        Ok((sheet, plan)) => Ok(tally::open(tally, &sheet, sheet_bytes, &plan)),
        Err(refusal) => {
            *tally = Tally::NONE;
            Err(refusal)
        }
    }
}

/// Writes a table as a sheet with this N and t, and gives its length in bytes;
/// nothing if the buffer is too short.
fn write_sheet(table: &Table, [n, t]: [u32; 2], out: &mut [u8]) -> Option<u32> {
    let cells = &table[..64 * n as usize];
    let e = cells.iter().filter(|&&count| count != 0).count();
    let bytes = 4 * (3 + 2 * e);
    records::put_sheet(out.get_mut(..bytes)?, &[n, t, e as u32], cells);
    Some(bytes as u32)
}
