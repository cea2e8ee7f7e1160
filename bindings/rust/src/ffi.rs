//! The library as it is: its C declarations, their answers, and a safe function
//! for each that takes slices. Elsewhere in this crate nothing is unsafe.
//!
//! "An answer carries 0 or a refusal number, and the values named." The answers
//! are laid out as include/firrozka.h has them.
#![allow(unsafe_code)]
#![allow(missing_docs)] // the fields are the header's

/// *Read sheet* "gives N, t, E, P, L".
#[repr(C)]
#[derive(Clone, Copy, Debug, Default, PartialEq, Eq)]
pub struct SheetAnswer {
    pub refusal: u32,
    pub n: u32,
    pub t: u32,
    pub e: u32,
    pub p: u32,
    pub limit: u32,
}

/// *Read plan* "gives N, kind, L".
#[repr(C)]
#[derive(Clone, Copy, Debug, Default, PartialEq, Eq)]
pub struct PlanAnswer {
    pub refusal: u32,
    pub n: u32,
    pub kind: u32,
    pub limit: u32,
}

/// *Read moves* "gives N, E".
#[repr(C)]
#[derive(Clone, Copy, Debug, Default, PartialEq, Eq)]
pub struct MovesAnswer {
    pub refusal: u32,
    pub n: u32,
    pub e: u32,
}

/// *Weigh* "says whether the tree holds": 1 or 0.
#[repr(C)]
#[derive(Clone, Copy, Debug, Default, PartialEq, Eq)]
pub struct WeighedAnswer {
    pub refusal: u32,
    pub holds: u32,
}

/// *Plan a step* "gives kind, L and both lengths in bytes".
#[repr(C)]
#[derive(Clone, Copy, Debug, Default, PartialEq, Eq)]
pub struct StepAnswer {
    pub refusal: u32,
    pub kind: u32,
    pub limit: u32,
    pub plan_bytes: u32,
    pub moves_bytes: u32,
}

/// *Carry out*, *join sheets*, *traffic page*, *write archive*, *read archive* and
/// *groups* give the length in bytes of what they wrote.
#[repr(C)]
#[derive(Clone, Copy, Debug, Default, PartialEq, Eq)]
pub struct WrittenAnswer {
    pub refusal: u32,
    pub bytes: u32,
}

/// *Open tally*, *tally add* and *tally remove* say whether the tree holds: 1 or 0.
#[repr(C)]
#[derive(Clone, Copy, Debug, Default, PartialEq, Eq)]
pub struct TalliedAnswer {
    pub refusal: u32,
    pub holds: u32,
}

/// A tally, 17,164 bytes, for the library to write. It may hold anything: what a call
/// answers on one that no opening gave, docs/FORMATS.md says.
#[repr(C)]
#[derive(Clone, Debug, PartialEq, Eq)]
pub struct Tally {
    pub n: u32,
    pub limit: u32,
    pub total: u32,
    pub helpands: [u32; 64],
    pub totals: [u32; 64],
    pub leasts: [u32; 64],
    /// At holder × 64 + subdomain.
    pub counts: [u32; 4096],
}

impl Tally {
    /// That of no nodes, as a refused opening leaves it.
    pub const NONE: Tally = Tally {
        n: 0,
        limit: 0,
        total: 0,
        helpands: [0; 64],
        totals: [0; 64],
        leasts: [0; 64],
        counts: [0; 4096],
    };
}

/// *Tree in force* hands back a stretch of one of two plans: which one, and
/// where it begins and how long it is, in bytes.
#[repr(C)]
#[derive(Clone, Copy, Debug, PartialEq, Eq)]
pub struct PartAnswer {
    pub source: u32,
    pub start: u32,
    pub length: u32,
}

impl PartAnswer {
    /// The source is the old plan.
    pub const OLD: u32 = 1;

    /// The source is the new plan.
    pub const NEW: u32 = 2;
}

extern "C" {
    fn firrozka_version() -> u32;
    fn firrozka_read_sheet(sheet: *const u8, len: usize) -> SheetAnswer;
    fn firrozka_read_plan(plan: *const u8, len: usize) -> PlanAnswer;
    fn firrozka_read_moves(moves: *const u8, len: usize) -> MovesAnswer;
    fn firrozka_weigh(
        sheet: *const u8,
        sheet_len: usize,
        plan: *const u8,
        plan_len: usize,
        least: *mut u8,
        least_len: usize,
    ) -> WeighedAnswer;
    fn firrozka_plan_step(
        sheet: *const u8,
        sheet_len: usize,
        old: *const u8,
        old_len: usize,
        plan: *mut u8,
        plan_len: usize,
        moves: *mut u8,
        moves_len: usize,
    ) -> StepAnswer;
    fn firrozka_carry_out(
        sheet: *const u8,
        sheet_len: usize,
        moves: *const u8,
        moves_len: usize,
        next: *mut u8,
        next_len: usize,
    ) -> WrittenAnswer;
    fn firrozka_join_sheets(
        first: *const u8,
        first_len: usize,
        second: *const u8,
        second_len: usize,
        out: *mut u8,
        out_len: usize,
    ) -> WrittenAnswer;
    fn firrozka_traffic_page(
        sheet: *const u8,
        sheet_len: usize,
        moves: *const u8,
        moves_len: usize,
        page: *mut u8,
        page_len: usize,
    ) -> WrittenAnswer;
    fn firrozka_write_archive(
        sheet: *const u8,
        sheet_len: usize,
        archive: *mut u8,
        archive_len: usize,
    ) -> WrittenAnswer;
    fn firrozka_read_archive(
        archive: *const u8,
        archive_len: usize,
        sheet: *mut u8,
        sheet_len: usize,
    ) -> WrittenAnswer;
    fn firrozka_groups(
        plan: *const u8,
        plan_len: usize,
        groups: *mut u8,
        groups_len: usize,
    ) -> WrittenAnswer;
    fn firrozka_open_tally(
        sheet: *const u8,
        sheet_len: usize,
        plan: *const u8,
        plan_len: usize,
        tally: *mut Tally,
    ) -> TalliedAnswer;
    fn firrozka_tally_add(
        tally: *mut Tally,
        holder: u32,
        subdomain: u32,
        count: u32,
    ) -> TalliedAnswer;
    fn firrozka_tally_remove(
        tally: *mut Tally,
        holder: u32,
        subdomain: u32,
        count: u32,
    ) -> TalliedAnswer;
    fn firrozka_tree_in_force(
        old: *const u8,
        old_len: usize,
        new: *const u8,
        new_len: usize,
    ) -> PartAnswer;
}

/// A function that reads two records and writes to one buffer.
type Write<A> = unsafe extern "C" fn(*const u8, usize, *const u8, usize, *mut u8, usize) -> A;

fn write<A>(function: Write<A>, first: &[u8], second: &[u8], out: &mut [u8]) -> A {
    // SAFETY: pointers and lengths are those of slices that outlive the call,
    // and nobody else has the one that is written.
    unsafe {
        function(
            first.as_ptr(),
            first.len(),
            second.as_ptr(),
            second.len(),
            out.as_mut_ptr(),
            out.len(),
        )
    }
}

/// A function that reads one record and writes to one buffer.
type Convert = unsafe extern "C" fn(*const u8, usize, *mut u8, usize) -> WrittenAnswer;

fn convert(function: Convert, record: &[u8], out: &mut [u8]) -> WrittenAnswer {
    // SAFETY: pointers and lengths are those of slices that outlive the call,
    // and nobody else has the one that is written.
    unsafe { function(record.as_ptr(), record.len(), out.as_mut_ptr(), out.len()) }
}

/// The library's version, 100 × major + minor.
pub fn version() -> u32 {
    // SAFETY: nothing is passed.
    unsafe { firrozka_version() }
}

/// *Read sheet*, as the library does it.
pub fn read_sheet(sheet: &[u8]) -> SheetAnswer {
    // SAFETY: pointer and length are those of a slice that outlives the call.
    unsafe { firrozka_read_sheet(sheet.as_ptr(), sheet.len()) }
}

/// *Read plan*, as the library does it.
pub fn read_plan(plan: &[u8]) -> PlanAnswer {
    // SAFETY: pointer and length are those of a slice that outlives the call.
    unsafe { firrozka_read_plan(plan.as_ptr(), plan.len()) }
}

/// *Read moves*, as the library does it.
pub fn read_moves(moves: &[u8]) -> MovesAnswer {
    // SAFETY: pointer and length are those of a slice that outlives the call.
    unsafe { firrozka_read_moves(moves.as_ptr(), moves.len()) }
}

/// *Weigh*, as the library does it.
pub fn weigh(sheet: &[u8], plan: &[u8], least: &mut [u8]) -> WeighedAnswer {
    write(firrozka_weigh, sheet, plan, least)
}

/// *Plan a step*, as the library does it.
pub fn plan_step(sheet: &[u8], old: &[u8], plan: &mut [u8], moves: &mut [u8]) -> StepAnswer {
    // SAFETY: pointers and lengths are those of slices that outlive the call,
    // and nobody else has the two that are written.
    unsafe {
        firrozka_plan_step(
            sheet.as_ptr(),
            sheet.len(),
            old.as_ptr(),
            old.len(),
            plan.as_mut_ptr(),
            plan.len(),
            moves.as_mut_ptr(),
            moves.len(),
        )
    }
}

/// *Carry out*, as the library does it.
pub fn carry_out(sheet: &[u8], moves: &[u8], next: &mut [u8]) -> WrittenAnswer {
    write(firrozka_carry_out, sheet, moves, next)
}

/// *Join sheets*, as the library does it.
pub fn join_sheets(first: &[u8], second: &[u8], out: &mut [u8]) -> WrittenAnswer {
    write(firrozka_join_sheets, first, second, out)
}

/// *Traffic page*, as the library does it.
pub fn traffic_page(sheet: &[u8], moves: &[u8], page: &mut [u8]) -> WrittenAnswer {
    write(firrozka_traffic_page, sheet, moves, page)
}

/// *Write archive*, as the library does it.
pub fn write_archive(sheet: &[u8], archive: &mut [u8]) -> WrittenAnswer {
    convert(firrozka_write_archive, sheet, archive)
}

/// *Read archive*, as the library does it.
pub fn read_archive(archive: &[u8], sheet: &mut [u8]) -> WrittenAnswer {
    convert(firrozka_read_archive, archive, sheet)
}

/// *Groups*, as the library does it.
pub fn groups(plan: &[u8], groups: &mut [u8]) -> WrittenAnswer {
    convert(firrozka_groups, plan, groups)
}

/// *Open tally*, as the library does it.
pub fn open_tally(sheet: &[u8], plan: &[u8], tally: &mut Tally) -> TalliedAnswer {
    // SAFETY: pointers and lengths are those of slices that outlive the call, and
    // nobody else has the tally.
    unsafe {
        firrozka_open_tally(
            sheet.as_ptr(),
            sheet.len(),
            plan.as_ptr(),
            plan.len(),
            tally,
        )
    }
}

/// *Tally add*, as the library does it.
pub fn tally_add(tally: &mut Tally, holder: u32, subdomain: u32, count: u32) -> TalliedAnswer {
    // SAFETY: nobody else has the tally, which may hold anything.
    unsafe { firrozka_tally_add(tally, holder, subdomain, count) }
}

/// *Tally remove*, as the library does it.
pub fn tally_remove(tally: &mut Tally, holder: u32, subdomain: u32, count: u32) -> TalliedAnswer {
    // SAFETY: nobody else has the tally, which may hold anything.
    unsafe { firrozka_tally_remove(tally, holder, subdomain, count) }
}

/// *Tree in force*, as the library does it.
pub fn tree_in_force(old: &[u8], new: &[u8]) -> PartAnswer {
    // SAFETY: pointers and lengths are those of slices that outlive the call.
    unsafe { firrozka_tree_in_force(old.as_ptr(), old.len(), new.as_ptr(), new.len()) }
}
