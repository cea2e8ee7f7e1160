//! Archives as shared objects, loaded at run time: two of them in one process,
//! so that an earlier one and today's are timed in turn.
//!
//! An archive stands at a place, 0 or 1, until another is loaded there. A call
//! at a place where none was loaded ends the program.

use firrozka::ffi::{StepAnswer, TalliedAnswer, Tally, WeighedAnswer, WrittenAnswer};
use std::ffi::{CStr, CString};
use std::os::raw::{c_char, c_int, c_void};
use std::path::Path;
use std::sync::atomic::{AtomicPtr, Ordering};
use std::{mem, ptr};

extern "C" {
    fn dlopen(file: *const c_char, mode: c_int) -> *mut c_void;
    fn dlsym(object: *mut c_void, name: *const c_char) -> *mut c_void;
    fn dlerror() -> *const c_char;
}

/// All names are looked up at once.
const RTLD_NOW: c_int = 2;

/// Where the functions of a loaded archive lie.
struct Archive {
    version: AtomicPtr<c_void>,
    weigh: AtomicPtr<c_void>,
    plan_step: AtomicPtr<c_void>,
    carry_out: AtomicPtr<c_void>,
    /// Nowhere in an archive from before request 2026-02.
    join_sheets: AtomicPtr<c_void>,
    /// Nowhere in one from before request 2026-04.
    traffic_page: AtomicPtr<c_void>,
    /// Nowhere in one from before request 2026-05, like the next.
    write_archive: AtomicPtr<c_void>,
    read_archive: AtomicPtr<c_void>,
    /// Nowhere in one from before request 2026-06.
    groups: AtomicPtr<c_void>,
    /// Nowhere in one from before request 2026-08, like the next two.
    open_tally: AtomicPtr<c_void>,
    tally_add: AtomicPtr<c_void>,
    tally_remove: AtomicPtr<c_void>,
}

impl Archive {
    /// None was loaded yet.
    const fn none() -> Archive {
        Archive {
            version: AtomicPtr::new(ptr::null_mut()),
            weigh: AtomicPtr::new(ptr::null_mut()),
            plan_step: AtomicPtr::new(ptr::null_mut()),
            carry_out: AtomicPtr::new(ptr::null_mut()),
            join_sheets: AtomicPtr::new(ptr::null_mut()),
            traffic_page: AtomicPtr::new(ptr::null_mut()),
            write_archive: AtomicPtr::new(ptr::null_mut()),
            read_archive: AtomicPtr::new(ptr::null_mut()),
            groups: AtomicPtr::new(ptr::null_mut()),
            open_tally: AtomicPtr::new(ptr::null_mut()),
            tally_add: AtomicPtr::new(ptr::null_mut()),
            tally_remove: AtomicPtr::new(ptr::null_mut()),
        }
    }
}

static PLACES: [Archive; 2] = [Archive::none(), Archive::none()];

type Version = extern "C" fn() -> u32;
type Weigh = extern "C" fn(*const u8, usize, *const u8, usize, *mut u8, usize) -> WeighedAnswer;
type Write = extern "C" fn(*const u8, usize, *const u8, usize, *mut u8, usize) -> WrittenAnswer;
type Convert = extern "C" fn(*const u8, usize, *mut u8, usize) -> WrittenAnswer;
type OpenTally = extern "C" fn(*const u8, usize, *const u8, usize, *mut Tally) -> TalliedAnswer;
type TallyCall = extern "C" fn(*mut Tally, u32, u32, u32) -> TalliedAnswer;
type PlanStep =
    extern "C" fn(*const u8, usize, *const u8, usize, *mut u8, usize, *mut u8, usize) -> StepAnswer;

/// Loads the shared object of an archive to a place.
pub fn load(file: &Path, place: usize) -> Result<(), String> {
    let name = text(&file.to_string_lossy());
    // SAFETY: the name ends with 0. The file is an archive's, which runs no code when it is loaded.
    let object = unsafe { dlopen(name.as_ptr(), RTLD_NOW) };
    if object.is_null() {
        return Err(reason());
    }
    let find = |name| {
        let name = text(name);
        // SAFETY: the object was just opened, and nothing closes it; the name ends with 0.
        unsafe { dlsym(object, name.as_ptr()) }
    };
    let archive = &PLACES[place];
    for (function, name) in [
        (&archive.version, "firrozka_version"),
        (&archive.weigh, "firrozka_weigh"),
        (&archive.plan_step, "firrozka_plan_step"),
        (&archive.carry_out, "firrozka_carry_out"),
    ] {
        let found = find(name);
        if found.is_null() {
            return Err(reason());
        }
        function.store(found, Ordering::Relaxed);
    }
    for (function, name) in [
        (&archive.join_sheets, "firrozka_join_sheets"),
        (&archive.traffic_page, "firrozka_traffic_page"),
        (&archive.write_archive, "firrozka_write_archive"),
        (&archive.read_archive, "firrozka_read_archive"),
        (&archive.groups, "firrozka_groups"),
        (&archive.open_tally, "firrozka_open_tally"),
        (&archive.tally_add, "firrozka_tally_add"),
        (&archive.tally_remove, "firrozka_tally_remove"),
    ] {
        function.store(find(name), Ordering::Relaxed);
    }
    Ok(())
}

fn text(name: &str) -> CString {
    CString::new(name).expect("a name without 0")
}

/// Why loading failed.
fn reason() -> String {
    // SAFETY: after a failure this is a text that ends with 0.
    unsafe { CStr::from_ptr(dlerror()) }
        .to_string_lossy()
        .into_owned()
}

/// The address of a function, once an archive that has it is loaded.
fn loaded(function: &AtomicPtr<c_void>) -> *mut c_void {
    let found = function.load(Ordering::Relaxed);
    assert!(!found.is_null(), "no archive that has it was loaded");
    found
}

/// Whether the archive at this place has *join sheets*.
pub fn has_join_sheets(place: usize) -> bool {
    is_there(&PLACES[place].join_sheets)
}

/// Whether the archive at this place has *traffic page*.
pub fn has_traffic_page(place: usize) -> bool {
    is_there(&PLACES[place].traffic_page)
}

/// Whether the archive at this place has *write archive*.
pub fn has_write_archive(place: usize) -> bool {
    is_there(&PLACES[place].write_archive)
}

/// Whether the archive at this place has *read archive*.
pub fn has_read_archive(place: usize) -> bool {
    is_there(&PLACES[place].read_archive)
}

/// Whether the archive at this place has *groups*.
pub fn has_groups(place: usize) -> bool {
    is_there(&PLACES[place].groups)
}

/// Whether the archive at this place has *open tally*.
pub fn has_open_tally(place: usize) -> bool {
    is_there(&PLACES[place].open_tally)
}

/// Whether the archive at this place has both calls on a tally.
pub fn has_tally_calls(place: usize) -> bool {
    is_there(&PLACES[place].tally_add) && is_there(&PLACES[place].tally_remove)
}

fn is_there(function: &AtomicPtr<c_void>) -> bool {
    !function.load(Ordering::Relaxed).is_null()
}

/// The version of the archive at this place.
pub fn version(place: usize) -> u32 {
    // SAFETY: what has this name in an archive has this type.
    let version: Version = unsafe { mem::transmute(loaded(&PLACES[place].version)) };
    version()
}

/// *Weigh*, as the archive at this place does it.
pub fn weigh<const PLACE: usize>(sheet: &[u8], plan: &[u8], least: &mut [u8]) -> WeighedAnswer {
    // SAFETY: what has this name in an archive has this type.
    let weigh: Weigh = unsafe { mem::transmute(loaded(&PLACES[PLACE].weigh)) };
    weigh(
        sheet.as_ptr(),
        sheet.len(),
        plan.as_ptr(),
        plan.len(),
        least.as_mut_ptr(),
        least.len(),
    )
}

/// *Plan a step*, as the archive at this place does it.
pub fn plan_step<const PLACE: usize>(
    sheet: &[u8],
    old: &[u8],
    plan: &mut [u8],
    moves: &mut [u8],
) -> StepAnswer {
    // SAFETY: what has this name in an archive has this type.
    let plan_step: PlanStep = unsafe { mem::transmute(loaded(&PLACES[PLACE].plan_step)) };
    plan_step(
        sheet.as_ptr(),
        sheet.len(),
        old.as_ptr(),
        old.len(),
        plan.as_mut_ptr(),
        plan.len(),
        moves.as_mut_ptr(),
        moves.len(),
    )
}

/// *Carry out*, as the archive at this place does it.
pub fn carry_out<const PLACE: usize>(sheet: &[u8], moves: &[u8], next: &mut [u8]) -> WrittenAnswer {
    write(&PLACES[PLACE].carry_out, sheet, moves, next)
}

/// *Join sheets*, as the archive at this place does it.
pub fn join_sheets<const PLACE: usize>(
    first: &[u8],
    second: &[u8],
    out: &mut [u8],
) -> WrittenAnswer {
    write(&PLACES[PLACE].join_sheets, first, second, out)
}

/// *Traffic page*, as the archive at this place does it.
pub fn traffic_page<const PLACE: usize>(
    sheet: &[u8],
    moves: &[u8],
    page: &mut [u8],
) -> WrittenAnswer {
    write(&PLACES[PLACE].traffic_page, sheet, moves, page)
}

/// *Write archive*, as the archive at this place does it.
pub fn write_archive<const PLACE: usize>(sheet: &[u8], archive: &mut [u8]) -> WrittenAnswer {
    convert(&PLACES[PLACE].write_archive, sheet, archive)
}

/// *Read archive*, as the archive at this place does it.
pub fn read_archive<const PLACE: usize>(archive: &[u8], sheet: &mut [u8]) -> WrittenAnswer {
    convert(&PLACES[PLACE].read_archive, archive, sheet)
}

/// *Groups*, as the archive at this place does it.
pub fn groups<const PLACE: usize>(plan: &[u8], groups: &mut [u8]) -> WrittenAnswer {
    convert(&PLACES[PLACE].groups, plan, groups)
}

/// *Open tally*, as the archive at this place does it.
pub fn open_tally<const PLACE: usize>(
    sheet: &[u8],
    plan: &[u8],
    tally: &mut Tally,
) -> TalliedAnswer {
    // SAFETY: what has this name in an archive has this type.
    let open: OpenTally = unsafe { mem::transmute(loaded(&PLACES[PLACE].open_tally)) };
    open(
        sheet.as_ptr(),
        sheet.len(),
        plan.as_ptr(),
        plan.len(),
        tally,
    )
}

/// *Tally add*, as the archive at this place does it.
pub fn tally_add<const PLACE: usize>(
    tally: &mut Tally,
    holder: u32,
    subdomain: u32,
    count: u32,
) -> TalliedAnswer {
    tally_call(&PLACES[PLACE].tally_add, tally, [holder, subdomain, count])
}

/// *Tally remove*, as the archive at this place does it.
pub fn tally_remove<const PLACE: usize>(
    tally: &mut Tally,
    holder: u32,
    subdomain: u32,
    count: u32,
) -> TalliedAnswer {
    tally_call(
        &PLACES[PLACE].tally_remove,
        tally,
        [holder, subdomain, count],
    )
}

/// Calls a function that a tally is lent to.
fn tally_call(
    function: &AtomicPtr<c_void>,
    tally: &mut Tally,
    [holder, subdomain, count]: [u32; 3],
) -> TalliedAnswer {
    // SAFETY: both functions that stand here have this type in an archive.
    let call: TallyCall = unsafe { mem::transmute(loaded(function)) };
    call(tally, holder, subdomain, count)
}

/// Calls a function that reads one record and writes another.
fn convert(function: &AtomicPtr<c_void>, record: &[u8], out: &mut [u8]) -> WrittenAnswer {
    // SAFETY: all functions that stand here have this type in an archive.
    let convert: Convert = unsafe { mem::transmute(loaded(function)) };
    convert(record.as_ptr(), record.len(), out.as_mut_ptr(), out.len())
}

/// Calls a function that reads two records and writes one, or a page.
fn write(
    function: &AtomicPtr<c_void>,
    first: &[u8],
    second: &[u8],
    out: &mut [u8],
) -> WrittenAnswer {
    // SAFETY: all functions that stand here have this type in an archive.
    let write: Write = unsafe { mem::transmute(loaded(function)) };
    write(
        first.as_ptr(),
        first.len(),
        second.as_ptr(),
        second.len(),
        out.as_mut_ptr(),
        out.len(),
    )
}
