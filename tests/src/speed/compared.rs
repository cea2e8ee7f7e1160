//! Two archives beside each other: an earlier one and a later one, in one
//! process and in turn. Where code lies in a line of the cache can cost or save
//! a fifth, and any change to an archive moves all that stands behind it. So
//! both are linked in each place that functions may have in a line, and a run
//! is the average over these places.

use super::jobs::{Job, Measured};
use super::table::Row;
use super::timing::in_turn;
use crate::implementations::{Implementation, OWNER_FIRST, REFERENCE, WITH_LEAST};
use firrozka_loaded as loaded;
use std::io::{self, Write};
use std::path::{Path, PathBuf};
use std::process::{self, Command, Stdio};
use std::sync::atomic::{AtomicUsize, Ordering};
use std::{env, fs};

/// Functions are aligned to 16 bytes, so there are four places in a line of 64.
const PLACES: usize = 4;
const ALIGNMENT: usize = 16;

/// The earlier archive, once loaded.
pub const EARLIER: Implementation = Implementation {
    name: "the earlier archive",
    weigh: loaded::weigh::<0>,
    plan_step: loaded::plan_step::<0>,
    carry_out: loaded::carry_out::<0>,
    join_sheets: loaded::join_sheets::<0>,
    traffic_page: loaded::traffic_page::<0>,
    write_archive: loaded::write_archive::<0>,
    read_archive: loaded::read_archive::<0>,
    groups: loaded::groups::<0>,
    open_tally: loaded::open_tally::<0>,
    tally_add: loaded::tally_add::<0>,
    tally_remove: loaded::tally_remove::<0>,
    ..REFERENCE
};

/// The later archive, once loaded.
pub const LATER: Implementation = Implementation {
    name: "the later archive",
    weigh: loaded::weigh::<1>,
    plan_step: loaded::plan_step::<1>,
    carry_out: loaded::carry_out::<1>,
    join_sheets: loaded::join_sheets::<1>,
    traffic_page: loaded::traffic_page::<1>,
    write_archive: loaded::write_archive::<1>,
    read_archive: loaded::read_archive::<1>,
    groups: loaded::groups::<1>,
    open_tally: loaded::open_tally::<1>,
    tally_add: loaded::tally_add::<1>,
    tally_remove: loaded::tally_remove::<1>,
    ..REFERENCE
};

/// The rows of operations that both archives have. Before request 2026-02 there
/// was no *join sheets*, before 2026-04 no *traffic page*, before 2026-05 neither *write
/// archive* nor *read archive*, before 2026-06 no *groups*, and before 2026-08 no tally.
pub fn in_both(archives: [&Path; 2], rows: &[Row]) -> Result<Vec<Row>, String> {
    let folder = Folder::new();
    load(archives, 0, &folder.0)?;
    let both = |has: fn(usize) -> bool| has(0) && has(1);
    let there = |row: &&Row| match row.measured {
        Measured::JoinSheets => both(loaded::has_join_sheets),
        Measured::TrafficPage => both(loaded::has_traffic_page),
        Measured::WriteArchive => both(loaded::has_write_archive),
        Measured::ReadArchive => both(loaded::has_read_archive),
        Measured::Groups => both(loaded::has_groups),
        Measured::OpenTally => both(loaded::has_open_tally),
        Measured::TallyCalls => both(loaded::has_tally_calls),
        _ => true,
    };
    Ok(rows.iter().filter(there).copied().collect())
}

/// One run: microseconds for one call of the earlier and of the later archive,
/// at 64 nodes, for each row: lower quartiles of so many samples, since whatever
/// disturbs a sample makes it longer, averaged over the places. Both archives
/// stay loaded.
pub fn compare(
    archives: [&Path; 2],
    rows: &[Row],
    samples: usize,
) -> Result<Vec<[f64; 2]>, String> {
    let folder = Folder::new();
    let mut times = vec![[0.0; 2]; rows.len()];
    for place in 0..PLACES {
        load(archives, place, &folder.0)?;
        for (row, times) in rows.iter().zip(&mut times) {
            for (time, here) in times.iter_mut().zip(in_this_place(row, samples)) {
                *time += here / PLACES as f64;
            }
        }
    }
    Ok(times)
}

/// Links both archives with their code in this place, and loads them.
fn load(archives: [&Path; 2], place: usize, folder: &Path) -> Result<(), String> {
    for (which, archive) in archives.into_iter().enumerate() {
        let object = folder.join(format!("{which}-{place}.so"));
        link(archive, place * ALIGNMENT, &object)
            .map_err(|error| format!("{}: {error}", archive.display()))?;
        loaded::load(&object, which)?;
    }
    Ok(())
}

/// Makes a shared object from an archive, its code behind so many bytes.
fn link(archive: &Path, moved: usize, object: &Path) -> io::Result<()> {
    let mut linking = Command::new("cc")
        .args(["-shared", "-x", "assembler", "-", "-x", "none", "-o"])
        .arg(object)
        .arg("-Wl,--whole-archive")
        .arg(archive)
        .arg("-Wl,--no-whole-archive")
        .stdin(Stdio::piped())
        .spawn()?;
    let mut input = linking.stdin.take().expect("it was piped");
    writeln!(input, ".section .note.GNU-stack,\"\"\n.text")?;
    writeln!(input, ".rept {moved}\nnop\n.endr")?;
    drop(input);
    match linking.wait()?.success() {
        true => Ok(()),
        false => Err(io::Error::new(io::ErrorKind::Other, "cannot be linked")),
    }
}

/// Lower quartiles for one call of both archives, as they are loaded.
fn in_this_place(row: &Row, samples: usize) -> [f64; 2] {
    let job = row.job(64);
    let [earlier, later] = [0, 1].map(|place| for_version(&job, loaded::version(place)));
    let quartiles = in_turn(
        &later,
        samples,
        [
            &mut |buffers| earlier.run(&EARLIER, buffers),
            &mut |buffers| later.run(&LATER, buffers),
        ],
    );
    quartiles.map(|[lower, ..]| lower)
}

/// The calls for an archive of this version, which are the same for all that count
/// the tolerance in the same unit.
fn for_version(job: &Job, version: u32) -> Job {
    match version {
        100 => job.in_percent(),
        _ => job.clone(),
    }
}

/// Whether both archives write the same bytes in all calls of a row, or each what
/// the rules of its version say.
pub fn agree(row: &Row) -> bool {
    let job = row.job(64);
    let versions = [0, 1].map(loaded::version);
    let written = |by, version| for_version(&job, version).written(by);
    written(&EARLIER, versions[0]) == written(&LATER, versions[1])
        || follows(&job, &EARLIER, versions[0]) && follows(&job, &LATER, versions[1])
}

/// Whether somebody of this version writes what the second implementation writes
/// by the rules of that version: before request 2026-03 the rest went to the owner
/// first, and before 2026-07 no family left helpers' own particles in place.
pub fn follows(job: &Job, by: &Implementation, version: u32) -> bool {
    let rules = match version {
        100..=102 => &OWNER_FIRST,
        103..=106 => &WITH_LEAST,
        _ => &REFERENCE,
    };
    for_version(job, version).written(by) == job.written(rules)
}

/// The median of some numbers.
pub fn median(numbers: &[f64]) -> f64 {
    let mut sorted = numbers.to_vec();
    sorted.sort_by(f64::total_cmp);
    sorted[sorted.len() / 2]
}

/// A folder for the shared objects of one run, removed behind it. Its name is
/// new, since an object of a name that was loaded before is not loaded again.
struct Folder(PathBuf);

impl Folder {
    fn new() -> Folder {
        static MADE: AtomicUsize = AtomicUsize::new(0);
        let run = MADE.fetch_add(1, Ordering::Relaxed);
        let name = format!("firrozka-compare-{}-{run}", process::id());
        let folder = env::temp_dir().join(name);
        fs::create_dir_all(&folder).expect("a folder for shared objects");
        Folder(folder)
    }
}

impl Drop for Folder {
    fn drop(&mut self) {
        // What stays behind in a temporary folder harms nobody.
        let _ = fs::remove_dir_all(&self.0);
    }
}
