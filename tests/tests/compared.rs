//! Two archives in one process, as `compare` times them: here the same one
//! twice. Nothing is said of their times.
#![forbid(unsafe_code)]

use firrozka_tests::calls::MEASURED_CALLS;
use firrozka_tests::implementations::{IN_PERCENT, OWNER_FIRST, REFERENCE, WITH_LEAST};
use firrozka_tests::records::plans::Form;
use firrozka_tests::settings::SEED;
use firrozka_tests::speed::compared::{agree, compare, follows, in_both, EARLIER, LATER};
use firrozka_tests::speed::inputs::{Filling, Outcome};
use firrozka_tests::speed::jobs::{Measured, MEASURED};
use firrozka_tests::speed::kept::Rest;
use firrozka_tests::speed::table::Row;
use firrozka_tests::tally;
use std::env;
use std::path::{Path, PathBuf};
use std::process::Command;
use std::sync::Mutex;

/// Archives are loaded to two places, which one test has at a time.
static PLACES: Mutex<()> = Mutex::new(());

/// The archive under test, where the Rust wrapper looks for it.
fn archive() -> PathBuf {
    let folder = env::var_os("FIRROZKA_LIB_DIR").unwrap_or_else(|| "../../target/staticlib".into());
    let wrapper = Path::new(env!("CARGO_MANIFEST_DIR")).join("../bindings/rust");
    wrapper.join(folder).join("libfirrozka.a")
}

/// What requests brought, the latest first.
const BROUGHT: [Measured; 7] = [
    Measured::TallyCalls,
    Measured::OpenTally,
    Measured::Groups,
    Measured::ReadArchive,
    Measured::WriteArchive,
    Measured::TrafficPage,
    Measured::JoinSheets,
];

/// How many of these an archive lacks that is from before request 2026-08, from before
/// 2026-06, from before 2026-05, from before 2026-04, and from before 2026-02.
const LACKED: [usize; 5] = [2, 3, 5, 6, 7];

/// The functions of the archive that do something measured.
fn functions(measured: Measured) -> Vec<String> {
    match measured {
        Measured::TallyCalls => vec!["tally_add".into(), "tally_remove".into()],
        _ => vec![measured.name().replace(' ', "_")],
    }
}

/// The same without some operations.
fn without(lacked: &[Measured]) -> PathBuf {
    let name = format!("without_{}.a", lacked.len());
    let path = Path::new(env!("CARGO_TARGET_TMPDIR")).join(name);
    let mut rename = Command::new("objcopy");
    for function in lacked.iter().copied().flat_map(functions) {
        let other = format!("firrozka_{function}=another_{function}");
        rename.args(["--redefine-sym", &other]);
    }
    let renamed = rename.arg(archive()).arg(&path).status();
    assert!(renamed.expect("objcopy is there").success());
    path
}

/// A row for each operation.
fn some_rows() -> [Row; 10] {
    MEASURED.map(|measured| Row {
        measured,
        filling: Filling::Sparse,
        outcome: match measured {
            Measured::JoinSheets => Outcome::Joined(Filling::Sparse),
            _ => Outcome::Kept(Form::Chain, Rest::Large),
        },
        changing: true,
    })
}

#[test]
fn both_answer_like_the_second_implementation() {
    let _alone = PLACES.lock();
    let (archive, rows) = (archive(), some_rows());
    let all = in_both([&archive, &archive], &rows).expect("both are linked and loaded");
    assert_eq!(all.len(), rows.len());
    let times = compare([&archive, &archive], &rows, 1).expect("both are linked and loaded");
    assert_eq!(times.len(), rows.len());
    assert!(rows.iter().all(agree));
    for by in [&EARLIER, &LATER] {
        for operation in MEASURED_CALLS {
            let met = operation.run(by, SEED, 100);
            met.unwrap_or_else(|wrong| panic!("{wrong}"));
        }
        tally::run(by, SEED, 50).unwrap_or_else(|wrong| panic!("{wrong}"));
    }
}

/// What one of two archives lacks is left out, whichever it is.
#[test]
fn an_archive_without_some_operations() {
    let _alone = PLACES.lock();
    for lacked in LACKED.map(|number| &BROUGHT[..number]) {
        let (earlier, later) = (without(lacked), archive());
        for archives in [[&later, &earlier], [&earlier, &later]] {
            let rows = in_both(archives.map(PathBuf::as_path), &some_rows());
            let rows = rows.expect("both are linked and loaded");
            let measured: Vec<Measured> = rows.iter().map(|row| row.measured).collect();
            let left = MEASURED.into_iter().filter(|it| !lacked.contains(it));
            assert_eq!(measured, left.collect::<Vec<_>>());
            assert!(rows.iter().all(agree));
        }
    }
}

/// An archive of version 1.0 is handed the same steps, with t in percents. It
/// joins no sheets, writes neither pages nor sheets in Z order nor groups, and opens no
/// tally.
#[test]
fn sheets_of_another_unit_mean_the_same() {
    let there = |row: &Row| !BROUGHT.contains(&row.measured);
    for row in some_rows().into_iter().filter(there) {
        let job = row.job(64);
        let written = job.written(&REFERENCE);
        assert!(written == job.in_percent().written(&IN_PERCENT));
        // The steps are others if the unit is not looked at.
        let other = written != job.in_percent().written(&REFERENCE);
        assert_eq!(other, row.measured != Measured::CarryOut);
    }
}

/// Before version 1.3 the rest of a kept tree's family went to the owner first, and
/// before 1.7 least was used whatever helpers held of their own.
#[test]
fn each_version_has_its_rules() {
    let versions = [
        (102, &OWNER_FIRST),
        (103, &WITH_LEAST),
        (106, &WITH_LEAST),
        (107, &REFERENCE),
        (108, &REFERENCE),
        (109, &REFERENCE),
    ];
    for row in some_rows() {
        let (job, planned) = (row.job(64), row.measured == Measured::PlanStep);
        for (version, rules) in versions {
            for by in [&OWNER_FIRST, &WITH_LEAST, &REFERENCE] {
                let alike = by.name == rules.name || !planned;
                assert_eq!(follows(&job, by, version), alike, "{version}, {}", by.name);
            }
        }
    }
}

#[test]
fn a_missing_archive_is_named() {
    let missing = Path::new("no-such-archive.a");
    let error = compare([missing, missing], &[], 1).expect_err("there is nothing to link");
    assert!(error.contains("no-such-archive.a"), "{error}");
}
