//! Numbers and words that several files have: all say the same.

use firrozka::ffi::{PartAnswer, Tally};
use firrozka::{
    groups, to_bytes, version, write_archive, Refusal, Words, ARCHIVE_BYTES, GROUPS_BYTES,
    LEAST_BYTES, MOVES_BYTES, NO_GROUP, PAGE_BYTES, PLAN_BYTES, SHEET_BYTES, VERSION,
};
use std::collections::BTreeSet;
use std::fs;

/// A file of this repository.
fn file(name: &str) -> String {
    let path = format!("{}/../../{name}", env!("CARGO_MANIFEST_DIR"));
    fs::read_to_string(&path).unwrap_or_else(|error| panic!("{path}: {error}"))
}

/// Each stretch of white space as one blank.
fn one_line(text: &str) -> String {
    text.split_whitespace().collect::<Vec<&str>>().join(" ")
}

/// A part of a file, from its opening to its end, as one line.
fn part(name: &str, opening: &str, end: &str) -> String {
    let text = file(name);
    let (_, rest) = text.split_once(opening).expect("the file has the part");
    one_line(rest.split_once(end).map_or(rest, |(part, _)| part))
}

/// The numbers of a line.
fn numbers(line: &str) -> Vec<u32> {
    let numbers = line.split_whitespace().map(str::parse);
    let numbers: Result<_, _> = numbers.collect();
    numbers.expect("all are numbers")
}

/// The text has a line for each of these refusals, and no other that has the mark.
fn has_all(text: &str, mark: &str, all: &[Refusal], line: fn(Refusal) -> String) {
    for line in all.iter().copied().map(line) {
        assert!(text.contains(&line), "missing: {line}");
    }
    assert_eq!(text.matches(mark).count(), all.len());
}

/// The refusals that C and Fortran have names for: one for each number.
fn named() -> Vec<Refusal> {
    let all = Refusal::ALL.iter().copied();
    all.filter(|refusal| Refusal::from_number(refusal.number()) == Some(*refusal))
        .collect()
}

#[test]
fn the_formats_page_has_the_refusals() {
    let text = part("docs/FORMATS.md", "| number | of | reason |", "\n\n");
    has_all(&text, "| |", Refusal::ALL, |refusal| {
        let (number, of, reason) = (refusal.number(), refusal.subject(), refusal.reason());
        format!("| {number} | {of} | {reason} |")
    });
}

/// Its picture has a line for each holder, and a position for each subdomain.
#[test]
fn the_formats_page_has_the_order_of_an_archive() {
    let text = file("docs/FORMATS.md");
    let (_, picture) = text.split_once(" 7   subdomain\n").expect("it is there");
    for (holder, line) in (0..8).zip(picture.lines()) {
        let numbers = numbers(line);
        assert_eq!((numbers[0], numbers.len()), (holder, 9));
        for (subdomain, position) in (0..).zip(&numbers[1..]) {
            let sheet = to_bytes(&[8, 1, 1, holder * 64 + subdomain, 7]);
            let mut archive = [0; ARCHIVE_BYTES];
            let archive = write_archive(&sheet, &mut archive).expect("it is written");
            let count = Words::of(archive).get(2 + *position as usize);
            assert_eq!(count, Some(7), "{holder} {subdomain}");
        }
    }
}

#[test]
fn the_formats_page_has_the_groups_of_a_plan() {
    let opening = "or 64 for none, `FIRROZKA_NO_GROUP`.\n\n`";
    let text = part("docs/FORMATS.md", opening, "`, in which");
    let pair = text.split_once("`: these are the groups of the plan `");
    let (expected, plan) = pair.expect("it is there");
    let mut buffer = [0; GROUPS_BYTES];
    let of_plan = groups(&to_bytes(&numbers(plan)), &mut buffer);
    let of_plan = of_plan.expect("the plan is accepted");
    assert_eq!(of_plan.record, to_bytes(&numbers(expected)));
}

/// Its table has the words of each field.
#[test]
fn the_formats_page_has_the_words_of_a_tally() {
    let tally = Tally::NONE;
    let words = |field: &[u32]| {
        let first = (field.as_ptr() as usize - &tally as *const Tally as usize) / 4;
        format!("{first} .. {}", first + field.len() - 1)
    };
    let rows = [
        (String::from("0"), "n"),
        (String::from("1"), "limit"),
        (String::from("2"), "total"),
        (words(&tally.helpands), "helpands"),
        (words(&tally.totals), "totals"),
        (words(&tally.leasts), "leasts"),
        (words(&tally.counts), "counts"),
    ];
    let text = part("docs/FORMATS.md", "| words | field | what |", "\n\n");
    for (words, field) in &rows {
        let row = format!("| {words} | `{field}` |");
        assert!(text.contains(&row), "missing: {row}");
    }
    assert_eq!(text.matches("| |").count(), rows.len());
}

/// `SheetShort` as C writes it: `SHEET_SHORT`.
fn c_name(refusal: Refusal) -> String {
    let upper = |letter: char| if letter.is_uppercase() { "_" } else { "" };
    let letters = refusal
        .name()
        .chars()
        .map(|letter| format!("{}{letter}", upper(letter)));
    letters.collect::<String>().to_uppercase()
}

#[test]
fn the_header_has_the_refusals() {
    let text = part("include/firrozka.h", "FIRROZKA_ACCEPTED = 0,", "};");
    // The last has no comma.
    has_all(&text.replace(", /*", " /*"), " = ", &named(), |refusal| {
        let (number, reason) = (refusal.number(), refusal.reason());
        format!("FIRROZKA{} = {number} /* {reason} */", c_name(refusal))
    });
}

#[test]
fn the_fortran_module_has_the_refusals() {
    let text = part("bindings/fortran/firrozka.f90", "_accepted = 0, &", "\n\n");
    // The last has no comma, and one reason goes on in a second line.
    let text = text.replace(", &", "").replace(" !", "");
    has_all(&text, " = ", &named(), |refusal| {
        let name = c_name(refusal).to_lowercase();
        format!("firrozka{name} = {} {}", refusal.number(), refusal.reason())
    });
}

#[test]
fn the_python_module_has_the_refusals() {
    let text = part("bindings/python/firrozka.py", "REFUSALS = {", "class");
    has_all(&text, ": (", Refusal::ALL, |refusal| {
        let (number, of, reason) = (refusal.number(), refusal.subject(), refusal.reason());
        format!("{number}: (\"{of}\", \"{reason}\"),")
    });
}

/// The functions `firrozka_...` that a file names: a bracket follows.
fn functions(name: &str) -> BTreeSet<String> {
    let text = file(name);
    let called = text.split("firrozka_").skip(1).filter_map(|rest| {
        let (function, _) = rest.split_once('(')?;
        let is_name = function.chars().all(|c| c.is_alphanumeric() || c == '_');
        is_name.then(|| String::from(function))
    });
    called.collect()
}

#[test]
fn all_have_the_functions() {
    let all = functions("include/firrozka.h");
    for name in ["bindings/rust/src/ffi.rs", "bindings/fortran/firrozka.f90"] {
        assert_eq!(functions(name), all, "{name}");
    }
    let python = part("bindings/python/firrozka.py", "_FUNCTIONS = {", "}");
    for function in &all {
        assert!(python.contains(&format!("\"{function}\": (")), "{function}");
    }
    assert_eq!(python.matches(": (").count(), all.len());
}

#[test]
fn all_have_the_sizes_of_buffers() {
    let sizes = [
        ("sheet", SHEET_BYTES),
        ("plan", PLAN_BYTES),
        ("moves", MOVES_BYTES),
        ("least", LEAST_BYTES),
        ("page", PAGE_BYTES),
        ("archive", ARCHIVE_BYTES),
        ("groups", GROUPS_BYTES),
    ];
    let c = part("include/firrozka.h", "enum {", "};");
    let fortran = part("bindings/fortran/firrozka.f90", "parameter", "interface");
    let python = part("bindings/python/firrozka.py", "import", "class");
    for (of, bytes) in sizes {
        let upper = format!("{}_BYTES = {bytes}", of.to_uppercase());
        assert!(c.contains(&format!("FIRROZKA_{upper}")), "{upper}");
        assert!(python.contains(&upper), "{upper}");
        let lower = format!("firrozka_{of}_bytes = {bytes}");
        assert!(fortran.contains(&lower), "{lower}");
    }
}

/// The library, the definition that it is proved against, the header, the
/// wrappers, what cargo locked, and the newest heading of the change log.
#[test]
fn all_have_the_version() {
    assert_eq!(version(), VERSION);
    let has = |name: &str, opening: &str, end: &str, expected: String| {
        assert_eq!(part(name, opening, end), expected, "{name}");
    };
    let number = VERSION.to_string();
    let specs = "crates/firrozka/specs/Version.antt";
    has(specs, "version =", "\n", number.clone());
    has(
        "include/firrozka.h",
        "#define FIRROZKA_VERSION",
        "\n",
        number.clone(),
    );
    let fortran = "bindings/fortran/firrozka.f90";
    has(fortran, "firrozka_module_version =", "\n", number.clone());
    has("bindings/python/firrozka.py", "\nVERSION =", "\n", number);
    let (major, minor) = (VERSION / 100, VERSION % 100);
    let name = format!("{major}.{minor}");
    has("README.md", "\nThis is version ", ":", name.clone());
    has("CHANGELOG.md", "\n## ", "\n", name);
    let cargo = format!("\"{major}.{minor}.0\"");
    for name in ["bindings/rust/Cargo.toml", "tools/Cargo.toml"] {
        has(name, "\nversion =", "\n", cargo.clone());
    }
    for folder in ["bindings/rust", "tools", "tests"] {
        let name = format!("{folder}/Cargo.lock");
        has(&name, "\"firrozka\"\nversion =", "\n", cargo.clone());
    }
}

#[test]
fn all_have_the_sources_of_a_tree_and_the_entry_for_no_group() {
    let c = part("include/firrozka.h", "enum firrozka_source", "_refusal {");
    let fortran = part("bindings/fortran/firrozka.f90", "parameter", "interface");
    let python = part("bindings/python/firrozka.py", "import", "class");
    let numbers = [
        ("OLD_PLAN", PartAnswer::OLD),
        ("NEW_PLAN", PartAnswer::NEW),
        ("NO_GROUP", NO_GROUP),
    ];
    for (name, number) in numbers {
        let upper = format!("{name} = {number}");
        assert!(c.contains(&format!("FIRROZKA_{upper}")), "{upper}");
        assert!(python.contains(&upper), "{upper}");
        let lower = format!("firrozka_{upper}").to_lowercase();
        assert!(fortran.contains(&lower), "{lower}");
    }
}

#[test]
fn all_say_what_the_tree_in_force_is_without_an_old_plan_and_in_kind_0() {
    for name in ["include/firrozka.h", "docs/FORMATS.md", "docs/USING.md"] {
        // Stars begin a line of a comment and set a name apart.
        let text = one_line(&file(name).replace('*', ""));
        for sentence in [
            "An old plan of length 0 gives the empty stretch; only plan a step takes it as none.",
            "A new plan of kind 0 gives its roots.",
        ] {
            assert!(text.contains(sentence), "{name}: {sentence}");
        }
    }
}

#[test]
fn numbers_lead_to_refusals_and_back() {
    // Those of an archive share their numbers with a sheet's.
    let shared = [
        (Refusal::ArchiveNodes, Refusal::SheetNodes),
        (Refusal::ArchiveTolerance, Refusal::SheetTolerance),
    ];
    for (of_archive, of_sheet) in shared {
        assert_eq!(Refusal::from_number(of_archive.number()), Some(of_sheet));
    }
    assert_eq!(named().len() + shared.len(), Refusal::ALL.len());
    let numbers: Vec<u32> = named().into_iter().map(Refusal::number).collect();
    assert!(numbers.windows(2).all(|pair| pair[0] < pair[1]));
    assert_eq!(numbers.last(), Some(&60));
    assert_eq!(Refusal::from_number(0), None);
    assert_eq!(Refusal::from_number(8), None);
    let text = Refusal::SheetLength.to_string();
    assert_eq!(
        text,
        "refused 5: sheet: the length is not 4 × (3 + 2E) bytes"
    );
    assert_eq!(
        format!("{:?}", Refusal::SheetLength),
        format!("SheetLength ({text})")
    );
}
