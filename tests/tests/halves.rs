//! Request 2026-10, half a list first, sentence by sentence, and a run over splits at
//! random. The expectations are the papers' or worked out by hand.
#![forbid(unsafe_code)]

use firrozka_tests::buffers::{all_refuse, all_write};
use firrozka_tests::halves::{self, check, Split, Verdict};
use firrozka_tests::implementations::{ARCHIVE, IMPLEMENTATIONS, REFERENCE};
use firrozka_tests::records::moves::{moves, route};
use firrozka_tests::records::sheets::held;
use firrozka_tests::records::to_bytes;
use firrozka_tests::worked;
use firrozka_tests::{steps, worked::TEN_PERCENT};

/// Moves of three nodes: subdomain, sender, receiver and count.
fn of_three(list: &[[u32; 4]]) -> Vec<u8> {
    let routes = list.iter().map(|&[n, sender, receiver, _]| route(n, sender, receiver));
    let counts: Vec<u32> = list.iter().map(|&[_, _, _, count]| count).collect();
    moves(3, &routes.collect::<Vec<u32>>(), &counts).bytes()
}

/// A sheet of three nodes as step E's: holder, subdomain and count.
fn sheet(cells: &[(u32, u32, u32)]) -> Vec<u8> {
    held(3, TEN_PERCENT, cells).bytes()
}

/// All carry out these moves, and write this sheet.
fn carry_out(sheet: &[u8], moves: &[u8], next: &[u8]) {
    all_write(|by, out| (by.carry_out)(sheet, moves, out), next, 43);
}

/// All refuse these moves, whatever the buffer.
fn refuse(sheet: &[u8], moves: &[u8], refusal: u32) {
    all_refuse(
        |by, out| (by.carry_out)(sheet, moves, out),
        &[0, 100, 32_780],
        refusal,
    );
}

/// Step E, whose moves are "of 1 from 2 to 0 in subdomain 0 and of 3 from 0 to 2 in
/// subdomain 2".
const FIRST: [u32; 4] = [0, 2, 0, 1];
const SECOND: [u32; 4] = [2, 0, 2, 3];

/// "where the whole list is carried out, either list first and then the other gives the
/// same sheet"
#[test]
fn either_list_first() {
    let old = worked::e().sheet;
    let last = sheet(&[(0, 0, 31), (1, 0, 27), (1, 1, 6), (2, 0, 29), (2, 2, 7)]);
    carry_out(&old, &of_three(&[FIRST, SECOND]), &last);
    let of_subdomain_0 = sheet(&[
        (0, 0, 31),
        (0, 2, 3),
        (1, 0, 27),
        (1, 1, 6),
        (2, 0, 29),
        (2, 2, 4),
    ]);
    carry_out(&old, &of_three(&[FIRST]), &of_subdomain_0);
    carry_out(&of_subdomain_0, &of_three(&[SECOND]), &last);
    let of_subdomain_2 = sheet(&[(0, 0, 30), (1, 0, 27), (1, 1, 6), (2, 0, 30), (2, 2, 7)]);
    carry_out(&old, &of_three(&[SECOND]), &of_subdomain_2);
    carry_out(&of_subdomain_2, &of_three(&[FIRST]), &last);
}

/// "the whole is refused with 42 exactly when at least one part is refused with 42 on the
/// first sheet": node 2 has 30 of subdomain 0, and node 0 has 3 of subdomain 2.
#[test]
fn one_part_is_refused() {
    let old = worked::e().sheet;
    let (too_many, too_many_there) = ([0, 2, 0, 31], [2, 0, 2, 4]);
    refuse(&old, &of_three(&[too_many, SECOND]), 42);
    refuse(&old, &of_three(&[too_many]), 42);
    refuse(&old, &of_three(&[FIRST, too_many_there]), 42);
    refuse(&old, &of_three(&[too_many_there]), 42);
    refuse(&old, &of_three(&[too_many, too_many_there]), 42);
    // On the sheet that follows the other part it is refused as on the first sheet.
    let next = REFERENCE.carried_out(&old, &of_three(&[SECOND]));
    refuse(&next.expect("accepted"), &of_three(&[too_many]), 42);
    // All that a cell has may go.
    for list in [[[0, 2, 0, 30], SECOND], [FIRST, [2, 0, 2, 3]]] {
        let split = Split::by(&old, &of_three(&list), 1);
        assert_eq!(check(&ARCHIVE, &split), Ok(Verdict::Carried));
    }
}

/// "whose subdomains are disjoint": of two lists that share a subdomain the request says
/// nothing. Node 0 has 30 of subdomain 0 and sends 20 in each.
#[test]
fn a_shared_subdomain() {
    let old = worked::e().sheet;
    let [a, b] = [[0, 0, 1, 20], [0, 0, 2, 20]];
    refuse(&old, &of_three(&[a, b]), 42);
    let after_a = sheet(&[
        (0, 0, 10),
        (0, 2, 3),
        (1, 0, 47),
        (1, 1, 6),
        (2, 0, 30),
        (2, 2, 4),
    ]);
    carry_out(&old, &of_three(&[a]), &after_a);
    refuse(&after_a, &of_three(&[b]), 42);
    for by in IMPLEMENTATIONS {
        assert!(by.carried_out(&old, &of_three(&[b])).is_ok());
    }
}

/// "their order kept": a list in another order is no record that is accepted.
#[test]
fn order_not_kept() {
    let old = worked::e().sheet;
    refuse(&old, &of_three(&[SECOND, FIRST]), 35);
}

/// Either list may be empty: then the sheet that follows is the sheet itself.
#[test]
fn an_empty_list() {
    for (letter, step) in worked::all() {
        let n = step.sheet[0];
        let none = to_bytes(&[u32::from(n), 0]);
        for by in IMPLEMENTATIONS {
            let same = by.carried_out(&step.sheet, &none);
            assert_eq!(same.as_ref(), Ok(&step.sheet), "{letter}, {}", by.name);
        }
        let whole = REFERENCE.plan(&step).moves;
        for (set, empty) in [(0, 0), (u64::MAX, 1)] {
            let split = Split::by(&step.sheet, &whole, set);
            assert_eq!([&split.parts[empty], &split.parts[1 - empty]], [&none, &whole]);
            assert_eq!(check(&ARCHIVE, &split), Ok(Verdict::Carried));
        }
    }
}

/// The moves of steps A to K, by every set of subdomains.
#[test]
fn worked_steps_in_all_ways() {
    for (letter, step) in worked::all() {
        let whole = REFERENCE.plan(&step).moves;
        for set in 0..1 << step.sheet[0] {
            let split = Split::by(&step.sheet, &whole, set);
            let verdict = check(&ARCHIVE, &split);
            assert_eq!(verdict, Ok(Verdict::Carried), "{letter}, {set:#b}");
        }
    }
}

/// The largest step: 64 nodes, 4,096 cells and 4,032 moves.
#[test]
fn the_largest_lists() {
    let step = steps::largest();
    let whole = REFERENCE.plan(&step).moves;
    for set in [1, 1 << 63, u64::MAX >> 32, 0x5555_5555_5555_5555] {
        let split = Split::by(&step.sheet, &whole, set);
        assert_eq!(check(&ARCHIVE, &split), Ok(Verdict::Carried), "{set:#x}");
    }
}

#[test]
fn splits_at_random() {
    halves::test(6_000);
}
