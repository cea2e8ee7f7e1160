//! The run over splits can fail: whoever carries out wrong, in ways that are plausible, is
//! reported; and who breaks request 2026-10 is found out without another's answers.
#![forbid(unsafe_code)]

use firrozka_tests::answers::{self, Answer, MovesAnswer, WrittenAnswer};
use firrozka_tests::halves::{must_judge, must_report, run};
use firrozka_tests::implementations::{Implementation, Write, REFERENCE};
use firrozka_tests::reference::moves::{self, parts, Moves};
use firrozka_tests::reference::sheet::{self, Sheet};
use firrozka_tests::reference::table::Table;
use firrozka_tests::reference::{carry_out, read_moves};
use firrozka_tests::settings::SEED;

fn wrong(name: &'static str, carry_out: Write) -> Implementation {
    Implementation {
        name,
        carry_out,
        ..REFERENCE
    }
}

/// A sheet and moves that are accepted, of as many nodes.
fn read(sheet: &[u8], moves: &[u8]) -> Option<(Sheet, Moves)> {
    let (sheet, moves) = (sheet::read(sheet).ok()?, moves::read(moves).ok()?);
    (sheet.n == moves.n).then(|| (sheet, moves))
}

/// Nothing is wrong with the second implementation itself.
#[test]
fn nothing_wrong() {
    let met = run(&REFERENCE, SEED, 500);
    assert!(met.is_ok(), "{:?}", met.err());
}

#[test]
fn breaks_the_request() {
    for (name, carry_out) in [
        ("42 by node", by_node as Write),
        ("42 by what all moves take", by_total),
        ("42 in the first subdomain alone", first_subdomain_alone),
        ("the first subdomain alone", carries_the_first_subdomain),
        ("t lost", tolerance_lost),
        ("cells of other subdomains lost", other_subdomains_lost),
        ("an empty list refused", empty_list_refused),
        ("a byte behind the sheet", byte_behind),
    ] {
        let wrong = wrong(name, carry_out);
        must_judge(&wrong);
        must_report(&wrong);
    }
}

/// Wrong, and alike for the whole and for its parts: the second implementation tells.
#[test]
fn wrong_alike() {
    for (name, carry_out) in [
        ("back from receiver to sender", backwards as Write),
        ("nothing arrives", nothing_arrives),
    ] {
        must_report(&wrong(name, carry_out));
    }
}

/// Parts that *read moves* does not accept.
#[test]
fn reads_parts_wrong() {
    fn from_the_first_subdomain(moves: &[u8]) -> MovesAnswer {
        match moves::read(moves) {
            Ok(read) if read.routes.first().map_or(true, |&route| route >= 4096) => {
                Answer::refused(35)
            }
            _ => read_moves(moves),
        }
    }
    let wrong = Implementation {
        name: "no moves without subdomain 0",
        read_moves: from_the_first_subdomain,
        ..REFERENCE
    };
    must_judge(&wrong);
    must_report(&wrong);
}

/// A node sends more than it has of all subdomains together.
fn by_node(sheet: &[u8], moves: &[u8], next: &mut [u8]) -> WrittenAnswer {
    let (of_sheet, of_moves) = match read(sheet, moves) {
        Some(both) => both,
        None => return carry_out(sheet, moves, next),
    };
    let mut held = vec![0u64; 64];
    for (&cell, &count) in of_sheet.cells.iter().zip(&of_sheet.counts) {
        held[cell as usize / 64] += u64::from(count);
    }
    let mut sent = vec![0u64; 64];
    let mut rest = Table::of(&of_sheet);
    for (&route, &count) in of_moves.routes.iter().zip(&of_moves.counts) {
        let [subdomain, sender, receiver] = parts(route);
        sent[sender] += u64::from(count);
        let cell = &mut rest.counts[sender][subdomain];
        *cell = cell.saturating_sub(u64::from(count));
        rest.counts[receiver][subdomain] += u64::from(count);
    }
    match sent.iter().zip(&held).any(|(sent, held)| sent > held) {
        true => Answer::refused(42),
        false => written(&rest, of_sheet.t, next),
    }
}

/// 42 where the moves take more in all than the largest cell has.
fn by_total(sheet: &[u8], moves: &[u8], next: &mut [u8]) -> WrittenAnswer {
    let answer = carry_out(sheet, moves, next);
    match read(sheet, moves) {
        Some((of_sheet, of_moves)) if answer.refusal == 0 => {
            let sent: u64 = of_moves.counts.iter().map(|&count| u64::from(count)).sum();
            let most = of_sheet.counts.iter().max().copied().unwrap_or(0);
            match sent > u64::from(most) {
                true => Answer::refused(42),
                false => answer,
            }
        }
        _ => answer,
    }
}

/// The moves of the first subdomain in the list.
fn of_first(of_moves: &Moves) -> Moves {
    let first = of_moves.routes.first().map_or(0, |&route| parts(route)[0]);
    let pairs = of_moves.routes.iter().zip(&of_moves.counts);
    let (routes, counts) = pairs.filter(|(&route, _)| parts(route)[0] == first).unzip();
    Moves {
        n: of_moves.n,
        routes,
        counts,
    }
}

/// Other cells that send too much are emptied.
fn first_subdomain_alone(sheet: &[u8], moves: &[u8], next: &mut [u8]) -> WrittenAnswer {
    let (of_sheet, of_moves) = match read(sheet, moves) {
        Some(both) => both,
        None => return carry_out(sheet, moves, next),
    };
    if REFERENCE.carried_out(sheet, &of_first(&of_moves).bytes()) == Err(42) {
        return Answer::refused(42);
    }
    let mut table = Table::of(&of_sheet);
    for (&route, &count) in of_moves.routes.iter().zip(&of_moves.counts) {
        let [subdomain, sender, receiver] = parts(route);
        let cell = &mut table.counts[sender][subdomain];
        let part = u64::from(count).min(*cell);
        *cell -= part;
        table.counts[receiver][subdomain] += part;
    }
    written(&table, of_sheet.t, next)
}

/// Stops where the subdomain changes.
fn carries_the_first_subdomain(sheet: &[u8], moves: &[u8], next: &mut [u8]) -> WrittenAnswer {
    match read(sheet, moves) {
        Some((_, of_moves)) => carry_out(sheet, &of_first(&of_moves).bytes(), next),
        None => carry_out(sheet, moves, next),
    }
}

/// A sheet that nobody accepts.
fn tolerance_lost(sheet: &[u8], moves: &[u8], next: &mut [u8]) -> WrittenAnswer {
    let answer = carry_out(sheet, moves, next);
    if answer.refusal == 0 {
        next[4..8].fill(0);
    }
    answer
}

/// The sheet that follows has the subdomains of the moves alone.
fn other_subdomains_lost(sheet: &[u8], moves: &[u8], next: &mut [u8]) -> WrittenAnswer {
    let (of_moves, mut last) = match (read(sheet, moves), REFERENCE.carried_out(sheet, moves)) {
        (Some((_, of_moves)), Ok(last)) => (of_moves, sheet::read(&last).expect("accepted")),
        _ => return carry_out(sheet, moves, next),
    };
    let moved = |cell: u32| {
        let mut subdomains = of_moves.routes.iter().map(|&route| parts(route)[0]);
        subdomains.any(|subdomain| subdomain == cell as usize % 64)
    };
    let pairs = last.cells.iter().copied().zip(last.counts.iter().copied());
    let (cells, counts) = pairs.filter(|&(cell, _)| moved(cell)).unzip();
    last.cells = cells;
    last.counts = counts;
    put(&last.bytes(), next)
}

fn empty_list_refused(sheet: &[u8], moves: &[u8], next: &mut [u8]) -> WrittenAnswer {
    match moves.len() {
        8 => Answer::refused(42),
        _ => carry_out(sheet, moves, next),
    }
}

/// What was in the buffer is no longer there.
fn byte_behind(sheet: &[u8], moves: &[u8], next: &mut [u8]) -> WrittenAnswer {
    let answer = carry_out(sheet, moves, next);
    if let (0, Some(byte)) = (answer.refusal, next.get_mut(answer.bytes as usize)) {
        *byte = moves.len() as u8 ^ sheet.len() as u8;
    }
    answer
}

fn backwards(sheet: &[u8], moves: &[u8], next: &mut [u8]) -> WrittenAnswer {
    let (of_sheet, of_moves) = match read(sheet, moves) {
        Some(both) => both,
        None => return carry_out(sheet, moves, next),
    };
    let mut table = Table::of(&of_sheet);
    for (&route, &count) in of_moves.routes.iter().zip(&of_moves.counts) {
        let [subdomain, sender, receiver] = parts(route);
        let cell = &mut table.counts[receiver][subdomain];
        match cell.checked_sub(u64::from(count)) {
            Some(left) => *cell = left,
            None => return Answer::refused(42),
        }
        table.counts[sender][subdomain] += u64::from(count);
    }
    written(&table, of_sheet.t, next)
}

fn nothing_arrives(sheet: &[u8], moves: &[u8], next: &mut [u8]) -> WrittenAnswer {
    let (of_sheet, of_moves) = match (read(sheet, moves), REFERENCE.carried_out(sheet, moves)) {
        (Some(both), Ok(_)) => both,
        _ => return carry_out(sheet, moves, next),
    };
    let mut table = Table::of(&of_sheet);
    for (&route, &count) in of_moves.routes.iter().zip(&of_moves.counts) {
        let [subdomain, sender, _] = parts(route);
        table.counts[sender][subdomain] -= u64::from(count);
    }
    written(&table, of_sheet.t, next)
}

/// Writes the sheet of a table.
fn written(table: &Table, t: u32, next: &mut [u8]) -> WrittenAnswer {
    put(&table.sheet(t).bytes(), next)
}

/// Writes a sheet, or refuses with 43.
fn put(sheet: &[u8], next: &mut [u8]) -> WrittenAnswer {
    match next.get_mut(..sheet.len()) {
        Some(front) => {
            front.copy_from_slice(sheet);
            answers::written(sheet.len() as u32)
        }
        None => Answer::refused(43),
    }
}
