//! The tests can fail: whoever does an operation wrong, in ways that are
//! plausible, is reported by the run, and a wrong planner by demand 3 as well.
#![forbid(unsafe_code)]

use firrozka_tests::answers::{self, Answer, PartAnswer, StepAnswer, WeighedAnswer, WrittenAnswer};
use firrozka_tests::calls::{CARRY_OUT, OPERATIONS, PLAN_STEP, TREE_IN_FORCE, WEIGH};
use firrozka_tests::demands::{judge, must_judge};
use firrozka_tests::implementations::{
    Implementation, PlanStep, IN_PERCENT, MOVES_BYTES, PLAN_BYTES, REFERENCE,
};
use firrozka_tests::records::{to_bytes, to_words};
use firrozka_tests::reference::moves::{self, parts};
use firrozka_tests::reference::sheet::{self, Sheet};
use firrozka_tests::reference::table::Table;
use firrozka_tests::reference::{carry_out, plan, plan_step, read_sheet, tree_in_force, weigh};
use firrozka_tests::settings::SEED;
use firrozka_tests::worked;
use std::collections::BTreeMap;

fn wrong_planner(name: &'static str, plan_step: PlanStep) -> Implementation {
    Implementation {
        name,
        plan_step,
        ..REFERENCE
    }
}

/// Nothing is wrong with the second implementation itself.
#[test]
fn nothing_wrong() {
    for operation in OPERATIONS {
        let met = operation.run(&REFERENCE, SEED, 200);
        assert!(met.is_ok(), "{:?}", met.err());
    }
}

// Planners.

/// "a planner that rebuilds at every overload"
#[test]
fn rebuilds_always() {
    fn wrong(sheet: &[u8], old: &[u8], plan: &mut [u8], moves: &mut [u8]) -> StepAnswer {
        match plan_step(sheet, old, plan, moves) {
            StepAnswer { kind: 1, .. } => plan_step(sheet, &[], plan, moves),
            answer => answer,
        }
    }
    let planner = wrong_planner("rebuilds at every overload", wrong);
    PLAN_STEP.must_report(&planner);
    must_judge(&planner);
}

/// "Comparing P with N × L: it keeps I." Here with all shares 0.
#[test]
fn keeps_always() {
    fn wrong(sheet: &[u8], old: &[u8], plan: &mut [u8], moves: &mut [u8]) -> StepAnswer {
        let answer = plan_step(sheet, old, plan, moves);
        if (answer.refusal, answer.kind) != (0, 2) || old.is_empty() || to_words(old)[1] == 0 {
            return answer;
        }
        let n = old.len() / 8 - 1;
        plan[4..8].copy_from_slice(&to_bytes(&[1]));
        plan[12..12 + 4 * n].copy_from_slice(&old[12..12 + 4 * n]);
        plan[12 + 4 * n..12 + 8 * n].fill(0);
        StepAnswer { kind: 1, ..answer }
    }
    let planner = wrong_planner("keeps every tree", wrong);
    PLAN_STEP.must_report(&planner);
    must_judge(&planner);
}

/// "one that places the first helper and hands the others share 0"
#[test]
fn places_the_first_helper_alone() {
    fn wrong(sheet: &[u8], old: &[u8], plan: &mut [u8], moves: &mut [u8]) -> StepAnswer {
        let answer = plan_step(sheet, old, plan, moves);
        if answer.refusal == 0 {
            let length = answer.plan_bytes as usize;
            let mut words = to_words(&plan[..length]);
            let shares = 3 + words[0] as usize;
            let helper = words[shares..].iter().position(|&share| share > 0);
            let others = shares + helper.map_or(words[0] as usize, |node| node + 1);
            words[others..].fill(0);
            plan[..length].copy_from_slice(&to_bytes(&words));
        }
        answer
    }
    let planner = wrong_planner("places the first helper alone", wrong);
    PLAN_STEP.must_report(&planner);
    must_judge(&planner);
}

/// "A limit only rounded down".
#[test]
fn rounds_the_limit_down() {
    fn wrong(sheet: &[u8], old: &[u8], plan: &mut [u8], moves: &mut [u8]) -> StepAnswer {
        let answer = plan_step(sheet, old, plan, moves);
        if answer.refusal != 0 {
            return answer;
        }
        let read = read_sheet(sheet);
        let [p, n, t] = [read.p, read.n, read.t].map(u64::from);
        let limit = (p * (1000 + t) / (1000 * n)) as u32;
        plan[8..12].copy_from_slice(&limit.to_le_bytes());
        StepAnswer { limit, ..answer }
    }
    let planner = wrong_planner("rounds the limit down", wrong);
    PLAN_STEP.must_report(&planner);
    must_judge(&planner);
}

/// As before request 2026-01: planning and weighing.
#[test]
fn takes_t_as_percents() {
    PLAN_STEP.must_report(&IN_PERCENT);
    WEIGH.must_report(&IN_PERCENT);
    must_judge(&IN_PERCENT);
}

#[test]
fn leaves_a_move_out() {
    fn wrong(sheet: &[u8], old: &[u8], plan: &mut [u8], moves: &mut [u8]) -> StepAnswer {
        let answer = plan_step(sheet, old, plan, moves);
        let length = answer.moves_bytes as usize;
        if length < 16 {
            return answer;
        }
        let mut words = to_words(&moves[..length]);
        let e = words[1] as usize;
        words[1] -= 1;
        words.remove(1 + 2 * e);
        words.remove(1 + e);
        moves[..length - 8].copy_from_slice(&to_bytes(&words));
        let moves_bytes = answer.moves_bytes - 8;
        StepAnswer {
            moves_bytes,
            ..answer
        }
    }
    let planner = wrong_planner("leaves a move out", wrong);
    PLAN_STEP.must_report(&planner);
    must_judge(&planner);
}

/// Buffers and the order of the last checks.
#[test]
fn short_buffers() {
    for planner in [
        wrong_planner("23 before 22", moves_buffer_first),
        wrong_planner("writes the plan before 23", writes_before_23),
        wrong_planner("wants one byte more", wants_a_byte_more),
    ] {
        PLAN_STEP.must_report(&planner);
    }
}

fn moves_buffer_first(sheet: &[u8], old: &[u8], plan: &mut [u8], moves: &mut [u8]) -> StepAnswer {
    let answer = plan_step(sheet, old, plan, moves);
    let longer = plan_step(sheet, old, &mut [0; PLAN_BYTES], &mut moves.to_vec());
    match (answer.refusal, longer.refusal) {
        (22, 23) => longer,
        _ => answer,
    }
}

fn writes_before_23(sheet: &[u8], old: &[u8], plan: &mut [u8], moves: &mut [u8]) -> StepAnswer {
    let answer = plan_step(sheet, old, plan, moves);
    if answer.refusal == 23 {
        plan_step(sheet, old, plan, &mut [0; MOVES_BYTES]);
    }
    answer
}

fn wants_a_byte_more(sheet: &[u8], old: &[u8], plan: &mut [u8], moves: &mut [u8]) -> StepAnswer {
    match moves.split_last_mut() {
        Some((_, shorter)) => plan_step(sheet, old, plan, shorter),
        None => plan_step(sheet, old, plan, moves),
    }
}

#[test]
fn writes_behind_the_record() {
    fn wrong(sheet: &[u8], old: &[u8], plan: &mut [u8], moves: &mut [u8]) -> StepAnswer {
        let answer = plan_step(sheet, old, plan, moves);
        if let (0, Some(byte)) = (answer.refusal, plan.get_mut(answer.plan_bytes as usize)) {
            *byte = 0;
        }
        answer
    }
    PLAN_STEP.must_report(&wrong_planner("writes a byte behind the plan", wrong));
}

#[test]
fn answers_with_buffers_unwritten() {
    fn wrong(sheet: &[u8], old: &[u8], plan: &mut [u8], moves: &mut [u8]) -> StepAnswer {
        let [mut other_plan, mut other_moves] = [plan.to_vec(), moves.to_vec()];
        plan_step(sheet, old, &mut other_plan, &mut other_moves)
    }
    let planner = wrong_planner("writes nothing", wrong);
    PLAN_STEP.must_report(&planner);
    must_judge(&planner);
}

/// Records and buffers lie at addresses of every offset modulo 8: whoever goes
/// wrong at one of them is reported.
#[test]
fn goes_wrong_at_an_offset() {
    let planners = [
        planners_at::<0>(),
        planners_at::<1>(),
        planners_at::<2>(),
        planners_at::<3>(),
    ];
    for (lent, planners) in planners.into_iter().enumerate() {
        for (offset, planner) in planners.into_iter().enumerate() {
            println!("{lent} at offset {offset}");
            PLAN_STEP.must_report(&wrong_planner("goes wrong at an offset", planner));
        }
    }
}

fn planners_at<const LENT: usize>() -> [PlanStep; 8] {
    [
        planner_at::<LENT, 0>,
        planner_at::<LENT, 1>,
        planner_at::<LENT, 2>,
        planner_at::<LENT, 3>,
        planner_at::<LENT, 4>,
        planner_at::<LENT, 5>,
        planner_at::<LENT, 6>,
        planner_at::<LENT, 7>,
    ]
}

/// Refuses where one of the four that are lent begins at this offset.
fn planner_at<const LENT: usize, const OFFSET: usize>(
    sheet: &[u8],
    old: &[u8],
    plan: &mut [u8],
    moves: &mut [u8],
) -> StepAnswer {
    let begins = [sheet.as_ptr(), old.as_ptr(), plan.as_ptr(), moves.as_ptr()];
    match begins[LENT] as usize % 8 == OFFSET {
        true => Answer::refused(1),
        false => plan_step(sheet, old, plan, moves),
    }
}

/// "A refused sheet ends planning before the old plan is looked at."
#[test]
fn looks_at_the_old_plan_first() {
    fn wrong(sheet: &[u8], old: &[u8], plan: &mut [u8], moves: &mut [u8]) -> StepAnswer {
        let refusal = plan::read(old).err().unwrap_or(0);
        match refusal {
            0 => plan_step(sheet, old, plan, moves),
            _ if old.is_empty() => plan_step(sheet, old, plan, moves),
            _ => Answer::refused(refusal),
        }
    }
    PLAN_STEP.must_report(&wrong_planner("the old plan before the sheet", wrong));
}

/// What the judge says of a tree that would do and is built anew.
#[test]
fn a_needless_rebuild() {
    fn wrong(sheet: &[u8], _: &[u8], plan: &mut [u8], moves: &mut [u8]) -> StepAnswer {
        plan_step(sheet, &[], plan, moves)
    }
    let planner = wrong_planner("rebuilds", wrong);
    let said = judge(&planner, &worked::h()).err();
    assert_eq!(said.as_deref(), Some("kind 2 where 1 is right"));
    assert!(judge(&REFERENCE, &worked::h()).is_ok());
}

// The others.

#[test]
fn weighs_wrong() {
    for (name, weigh) in [
        ("weighs by the plan's limit", by_plan_limit as _),
        ("writes only what holds", only_if_it_holds as _),
        ("24 before 21", kind_first as _),
    ] {
        let wrong = Implementation {
            name,
            weigh,
            ..REFERENCE
        };
        WEIGH.must_report(&wrong);
    }
}

fn by_plan_limit(sheet: &[u8], plan: &[u8], least: &mut [u8]) -> WeighedAnswer {
    let answer = weigh(sheet, plan, least);
    let limit = plan::read(plan).map(|plan| plan.limit);
    match (answer.refusal, limit) {
        (0, Ok(limit)) => {
            let n = to_words(sheet)[0] as usize;
            let leasts = to_words(&least[..4 * n]);
            answers::weighed(leasts.iter().all(|&least| least <= limit))
        }
        _ => answer,
    }
}

fn only_if_it_holds(sheet: &[u8], plan: &[u8], least: &mut [u8]) -> WeighedAnswer {
    let mut other = least.to_vec();
    let answer = weigh(sheet, plan, &mut other);
    if answer.holds == 1 {
        least.copy_from_slice(&other);
    }
    answer
}

fn kind_first(sheet: &[u8], plan: &[u8], least: &mut [u8]) -> WeighedAnswer {
    let answer = weigh(sheet, plan, least);
    match (answer.refusal, plan::read(plan)) {
        (21, Ok(plan)) if plan.kind == 0 => Answer::refused(24),
        _ => answer,
    }
}

#[test]
fn carries_out_wrong() {
    for (name, carry_out) in [
        ("counts what arrives", counts_arrivals as _),
        ("keeps empty cells", keeps_empty_cells as _),
        ("changes t", other_tolerance as _),
    ] {
        let wrong = Implementation {
            name,
            carry_out,
            ..REFERENCE
        };
        CARRY_OUT.must_report(&wrong);
    }
}

/// "Testing a send against what arrived in the same step": one move after the
/// other, each from what the table has by then.
fn counts_arrivals(sheet: &[u8], moves: &[u8], next: &mut [u8]) -> WrittenAnswer {
    let (sheet, moves) = match (sheet::read(sheet), moves::read(moves)) {
        (Ok(sheet), Ok(moves)) if sheet.n == moves.n => (sheet, moves),
        _ => return carry_out(sheet, moves, next),
    };
    let mut table = Table::of(&sheet);
    for (&route, &count) in moves.routes.iter().zip(&moves.counts) {
        let [subdomain, sender, receiver] = parts(route);
        let count = u64::from(count);
        if table.counts[sender][subdomain] < count {
            return Answer::refused(42);
        }
        table.counts[sender][subdomain] -= count;
        table.counts[receiver][subdomain] += count;
    }
    write(&table.sheet(sheet.t), next)
}

/// A cell of the old sheet stays, even with a count of 0.
fn keeps_empty_cells(sheet: &[u8], moves: &[u8], next: &mut [u8]) -> WrittenAnswer {
    let (old, new) = match (sheet::read(sheet), REFERENCE.carried_out(sheet, moves)) {
        (Ok(old), Ok(new)) => (
            old,
            sheet::read(&new).expect("what was written is accepted"),
        ),
        _ => return carry_out(sheet, moves, next),
    };
    let mut cells: BTreeMap<u32, u32> = old.cells.iter().map(|&cell| (cell, 0)).collect();
    cells.extend(new.cells.into_iter().zip(new.counts));
    let (cells, counts) = cells.into_iter().unzip();
    write(
        &Sheet {
            cells,
            counts,
            ..old
        },
        next,
    )
}

fn other_tolerance(sheet: &[u8], moves: &[u8], next: &mut [u8]) -> WrittenAnswer {
    let answer = carry_out(sheet, moves, next);
    if answer.refusal == 0 {
        next[4] ^= 1;
    }
    answer
}

/// Writes a sheet, or refuses with 43.
fn write(sheet: &Sheet, next: &mut [u8]) -> WrittenAnswer {
    let record = sheet.bytes();
    if next.len() < record.len() {
        return Answer::refused(43);
    }
    next[..record.len()].copy_from_slice(&record);
    answers::written(record.len() as u32)
}

#[test]
fn tree_in_force_wrong() {
    for (name, tree_in_force) in [
        ("the new plan always", new_always as _),
        ("helpands not compared", helpands_not_compared as _),
    ] {
        let wrong = Implementation {
            name,
            tree_in_force,
            ..REFERENCE
        };
        TREE_IN_FORCE.must_report(&wrong);
    }
}

fn new_always(old: &[u8], new: &[u8]) -> PartAnswer {
    let part = tree_in_force(old, new);
    PartAnswer {
        source: PartAnswer::NEW,
        ..part
    }
}

fn helpands_not_compared(old: &[u8], new: &[u8]) -> PartAnswer {
    match (plan::read(old), plan::read(new)) {
        (Ok(a), Ok(b)) if a.n == b.n && b.kind == 1 => answers::helpands(PartAnswer::OLD, a.n),
        _ => tree_in_force(old, new),
    }
}
