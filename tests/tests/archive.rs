//! The differential run over the C boundary, for the operations on more than one
//! record and for calls on tallies: many seeded calls, answers and buffers compared,
//! every refusal, every order of two faults and every corner met.
//!
//! FIRROZKA_SEED gives another run, FIRROZKA_ROUNDS another number of mixed
//! inputs for each operation. The tally is printed with `-- --nocapture`.
#![forbid(unsafe_code)]

use firrozka_tests::calls::{
    CARRY_OUT, GROUPS, JOIN_SHEETS, OPEN_TALLY, PLAN_STEP, READ_ARCHIVE, TRAFFIC_PAGE,
    TREE_IN_FORCE, WEIGH, WRITE_ARCHIVE,
};
use firrozka_tests::tally::{damaged, sequences};

const ROUNDS: usize = 8_000;

#[test]
fn weigh() {
    WEIGH.test(ROUNDS);
}

#[test]
fn plan_step() {
    PLAN_STEP.test(ROUNDS);
}

#[test]
fn carry_out() {
    CARRY_OUT.test(ROUNDS);
}

#[test]
fn join_sheets() {
    JOIN_SHEETS.test(ROUNDS);
}

#[test]
fn traffic_page() {
    TRAFFIC_PAGE.test(ROUNDS);
}

#[test]
fn write_archive() {
    WRITE_ARCHIVE.test(ROUNDS);
}

#[test]
fn read_archive() {
    READ_ARCHIVE.test(ROUNDS);
}

#[test]
fn groups() {
    GROUPS.test(ROUNDS);
}

#[test]
fn open_tally() {
    OPEN_TALLY.test(ROUNDS);
}

#[test]
fn calls_on_open_tallies() {
    sequences::test(ROUNDS / 2);
}

#[test]
fn calls_on_damaged_tallies() {
    damaged::test(2 * ROUNDS);
}

#[test]
fn tree_in_force() {
    TREE_IN_FORCE.test(ROUNDS);
}
