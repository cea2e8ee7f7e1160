//! The differential run over the C boundary, for the readers: many seeded
//! inputs, whole answers compared, every refusal and every order of two faults
//! met.
//!
//! FIRROZKA_SEED gives another run, FIRROZKA_ROUNDS another number of mixed
//! inputs for each reader. The tally is printed with `-- --nocapture`.
#![forbid(unsafe_code)]

use firrozka_tests::calls::{READ_MOVES, READ_PLAN, READ_SHEET};

const ROUNDS: usize = 60_000;

#[test]
fn sheets() {
    READ_SHEET.test(ROUNDS);
}

#[test]
fn plans() {
    READ_PLAN.test(ROUNDS);
}

#[test]
fn moves() {
    READ_MOVES.test(ROUNDS);
}
