//! The benchmark's baseline answers like the second implementation: some
//! thousand calls of each operation that is measured, every refusal and every
//! order of two faults among them; and calls on tallies of all sorts.
#![forbid(unsafe_code)]

use firrozka_tests::calls::MEASURED_CALLS;
use firrozka_tests::implementations::PLAIN;
use firrozka_tests::settings::SEED;
use firrozka_tests::tally;

#[test]
fn answers_like_the_second_implementation() {
    for operation in MEASURED_CALLS {
        let met = operation.run(&PLAIN, SEED, 300);
        met.unwrap_or_else(|wrong| panic!("{wrong}"));
    }
}

#[test]
fn calls_on_tallies() {
    tally::run(&PLAIN, SEED, 300).unwrap_or_else(|wrong| panic!("{wrong}"));
}
