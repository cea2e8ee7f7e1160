//! The tests of Firrozka from outside: the archive's C boundary beside a
//! second implementation of documents 01 and 02, over seeded inputs.
//!
//! | module | what it holds |
//! |---|---|
//! | `bounds` | the largest and smallest values of document 01 |
//! | `answers` | what the operations answer |
//! | `reference` | the second implementation |
//! | `exhaustive` | all small rows and trees |
//! | `faults` | every check of a record looked at on its own |
//! | `boundary` | the archive under test, as the Rust wrapper declares it |
//! | `random` | the seeded generator |
//! | `settings` | numbers from the environment |
//! | `records` | valid records, fault injection and mutations |
//! | `coverage` | which refusals and pairs of faults a run has met |
//! | `guarded` | bytes with guards before and behind |
//! | `buffers` | buffers lent by hand |
//! | `steps` | seeded whole steps |
//! | `worked` | the steps that document 01 works by hand |
//! | `implementations` | who does the operations, side by side |
//! | `calls` | the differential run over these |
//! | `tally` | tallies, and the differential run of calls on them |
//! | `halves` | moves in two parts, and the run over splits at random |
//! | `careless` | wrong ones for the tests of the tests |
//! | `division` | what a division along a tree is |
//! | `rival` | whether there is one, found in other ways |
//! | `demands` | what must hold of a planned step, however it was found |
//! | `bench_text` | what the bench program prints |
//! | `plain` | the benchmark's baseline |
//! | `speed` | the benchmark |
//! | `refused` | a small step for each refusal of *plan a step*, and other records that are refused |
//! | `damaged` | damaged inputs of the bench program |
//! | `cases`, `stretches` | the inputs and outputs of programs that the gate runs |
#![forbid(unsafe_code)]

pub mod answers;
pub mod bench_text;
pub mod bounds;
pub mod buffers;
pub mod calls;
pub mod careless;
pub mod cases;
pub mod coverage;
pub mod damaged;
pub mod demands;
pub mod division;
pub mod exhaustive;
pub mod faults;
pub mod guarded;
pub mod halves;
pub mod implementations;
pub mod plain;
pub mod random;
pub mod records;
pub mod reference;
pub mod refused;
pub mod rival;
pub mod settings;
pub mod speed;
pub mod steps;
pub mod stretches;
pub mod tally;
pub mod worked;

pub use firrozka::ffi as boundary;
