//! Firrozka's operations over byte slices: the load balance of a particle
//! simulation, decided by a library that carries machine-checked proof.
//!
//! The proof covers the library, not this wrapper. Records are described in
//! docs/FORMATS.md; names are document 01's and 02's.
//!
//! ```
//! // Step D: 3 nodes, tolerance 10 percent, cells 0, 65 and 130 with 90, 6 and 4.
//! let sheet = firrozka::to_bytes(&[3, 100, 3, 0, 65, 130, 90, 6, 4]);
//! let mut plan = [0; firrozka::PLAN_BYTES];
//! let mut moves = [0; firrozka::MOVES_BYTES];
//! let step = firrozka::plan_step(&sheet, firrozka::NO_PLAN, &mut plan, &mut moves)?;
//! assert_eq!(step.kind, firrozka::Kind::Rebuilt);
//! let plan = firrozka::read_plan(step.plan)?;
//! assert_eq!(plan.shares.get(2), Some(29));
//! for (helpand, share) in plan.helpands.into_iter().zip(plan.shares) {
//!     println!("{share} of subdomain {helpand}");
//! }
//! # Ok::<(), firrozka::Refusal>(())
//! ```
#![deny(unsafe_code)] // only ffi.rs, which calls the library, lifts this
#![warn(missing_docs)]

pub mod ffi;
mod operations;
mod records;
mod refusal;
mod tally;
mod words;

pub use ffi::version;
pub use operations::{
    carry_out, groups, join_sheets, plan_step, read_archive, read_moves, read_plan, read_sheet,
    traffic_page, traffic_text, tree_in_force, weigh, write_archive, Groups, Step, Weighed,
    ARCHIVE_BYTES, GROUPS_BYTES, LEAST_BYTES, MOVES_BYTES, NO_GROUP, NO_PLAN, PAGE_BYTES,
    PLAN_BYTES, SHEET_BYTES, VERSION,
};
pub use records::{Cell, Kind, Move, Moves, NoKind, Node, Plan, Sheet};
pub use refusal::Refusal;
pub use tally::Tally;
pub use words::{to_bytes, Words, WordsIter};
