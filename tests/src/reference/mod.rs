//! The second implementation of documents 01 and 02: written from the papers
//! alone, simple rather than fast. Each file follows its paragraph sentence by
//! sentence. Each record has a file, with `read` for other operations (the
//! record taken apart, or the refusal), the operation itself on top of it, and
//! the record written.
//!
//! | file | paragraph of document 01 |
//! |---|---|
//! | `words` | Three records, the words |
//! | `sheet`, `plan`, `moves` | Three records, and their readers |
//! | `table` | Deciding, the totals |
//! | `tree` | The bench's boundary, helpands and helpers |
//! | `deciding` | Deciding, the three kinds |
//! | `weighing` | Weighing |
//! | `keeping` | Shares in a kept tree; requests 2026-03 and 2026-07 |
//! | `rebuilding` | Rebuilding |
//! | `transfer` | Moves, and the sheet that follows |
//! | `page` | Request 2026-04, the lines |
//! | `z_order` | Request 2026-05, the record |
//! | `grouping` | Request 2026-06, the record |
//! | `operations` | Operations on more than one record; requests 2026-02 and 2026-04 to 2026-06 |
//! | `tallying` | Request 2026-08 |
//! | `unopened` | the same on tallies that no opening and calls can have given |

pub mod deciding;
mod grouping;
pub mod keeping;
pub mod moves;
pub mod operations;
mod page;
pub mod plan;
pub mod rebuilding;
pub mod sheet;
pub mod table;
pub mod tallying;
pub mod transfer;
pub mod tree;
pub mod unopened;
pub mod weighing;
mod words;
pub mod z_order;

pub use moves::read_moves;
pub use operations::{
    carry_out, groups, join_sheets, plan_step, plan_step_with, read_archive, traffic_page,
    tree_in_force, weigh, write_archive,
};
pub use plan::read_plan;
pub use sheet::read_sheet;
pub use tallying::{open_tally, tally_add, tally_remove};
