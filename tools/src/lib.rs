//! The tool `firrozka`: steps planned, weighed and carried out from files, sheets
//! joined and archived, traffic pages and groups printed, arrivals tallied, and text
//! to records and back. It is tested, not proved; what is decided, and what a record
//! may be, is asked of the proved library.
//!
//! | module | what it holds |
//! |---|---|
//! | `text` | pieces of text with line and column, and what is wrong with them |
//! | `words` | words as text, both ways |
//! | `tolerance` | the tolerance in percent, both ways |
//! | `record` | the three records, and why some bytes are none |
//! | `archive` | sheets to archives and back |
//! | `groups` | the groups of a plan as lines |
//! | `tally` | arrivals between steps, call by call |
//! | `table` | tables to the words of records |
//! | `show` | records as tables |
//! | `step` | a step planned, weighed and carried out, its traffic, and sheets joined before it |
//! | `task` | what the tool can do, from bytes to bytes |
//! | `verbs` | the verbs of the command line, and the help on each |
//! | `arguments` | the command line |
//! | `files` | files, the standard input and the standard output |
#![forbid(unsafe_code)]

pub mod archive;
pub mod arguments;
pub mod files;
pub mod groups;
pub mod record;
pub mod show;
pub mod step;
pub mod table;
pub mod tally;
pub mod task;
pub mod text;
pub mod tolerance;
pub mod verbs;
pub mod words;

/// The version of the library that the tool is built with: 1.0 is the scope
/// paper's, and each request after it counts on.
pub fn version() -> String {
    let version = firrozka::version();
    format!("{}.{}", version / 100, version % 100)
}
