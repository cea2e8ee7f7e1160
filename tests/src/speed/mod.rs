//! The benchmark: whole operations from bytes to bytes, the archive beside
//! plain Rust and beside a copy of the same bytes; and two archives beside each
//! other.
//!
//! | file | what it holds |
//! |---|---|
//! | `inputs` | sheets and old plans for each outcome |
//! | `kept` | sheets for kept trees, with a small or a large rest |
//! | `jobs` | an operation on some inputs, ready to be timed |
//! | `timing` | medians |
//! | `table` | what is printed |
//! | `compared` | two archives in turn |

pub mod compared;
pub mod inputs;
pub mod jobs;
pub mod kept;
pub mod table;
pub mod timing;
