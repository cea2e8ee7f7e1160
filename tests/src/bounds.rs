//! The bounds of document 01 and of request 2026-01, each written down once.
//! tests/bounds.rs has the numbers a second time, so a slip here does not pass.

use std::ops::RangeInclusive;

/// "N is 1 to 64".
pub const NODES: RangeInclusive<u32> = 1..=64;

/// "t in the sheet counts tenths of a percent, 1 to 999".
pub const TOLERANCE: RangeInclusive<u32> = 1..=999;

/// "the total P is at most 1,000,000,000"; also the most that one move carries,
/// and "the maximum" of a joint total and of an archive's sum.
pub const MOST_PARTICLES: u32 = 1_000_000_000;

/// "14 allows up to 1,999,000,000".
pub const MOST_LIMIT: u32 = 1_999_000_000;
