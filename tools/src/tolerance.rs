//! The tolerance as people write it, in percent. A sheet counts it in tenths of a
//! percent.

use crate::text::{Fault, Piece};
use std::ops::RangeInclusive;

/// "t in the sheet counts tenths of a percent, 1 to 999".
const TENTHS: RangeInclusive<u64> = 1..=999;

/// The percents of a sheet's t: 35 is 3.5, and 100 is 10.
pub fn to_percent(t: u32) -> String {
    match (t / 10, t % 10) {
        (whole, 0) => whole.to_string(),
        (whole, tenth) => format!("{whole}.{tenth}"),
    }
}

/// The t of a sheet with so many percent, written with one digit behind the point
/// at most.
pub fn of_percent(percent: Piece) -> Result<u32, Fault> {
    if percent.text.contains(',') {
        let what = format!("{} has a comma: write a point", percent.quoted());
        return Err(percent.fault(what));
    }
    let (whole, tenth) = match percent.text.split_once('.') {
        None => (percent, "0"),
        Some((text, tenth)) => (Piece { text, ..percent }, tenth),
    };
    let tenths = 10 * u64::from(whole.number()?);
    let tenth = match tenth.as_bytes() {
        [digit @ b'0'..=b'9'] => u64::from(digit - b'0'),
        _ => {
            let what = format!("{} is not written as 10 or 3.5", percent.quoted());
            return Err(percent.fault(what));
        }
    };
    match tenths + tenth {
        t if TENTHS.contains(&t) => Ok(t as u32),
        _ => Err(percent.fault("the tolerance is 0.1 to 99.9 percent")),
    }
}
