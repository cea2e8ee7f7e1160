//! All small rows of numbers and all small trees, gone through one by one.

use crate::reference::plan;
use crate::worked;

/// All rows of this many numbers below a bound.
pub fn rows(length: usize, bound: u32) -> Vec<Vec<u32>> {
    let mut rows = vec![Vec::new()];
    for _ in 0..length {
        let longer = |row: Vec<u32>| (0..bound).map(move |last| [&row[..], &[last]].concat());
        rows = rows.into_iter().flat_map(longer).collect();
    }
    rows
}

/// All trees of n nodes, as helpands.
pub fn trees(n: usize) -> Vec<Vec<u32>> {
    let is_tree = |helpands: &Vec<u32>| plan::read(&worked::old(helpands)).is_ok();
    rows(n, n as u32).into_iter().filter(is_tree).collect()
}
