//! `benchmark [WORD...]` prints how long the operations take, from bytes to
//! bytes: medians in microseconds for one call of the archive at 8, 16, 32 and
//! 64 nodes, and for 64 nodes those of plain Rust and of what stands beside it,
//! with the archive's ratio to both. That is a copy of the same bytes; beside a call on
//! a tally it is *weigh*, from bytes, of the sheet and the tree that it was opened from.
//! WORDs choose the rows that have them all. FIRROZKA_SAMPLES gives another number of
//! samples.
#![forbid(unsafe_code)]

use firrozka_tests::settings::setting;
use firrozka_tests::speed::jobs::Measured;
use firrozka_tests::speed::table::{rows, HEAD};
use std::env;

fn main() {
    let words: Vec<String> = env::args().skip(1).collect();
    let samples = setting("FIRROZKA_SAMPLES", 101);
    let (mut to_plain, mut to_weigh) = (0.0, None);
    println!("{HEAD}");
    for row in rows() {
        let name = row.name();
        if words.iter().all(|word| name.contains(word)) {
            let times = row.times(samples);
            println!("{}", row.line(&times));
            let last = times[3];
            to_plain = f64::max(to_plain, last.archive / last.plain);
            if row.measured == Measured::TallyCalls {
                let ratio = last.archive / last.beside;
                to_weigh = Some(to_weigh.map_or(ratio, |most| ratio.max(most)));
            }
        }
    }
    println!("the largest ratio to plain Rust at 64 nodes: {to_plain:.2}");
    if let Some(most) = to_weigh {
        println!("the largest ratio of a call on a tally to weigh at 64 nodes: {most:.2}");
    }
}
