//! `compare EARLIER.a LATER.a [WORD...]` times two archives in turn, at 64
//! nodes: microseconds for one call of each, and the ratio of later to earlier,
//! all of them medians of five runs, and the smallest and the largest ratio.
//! WORDs choose the rows that have them all. Rows of an operation that one of the
//! archives lacks are left out. A row ends with `other bytes` if they do not write
//! the same and the rules of their versions do not say so. FIRROZKA_RUNS and
//! FIRROZKA_SAMPLES give other numbers of runs and of samples. It needs a C
//! compiler to link.
#![forbid(unsafe_code)]

use firrozka_tests::settings::setting;
use firrozka_tests::speed::compared::{agree, compare, in_both, median};
use firrozka_tests::speed::table::{rows, Row};
use std::path::Path;
use std::{env, process};

fn main() {
    let mut words = env::args().skip(1);
    let (earlier, later) = match (words.next(), words.next()) {
        (Some(earlier), Some(later)) => (earlier, later),
        _ => stop("usage: compare EARLIER.a LATER.a [WORD...]"),
    };
    let words: Vec<String> = words.collect();
    let chosen = |row: &Row| words.iter().all(|word| row.name().contains(word));
    let chosen: Vec<Row> = rows().into_iter().filter(chosen).collect();
    let archives = [Path::new(&earlier), Path::new(&later)];
    let rows = in_both(archives, &chosen).unwrap_or_else(|error| stop(&error));
    let samples = setting("FIRROZKA_SAMPLES", 51);

    let mut times = vec![Vec::new(); rows.len()];
    for _ in 0..setting("FIRROZKA_RUNS", 5) {
        let run = compare(archives, &rows, samples).unwrap_or_else(|error| stop(&error));
        times
            .iter_mut()
            .zip(run)
            .for_each(|(row, time)| row.push(time));
    }
    print(&rows, &times);
    if rows.len() < chosen.len() {
        let fewer = chosen.len() - rows.len();
        println!("{fewer} rows are left out, of operations that not both archives have");
    }
}

/// A line for each row, and the largest median.
fn print(rows: &[Row], times: &[Vec<[f64; 2]>]) {
    println!(
        "operation            sheet   outcome                  inputs   | earlier  later | ratio   from     to"
    );
    println!(
        "---------------------------------------------------------------+----------------+--------------------"
    );
    let mut worst: f64 = 0.0;
    for (row, times) in rows.iter().zip(times) {
        let column =
            |number: fn(&[f64; 2]) -> f64| -> Vec<f64> { times.iter().map(number).collect() };
        let ratios = column(|[earlier, later]| later / earlier);
        let ratio = median(&ratios);
        println!(
            "{} | {:7.3} {:6.3} | {:5.3} {:6.3} {:6.3}{}",
            row.name(),
            median(&column(|times| times[0])),
            median(&column(|times| times[1])),
            ratio,
            ratios.iter().copied().fold(f64::INFINITY, f64::min),
            ratios.iter().copied().fold(0.0, f64::max),
            if agree(row) { "" } else { "  other bytes" },
        );
        worst = worst.max(ratio);
    }
    println!("the largest ratio of later to earlier: {worst:.3}");
}

fn stop(why: &str) -> ! {
    eprintln!("{why}");
    process::exit(2)
}
