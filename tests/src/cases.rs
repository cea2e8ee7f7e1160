//! The input and the expected output of a program that the gate runs: the steps
//! worked by hand, one step for each refusal, damaged inputs, random steps, and
//! one step of the largest size.
//!
//! The input has one case after the other, to its end. A case is a word, low
//! byte first, with the number of bytes that follow; and these bytes, which are
//! what the bench program would be given: a sheet, followed at once by an old
//! plan or nothing. No case has more than `MOST_BYTES`.
//!
//! The output is what the bench program prints for each case, one after the
//! other, with nothing between them.

use crate::bench_text::{bench, text};
use crate::implementations::{PLAN_BYTES, SHEET_BYTES};
use crate::steps::{self, Size, Step};
use crate::{damaged, refused, worked};

/// The longest case, without its length: the longest sheet and the longest plan.
pub const MOST_BYTES: usize = SHEET_BYTES + PLAN_BYTES;

/// How many steps are random.
pub const RANDOM: u64 = 300;

/// The random steps' seed.
const SEED: u64 = 1;

/// What a program is given and what it prints.
#[derive(Default)]
pub struct Files {
    pub stdin: Vec<u8>,
    pub stdout: String,
}

/// All cases: A to K, the refusals, the damaged ones, the random steps, and the
/// largest.
pub fn all() -> Files {
    let worked = worked::all().into_iter().map(|(_, step)| step);
    let refused = refused::all().into_iter().map(|(_, step)| step);
    let random = (0..RANDOM).map(|index| steps::at(SEED, index, size(index)));
    worked
        .chain(refused)
        .map(|step| checked(&step))
        .chain(damaged::all())
        .chain(random.chain([steps::largest()]).map(|step| checked(&step)))
        .fold(Files::default(), with)
}

/// Mostly small steps; one in fifteen has 64 nodes, and one in fifteen some
/// number between.
fn size(index: u64) -> Size {
    match index % 15 {
        0 => Size::Few(64),
        5 => Size::Few(9 + index as u32 * 7 % 55),
        _ => Size::Small,
    }
}

/// The step's bytes. The bench program finds the sheet's end itself.
fn checked(step: &Step) -> Vec<u8> {
    let case = step.input();
    assert_eq!(text(&step.sheet, &step.old), bench(&case));
    case
}

fn with(mut files: Files, case: Vec<u8>) -> Files {
    files.stdin.extend((case.len() as u32).to_le_bytes());
    files.stdout += &bench(&case);
    files.stdin.extend(case);
    files
}
