//! N, t and P of a step.

use super::Size;
use crate::bounds::{MOST_PARTICLES, TOLERANCE};
use crate::random::Random;
use crate::records::nodes;
use crate::reference::sheet;

const MOST: u64 = MOST_PARTICLES as u64;

pub struct Setting {
    pub n: usize,
    pub t: u32,
    pub p: u64,
}

impl Setting {
    /// Any setting. P may be 0, less than N, or the most; a multiple of N, or
    /// one more or less.
    pub fn some(size: Size, random: &mut Random) -> Setting {
        let n = match size {
            Size::Any => nodes(random),
            Size::Small => random.between(1, 8),
            Size::Of(n) | Size::Few(n) => n,
        };
        let (low, high) = (*TOLERANCE.start(), *TOLERANCE.end());
        let any = random.between(low, high);
        let t = random.one_of(&[low, low, high, 35, any]);
        let p = particles(u64::from(n), random);
        let n = n as usize;
        Setting { n, t, p }
    }

    /// A setting with two nodes or more and some particles.
    pub fn of_many(size: Size, random: &mut Random) -> Setting {
        loop {
            let setting = Setting::some(size, random);
            if setting.n > 1 && setting.p > 0 {
                return setting;
            }
        }
    }

    /// A setting in which L is P/N rounded up: t is 1 and P/N at most 999.
    /// Often it is so small that some nodes have nothing and need all.
    pub fn tight(size: Size, random: &mut Random) -> Setting {
        let setting = Setting::of_many(size, random);
        let each = random.one_of(&[3, 999]);
        let p = random.amount(0, each * setting.n as u64);
        Setting { t: 1, p, ..setting }
    }

    pub fn limit(&self) -> u64 {
        sheet::limit(self.p, self.n as u64, u64::from(self.t))
    }
}

fn particles(n: u64, random: &mut Random) -> u64 {
    let about = n * random.amount(1, 60);
    match random.below(10) {
        0 => random.amount(0, 3 * n),
        1..=3 => random.one_of(&[about - 1, about, about, about + 1]),
        4 | 5 => random.amount(0, 300 * n),
        6 => random.amount(0, 1_000_000),
        7 => random.amount(0, MOST),
        8 => random.amount(MOST - n, MOST),
        _ => MOST,
    }
}
