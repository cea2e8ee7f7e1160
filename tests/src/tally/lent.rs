//! A tally in memory of its own, with guard words before and behind, which nobody may
//! write. Its words are aligned as C aligns them, to four bytes and not to eight.

use super::Tally;
use crate::answers::TalliedAnswer;
use std::sync::atomic::{compiler_fence, Ordering};

/// How many words before a tally put it at a multiple of eight bytes, and how many
/// four bytes past one.
const EVEN: usize = 16;
const ODD: usize = 17;

/// A call can be lent a tally at so many places.
pub const PLACES: usize = 2;

#[repr(C, align(8))]
struct Memory<const BEFORE: usize> {
    before: [u32; BEFORE],
    tally: Tally,
    behind: [u32; EVEN],
}

/// What someone answers who is lent a copy of this tally at a place, and what the copy
/// then is; or that the memory beside it was written.
pub fn lend(
    tally: &Tally,
    place: usize,
    call: impl FnOnce(&mut Tally) -> TalliedAnswer,
) -> Result<(TalliedAnswer, Tally), String> {
    match place % PLACES {
        0 => lend_behind::<EVEN>(tally, 0xa5a5_a5a5, call),
        _ => lend_behind::<ODD>(tally, 0, call),
    }
}

fn lend_behind<const BEFORE: usize>(
    tally: &Tally,
    guard: u32,
    call: impl FnOnce(&mut Tally) -> TalliedAnswer,
) -> Result<(TalliedAnswer, Tally), String> {
    let mut memory = Memory {
        before: [guard; BEFORE],
        tally: tally.clone(),
        behind: [guard; EVEN],
    };
    let answer = call(&mut memory.tally);
    memory.check(guard)?;
    Ok((answer, memory.tally))
}

impl<const BEFORE: usize> Memory<BEFORE> {
    fn check(&self, guard: u32) -> Result<(), String> {
        // Whoever was lent the tally is not trusted: the compiler is to look at the
        // memory again.
        compiler_fence(Ordering::SeqCst);
        match self
            .before
            .iter()
            .chain(&self.behind)
            .all(|&word| word == guard)
        {
            true => Ok(()),
            false => Err("the memory beside the tally was written".into()),
        }
    }
}

/// The check can fail, at each word; and both places are there.
#[test]
fn every_word_is_looked_at() {
    fn damaged<const BEFORE: usize>(past: usize) {
        let mut memory = Memory {
            before: [7; BEFORE],
            tally: Tally::NONE,
            behind: [7; EVEN],
        };
        let address = &memory.tally as *const Tally as usize;
        assert_eq!(address % 8, past);
        for at in 0..BEFORE + EVEN {
            assert_eq!(memory.check(7), Ok(()));
            let guards = memory.before.iter_mut().chain(&mut memory.behind);
            let word = guards.into_iter().nth(at).expect("a guard");
            *word = 6;
            assert!(memory.check(7).is_err(), "word {at}");
            let guards = memory.before.iter_mut().chain(&mut memory.behind);
            *guards.into_iter().nth(at).expect("a guard") = 7;
        }
    }
    damaged::<EVEN>(0);
    damaged::<ODD>(4);
}
