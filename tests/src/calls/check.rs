//! One call, all answers: the second implementation against the faults, then
//! the one under test against the second implementation, answer and buffers,
//! with guard bytes round all that is lent and noise in the buffers.

use super::{Call, Operation};
use crate::guarded::{Guarded, OFFSETS};
use crate::implementations::{Implementation, REFERENCE};
use crate::random::Random;

/// How often the one under test is called for each call: once for each place
/// that the first byte of what is lent can have.
pub const TIMES: usize = OFFSETS;

/// The bytes beside what is lent. They are others from time to time: who reads
/// them may answer otherwise.
const GUARDS: [u8; 3] = [0xa5, 0x00, 0xff];

/// What a call came to.
pub struct Checked {
    pub faults: Vec<u32>,
    pub answer: Vec<u32>,
}

/// What an operation answers and leaves in the buffers.
struct Outcome {
    answer: Vec<u32>,
    buffers: [Vec<u8>; 2],
}

/// Compares all answers to one call. Gives what it came to, or what is wrong.
pub fn check(
    operation: &Operation,
    tested: &Implementation,
    call: &Call,
) -> Result<Checked, String> {
    let noise = [0, 1].map(|buffer| noise(call, buffer));
    let faults = (operation.faults)(call);
    let expected = expected(operation, call, &noise);
    let answer = &expected.answer;
    if !(operation.agrees)(answer, &faults) {
        return Err(format!(
            "the reference answers {answer:?}, but the faults are {faults:?}"
        ));
    }
    // "A refusal's [...] buffers are untouched."
    if !faults.is_empty() && expected.buffers != noise {
        return Err("the reference refuses and writes".into());
    }
    for time in 0..TIMES {
        compare(operation, tested, call, &noise, &expected, time)?;
    }
    let answer = expected.answer;
    Ok(Checked { faults, answer })
}

/// What is in a buffer before the call: bytes that nobody writes by chance,
/// others in each buffer and beside records of other lengths.
fn noise(call: &Call, buffer: usize) -> Vec<u8> {
    let length = call.lengths[buffer];
    let [first, second] = [0, 1].map(|at| call.records[at].len() as u64);
    let random = &mut Random::at(first << 32 | second, buffer as u64);
    let words = (0..length / 8 + 1).flat_map(|_| random.draw().to_le_bytes());
    words.take(length).collect()
}

fn expected(operation: &Operation, call: &Call, noise: &[Vec<u8>; 2]) -> Outcome {
    let mut buffers = noise.clone();
    let [first, second] = &call.records;
    let [a, b] = &mut buffers;
    let answer = (operation.answer)(&REFERENCE, [first, second], [a, b]);
    Outcome { answer, buffers }
}

/// How two answers differ: a few words of each, from the first that differs on.
fn other(expected: &[u32], answer: &[u32]) -> String {
    let same = expected.iter().zip(answer).take_while(|(a, b)| a == b);
    let first = same.count();
    let [expected, answer] = [expected, answer].map(|words| words[first..].chunks(6).next());
    format!("word {first} of the answer: expected {expected:?}, got {answer:?}")
}

fn compare(
    operation: &Operation,
    tested: &Implementation,
    call: &Call,
    noise: &[Vec<u8>; 2],
    expected: &Outcome,
    time: usize,
) -> Result<(), String> {
    // Times an odd number, the times give all offsets, in another order for each
    // of the four that are lent.
    let lend =
        |bytes: &[u8], odd| Guarded::new(bytes, odd * time % OFFSETS, GUARDS[time % GUARDS.len()]);
    let [first, second] = [lend(&call.records[0], 1), lend(&call.records[1], 3)];
    let [mut a, mut b] = [lend(&noise[0], 5), lend(&noise[1], 7)];
    let lent = [first.lent(), second.lent()];
    let answer = (operation.answer)(tested, lent, [a.lent_mut(), b.lent_mut()]);
    if answer != expected.answer {
        return Err(other(&expected.answer, &answer));
    }
    let inputs = [(&first, &call.records[0]), (&second, &call.records[1])];
    let buffers = [(&a, &expected.buffers[0]), (&b, &expected.buffers[1])];
    for (what, all) in [("record", inputs), ("buffer", buffers)] {
        for (at, (memory, bytes)) in all.into_iter().enumerate() {
            let place = |wrong| format!("{what} {}: {wrong}", at + 1);
            memory.check(bytes).map_err(place)?;
        }
    }
    Ok(())
}
