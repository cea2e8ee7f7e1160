//! For the tests of the tests: those who are careless with the buffer or the answer
//! of an operation that reads one record and writes another.

use crate::answers::{self, WrittenAnswer};

/// Some who are careless, with their names: `$right` does it right.
#[macro_export]
macro_rules! careless {
    ($right:ident) => {
        [
            ("writes nothing", |record, out| {
                $right(record, &mut out.to_vec())
            }),
            ("a byte behind what is written", |record, out| {
                $crate::careless::cleared_behind($right(record, out), out, 1)
            }),
            ("the rest cleared", |record, out| {
                $crate::careless::cleared_behind($right(record, out), out, out.len())
            }),
            ("the buffer cleared first", |record, out| {
                out.fill(0);
                $right(record, out)
            }),
            ("the last byte not written", |record, out| {
                let old = out.to_vec();
                let answer = $right(record, out);
                if answer.refusal == 0 {
                    let last = answer.bytes as usize - 1;
                    out[last] = old[last];
                }
                answer
            }),
            ("bytes of 0 not written", |record, out| {
                let old = out.to_vec();
                let answer = $right(record, out);
                let bytes = out.iter_mut().zip(old).take(answer.bytes as usize);
                bytes
                    .filter(|(byte, _)| **byte == 0)
                    .for_each(|(byte, old)| *byte = old);
                answer
            }),
            ("words of 0 not written", |record, out| {
                let old = out.to_vec();
                let answer = $right(record, out);
                let words = out[..answer.bytes as usize].chunks_mut(4);
                words
                    .zip(old.chunks(4))
                    .filter(|(word, _)| **word == [0; 4])
                    .for_each(|(word, old)| word.copy_from_slice(old));
                answer
            }),
            ("a length with a refusal", |record, out| {
                let longer = $right(record, &mut [0; $crate::implementations::SHEET_BYTES]);
                $crate::answers::WrittenAnswer {
                    bytes: longer.bytes,
                    ..$right(record, out)
                }
            }),
            ("the length of the buffer", |record, out| {
                $crate::careless::answered($right(record, out), out.len())
            }),
            ("the length of what was read", |record, out| {
                $crate::careless::answered($right(record, out), record.len())
            }),
            ("the length in words", |record, out| {
                let answer = $right(record, out);
                $crate::careless::answered(answer, answer.bytes as usize / 4)
            }),
            ("no length", |record, out| {
                $crate::careless::answered($right(record, out), 0)
            }),
        ]
    };
}

/// Clears up to so many bytes behind what was written.
pub fn cleared_behind(answer: WrittenAnswer, out: &mut [u8], most: usize) -> WrittenAnswer {
    if answer.refusal == 0 {
        let behind = out[answer.bytes as usize..].iter_mut();
        behind.take(most).for_each(|byte| *byte = 0);
    }
    answer
}

/// The same answer, with another length if it was accepted.
pub fn answered(answer: WrittenAnswer, bytes: usize) -> WrittenAnswer {
    match answer.refusal {
        0 => answers::written(bytes as u32),
        _ => answer,
    }
}

/// Writes as much as there is room for.
pub fn put(bytes: &[u8], out: &mut [u8]) {
    let length = bytes.len().min(out.len());
    out[..length].copy_from_slice(&bytes[..length]);
}
