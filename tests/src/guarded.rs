//! Bytes in memory of their own, with guard bytes before and behind, which
//! nobody may write.

use std::sync::atomic::{compiler_fence, Ordering};

/// How many bytes on either side, at least.
const GUARD: usize = 16;

/// As many places for the first byte are told apart: the longest unit that a
/// machine reads or writes at once has eight bytes, and may want to be aligned.
pub const OFFSETS: usize = 8;

pub struct Guarded {
    memory: Vec<u8>,
    start: usize,
    end: usize,
    guard: u8,
}

impl Guarded {
    /// A copy of the bytes at an address `offset` bytes past a multiple of
    /// `OFFSETS`.
    pub fn new(bytes: &[u8], offset: usize, guard: u8) -> Guarded {
        let mut memory = vec![guard; GUARD + OFFSETS - 1 + bytes.len() + GUARD];
        let past = (memory.as_ptr() as usize + GUARD) % OFFSETS;
        let start = GUARD + (OFFSETS + offset - past) % OFFSETS;
        let end = start + bytes.len();
        memory[start..end].copy_from_slice(bytes);
        Guarded {
            memory,
            start,
            end,
            guard,
        }
    }

    /// The bytes, to be read.
    pub fn lent(&self) -> &[u8] {
        &self.memory[self.start..self.end]
    }

    /// The bytes, to be written.
    pub fn lent_mut(&mut self) -> &mut [u8] {
        &mut self.memory[self.start..self.end]
    }

    /// Whether the bytes are now these, and the guards as they were.
    pub fn check(&self, expected: &[u8]) -> Result<(), String> {
        // Whoever was lent the bytes is not trusted: the compiler is to look at
        // the memory again.
        compiler_fence(Ordering::SeqCst);
        let memory = &self.memory;
        let mut guards = memory[..self.start].iter().chain(&memory[self.end..]);
        if guards.any(|&byte| byte != self.guard) {
            return Err("the memory beside it was written".into());
        }
        match (self.start..self.end).find(|&at| memory[at] != expected[at - self.start]) {
            Some(at) => Err(format!("byte {} is wrong", at - self.start)),
            None => Ok(()),
        }
    }
}

/// The check can fail: a byte before, one behind and each byte between.
#[test]
fn every_byte_is_looked_at() {
    let bytes = [1, 2, 3];
    for offset in 0..8 {
        let mut guarded = Guarded::new(&bytes, offset, 0xa5);
        assert_eq!(guarded.lent().as_ptr() as usize % 8, offset);
        assert_eq!(guarded.lent_mut(), bytes);
        for at in 0..guarded.memory.len() {
            assert_eq!(guarded.check(&bytes), Ok(()));
            guarded.memory[at] ^= 0x10;
            assert!(guarded.check(&bytes).is_err(), "byte {at}");
            guarded.memory[at] ^= 0x10;
        }
    }
}
