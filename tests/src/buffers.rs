//! Buffers lent by hand: all of one byte, so that it is seen what was written;
//! and what that is, for the operations that write one record or a page.

use crate::answers::WrittenAnswer;
use crate::implementations::{Implementation, IMPLEMENTATIONS};

/// What untouched bytes look like.
const FILL: u8 = 0xa5;

pub fn buffer(length: usize) -> Vec<u8> {
    vec![FILL; length]
}

pub fn untouched(buffer: &[u8]) -> bool {
    buffer.iter().all(|&byte| byte == FILL)
}

/// All refuse what they are handed, and leave buffers of any length untouched.
pub fn all_refuse(
    call: impl Fn(&Implementation, &mut [u8]) -> WrittenAnswer,
    lengths: &[usize],
    refusal: u32,
) {
    for implementation in IMPLEMENTATIONS {
        for &length in lengths {
            let mut out = buffer(length);
            let answer = call(implementation, &mut out);
            let expected = WrittenAnswer { refusal, bytes: 0 };
            assert_eq!(answer, expected, "{}", implementation.name);
            assert!(untouched(&out));
        }
    }
}

/// All write this, to buffers that are just long enough and to longer ones, of
/// which the end stays untouched; and refuse shorter ones.
pub fn all_write(
    call: impl Fn(&Implementation, &mut [u8]) -> WrittenAnswer,
    written: &[u8],
    too_short: u32,
) {
    let length = written.len();
    all_refuse(&call, &[0, 11, length - 1], too_short);
    for implementation in IMPLEMENTATIONS {
        for more in [0, 1, 50] {
            let mut out = buffer(length + more);
            let answer = call(implementation, &mut out);
            let (refusal, bytes) = (0, length as u32);
            let expected = WrittenAnswer { refusal, bytes };
            assert_eq!(answer, expected, "{}", implementation.name);
            assert_eq!(out[..length], *written, "{}", implementation.name);
            assert!(untouched(&out[length..]));
        }
    }
}
