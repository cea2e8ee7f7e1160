//! The traffic page, written.

use crate::transfer::Traffic;

/// The length of a line: 2 columns, a blank, 10, a blank, 10 and a newline.
pub const LINE: usize = 25;

/// Writes a line for each of n nodes and one with the totals into a buffer of
/// their length.
pub fn put_page(out: &mut [u8], traffic: &Traffic, n: usize) {
    let (lines, last) = out.split_at_mut(LINE * n);
    let numbers = traffic.sent.iter().zip(&traffic.received);
    let mut total = 0;
    for ((node, line), (&sent, &received)) in (0..).zip(lines.chunks_exact_mut(LINE)).zip(numbers) {
        put_number(&mut line[..2], node);
        put_rest(line, sent, received);
        total += sent;
    }
    last[..2].copy_from_slice(b"==");
    // What is sent is received.
    put_rest(last, total, total);
}

/// Writes what stands behind the node.
fn put_rest(line: &mut [u8], sent: u32, received: u32) {
    line[2] = b' ';
    put_number(&mut line[3..13], sent);
    line[13] = b' ';
    put_number(&mut line[14..24], received);
    line[24] = b'\n';
}

/// Writes a number to the right of its columns.
fn put_number(columns: &mut [u8], mut number: u32) {
    columns.fill(b' ');
    for column in columns.iter_mut().rev() {
        *column = b'0' + (number % 10) as u8;
        number /= 10;
        if number == 0 {
            break;
        }
    }
}
