//! The builders themselves: what they build is accepted, and they reach the
//! corners of the input space. Without this a run could pass on easy inputs.
#![forbid(unsafe_code)]

use firrozka_tests::answers::Answer;
use firrozka_tests::random::Random;
use firrozka_tests::records::plans::depth;
use firrozka_tests::records::{moves, plans, sheets, shown, Record};
use firrozka_tests::reference::{read_moves, read_plan, read_sheet};

/// Thousands of valid records and the reference's answers to them.
fn built<A: Answer>(build: fn(&mut Random) -> Record, read: fn(&[u8]) -> A) -> Vec<(Vec<u32>, A)> {
    let one = |index| {
        let record = build(&mut Random::at(7, index));
        let bytes = record.bytes();
        let answer = read(&bytes);
        assert_eq!(answer.refusal(), 0, "{}", shown(&bytes));
        (record.words, answer)
    };
    (0..5_000).map(one).collect()
}

fn some<A>(built: &[(Vec<u32>, A)], what: &str, holds: impl Fn(&[u32], &A) -> bool) {
    let met = built.iter().any(|(words, answer)| holds(words, answer));
    assert!(met, "no record with {what}");
}

#[test]
fn sheets() {
    let sheets = built(sheets::build, read_sheet);
    for n in [1, 2, 3, 63, 64] {
        some(&sheets, "this N and no cells", |_, a| a.n == n && a.e == 0);
        some(&sheets, "this N and all cells", |_, a| {
            a.n == n && a.e == n * n
        });
        some(&sheets, "this N and the largest total", |_, a| {
            a.n == n && a.p == 1_000_000_000
        });
    }
    for t in [1, 999] {
        some(&sheets, "this t", |_, a| a.t == t);
    }
    some(&sheets, "counts of 1 only", |_, a| a.e > 100 && a.p == a.e);
    some(&sheets, "the largest total in all cells", |_, a| {
        a.e == 4_096 && a.p == 1_000_000_000
    });
    // P/N rounded up is then the larger part of the limit.
    some(&sheets, "fewer particles than nodes", |_, a| {
        0 < a.p && a.p < a.n
    });
}

#[test]
fn plans() {
    let plans = built(plans::build, read_plan);
    for n in [1, 2, 3, 63, 64] {
        some(&plans, "this N in kind 0", |_, a| a.n == n && a.kind == 0);
    }
    for n in [2, 3, 63, 64] {
        for kind in [1, 2] {
            some(&plans, "this N and kind", |_, a| a.n == n && a.kind == kind);
            some(&plans, "a star", |w, a| {
                (a.n, a.kind) == (n, kind) && depth(helpands(w)) == 1
            });
            some(&plans, "a chain", |w, a| {
                (a.n, a.kind) == (n, kind) && depth(helpands(w)) == n as usize - 1
            });
        }
    }
    for limit in [0, 1_999_000_000] {
        some(&plans, "this limit", |_, a| a.limit == limit && a.kind > 0);
    }
    some(&plans, "a share at the largest limit", |w, a| {
        w[3 + a.n as usize..].contains(&1_999_000_000)
    });
    some(&plans, "a root in the middle", |w, a| {
        a.kind > 0 && a.n == 64 && (1..63).any(|k| w[3 + k] as usize == k)
    });
}

/// The helpands among a plan's words.
fn helpands(words: &[u32]) -> &[u32] {
    &words[3..][..words[0] as usize]
}

#[test]
fn moves() {
    let moves = built(moves::build, read_moves);
    for n in [1, 2, 3, 63, 64] {
        some(&moves, "this N and no routes", |_, a| a.n == n && a.e == 0);
    }
    for n in [2, 3, 63, 64] {
        some(&moves, "this N and E at the most", |_, a| {
            a.n == n && a.e == n * (n - 1)
        });
    }
    for count in [1, 1_000_000_000] {
        some(&moves, "thousands of this count", |w, a| {
            a.e > 3_000 && w[2 + a.e as usize..].iter().all(|&c| c == count)
        });
    }
}
