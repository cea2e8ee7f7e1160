//! Wrong readers of moves.

use super::{instead, later, otherwise, Parts, Wrong, MOST};
use firrozka_tests::answers::MovesAnswer;
use firrozka_tests::calls::READ_MOVES;
use firrozka_tests::faults;
use firrozka_tests::implementations::{Implementation, REFERENCE};
use firrozka_tests::reference::read_moves;

fn reported(wrong: &[Wrong<MovesAnswer>]) {
    for &(name, read_moves) in wrong {
        READ_MOVES.must_report(&Implementation {
            name,
            read_moves,
            ..REFERENCE
        });
    }
}

/// A reader whose check `number` is this one.
fn moves(bytes: &[u8], number: u32, check: impl Fn(&Parts) -> bool) -> MovesAnswer {
    let parts = Parts::of(bytes, 2, 1);
    let [n, e, _] = parts.sizes.map(|size| size as u32);
    let accepted = MovesAnswer { refusal: 0, n, e };
    instead(faults::moves(bytes), number, check(&parts), accepted)
}

pub fn right(bytes: &[u8]) -> MovesAnswer {
    moves(bytes, 35, |m| {
        m.falls(|a, b| a < b) || bad_routes(m, no_route)
    })
}

fn second_first<const FIRST: u32, const SECOND: u32>(bytes: &[u8]) -> MovesAnswer {
    later(read_moves(bytes), &faults::moves(bytes), FIRST, SECOND)
}

#[test]
fn orders() {
    reported(&[
        ("32 before 31", second_first::<31, 32>),
        ("33 before 32", second_first::<32, 33>),
        ("34 before 33", second_first::<33, 34>),
        ("35 before 34", second_first::<34, 35>),
        // "Routes come before counts."
        ("36 before 35", second_first::<35, 36>),
    ]);
}

#[test]
fn sizes() {
    reported(&otherwise! { moves:
        "8 bytes are too few", 31, |m| m.length <= 8;
        "4 bytes are enough", 31, |m| m.length < 4;
        "N 0 accepted", 32, |m| m.n_outside(0, 64);
        "N 64 refused", 32, |m| m.n_outside(1, 63);
        "N 65 accepted", 32, |m| m.n_outside(1, 65);
        "E up to N × N accepted", 33, |m| m.sizes[1] > m.sizes[0].pow(2);
        "E at N × (N−1) refused", 33, |m| m.sizes[1] > most_routes(m).saturating_sub(1);
        "E above N × (N−1) accepted", 33, |m| m.sizes[1] > most_routes(m) + 1;
        "longer moves accepted", 34, |m| m.length < 4 * (2 + 2 * m.sizes[1]);
        "bytes behind the last word accepted", 34, |m| m.length / 4 != 2 + 2 * m.sizes[1];
    });
}

fn most_routes(moves: &Parts) -> u64 {
    moves.sizes[0] * moves.sizes[0].saturating_sub(1)
}

#[test]
fn rising() {
    reported(&otherwise! { moves:
        "routes may repeat", 35, |m| m.falls(|a, b| a <= b) || bad_routes(m, no_route);
        "subdomains rise", 35, |m| m.falls(|a, b| a / 4096 <= b / 4096) || bad_routes(m, no_route);
        "pairs rise", 35, |m| m.falls(|a, b| a % 4_096 < b % 4_096) || bad_routes(m, no_route);
        "routes need not rise", 35, |m| bad_routes(m, no_route);
    });
}

/// Wrong readers that look at routes otherwise, and see whether they rise.
macro_rules! routes {
    ($($name:literal, $bad:expr;)*) => {
        otherwise! { moves: $($name, 35, |m| m.falls(|a, b| a < b) || bad_routes(m, $bad);)* }
    };
}

#[test]
fn routes() {
    reported(&routes! {
        "a node may send to itself", |_, [s, from, to], n| s.max(from).max(to) >= n;
        "node N accepted", |_, [s, from, to], n| from == to || s.max(from).max(to) > n;
        "the subdomain modulo 64", |_, [s, from, to], n| no_route(0, [s % 64, from, to], n);
        "the subdomain not looked at", |_, [_, from, to], n| no_route(0, [0, from, to], n);
        "the sender not looked at", |_, [s, from, to], n| from == to || s.max(to) >= n;
        "the receiver not looked at", |_, [s, from, to], n| from == to || s.max(from) >= n;
        "the first route not looked at", |at, parts, n| at > 0 && no_route(at, parts, n);
    });
}

/// Whether some route, of which place, parts and N are told, is bad.
fn bad_routes(moves: &Parts, bad: fn(usize, [u32; 3], u32) -> bool) -> bool {
    let parts = |route: u32| [route / 4_096, route / 64 % 64, route % 64];
    let mut routes = moves.first.iter().enumerate();
    routes.any(|(at, &route)| bad(at, parts(route), moves.n()))
}

/// "naming a node not below N, or with sender equal to receiver"
fn no_route(_: usize, [subdomain, sender, receiver]: [u32; 3], n: u32) -> bool {
    sender == receiver || subdomain.max(sender).max(receiver) >= n
}

#[test]
fn counts() {
    reported(&otherwise! { moves:
        "a count of 0 accepted", 36, |m| m.any_second(|count| count > MOST);
        "the largest count refused", 36, |m| m.any_second(|count| count == 0 || count >= MOST);
        "a larger count accepted", 36, |m| m.any_second(|count| count == 0 || count > MOST + 1);
        "signed counts", 36, |m| m.any_second(|count| count == 0 || count as i32 > MOST as i32);
        // As on a sheet.
        "their sum, not each count", 36, |m| m.second.contains(&0) || m.sum() > MOST.into();
        "the last count not looked at", 36,
            |m| m.but_the_last().iter().any(|count| !(1..=MOST).contains(count));
    });
}

#[test]
fn values() {
    reported(&[
        ("N and E exchanged", |bytes| {
            let MovesAnswer { refusal, n, e } = read_moves(bytes);
            MovesAnswer {
                refusal,
                n: e,
                e: n,
            }
        }),
        ("N beside a refusal", |bytes| MovesAnswer {
            n: Parts::of(bytes, 2, 1).n(),
            ..read_moves(bytes)
        }),
    ]);
}
