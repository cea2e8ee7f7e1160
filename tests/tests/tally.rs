//! Request 2026-08, arrivals between steps, sentence by sentence: openings, calls, what
//! they leave of the tally, and every refusal in its order. The expectations are the
//! papers' or worked out by hand, and a search by flow says when a tree holds.
#![forbid(unsafe_code)]

use firrozka_tests::answers::{tallied, Answer, TalliedAnswer};
use firrozka_tests::exhaustive::{rows, trees};
use firrozka_tests::implementations::{Implementation, IMPLEMENTATIONS};
use firrozka_tests::random::Random;
use firrozka_tests::records::plans::{self, chain, plan};
use firrozka_tests::records::sheets::{self, held};
use firrozka_tests::refused;
use firrozka_tests::settings::SEED;
use firrozka_tests::steps::Step;
use firrozka_tests::tally::{
    changes, compare, has_division, noise, of_words, openings, words, Change, Tally,
};
use firrozka_tests::worked::{self, ONE_PERCENT, TEN_PERCENT};

const MOST: u32 = 1_000_000_000;

fn refusal(refusal: u32) -> TalliedAnswer {
    Answer::refused(refusal)
}

/// A tally of so many nodes by hand: limit and total, and of every node the helpand, the
/// total and the least; and cells with holder, subdomain and count.
fn by_hand(head: [u32; 2], nodes: &[[u32; 3]], cells: &[(u32, u32, u32)]) -> Tally {
    let mut tally = Tally::NONE;
    tally.n = nodes.len() as u32;
    [tally.limit, tally.total] = head;
    for (node, &[helpand, total, least]) in nodes.iter().enumerate() {
        tally.helpands[node] = helpand;
        tally.totals[node] = total;
        tally.leasts[node] = least;
    }
    for &(holder, subdomain, count) in cells {
        tally.counts[(64 * holder + subdomain) as usize] = count;
    }
    tally
}

/// The tally is this one, word for word.
fn is(tally: &Tally, expected: &Tally) {
    compare(expected, tally).unwrap_or_else(|wrong| panic!("{wrong}"));
}

/// The tally that is opened from the sheet and the old tree of a step, and whether it
/// holds.
fn opened(by: &Implementation, step: &Step) -> (Tally, bool) {
    let opened = by.opened(&step.sheet, &step.old);
    opened.unwrap_or_else(|refusal| panic!("{}: refused with {refusal}\n{step}", by.name))
}

/// Step H: 28, 72 and 0 particles, node 1 helps node 0 and node 2 helps node 1.
fn h_tally() -> Tally {
    let nodes = [[0, 28, 28], [0, 72, 36], [1, 0, 0]];
    by_hand([36, 100], &nodes, &[(0, 0, 28), (1, 1, 72)])
}

/// 17,164 bytes, as the request's tally is laid out.
#[test]
fn words_in_their_order() {
    assert_eq!(std::mem::size_of::<Tally>(), 17_164);
    let numbers: Vec<u32> = (0..4_291).collect();
    let tally = of_words(&numbers);
    assert_eq!((tally.n, tally.limit, tally.total), (0, 1, 2));
    let firsts = [tally.helpands[0], tally.totals[0], tally.leasts[0]];
    assert_eq!(firsts, [3, 67, 131]);
    assert_eq!([tally.counts[0], tally.counts[4_095]], [195, 4_290]);
    assert_eq!(words(&tally), numbers);
}

/// "A tally is opened from a sheet and a plan of kind 1 or 2", and all that stood there
/// is written over.
#[test]
fn opened_from_sheet_and_plan() {
    let e = by_hand(
        [36, 100],
        &[[0, 87, 28], [0, 6, 6], [0, 7, 7]],
        &[
            (0, 0, 30),
            (1, 0, 27),
            (2, 0, 30),
            (1, 1, 6),
            (0, 2, 3),
            (2, 2, 4),
        ],
    );
    // Node 1 has more than the limit and spares nothing.
    let f = by_hand(
        [36, 100],
        &[[0, 50, 24], [0, 40, 40], [0, 10, 10]],
        &[(0, 0, 50), (1, 1, 40), (2, 2, 10)],
    );
    let i = by_hand(
        [36, 100],
        &[[0, 27, 27], [0, 73, 37], [1, 0, 0]],
        &[(0, 0, 27), (1, 1, 73)],
    );
    let steps = [
        (worked::e(), e, true),
        (worked::f(), f, false),
        (worked::h(), h_tally(), true),
        (worked::i(), i, false),
    ];
    for by in IMPLEMENTATIONS {
        for (step, expected, holds) in &steps {
            for kind in [1, 2] {
                let mut plan = plans::of(&step.old);
                plan.words[1] = kind;
                let mut tally = noise(&mut Random::at(SEED, kind.into()));
                let answer = (by.open_tally)(&step.sheet, &plan.bytes(), &mut tally);
                assert_eq!(answer, tallied(*holds), "{}", by.name);
                is(&tally, expected);
            }
        }
    }
}

/// "its limit stays that of the opening sheet": the plan's own limit plays no part, and
/// ten times as many particles do not move it.
#[test]
fn the_limit_stays() {
    for by in IMPLEMENTATIONS {
        for limit in [0, 36, 37, 1_999_000_000] {
            let tree = plan(2, limit, &[0, 0, 1], &[0; 3]).bytes();
            let (mut tally, _) = by.opened(&worked::h().sheet, &tree).expect("accepted");
            is(&tally, &h_tally());
            assert_eq!((by.tally_add)(&mut tally, 2, 2, 900), tallied(false));
            let nodes = [[0, 28, 28], [0, 72, 72], [1, 900, 900]];
            let cells = [(0, 0, 28), (1, 1, 72), (2, 2, 900)];
            is(&tally, &by_hand([36, 1_000], &nodes, &cells));
            assert_eq!((by.tally_remove)(&mut tally, 2, 2, 900), tallied(true));
            is(&tally, &h_tally());
        }
    }
}

/// "Users inject and remove particles and want to see when the tree gives way." Node 1
/// and its helper take 72 particles, and node 0 with what node 1 spares takes no more.
#[test]
fn when_the_tree_gives_way() {
    for by in IMPLEMENTATIONS {
        let (mut tally, holds) = opened(by, &worked::h());
        assert!(holds);
        // Of subdomain 0 eight more can be there.
        for more in 1..=8 {
            assert_eq!((by.tally_add)(&mut tally, 2, 0, 1), tallied(true), "{more}");
        }
        assert_eq!((by.tally_add)(&mut tally, 2, 0, 1), tallied(false));
        let nodes = [[0, 37, 37], [0, 72, 36], [1, 0, 0]];
        let cells = [(0, 0, 28), (1, 1, 72), (2, 0, 9)];
        is(&tally, &by_hand([36, 109], &nodes, &cells));
        // One of subdomain 1 fewer, and node 1 helps out.
        assert_eq!((by.tally_remove)(&mut tally, 1, 1, 1), tallied(true));
        let nodes = [[0, 37, 36], [0, 71, 35], [1, 0, 0]];
        let cells = [(0, 0, 28), (1, 1, 71), (2, 0, 9)];
        is(&tally, &by_hand([36, 108], &nodes, &cells));
        // One of subdomain 2 more, and its node spares one less.
        assert_eq!((by.tally_add)(&mut tally, 0, 2, 1), tallied(false));
        let nodes = [[0, 37, 37], [0, 71, 36], [1, 1, 1]];
        let cells = [(0, 0, 28), (0, 2, 1), (1, 1, 71), (2, 0, 9)];
        is(&tally, &by_hand([36, 109], &nodes, &cells));
    }
}

/// "a cell, named by holder and subdomain": the holder does not matter to the leasts,
/// and the cell is that one.
#[test]
fn holder_and_subdomain() {
    for by in IMPLEMENTATIONS {
        for holder in 0..3 {
            let (mut tally, _) = opened(by, &worked::h());
            assert_eq!((by.tally_add)(&mut tally, holder, 2, 5), tallied(false));
            let nodes = [[0, 28, 28], [0, 72, 41], [1, 5, 5]];
            let cells = [(0, 0, 28), (1, 1, 72), (holder, 2, 5)];
            is(&tally, &by_hand([36, 105], &nodes, &cells));
        }
    }
}

/// A chain in which each node helps the one before it, under limit 27. What comes to the
/// last node is seen as far up as leasts change: one that stays 0 ends it, and one that
/// stays above the limit spares nothing either way.
#[test]
fn as_far_as_leasts_change() {
    let step = worked::own(TEN_PERCENT, &[40, 50, 9, 1], worked::old(&chain(4)));
    let arrivals = [
        (0, [36, 23, 0, 1]),
        (17, [36, 23, 0, 18]),
        (1, [37, 24, 1, 19]),
        (8, [40, 32, 9, 27]),
        (1, [40, 32, 9, 28]),
        (100, [40, 32, 9, 128]),
    ];
    for by in IMPLEMENTATIONS {
        let (mut tally, _) = opened(by, &step);
        let mut seen = Vec::new();
        for (count, leasts) in arrivals {
            if count > 0 {
                assert_eq!((by.tally_add)(&mut tally, 0, 3, count), tallied(false));
                seen.push((count, tally.clone()));
            }
            assert_eq!((tally.limit, &tally.leasts[..4]), (27, &leasts[..]));
        }
        while let Some((count, last)) = seen.pop() {
            is(&tally, &last);
            assert_eq!((by.tally_remove)(&mut tally, 0, 3, count), tallied(false));
        }
        is(&tally, &opened(by, &step).0);
    }
}

/// "The open tally is lent to each call": nothing of it is anywhere else. A copy goes on
/// where it was copied, and two tallies do not meet.
#[test]
fn lent_to_each_call() {
    for by in IMPLEMENTATIONS {
        for index in 0..200 {
            let random = &mut Random::at(SEED, index);
            let [mut first, mut second] = [(); 2].map(|_| openings::some(random).open.tally());
            let mut apart = [first.clone(), second.clone()];
            for _ in 0..5 {
                let changes = [&first, &second].map(|tally| changes::some(tally, random));
                let together = [
                    changes[0].by(by, &mut first),
                    changes[1].by(by, &mut second),
                ];
                for at in [1, 0] {
                    assert_eq!(changes[at].by(by, &mut apart[at]), together[at]);
                }
                is(&apart[0], &first);
                is(&apart[1], &second);
            }
        }
    }
}

/// Every tree of up to four nodes with few particles, and every small call: what is said
/// of the tree is what a flow says, and the call taken back leaves the tally as it was.
#[test]
fn every_small_tree() {
    for (n, bound) in [(2, 6), (3, 4), (4, 3)] {
        for helpands in trees(n) {
            for counts in rows(n, bound) {
                let step = worked::own(ONE_PERCENT, &counts, worked::old(&helpands));
                for by in IMPLEMENTATIONS {
                    every_small_call(by, &step);
                }
            }
        }
    }
}

fn every_small_call(by: &Implementation, step: &Step) {
    let (tally, holds) = opened(by, step);
    assert_eq!(Ok(holds), has_division(&tally));
    for subdomain in 0..tally.n {
        for count in 1..=3 {
            for change in [
                Change::add(0, subdomain, count),
                Change::remove(subdomain, subdomain, count),
            ] {
                let mut after = tally.clone();
                let answer = change.by(by, &mut after);
                if answer.refusal == 0 {
                    let holds_now = has_division(&after).map(tallied);
                    assert_eq!(Ok(answer), holds_now, "{change:?}\n{step}");
                    assert_eq!(change.back().by(by, &mut after), tallied(holds));
                }
                is(&after, &tally);
            }
        }
    }
}

/// "After any calls on an opened tally that nothing else writes, its leasts equal those
/// worked out afresh from the present counts with that limit": calls in another order
/// give the same tally, and taken back they give the opened one.
#[test]
fn any_calls() {
    let mut accepted = 0;
    for index in 0..400 {
        let random = &mut Random::at(SEED, index);
        let opening = openings::some(random);
        for by in IMPLEMENTATIONS {
            let opened = by
                .opened(&opening.sheet, &opening.plan)
                .expect("accepted")
                .0;
            let adds: Vec<Change> = (0..12).map(|_| some_add(opened.n, random)).collect();
            let mut tally = opened.clone();
            let made: Vec<Change> = adds
                .into_iter()
                .filter(|change| change.by(by, &mut tally).refusal == 0)
                .collect();
            accepted += made.len();
            let mut other = opened.clone();
            for change in made.iter().rev() {
                assert_eq!(change.by(by, &mut other).refusal, 0);
            }
            is(&other, &tally);
            for change in &made {
                assert_eq!(change.back().by(by, &mut other).refusal, 0);
            }
            is(&other, &opened);
        }
    }
    assert!(accepted > 4_000, "{accepted}");
}

fn some_add(n: u32, random: &mut Random) -> Change {
    let count = random.one_of(&[1, 2, 50, 10_000]);
    Change::add(random.below(n), random.below(n), count)
}

/// A chain of every length in which each node needs what its helper can spare: what is
/// added at its end is seen in every least up to the root's.
#[test]
fn up_to_the_root() {
    for n in 2..=64u32 {
        // All have 1,000 but the last, which has 500, and no node may have more than L.
        let counts: Vec<u32> = (0..n)
            .map(|k| if k + 1 < n { 1_000 } else { 500 })
            .collect();
        let step = worked::own(1, &counts, worked::old(&chain(n)));
        let p = 1_000 * n - 500;
        let limit = ((p + n - 1) / n).max(p * 1_001 / (1_000 * n));
        let least = |node: u32| 500 + (n - 1 - node) * (1_000 - limit);
        for by in IMPLEMENTATIONS {
            let (mut tally, _) = opened(by, &step);
            assert_eq!(tally.limit, limit);
            for more in [0, 1, 2] {
                for node in 0..n {
                    assert_eq!(tally.leasts[node as usize], least(node) + more, "N {n}");
                }
                assert_eq!((by.tally_add)(&mut tally, 0, n - 1, 1).refusal, 0);
            }
            assert_eq!((by.tally_remove)(&mut tally, 0, n - 1, 3).refusal, 0);
            is(&tally, &opened(by, &step).0);
        }
    }
}

/// "opening has those of *weigh* up to 24", and what is accepted has *weigh*'s leasts and
/// its answer.
#[test]
fn opened_like_weigh() {
    for by in IMPLEMENTATIONS {
        for index in 0..500 {
            let opening = openings::some(&mut Random::at(SEED, index));
            let (leasts, holds) = by.weighed(&opening.sheet, &opening.plan).expect("accepted");
            let (tally, held) = by.opened(&opening.sheet, &opening.plan).expect("accepted");
            assert_eq!((&tally.leasts[..leasts.len()], held), (&leasts[..], holds));
        }
    }
}

/// "A refused opening gives a tally with N 0, whose every call is refused with 58."
/// Everything else is 0, too, whatever stood there.
fn refuses(sheet: &[u8], plan: &[u8], number: u32) {
    for by in IMPLEMENTATIONS {
        let before = opened(by, &worked::h()).0;
        for mut tally in [before, noise(&mut Random::at(SEED, number.into()))] {
            let answer = (by.open_tally)(sheet, plan, &mut tally);
            assert_eq!(answer, refusal(number), "{}", by.name);
            is(&tally, &Tally::NONE);
            for change in all_calls() {
                assert_eq!(change.by(by, &mut tally), refusal(58));
                is(&tally, &Tally::NONE);
            }
        }
    }
}

/// Calls on nodes that are there and on none, with counts of all sorts.
fn all_calls() -> Vec<Change> {
    let numbers = [0, 1, 2, 63, 64, MOST, u32::MAX];
    let mut calls = Vec::new();
    for holder in numbers {
        for subdomain in numbers {
            for count in numbers {
                let add = Change::add(holder, subdomain, count);
                calls.extend([add, add.back()]);
            }
        }
    }
    calls
}

#[test]
fn refused_openings() {
    let good = worked::h();
    for (number, sheet) in refused::sheets() {
        refuses(&sheet, &good.old, number);
        refuses(&sheet, &[], number);
    }
    for (number, plan) in refused::plans() {
        refuses(&good.sheet, &plan, number);
        refuses(&worked::b().sheet, &plan, number);
    }
    refuses(&good.sheet, &[], 11);
    refuses(&good.sheet, &worked::old(&[0, 0]), 21);
    refuses(&good.sheet, &worked::plan(0, &[0, 1]), 21);
    refuses(&good.sheet, &worked::plan(0, &[0, 1, 2]), 24);
    refuses(&worked::a().sheet, &worked::plan(0, &[0]), 24);
}

/// These calls are refused with this number, and not a byte of the tally changes.
fn all_refuse(by: &Implementation, tally: &Tally, changes: &[Change], number: u32) {
    for change in changes {
        let mut after = tally.clone();
        assert_eq!(
            change.by(by, &mut after),
            refusal(number),
            "{}, {change:?}",
            by.name
        );
        is(&after, tally);
    }
}

/// "58 for a node not below N or a count of 0", for every N, before 59 and before 60.
#[test]
fn refusal_58() {
    for n in 2..=64 {
        let counts = vec![MOST / n; n as usize];
        let step = worked::own(TEN_PERCENT, &counts, worked::old(&chain(n)));
        for by in IMPLEMENTATIONS {
            let (tally, _) = opened(by, &step);
            for count in [0, 1, MOST, u32::MAX] {
                for node in [n, n + 1, 64, 65, 1 << 26, u32::MAX] {
                    let add = [Change::add(node, 0, count), Change::add(0, node, count)];
                    all_refuse(by, &tally, &add, 58);
                    all_refuse(by, &tally, &add.map(Change::back), 58);
                }
            }
            let none = Change::add(n - 1, n - 1, 0);
            all_refuse(by, &tally, &[none, none.back()], 58);
        }
    }
}

/// "59 for removing more than the cell has": the cell, whatever others have, and any
/// count beyond the maximum.
#[test]
fn refusal_59() {
    for by in IMPLEMENTATIONS {
        let (tally, _) = opened(by, &worked::e());
        let more = [
            31,
            87,
            88,
            100,
            101,
            MOST,
            MOST + 1,
            u32::MAX - 29,
            u32::MAX,
        ];
        all_refuse(
            by,
            &tally,
            &more.map(|count| Change::remove(0, 0, count)),
            59,
        );
        all_refuse(
            by,
            &tally,
            &more.map(|count| Change::remove(2, 1, count)),
            59,
        );
        all_refuse(by, &tally, &[Change::remove(2, 1, 1)], 59);
        let mut emptied = tally;
        assert_eq!((by.tally_remove)(&mut emptied, 0, 0, 30), tallied(true));
        all_refuse(by, &emptied, &[Change::remove(0, 0, 1)], 59);
    }
}

/// "60 for a total above the maximum": 1,000,000,000 can be there, and one more cannot,
/// nor what would come round in 32 bits.
#[test]
fn refusal_60() {
    let sheet = held(2, 999, &[(0, 0, 5), (1, 0, MOST - 20), (1, 1, 7)]).bytes();
    for by in IMPLEMENTATIONS {
        let (mut tally, _) = by.opened(&sheet, &worked::old(&[0, 0])).expect("accepted");
        let more = [
            9,
            10,
            MOST,
            u32::MAX - MOST + 1,
            u32::MAX - MOST + 9,
            u32::MAX,
        ];
        for subdomain in [0, 1] {
            let adds = more.map(|count| Change::add(0, subdomain, count));
            all_refuse(by, &tally, &adds, 60);
        }
        assert_eq!((by.tally_add)(&mut tally, 0, 1, 8), tallied(true));
        assert_eq!(tally.total, MOST);
        all_refuse(
            by,
            &tally,
            &[Change::add(0, 0, 1), Change::add(1, 1, 1)],
            60,
        );
        // Removing never meets it.
        assert_eq!((by.tally_remove)(&mut tally, 1, 0, MOST - 20).refusal, 0);
        assert_eq!(tally.total, 20);
        assert_eq!((by.tally_add)(&mut tally, 1, 1, MOST - 20).refusal, 0);
        assert_eq!(tally.total, MOST);
    }
}

/// A tally opened from a sheet without particles has limit 0: the first particle is more
/// than any node may have, and without it the tree holds again.
#[test]
fn no_particles() {
    for n in 2..=64 {
        let empty = sheets::sheet(n, TEN_PERCENT, &[], &[]).bytes();
        for by in IMPLEMENTATIONS {
            let (mut tally, holds) = by
                .opened(&empty, &worked::old(&chain(n)))
                .expect("accepted");
            assert!(holds);
            let before = tally.clone();
            assert_eq!((tally.limit, tally.total), (0, 0));
            assert_eq!((by.tally_add)(&mut tally, 0, n - 1, 1), tallied(false));
            assert_eq!((by.tally_remove)(&mut tally, 0, n - 1, 1), tallied(true));
            is(&tally, &before);
        }
    }
}
