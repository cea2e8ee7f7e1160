//! Small steps worked by hand, one for each rule of "Deciding" that a planner
//! could read otherwise and that steps A to K leave open.
#![forbid(unsafe_code)]

use firrozka_tests::demands::{judged, Judged};
use firrozka_tests::implementations::IMPLEMENTATIONS;
use firrozka_tests::records::moves::route;
use firrozka_tests::records::plans::plan;
use firrozka_tests::records::sheets::{cell, held, sheet};
use firrozka_tests::records::to_words;
use firrozka_tests::steps::Step;
use firrozka_tests::worked::{
    e_levelled, old, own, with_own, FIFTY_PERCENT, ONE_PERCENT, TEN_PERCENT,
};

/// The step leads to this kind, these helpands and these shares.
fn leads_to<const N: usize>(step: &Step, kind: u32, helpands: [u32; N], shares: [u32; N]) {
    for implementation in IMPLEMENTATIONS {
        let Judged { plan, .. } = judged(implementation, step, "worked by hand");
        assert_eq!(plan.kind, kind);
        assert_eq!(plan.helpands, helpands);
        assert_eq!(plan.shares, shares);
    }
}

/// The step's moves, each given as subdomain, sender, receiver and count.
fn moves_are(step: &Step, expected: &[[u32; 4]]) {
    for implementation in IMPLEMENTATIONS {
        let Judged { moves, .. } = judged(implementation, step, "worked by hand");
        let routes = expected.iter().map(|&[n, from, to, _]| route(n, from, to));
        assert_eq!(moves.routes, routes.collect::<Vec<_>>());
        let counts = expected.iter().map(|&[.., count]| count);
        assert_eq!(moves.counts, counts.collect::<Vec<_>>());
    }
}

const NO_PLAN: Vec<u8> = Vec::new();

/// Request 2026-01: with 10,000 particles on 3 nodes the limit is 3,450 at 3.5
/// percent, and 3,446 at 3.4.
#[test]
fn a_tenth_of_a_percent_decides() {
    let level = |t| own(t, &[3_450, 3_300, 3_250], NO_PLAN);
    leads_to(&level(35), 0, [0, 1, 2], [0; 3]);
    leads_to(&level(34), 2, [0, 0, 0], [0, 33, 83]);
    let chain = |t| own(t, &[3_100, 6_900, 0], old(&[0, 0, 1]));
    leads_to(&chain(35), 1, [0, 0, 1], [0, 0, 3_450]);
    leads_to(&chain(34), 2, [1, 1, 1], [234, 0, 3_333]);
}

/// The largest limit that a sheet can have, in a plan that is read back.
#[test]
fn the_largest_limit() {
    for implementation in IMPLEMENTATIONS {
        let planned = implementation.plan(&own(999, &[1_000_000_000], NO_PLAN));
        assert_eq!(to_words(&planned.plan), [1, 0, 1_999_000_000, 0, 0]);
        let read = (implementation.read_plan)(&planned.plan);
        assert_eq!((read.refusal, read.limit), (0, 1_999_000_000));
    }
}

// Which kind.

/// "kind 0 whatever the old tree", even if that holds.
#[test]
fn primary_before_kept() {
    for helpands in [[0, 0, 0], [0, 0, 1], [2, 2, 2]] {
        leads_to(
            &own(TEN_PERCENT, &[36, 36, 28], old(&helpands)),
            0,
            [0, 1, 2],
            [0; 3],
        );
    }
}

/// In kind 0 too, what others hold goes to its owner.
#[test]
fn primary_with_moves() {
    let cells = [cell(0, 1), cell(1, 0), cell(2, 2)];
    let sheet = sheet(3, TEN_PERCENT, &cells, &[36, 36, 28]).bytes();
    let step = Step {
        sheet,
        old: NO_PLAN,
    };
    leads_to(&step, 0, [0, 1, 2], [0; 3]);
    for implementation in IMPLEMENTATIONS {
        let Judged { moves, .. } = judged(implementation, &step, "other nodes");
        // Subdomain 0 from 1 to 0, subdomain 1 from 0 to 1.
        assert_eq!(moves.routes, [64, 4096 + 1]);
        assert_eq!(moves.counts, [36, 36]);
    }
}

/// "That plan's shares and limit play no part, and L is the sheet's." Kinds 1
/// and 2 are alike.
#[test]
fn shares_and_limit_of_the_old_plan() {
    for kind in [1, 2] {
        let largest = [1_990_000_001, 1_999_000_000].map(|limit| (limit, [0, 9, 72]));
        for (limit, shares) in [(0, [0; 3]), (5, [0, 5, 5])].into_iter().chain(largest) {
            let old = plan(kind, limit, &[0, 0, 1], &shares).bytes();
            leads_to(
                &own(TEN_PERCENT, &[28, 72, 0], old.clone()),
                1,
                [0, 0, 1],
                [0, 0, 36],
            );
            leads_to(
                &own(TEN_PERCENT, &[27, 73, 0], old),
                2,
                [1, 1, 1],
                [7, 0, 33],
            );
        }
    }
}

/// "An empty or kind 0 old plan has no old tree."
#[test]
fn no_old_tree() {
    let roots = plan(0, 7, &[0, 1, 2], &[0; 3]).bytes();
    for old in [NO_PLAN, roots] {
        leads_to(
            &own(TEN_PERCENT, &[50, 40, 10], old),
            2,
            [1, 1, 0],
            [7, 0, 23],
        );
    }
}

// Shares in a kept tree.

/// "from the root down": node 1 has 24 of subdomain 0 before its own is
/// divided, so that 12 remain for it.
#[test]
fn share_before_own_subdomain() {
    let step = own(TEN_PERCENT, &[60, 30, 10], old(&[0, 0, 1]));
    leads_to(&step, 1, [0, 0, 1], [0, 24, 18]);
}

/// What a helper holds it keeps up to its space, L less its least: 40 are held,
/// and 36 − 4 can be kept. Its helper then has to take all it can.
#[test]
fn helpers_keep_up_to_their_space() {
    let cells = [cell(0, 0), cell(1, 0), cell(1, 1), cell(2, 2)];
    let sheet = sheet(3, TEN_PERCENT, &cells, &[20, 40, 30, 10]).bytes();
    let old = old(&[0, 0, 1]);
    leads_to(&Step { sheet, old }, 1, [0, 0, 1], [0, 32, 26]);
}

/// What a node outside the family holds it does not keep.
#[test]
fn other_nodes_keep_nothing() {
    // Node 2 helps node 1 and holds all of subdomain 0. Node 1's least is 4, so
    // 4 go to node 0 alone and 28 to each. In subdomain 1, node 1 keeps 36 − 28.
    let cells = [cell(1, 1), cell(2, 0), cell(2, 2)];
    let sheet = sheet(3, TEN_PERCENT, &cells, &[30, 60, 10]).bytes();
    let old = old(&[0, 0, 1]);
    leads_to(&Step { sheet, old }, 1, [0, 0, 1], [0, 28, 22]);
}

// Request 2026-03, level filling. Standing loads are "R plus its amount for the
// owner, and least plus its amount for a helper".

/// "With subdomain 0 held 34, 23, 30 instead, its shares become 0, 24, 29, where
/// they were 0, 23, 29." Node 2 keeps 36 − 7, and one particle is left. The
/// standing loads are 34, 6 + 23 and 36.
#[test]
fn the_example_of_the_request() {
    leads_to(&e_levelled(), 1, [0, 0, 0], [0, 24, 29]);
}

/// What is kept counts. Of 60 node 2 keeps 32 and is full. 28 are left; nodes 0
/// and 1 stand at 20 and 6 + 10. Node 1 alone gets 4, then both get 12.
#[test]
fn the_rest_fills_up() {
    let cells = [cell(0, 0), cell(1, 0), cell(1, 1), cell(2, 0), cell(2, 2)];
    let sheet = sheet(3, TEN_PERCENT, &cells, &[20, 10, 6, 60, 4]).bytes();
    let old = old(&[0, 0, 0]);
    leads_to(&Step { sheet, old }, 1, [0, 0, 0], [0, 26, 32]);
}

/// The same family with other numbers: the full member has the lowest, and is
/// passed over.
#[test]
fn a_full_member_of_the_lowest_number() {
    let cells = [cell(0, 0), cell(0, 1), cell(1, 1), cell(2, 1), cell(2, 2)];
    let sheet = sheet(3, TEN_PERCENT, &cells, &[4, 60, 20, 10, 6]).bytes();
    let old = old(&[1, 1, 1]);
    leads_to(&Step { sheet, old }, 1, [1, 1, 1], [32, 0, 26]);
}

/// Four nodes with L 27, given as an owner, its two helpers, and one that helps the
/// first of these. The owner has 55 particles, and the helpers' leasts are
/// 20 − (27 − 20) and 5. The first helper holds 13 of its own 20, so that its hold is
/// its least. Together the family comes to 55 + 13 + 5 = 3 × 24 + 1. The last node
/// holds those of the 55 that the family does not hold.
fn coming_to_73([owner, first, second, last]: [u32; 4], held: [u32; 3]) -> Step {
    let mut counts = vec![
        (cell(owner, owner), held[0]),
        (cell(first, owner), held[1]),
        (cell(second, owner), held[2]),
        (cell(last, owner), 55 - held.iter().sum::<u32>()),
        (cell(first, first), 13),
        (cell(last, first), 7),
        (cell(second, second), 5),
        (cell(last, last), 20),
    ];
    counts.sort_unstable();
    let (cells, counts): (Vec<u32>, Vec<u32>) =
        counts.into_iter().filter(|&(_, count)| count > 0).unzip();
    let mut helpands = [owner; 4];
    helpands[last as usize] = first;
    Step {
        sheet: sheet(4, TEN_PERCENT, &cells, &counts).bytes(),
        old: old(&helpands),
    }
}

/// The step comes to the same whether all three stand at 24 and one particle is
/// left, or they have none of the 55, or some.
fn tie_leads_to(nodes: [u32; 4], helpands: [u32; 4], shares: [u32; 4]) {
    for held in [[24, 11, 19], [0, 0, 0], [24, 0, 0], [3, 10, 16]] {
        leads_to(&coming_to_73(nodes, held), 1, helpands, shares);
    }
}

/// "lowest node number on ties": the owner has no precedence before a helper of a
/// lower number. The first helper, with 12 or 11 of the 55, keeps its 13 of its own
/// 20, and the last node keeps the others.
#[test]
fn a_tie_goes_to_a_helper() {
    tie_leads_to([1, 0, 2, 3], [1, 1, 1, 0], [12, 0, 19, 7]);
    tie_leads_to([1, 2, 0, 3], [1, 1, 1, 2], [20, 0, 11, 7]);
    tie_leads_to([3, 1, 2, 0], [1, 3, 3, 3], [7, 12, 19, 0]);
}

/// Nor is it last: here it has the lowest number.
#[test]
fn a_tie_goes_to_the_owner() {
    tie_leads_to([0, 1, 2, 3], [0, 0, 0, 1], [0, 11, 19, 7]);
    tie_leads_to([1, 2, 3, 0], [2, 1, 1, 1], [7, 0, 11, 19]);
}

/// R counts: node 1 keeps 20 of subdomain 0, so it and node 2, whose least is 20,
/// stand alike. Of subdomain 1, which node 0 holds, each gets 15.
#[test]
fn the_owner_stands_at_its_share() {
    let cells = [cell(0, 0), cell(0, 1), cell(1, 0), cell(2, 2)];
    let sheet = sheet(3, TEN_PERCENT, &cells, &[30, 30, 20, 20]).bytes();
    let old = old(&[0, 0, 1]);
    leads_to(&Step { sheet, old }, 1, [0, 0, 1], [0, 20, 15]);
}

/// Node 3 holds 700 million of subdomain 0 and is not of its family. L is 275
/// million, and the members' bases are 0, 0 and 100 million. They come to 800
/// million, which is 3 × 266,666,666 + 2. Then node 1 has 8,333,333 of its own.
#[test]
fn a_rest_of_hundreds_of_millions() {
    let million = 1_000_000;
    let cells = [cell(1, 1), cell(2, 2), cell(3, 0), cell(3, 3)];
    let counts = [100, 100, 700, 100].map(|count| count * million);
    let step = Step {
        sheet: sheet(4, TEN_PERCENT, &cells, &counts).bytes(),
        old: old(&[0, 0, 0, 1]),
    };
    let shares = [0, 266_666_667, 166_666_666, 91_666_667];
    leads_to(&step, 1, [0, 0, 0, 1], shares);
}

/// L is 3, and three members have space for the 9 that node 3 holds.
#[test]
fn a_rest_that_fills_all() {
    let cells = [cell(3, 0), cell(3, 3)];
    let step = Step {
        sheet: sheet(4, ONE_PERCENT, &cells, &[9, 3]).bytes(),
        old: old(&[0, 0, 0, 1]),
    };
    leads_to(&step, 1, [0, 0, 0, 1], [0, 3, 3, 0]);
}

/// "What a member already keeps is unchanged": with nothing left over, nobody is
/// raised or lowered, although they stand at 34, 6 + 24 and 30 + 6.
#[test]
fn nothing_left_over() {
    let cells = [cell(0, 0), cell(1, 0), cell(1, 1), cell(2, 0), cell(2, 2)];
    let step = Step {
        sheet: sheet(3, TEN_PERCENT, &cells, &[34, 24, 6, 6, 30]).bytes(),
        old: old(&[0, 0, 0]),
    };
    leads_to(&step, 1, [0, 0, 0], [0, 24, 6]);
}

// Request 2026-07, helpers' own particles. "A helper's hold is the larger of its least
// and its own-subdomain holding capped at L." A family affords its holds if "P of the
// family's owner plus its R plus its helpers' holds is at most L times the family's
// size". In the comments nodes come with what they have beside a subdomain, R or hold
// or least, and then with what they get of it.

/// A step with this old tree, its cells given as holder, subdomain and count.
fn along<const N: usize>(helpands: [u32; N], t: u32, cells: &[(u32, u32, u32)]) -> Step {
    Step {
        sheet: held(N as u32, t, cells).bytes(),
        old: old(&helpands),
    }
}

/// L is 35. Node 1 has a least of 0 and holds 20 of its own subdomain, and
/// 50 + 0 + 20 = 35 × 2: its space for subdomain 0 is 35 − 20. Of its 30 it keeps 15,
/// node 0 takes the others, and its own stay where they are. With least it would keep
/// 30, and 15 of its own would go to node 2.
#[test]
fn own_particles_stay() {
    let cells = [(0, 0, 20), (1, 0, 30), (1, 1, 20)];
    let step = along([0, 0, 1], FIFTY_PERCENT, &cells);
    leads_to(&step, 1, [0, 0, 1], [0, 15, 0]);
    moves_are(&step, &[[0, 1, 0, 15]]);
}

/// The same with one particle more, of subdomain 1, and L still 35. If node 2 holds it,
/// the family of node 0 has nothing to spare:
///
///     50 + 0 + 20 = 35 × 2
///     subdomain 0: node 0 has 0, keeps 20, and gets 15; node 1 has 20 and keeps 15
///     subdomain 1: node 1 has 15 and keeps 20; node 2 has 0 and keeps 1
#[test]
fn holds_that_are_just_afforded() {
    leads_to(&with_own(20), 1, [0, 0, 1], [0, 15, 1]);
    moves_are(&with_own(20), &[[0, 1, 0, 15]]);
}

/// If node 1 holds it, that is one too many, and least is used:
///
///     50 + 0 + 21 = 35 × 2 + 1
///     subdomain 0: node 0 has 0 and keeps 20; node 1 has 0 and keeps 30
///     subdomain 1: node 1 has 30 and keeps 5; node 2 has 0 and gets 16
#[test]
fn holds_that_are_one_too_many() {
    leads_to(&with_own(21), 1, [0, 0, 1], [0, 30, 16]);
    moves_are(&with_own(21), &[[1, 1, 2, 16]]);
}

/// "its own-subdomain holding": what it holds itself. Of subdomain 1, which has 20
/// particles, node 1 holds 5. So it has space for all of its 30, and nothing moves.
#[test]
fn what_others_hold_is_no_hold() {
    let cells = [(0, 0, 20), (1, 0, 30), (1, 1, 5), (2, 1, 15)];
    let step = along([0, 0, 1], FIFTY_PERCENT, &cells);
    leads_to(&step, 1, [0, 0, 1], [0, 30, 15]);
    moves_are(&step, &[]);
}

/// "capped at L": node 1 holds 70 of its own, and L is 36. 30 + 0 + 36 is afforded,
/// where 30 + 0 + 70 would not be. Node 1 has no space for subdomain 0. With least, 34,
/// it would keep 2 of its 10, and node 2 would be at the limit.
#[test]
fn hold_is_capped() {
    let cells = [(0, 0, 20), (1, 0, 10), (1, 1, 70)];
    let step = along([0, 0, 1], TEN_PERCENT, &cells);
    leads_to(&step, 1, [0, 0, 1], [0, 0, 34]);
}

/// "the larger of its least": node 1 holds 10 of its own subdomain, of which 24 cannot
/// go to node 2. Its space for subdomain 0 is 36 − 24, so that it keeps 12 of its 30.
#[test]
fn least_above_what_is_held() {
    let cells = [(0, 0, 10), (1, 0, 30), (1, 1, 10), (2, 1, 50)];
    let step = along([0, 0, 1], TEN_PERCENT, &cells);
    leads_to(&step, 1, [0, 0, 1], [0, 12, 36]);
}

/// "plus its R": L is 30 in a chain. In the family of node 1, R is what node 1 keeps of
/// subdomain 0, 5 or 6, and 25 + 5 + 30 = 30 × 2. Without R both would be afforded.
///
/// With 5, node 2 has no space for subdomain 1, which goes to node 1, and keeps its own
/// 30. With 6 it has its least, 10, and keeps the 20 that it holds of subdomain 1; so
/// 20 of its own go to node 3.
#[test]
fn the_owners_share_counts() {
    let with = |held: u32| {
        let upper = [(0, 0, 35 - held), (1, 0, held), (1, 1, 5)];
        let lower = [(2, 1, 20), (2, 2, 30), (3, 3, 10)];
        along([0, 0, 1, 2], 200, &[upper, lower].concat())
    };
    leads_to(&with(5), 1, [0, 0, 1, 2], [0, 5, 0, 0]);
    leads_to(&with(6), 1, [0, 0, 1, 2], [0, 6, 20, 20]);
}

/// "the family's size": its owner counts, too. L is 30, and 50 + 0 + 20 + 10 is more
/// than 30 × 2 and at most 30 × 3. Nodes 1 and 2 have space for 10 and 20 of subdomain
/// 0. With least, 10, node 1 would keep its 20.
#[test]
fn the_owner_counts_in_the_size() {
    let root = [(0, 0, 10), (1, 0, 20), (1, 1, 20)];
    let others = [(2, 0, 20), (2, 2, 10), (3, 3, 20)];
    let step = along([0, 0, 0, 1], 200, &[root, others].concat());
    leads_to(&step, 1, [0, 0, 0, 1], [0, 10, 20, 0]);
}

/// Each family decides by itself. L is 30:
///
///     family of 0: 45 + 0 + 5 is at most 30 × 2. Node 0 has 0, keeps 15 and gets 5;
///                  node 1 has 5 and keeps 25
///     family of 1: 25 + 25 + 30 is more. Node 1 has 25 and keeps 5; node 2 has 0 and
///                  keeps 20
///     family of 2: 30 + 20 + 0 is at most 30 × 2. Node 2 has 20 and keeps 10; node 3
///                  has 0 and gets 20
#[test]
fn afforded_above_and_not_below() {
    let upper = [(0, 0, 15), (1, 0, 30), (1, 1, 5)];
    let lower = [(2, 1, 20), (2, 2, 30)];
    let step = along([0, 0, 1, 2], 200, &[&upper[..], &lower].concat());
    leads_to(&step, 1, [0, 0, 1, 2], [0, 25, 20, 20]);
}

/// The other way round, with two helpers below. L is 30:
///
///     family of 0: 45 + 0 + 20 is more than 30 × 2. Node 0 has 0 and keeps 25; node 1
///                  has 0 and keeps 20
///     family of 1: 20 + 20 + 20 + 0 is at most 30 × 3. Node 1 has 20 and keeps 10;
///                  node 2 has 20; node 3 has 0 and gets 10
///     family of 2: 20 + 0 + 15 is at most 30 × 2. Node 2 has 0 and keeps 20
#[test]
fn afforded_below_and_not_above() {
    let upper = [(0, 0, 25), (1, 0, 20), (1, 1, 20)];
    let lower = [(2, 2, 20), (4, 4, 15)];
    let step = along(
        [0, 0, 1, 1, 2],
        FIFTY_PERCENT,
        &[&upper[..], &lower].concat(),
    );
    leads_to(&step, 1, [0, 0, 1, 1, 2], [0, 20, 0, 10, 0]);
}

/// A billion particles, and L is 499,666,666. Of subdomain 1 node 1 holds 299,333,332,
/// and 700,000,000 + 0 + 299,333,332 = 499,666,666 × 2; or it holds one more.
#[test]
fn holds_of_hundreds_of_millions() {
    let with = |own: u32| {
        let upper = [(0, 0, 300_000_000), (1, 0, 400_000_000)];
        let lower = [(1, 1, own), (2, 1, 300_000_000 - own)];
        along([0, 0, 1], 499, &[upper, lower].concat())
    };
    // Node 1 keeps 499,666,666 − 299,333,332 of subdomain 0.
    let shares = [0, 200_333_334, 666_668];
    leads_to(&with(299_333_332), 1, [0, 0, 1], shares);
    // It keeps all, and 99,666,666 of its own.
    let shares = [0, 400_000_000, 200_333_334];
    leads_to(&with(299_333_333), 1, [0, 0, 1], shares);
}

/// A billion particles and the largest tolerance: L is 31,234,375, and the family of
/// node 0 has all nodes but the last, which helps node 1. So L times its size is
/// 1,967,765,625. Nodes 1 to 62 have 7 million each, the last one 30 million and node 0
/// the others. Of these node 0 keeps 31,234,375, and 504,765,625 = 62 × 8,141,381 + 3
/// go to the helpers, who all stand at 7 million. With least node 1 would stand lower.
#[test]
fn the_largest_family() {
    let million = 1_000_000;
    let mut counts = [7 * million; 64];
    counts[0] = 536 * million;
    counts[63] = 30 * million;
    let (mut helpands, mut shares) = ([0; 64], [8_141_381; 64]);
    helpands[63] = 1;
    (shares[0], shares[63]) = (0, 0);
    shares[1..4].fill(8_141_382);
    let step = own(999, &counts, old(&helpands));
    leads_to(&step, 1, helpands, shares);
}

// Rebuilding.

/// "l is the node in A with the smallest load", not with the largest need.
/// Targets 11, 10, 10, 10: nodes 0 and 1 both need 6, and node 1 is first.
#[test]
fn smallest_load_not_largest_need() {
    let step = own(ONE_PERCENT, &[5, 4, 17, 15], NO_PLAN);
    leads_to(&step, 2, [3, 2, 2, 2], [6, 6, 0, 1]);
}

/// "the node in B with the largest load", not with the largest surplus. Targets
/// 11, 10, 10: nodes 0 and 1 both have 15, and node 0 is helped first.
#[test]
fn largest_load_not_largest_surplus() {
    leads_to(
        &own(ONE_PERCENT, &[15, 15, 1], NO_PLAN),
        2,
        [1, 1, 0],
        [5, 0, 9],
    );
}

/// "lowest number on ties", for l and for g.
#[test]
fn ties() {
    let step = own(ONE_PERCENT, &[2, 2, 19, 17], NO_PLAN);
    leads_to(&step, 2, [2, 3, 2, 2], [8, 8, 0, 1]);
    let step = own(ONE_PERCENT, &[2, 2, 18, 18], NO_PLAN);
    leads_to(&step, 2, [2, 3, 2, 2], [8, 8, 0, 0]);
}

/// "g's load is at least the need": its load by then. Targets 3, 3, 2, 2: node
/// 0 takes 3 of node 3's 5, and the 2 left are not enough for node 1.
#[test]
fn old_helpand_lacks_the_need_by_then() {
    let step = own(ONE_PERCENT, &[0, 0, 5, 5], old(&[3, 3, 3, 3]));
    leads_to(&step, 2, [3, 2, 2, 2], [3, 3, 0, 0]);
}

/// "at least the need": just the need will do. Targets 2: node 0 takes all that
/// node 1 has, although node 2 has more.
#[test]
fn old_helpand_has_just_the_need() {
    let step = own(ONE_PERCENT, &[0, 2, 4], old(&[1, 1, 1]));
    leads_to(&step, 2, [1, 2, 2], [2, 2, 0]);
    // Targets 2, 2, 1: node 0 takes both of node 2's.
    let step = own(ONE_PERCENT, &[0, 3, 2], old(&[2, 2, 2]));
    leads_to(&step, 2, [2, 1, 1], [2, 0, 1]);
}

/// "g is in B": not in A, and not finished.
#[test]
fn old_helpand_not_in_b() {
    let star = || old(&[0, 0, 0]);
    // Node 2 needs 23. Node 0 has 30, but that is under its target 34.
    leads_to(
        &own(TEN_PERCENT, &[30, 60, 10], star()),
        2,
        [1, 1, 1],
        [4, 0, 23],
    );
    // Node 2 needs 3. Node 0 had 25 and is finished.
    leads_to(
        &own(TEN_PERCENT, &[25, 45, 30], star()),
        2,
        [1, 1, 1],
        [9, 0, 3],
    );
}

/// "Group A holds nodes with load under target, group B the others": node 0 is
/// at its target 34, helped by node 2 and then in need itself.
#[test]
fn at_target_is_in_b() {
    let step = own(TEN_PERCENT, &[34, 60, 6], old(&[0, 0, 0]));
    leads_to(&step, 2, [1, 1, 0], [27, 0, 27]);
}

/// "Otherwise g is the node in B with the largest load": node 2 helps node 0
/// with 41, its old helpand, before node 1 with 50. Without an old tree it helps
/// node 1.
#[test]
fn old_helpand_before_the_largest() {
    let step = own(TEN_PERCENT, &[41, 50, 9], old(&[0, 0, 0]));
    leads_to(&step, 2, [1, 1, 0], [17, 0, 24]);
    let step = own(TEN_PERCENT, &[41, 50, 9], NO_PLAN);
    leads_to(&step, 2, [0, 0, 1], [0, 7, 24]);
}

/// "the others in B help it with share 0", whomever they helped before: nodes 1
/// to 4 are at their targets 10 once node 0 is finished, and 1 is the lowest.
#[test]
fn the_lowest_in_b_is_the_root() {
    let step = own(ONE_PERCENT, &[0, 10, 10, 10, 20], old(&[0, 0, 1, 2, 3]));
    // Node 0 was the root and helps the largest.
    leads_to(&step, 2, [4, 1, 1, 1, 1], [10, 0, 0, 0, 0]);
}

// Moves.

/// "Both are gone through by rising number, and each pair moves the smaller of
/// what remains."
#[test]
fn pairs_in_rising_order() {
    // Subdomain 4 is held by all, and they are all of its family.
    let cells = [cell(0, 4), cell(1, 4), cell(2, 4), cell(3, 4), cell(4, 4)];
    let sheet = sheet(5, ONE_PERCENT, &cells, &[7, 2, 4, 1, 1]).bytes();
    let old = old(&[4, 4, 4, 4, 4]);
    // L is 3, and all of it is 15: every node has 3.
    let step = Step { sheet, old };
    leads_to(&step, 1, [4; 5], [3, 3, 3, 3, 0]);
    for implementation in IMPLEMENTATIONS {
        let Judged { moves, .. } = judged(implementation, &step, "pairs");
        // Over: 4 at 0, 1 at 2. Short: 1 at 1, 2 at 3, 2 at 4.
        let route = |sender: u32, receiver: u32| 4 * 4096 + sender * 64 + receiver;
        let routes = [route(0, 1), route(0, 3), route(0, 4), route(2, 4)];
        assert_eq!(moves.routes, routes);
        assert_eq!(moves.counts, [1, 2, 1, 1]);
    }
}
