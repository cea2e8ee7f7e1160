//! The tests can fail: whoever gives the rest of a family otherwise than request
//! 2026-03 says, or uses hold otherwise than 2026-07 says, in ways that are
//! plausible, is reported by the run and by what must hold of a planned step. All
//! else they do as the second implementation.
#![forbid(unsafe_code)]

use firrozka_tests::bounds::NODES;
use firrozka_tests::calls::PLAN_STEP;
use firrozka_tests::demands::{judge, must_judge};
use firrozka_tests::implementations::{Implementation, OWNER_FIRST, REFERENCE, WITH_LEAST};
use firrozka_tests::reference::keeping::{
    least_always, level_filling, Family, Helper, Member, Rules, Undivided, RULES,
};
use firrozka_tests::reference::{plan_step_with, sheet};
use firrozka_tests::settings::SEED;
use firrozka_tests::steps::{self, Size};
use firrozka_tests::worked;

/// Planners with other rules for the shares in a kept tree.
macro_rules! planners {
    ($($name:literal, $rules:expr;)*) => {
        [$(Implementation {
            name: $name,
            plan_step: |sheet, old, plan, moves| plan_step_with($rules, [sheet, old], plan, moves),
            ..REFERENCE
        }),*]
    };
}

/// Planners with other fillings.
macro_rules! filling {
    ($($name:literal, $fill:expr;)*) => {
        planners! { $($name, Rules { fill: $fill, ..RULES };)* }
    };
}

/// Planners whose members keep otherwise. They may not find space for all of the rest.
macro_rules! keeping {
    ($($name:literal, $keep:expr;)*) => {
        planners! { $($name, Rules { keep: $keep, fill: as_far_as_there_is_space };)* }
    };
}

fn reported(wrong: &[Implementation]) {
    for planner in wrong {
        PLAN_STEP.must_report(planner);
        must_judge(planner);
    }
}

/// Fills the members in another order: on ties the first is given.
fn in_order<K: Ord>(members: &mut [Member], rest: u64, key: fn(&Member) -> K) {
    members.sort_by_key(key);
    level_filling(members, rest);
    members.sort_by_key(|member| member.node);
}

/// Fills the members as if they were others, and gives them what those get.
fn as_if(members: &mut [Member], rest: u64, other: impl Fn(&Member) -> Member) {
    let mut others: Vec<Member> = members.iter().map(other).collect();
    let before: Vec<u64> = others.iter().map(|other| other.amount).collect();
    level_filling(&mut others, rest);
    for (at, member) in members.iter_mut().enumerate() {
        member.amount += others[at].amount - before[at];
    }
}

/// Fills the members in this order, each up to its space.
fn in_turn<K: Ord>(members: &mut [Member], mut rest: u64, key: fn(&Member) -> K) {
    members.sort_by_key(key);
    for member in members.iter_mut() {
        let more = rest.min(member.space_left());
        member.amount += more;
        rest -= more;
    }
    members.sort_by_key(|member| member.node);
}

/// The members that are given something, and how much.
fn given(members: &[Member], rest: u64) -> Vec<(usize, u64)> {
    let mut after = members.to_vec();
    level_filling(&mut after, rest);
    let more = |at: usize| after[at].amount - members[at].amount;
    let all = (0..members.len()).map(|at| (at, more(at)));
    all.filter(|&(_, more)| more > 0).collect()
}

/// A member without what it keeps, and with as much less space.
fn without_kept(member: &Member) -> Member {
    Member {
        space: member.space_left(),
        amount: 0,
        ..*member
    }
}

#[test]
fn ties() {
    reported(&filling! {
        "ties to the highest number, the leftover by falling number", |members, rest| {
            in_order(members, rest, |member| std::cmp::Reverse(member.node));
        };
        "ties to the owner", |members, rest| {
            in_order(members, rest, |member| !member.is_owner);
        };
        "ties to the helpers", |members, rest| {
            in_order(members, rest, |member| member.is_owner);
        };
        "ties to the smaller base", |members, rest| {
            in_order(members, rest, |member| (member.base, member.node));
        };
        "ties to the smaller amount", |members, rest| {
            in_order(members, rest, |member| (member.amount, member.node));
        };
    });
}

#[test]
fn standing_loads() {
    reported(&filling! {
        "without R", |members, rest| {
            let base = |member: &Member| if member.is_owner { 0 } else { member.base };
            as_if(members, rest, |member| Member { base: base(member), ..*member });
        };
        "without least", |members, rest| {
            let base = |member: &Member| if member.is_owner { member.base } else { 0 };
            as_if(members, rest, |member| Member { base: base(member), ..*member });
        };
        "without R and least", |members, rest| {
            as_if(members, rest, |member| Member { base: 0, ..*member });
        };
        "without what is kept", |members, rest| as_if(members, rest, without_kept);
        "one each in turn", |members, rest| {
            as_if(members, rest, |member| Member { base: 0, ..without_kept(member) });
        };
    });
}

#[test]
fn orders() {
    reported(&[OWNER_FIRST]);
    reported(&filling! {
        "the helpers first", |members, rest| in_turn(members, rest, |member| member.is_owner);
        "by rising number", |members, rest| in_turn(members, rest, |member| member.node);
        "the lowest filled before the next", |members, rest| {
            in_turn(members, rest, Member::standing_load);
        };
        "the highest first", |members, rest| in_turn(members, rest, Member::space_left);
    });
}

#[test]
fn levels() {
    reported(&filling! {
        "the level one too high, while the rest lasts", |members, rest| {
            raise_while_it_lasts(members, rest);
        };
        "the leftover to the first", |members, rest| leftover_to(members, rest, |_| true);
        "the leftover to the owner", |members, rest| {
            leftover_to(members, rest, |member| member.is_owner);
        };
        "the last member that rises left out", |members, rest| {
            all_but_the_last(members, rest);
        };
    });
}

/// By rising number, up to the level that the first ones reach.
fn raise_while_it_lasts(members: &mut [Member], mut rest: u64) {
    let given = given(members, rest);
    let reached = |&(at, more): &(usize, u64)| members[at].standing_load() + more;
    let level = given.iter().map(reached).max().unwrap_or(0);
    for (at, _) in given {
        let more = rest.min(level - members[at].standing_load());
        members[at].amount += more;
        rest -= more;
    }
}

/// What is too little for all that rise goes to one of them, as far as it has
/// space.
fn leftover_to(members: &mut [Member], rest: u64, receives: fn(&Member) -> bool) {
    let mut one_less = rest;
    let even = |rest: u64| {
        let after = given(members, rest);
        let mut loads = after
            .iter()
            .map(|&(at, more)| members[at].standing_load() + more);
        let first = loads.next();
        loads.all(|load| Some(load) == first)
    };
    while !even(one_less) {
        one_less -= 1;
    }
    level_filling(members, one_less);
    let mut left = rest - one_less;
    if let Some(member) = members.iter_mut().find(|member| receives(member)) {
        let more = left.min(member.space_left());
        member.amount += more;
        left -= more;
    }
    level_filling(members, left);
}

/// Of those that rise, the last one's part goes to the others as far as they
/// have space.
fn all_but_the_last(members: &mut [Member], rest: u64) {
    let mut left = rest;
    if let [some @ .., _] = &given(members, rest)[..] {
        for &(at, _) in some {
            let more = left.min(members[at].space_left());
            members[at].amount += more;
            left -= more;
        }
    }
    level_filling(members, left);
}

/// Standing load and space left are L together, so the lowest member has space as
/// long as anybody has some: who does not look at the space still plans right. Who
/// gives all to the owner without looking does not.
#[test]
fn spaces() {
    let [forgotten] = filling! {
        "the space forgotten", |members, rest| {
            as_if(members, rest, |member| Member { space: 1 << 40, ..*member });
        };
    };
    let met = PLAN_STEP.run(&forgotten, SEED, 2_000);
    assert!(met.is_ok(), "{:?}", met.err());
    reported(&filling! {
        "all to the owner, whatever its space", |members, rest| {
            let owner = members.iter_mut().find(|member| member.is_owner);
            owner.expect("a family has an owner").amount += rest;
        };
    });
}

// Hold, request 2026-07.

/// What is left then stays with the owner.
fn as_far_as_there_is_space(members: &mut [Member], rest: u64) {
    let space = members.iter().map(Member::space_left).sum();
    level_filling(members, rest.min(space));
}

/// Hold where this says that the family affords it, least otherwise.
fn if_so(affords: bool, family: &Undivided) -> Family {
    match affords {
        true => family.keeping(|helper| helper.hold),
        false => least_always(family),
    }
}

/// The rule with other holds. No space is below 0.
fn with_holds(family: &Undivided, hold: impl Fn(&Helper) -> u64) -> Family {
    let holds: u64 = family.helpers.iter().map(&hold).sum();
    match family.total() + family.share() + holds <= family.room() {
        true => family.keeping(|helper| hold(helper).min(family.weighing.limit)),
        false => least_always(family),
    }
}

/// The rule with what a node holds of a subdomain in the place of a helper's own.
fn with_cells(family: &Undivided, cell: impl Fn(usize) -> [usize; 2]) -> Family {
    with_holds(family, |helper| {
        let [holder, subdomain] = cell(helper.node);
        let held = family.table.counts[holder][subdomain];
        helper.least.max(held.min(family.weighing.limit))
    })
}

/// The family with this in the helpers' standing loads, whatever their space is.
fn standing_at(mut kept: Family, family: &Undivided, base: fn(&Helper) -> u64) -> Family {
    for helper in &family.helpers {
        let mut members = kept.members.iter_mut();
        let member = members.find(|member| member.node == helper.node);
        member.expect("a helper is a member").base = base(helper);
    }
    kept
}

#[test]
fn other_holds() {
    reported(&keeping! {
        "hold without the cap", |family| {
            let own = |node: usize| family.table.counts[node][node];
            with_holds(family, |helper| helper.least.max(own(helper.node)))
        };
        "hold without least", |family| {
            let own = |node: usize| family.table.counts[node][node];
            with_holds(family, |helper| own(helper.node).min(family.weighing.limit))
        };
        "all particles of the subdomain, whoever holds them", |family| {
            let (totals, limit) = (family.weighing.totals, family.weighing.limit);
            with_holds(family, |helper| totals[helper.node].min(limit))
        };
        "what the helper holds of its helpand's subdomain", |family| {
            with_cells(family, |helper| [helper, family.owner])
        };
        "what the owner holds of the helper's subdomain", |family| {
            with_cells(family, |helper| [family.owner, helper])
        };
    });
}

#[test]
fn other_conditions() {
    reported(&[WITH_LEAST]);
    reported(&keeping! {
        "hold always", |family| if_so(true, family);
        "the family's size without its owner", |family| {
            let room = family.room() - family.weighing.limit;
            if_so(family.load_with_holds() <= room, family)
        };
        "the condition without R", |family| {
            if_so(family.load_with_holds() - family.share() <= family.room(), family)
        };
        "R of the owner's helpand", |family| {
            let above = family.weighing.helpands[family.owner] as usize;
            let load = family.load_with_holds() - family.share() + family.shares[above];
            if_so(load <= family.room(), family)
        };
        "the condition strict", |family| {
            if_so(family.load_with_holds() < family.room(), family)
        };
        "the condition one too wide", |family| {
            if_so(family.load_with_holds() <= family.room() + 1, family)
        };
        "as the root's family decides", |family| {
            let helpands = family.weighing.helpands;
            let root = (0..helpands.len()).find(|&node| helpands[node] as usize == node);
            let root = root.expect("a tree has a root");
            let roots = Undivided::new(root, family.shares, family.weighing, family.table);
            if_so(roots.affords_holds(), family)
        };
        "each helper by itself", |family| {
            let leasts: u64 = family.helpers.iter().map(|helper| helper.least).sum();
            let others = family.total() + family.share() + leasts;
            family.keeping(|helper| match others + helper.hold - helper.least <= family.room() {
                true => helper.hold,
                false => helper.least,
            })
        };
    });
}

#[test]
fn hold_in_one_place_only() {
    reported(&keeping! {
        "hold in the space, least in the standing load", |family| {
            let kept = if_so(family.affords_holds(), family);
            standing_at(kept, family, |helper| helper.least)
        };
        "least in the space, hold in the standing load", |family| {
            let kept = least_always(family);
            match family.affords_holds() {
                true => standing_at(kept, family, |helper| helper.hold),
                false => kept,
            }
        };
    });
}

/// What the judge says where a helper's own particles are sent away although the
/// family affords to leave them.
#[test]
fn own_particles_leave() {
    let step = worked::with_own(20);
    let said = judge(&WITH_LEAST, &step).err();
    assert_eq!(said.as_deref(), Some("a helper's own particles leave"));
    assert!(judge(&REFERENCE, &step).is_ok());
}

/// L times N is less than twice the largest total. And P, R and the holds are particles
/// of different subdomains, so that together they are no more than all.
#[test]
fn sums_of_32_bits() {
    let most = |n: u32| u64::from(n) * sheet::limit(1_000_000_000, n.into(), 999);
    assert_eq!(NODES.map(most).max(), Some(1_999_000_000));
    for index in 0..500 {
        let step = steps::at(SEED, index, Size::Any);
        let loads = step.in_kept_families(|family| family.load_with_holds());
        let total = (REFERENCE.read_sheet)(&step.sheet).p;
        assert!(loads.into_iter().all(|load| load <= total.into()));
    }
}

/// So who lets the sums wrap at 32 bits still plans right.
#[test]
fn sums_that_wrap() {
    let [wrapping] = keeping! {
        "sums that wrap at 32 bits", |family| {
            let sum = [family.total(), family.share()].into_iter();
            let sum = sum.chain(family.helpers.iter().map(|helper| helper.hold));
            let load = sum.fold(0u32, |sum, more| sum.wrapping_add(more as u32));
            let size = family.helpers.len() as u32 + 1;
            if_so(load <= size.wrapping_mul(family.weighing.limit as u32), family)
        };
    };
    let met = PLAN_STEP.run(&wrapping, SEED, 2_000);
    assert!(met.is_ok(), "{:?}", met.err());
}
