//! The archive and the second implementation each on its own terms: the steps
//! worked by hand, and thousands of seeded steps judged by demand 3 and by what
//! `demands` says of the rules.
//!
//! FIRROZKA_SEED gives another run, FIRROZKA_STEPS another number of steps. The
//! counts are printed with `-- --nocapture`.
#![forbid(unsafe_code)]

use firrozka_tests::demands::{judged, Judged};
use firrozka_tests::implementations::{Implementation, IMPLEMENTATIONS};
use firrozka_tests::random::Random;
use firrozka_tests::records::plans::depth;
use firrozka_tests::records::to_words;
use firrozka_tests::reference::keeping::{
    hold_or_least, in_families, level_filling, Family, Helper, Member, Undivided,
};
use firrozka_tests::reference::plan::{self, Plan};
use firrozka_tests::reference::sheet;
use firrozka_tests::reference::table::Table;
use firrozka_tests::settings::{seed, setting, SEED};
use firrozka_tests::steps::pairs::{self, Pair};
use firrozka_tests::steps::{self, Size, Step};
use firrozka_tests::{exhaustive, worked};

const STEPS: u64 = 6_000;
/// For each N.
const PAIRS: u64 = 8;

// Steps worked by hand.

/// The plan of a worked step has this kind, limit, helpands and shares.
fn leads_to<const N: usize>(
    step: Step,
    [kind, limit]: [u32; 2],
    helpands: [u32; N],
    shares: [u32; N],
) -> [Judged; IMPLEMENTATIONS.len()] {
    let expected = Plan {
        n: N as u32,
        kind,
        limit,
        helpands: helpands.to_vec(),
        shares: shares.to_vec(),
    };
    IMPLEMENTATIONS.map(|implementation| {
        let judged = judged(implementation, &step, "a worked step");
        assert_eq!(judged.plan, expected, "{}", implementation.name);
        judged
    })
}

/// "A: N 1, E 0: L 0, kind 0, no moves."
#[test]
fn step_a() {
    for judged in leads_to(worked::a(), [0, 0], [0], [0]) {
        assert!(judged.moves.routes.is_empty());
    }
}

/// "B: t 1, counts 2, 1: L 2, kind 0."
#[test]
fn step_b() {
    leads_to(worked::b(), [0, 2], [0, 1], [0, 0]);
}

/// "C: t 1, counts 3, 0, no plan: kind 2, helpands 0, 0, shares 0, 1." And "A
/// limit only rounded down: in C it is 1".
#[test]
fn step_c() {
    leads_to(worked::c(), [2, 2], [0, 0], [0, 1]);
}

/// "D: 90, 6, 4: sheet words 3 10 3 0 65 130 90 6 4; plan words 3 2 36 0 0 0 0
/// 27 29; moves words 3 2 1 2 27 29." With ten times its t.
#[test]
fn step_d() {
    let step = worked::d();
    assert_eq!(to_words(&step.sheet), [3, 100, 3, 0, 65, 130, 90, 6, 4]);
    for implementation in IMPLEMENTATIONS {
        let planned = implementation.plan(&step);
        assert_eq!(to_words(&planned.plan), [3, 2, 36, 0, 0, 0, 0, 27, 29]);
        assert_eq!(to_words(&planned.moves), [3, 2, 1, 2, 27, 29]);
        assert_eq!(planned.plan, worked::d_plan());
    }
    leads_to(step, [2, 36], [0, 0, 0], [0, 27, 29]);
}

/// "kept, shares 0, 27, 29, moves of 1 from 2 to 0 in subdomain 0 and of 3 from
/// 0 to 2 in subdomain 2"
#[test]
fn step_e() {
    for judged in leads_to(worked::e(), [1, 36], [0, 0, 0], [0, 27, 29]) {
        assert_eq!(judged.moves.routes, [2 * 64, 2 * 4096 + 2]);
        assert_eq!(judged.moves.counts, [1, 3]);
    }
}

/// "F: D's plan, 50, 40, 10: helpands 1, 1, 0, shares 7, 0, 23."
#[test]
fn step_f() {
    leads_to(worked::f(), [2, 36], [1, 1, 0], [7, 0, 23]);
}

/// "G: t 1, counts 0, 5, 2, old helpands 2, 0, 2: L 3, new helpands 1, 1, 1,
/// shares 3, 0, 0."
#[test]
fn step_g() {
    leads_to(worked::g(), [2, 3], [1, 1, 1], [3, 0, 0]);
}

/// "H: old helpands 0, 0, 1; 28, 72, 0: kept, shares 0, 0, 36."
#[test]
fn step_h() {
    leads_to(worked::h(), [1, 36], [0, 0, 1], [0, 0, 36]);
}

/// "I: the same, 27, 73, 0: rebuilt, helpands 1, 1, 1, shares 7, 0, 33."
#[test]
fn step_i() {
    leads_to(worked::i(), [2, 36], [1, 1, 1], [7, 0, 33]);
}

/// "J: 36, 36, 28: kind 0."
#[test]
fn step_j() {
    leads_to(worked::j(), [0, 36], [0, 1, 2], [0, 0, 0]);
}

/// "K: 37, 35, 28, no plan: helpands 1, 1, 0, shares 2, 0, 5."
#[test]
fn step_k() {
    leads_to(worked::k(), [2, 36], [1, 1, 0], [2, 0, 5]);
}

// Seeded steps.

/// Every step is judged: kept exactly when the flow finds a rival's division,
/// kept shares are one, rebuilt loads are the targets, the moves lead to the due
/// amounts, and all records are read back. And in a kept tree a family affords its
/// helpers' holds exactly when beside these it has space for all of its subdomain.
#[test]
fn seeded_steps() {
    let seed = seed();
    let mut kinds = [0; 3];
    let mut corners = corners();
    let steps = setting("FIRROZKA_STEPS", STEPS);
    for index in 0..steps {
        let step = steps::at(seed, index, Size::Any);
        let place = format!("FIRROZKA_SEED={seed}, step {index}");
        let [judged, _] =
            IMPLEMENTATIONS.map(|implementation| judged(implementation, &step, &place));
        kinds[judged.plan.kind as usize] += 1;
        let families = match judged.plan.kind {
            1 => in_families(&judged.plan, &judged.held, Seen::of),
            _ => Vec::new(),
        };
        for seen in &families {
            let has_space = seen.space_beside_holds >= seen.total;
            assert_eq!(seen.load <= seen.room, has_space, "{place}");
        }
        for corner in &mut corners {
            corner.times += u64::from((corner.met)(&judged, &families));
        }
    }
    let [primary, kept, rebuilt] = kinds;
    println!("{primary} primary, {kept} kept, {rebuilt} rebuilt");
    for corner in &corners {
        println!("{} with {}", corner.times, corner.what);
        let met = corner.times > 0 || steps < STEPS;
        assert!(met, "no step with {}", corner.what);
    }
}

/// A corner of the input space, which a run has to meet. Without this it could
/// pass on easy steps.
struct Corner {
    what: String,
    met: Met,
    times: u64,
}

/// Whether a step is of some sort, or its families with helpers are, if it is kept.
type Met = Box<dyn Fn(&Judged, &[Seen]) -> bool>;

fn corners() -> Vec<Corner> {
    let mut all = Vec::new();
    let mut add = |what: String, met: Met| {
        let times = 0;
        all.push(Corner { what, met, times });
    };
    for kind in 0..=2 {
        for n in [2, 3, 63, 64] {
            let what = format!("kind {kind} and N {n}");
            add(what, of_kind(kind, move |step| step.sheet.n == n));
        }
        for t in [1, 999] {
            let what = format!("kind {kind} and t {t}");
            add(what, of_kind(kind, move |step| step.sheet.t == t));
        }
        for (what, met) in EACH_KIND {
            add(format!("kind {kind} and {what}"), of_kind(kind, met));
        }
    }
    for (what, met) in ONCE {
        add(what.into(), Box::new(move |step, _| met(step)));
    }
    for (what, met) in FILLED {
        let some = some_family(move |seen| seen.family.rest > 0 && met(&seen.family));
        add(format!("kind 1 and {what}"), some);
    }
    for (what, met) in HELD {
        add(format!("kind 1 and {what}"), some_family(met));
    }
    let both = |_: &Judged, families: &[Seen]| {
        let decided = |how| families.iter().any(|seen| seen.decision == Some(how));
        decided(true) && decided(false)
    };
    let what = "kind 1 and holds that are afforded beside holds that are not";
    add(what.into(), Box::new(both));
    all
}

fn of_kind(kind: u32, met: impl Fn(&Judged) -> bool + 'static) -> Met {
    Box::new(move |step, _| step.plan.kind == kind && met(step))
}

fn some_family(met: impl Fn(&Seen) -> bool + 'static) -> Met {
    Box::new(move |_, families| families.iter().any(&met))
}

/// A family with helpers in a kept tree.
struct Seen {
    /// As it is before the rest is given.
    family: Family,
    helpers: Vec<Helper>,
    /// Whether it affords holds that differ from leasts.
    decision: Option<bool>,
    /// P of its owner, and R.
    total: u64,
    share: u64,
    /// "P of the family's owner plus its R plus its helpers' holds", and "L times the
    /// family's size".
    load: u64,
    room: u64,
    /// The load if holds were not capped at L, and if they were of all particles of a
    /// helper's subdomain, whoever has them.
    uncapped: u64,
    whoever_holds: u64,
    /// What the helpers themselves hold of their own, in their order.
    own: Vec<u64>,
    /// All members' space if each helper's is L less its hold.
    space_beside_holds: u64,
}

impl Seen {
    fn of(family: &Undivided) -> Seen {
        let (limit, totals) = (family.weighing.limit, family.weighing.totals);
        let own = |helper: &Helper| family.table.counts[helper.node][helper.node];
        let load_with = |held: &dyn Fn(&Helper) -> u64| {
            let holds = family
                .helpers
                .iter()
                .map(|helper| helper.least.max(held(helper)));
            family.total() + family.share() + holds.sum::<u64>()
        };
        let beside_holds = family.keeping(|helper| helper.hold).members.into_iter();
        Seen {
            family: hold_or_least(family),
            helpers: family.helpers.clone(),
            decision: family.decision(),
            total: family.total(),
            share: family.share(),
            load: family.load_with_holds(),
            room: family.room(),
            uncapped: load_with(&own),
            whoever_holds: load_with(&|helper| totals[helper.node].min(limit)),
            own: family.helpers.iter().map(own).collect(),
            space_beside_holds: beside_holds.map(|member| member.space).sum(),
        }
    }
}

type Named = (&'static str, fn(&Judged) -> bool);
type NamedFamily = (&'static str, fn(&Family) -> bool);
type NamedSeen = (&'static str, fn(&Seen) -> bool);

/// What a run has to meet in each kind.
const EACH_KIND: [Named; 9] = [
    ("N 64 and the largest P", |step| {
        (step.sheet.n, step.sheet.total()) == (64, 1_000_000_000)
    }),
    ("all cells", |step| step.sheet.n > 1 && is_full(step)),
    ("one holder for each subdomain", |step| {
        step.sheet.n > 1 && step.sheet.cells.len() <= step.sheet.n as usize
    }),
    ("a holder from outside the old family", other_nodes_hold),
    ("P no multiple of N", |step| {
        step.sheet.total() % step.sheet.n > 0
    }),
    ("an old chain of 64", |step| old_depth(step) == Some(63)),
    ("an old star of 64", |step| {
        step.sheet.n == 64 && old_depth(step) == Some(1)
    }),
    ("an old tree of middling depth", |step| {
        old_depth(step).map_or(false, |depth| (3..30).contains(&depth))
    }),
    ("no moves", |step| step.moves.routes.is_empty()),
];

/// What else it has to meet.
const ONCE: [Named; 9] = [
    ("N 1", |step| step.sheet.n == 1),
    ("P 0", |step| step.sheet.total() == 0),
    ("all of 4,096 cells", |step| step.sheet.cells.len() == 4_096),
    ("an old tree that holds and is not needed", |step| {
        step.plan.kind == 0 && step.rival
    }),
    ("an old tree that does not hold", |step| {
        step.plan.kind == 2 && step.old.is_some()
    }),
    ("no old tree where one is needed", |step| {
        step.plan.kind == 2 && step.old.is_none()
    }),
    ("ties in the largest total, rebuilt", |step| {
        let largest = step.totals.iter().max();
        let ties = step.totals.iter().filter(|&total| Some(total) == largest);
        step.plan.kind == 2 && ties.count() > 1
    }),
    ("a share at the limit", |step| {
        step.plan.kind == 1 && step.plan.shares.contains(&step.plan.limit)
    }),
    ("nearly N × (N−1) moves", |step| {
        let n = step.sheet.n as usize;
        n > 2 && step.moves.routes.len() >= n * (n - 2)
    }),
];

/// What some family has to be in a kept tree that has helpers and a rest.
const FILLED: [NamedFamily; 9] = [
    ("a rest", |_| true),
    ("a rest of a hundred million", |family| {
        family.rest >= 100_000_000
    }),
    ("a rest and R above 0", |family| owner(family).base > 0),
    ("a rest and an owner between its helpers", |family| {
        let numbers = family.members.iter().map(|member| member.node);
        let (lowest, highest) = (numbers.clone().min(), numbers.max());
        let owner = Some(owner(family).node);
        lowest < owner && owner < highest
    }),
    ("a rest and a full member", |family| {
        family.members.iter().any(|member| member.space_left() == 0)
    }),
    ("a rest that fills all members", |family| {
        let space = family.members.iter().map(Member::space_left);
        space.sum::<u64>() == family.rest
    }),
    ("a tie for the last particle", |family| {
        tied(family).len() > 1
    }),
    ("a tie of the owner and a lower number", |family| {
        tied(family)[1..].contains(&owner(family))
    }),
    ("a tie of the owner and a higher number", |family| {
        let tied = tied(family);
        tied.len() > 1 && tied[0] == owner(family)
    }),
];

/// What some family has to be in a kept tree whose helpers hold particles of their own.
const HELD: [NamedSeen; 11] = [
    ("holds that are afforded", |seen| {
        seen.decision == Some(true)
    }),
    ("holds that are not afforded", |seen| {
        seen.decision == Some(false)
    }),
    ("holds that are just afforded", |seen| {
        seen.decision == Some(true) && seen.load == seen.room
    }),
    ("holds that are one particle too many", |seen| {
        seen.load == seen.room + 1
    }),
    ("holds that are afforded as they are capped", |seen| {
        seen.decision == Some(true) && seen.uncapped > seen.room
    }),
    ("holds that are not afforded beside R", |seen| {
        seen.decision == Some(false) && seen.load - seen.share <= seen.room
    }),
    ("holds that are afforded as others hold the rest", |seen| {
        seen.decision == Some(true) && seen.whoever_holds > seen.room
    }),
    ("holds of which one is least, above what is held", |seen| {
        let mut helpers = seen.helpers.iter().zip(&seen.own);
        seen.decision.is_some() && helpers.any(|(helper, &own)| own < helper.least)
    }),
    ("holds that are afforded, and a rest", |seen| {
        seen.decision == Some(true) && seen.family.rest > 0
    }),
    ("holds that are afforded below the root", |seen| {
        seen.decision == Some(true) && seen.share > 0
    }),
    ("a hold of a hundred million above its least", |seen| {
        let mut helpers = seen.helpers.iter();
        helpers.any(|helper| helper.hold >= helper.least + 100_000_000)
    }),
];

fn owner(family: &Family) -> Member {
    let mut members = family.members.iter();
    *members
        .find(|member| member.is_owner)
        .expect("a family has an owner")
}

/// Those who stand lowest when the last particle of the rest is given, by rising
/// number and as they were at first.
fn tied(family: &Family) -> Vec<Member> {
    let mut members = family.members.clone();
    level_filling(&mut members, family.rest - 1);
    let load = |at: &usize| members[*at].standing_load();
    let with_space = (0..members.len()).filter(|&at| members[at].space_left() > 0);
    let lowest = with_space.clone().map(|at| load(&at)).min();
    with_space
        .filter(|at| Some(load(at)) == lowest)
        .map(|at| family.members[at])
        .collect()
}

fn is_full(step: &Judged) -> bool {
    step.sheet.cells.len() == (step.sheet.n * step.sheet.n) as usize
}

/// Whether someone holds particles who is not of the family.
fn other_nodes_hold(step: &Judged) -> bool {
    let helpand = |node: u32| match &step.old {
        Some(old) => old.helpands[node as usize],
        None => node,
    };
    let cells = step.sheet.cells.iter();
    let mut pairs = cells.map(|cell| (cell / 64, cell % 64));
    pairs.any(|(holder, subdomain)| holder != subdomain && helpand(holder) != subdomain)
}

/// The depth of the old tree.
fn old_depth(step: &Judged) -> Option<usize> {
    step.old.as_ref().map(|old| depth(&old.helpands))
}

/// One particle decides whether the old tree is kept, and whether one is needed,
/// at every N. (Of two nodes, one has room for what the other has above L. A
/// tree breaks only where the helper is above L, and then the owner is below:
/// one particle less, and no tree is needed.)
#[test]
fn pairs_of_steps() {
    let seed = seed();
    for (n, index) in (2..=64).flat_map(|n| (0..PAIRS).map(move |index| (n, index))) {
        let random = &mut Random::at(seed, index);
        let name = format!("FIRROZKA_SEED={seed}, N {n}, pair {index}");
        let primary = pairs::primary(Size::Of(n), random);
        let tree = (n > 2).then(|| pairs::tree(Size::Of(n), random));
        for implementation in IMPLEMENTATIONS {
            let primary = kinds(implementation, &primary, &name);
            assert!(primary[0] == 0 && primary[1] > 0, "{name}");
            if let Some(tree) = &tree {
                assert_eq!(kinds(implementation, tree, &name), [1, 2], "{name}");
            }
        }
    }
}

/// One particle decides whether a family leaves its helpers' own particles in place,
/// at every N that allows a helper with helpers.
#[test]
fn pairs_of_holds() {
    let seed = seed();
    for (n, index) in (3..=64).flat_map(|n| (0..PAIRS).map(move |index| (n, index))) {
        let pair = pairs::holds(Size::Of(n), &mut Random::at(seed, index));
        let name = format!("FIRROZKA_SEED={seed}, N {n}, pair {index}");
        for implementation in IMPLEMENTATIONS {
            just_decided(implementation, &pair, &name);
        }
    }
}

/// Both steps are kept and differ in who holds one particle, which some family affords
/// in the first and not in the second.
fn just_decided(implementation: &Implementation, pair: &Pair, name: &str) {
    let both = [&pair.within, &pair.above].map(|step| judged(implementation, step, name));
    let [within, above] = &both;
    assert_eq!([within.plan.kind, above.plan.kind], [1, 1], "{name}");
    assert_eq!(within.totals, above.totals, "{name}");
    let rows = within.held.counts.iter().zip(&above.held.counts);
    let cells = rows.flat_map(|(a, b)| a.iter().zip(b));
    let apart: u64 = cells.map(|(a, b)| a.abs_diff(*b)).sum();
    assert_eq!(apart, 2, "{name}");
    let [within, above] = both.map(|step| in_families(&step.plan, &step.held, Seen::of));
    let mut families = within.iter().zip(&above);
    let decided = families.any(|(a, b)| a.load == a.room && b.load == b.room + 1);
    assert!(decided, "{name}");
}

/// The kinds of both steps, which differ in one particle and nothing else.
fn kinds(implementation: &Implementation, pair: &Pair, name: &str) -> [u32; 2] {
    let [within, above] =
        [&pair.within, &pair.above].map(|step| judged(implementation, step, name));
    let totals = within.totals.iter().zip(&above.totals);
    let apart: u64 = totals.map(|(a, b)| a.abs_diff(*b)).sum();
    assert_eq!(apart, 2, "{name}");
    assert_eq!(within.limit, above.limit, "{name}");
    assert_eq!(pair.within.old, pair.above.old, "{name}");
    [within.plan.kind, above.plan.kind]
}

/// Every step with up to three nodes, few particles and every old tree or none.
#[test]
fn small_steps() {
    for n in 1..=3 {
        for counts in exhaustive::rows(n, 7) {
            let olds = exhaustive::trees(n).into_iter();
            let olds = olds.map(|helpands| worked::old(&helpands));
            for old in olds.chain([Vec::new()]) {
                let step = worked::own(worked::ONE_PERCENT, &counts, old);
                for implementation in IMPLEMENTATIONS {
                    judged(implementation, &step, "a small step");
                }
            }
        }
    }
}

/// What is written is read back as it was.
#[test]
fn written_and_read_back() {
    for index in 0..1_000 {
        let step = steps::at(SEED, index, Size::Any);
        let sheet = sheet::read(&step.sheet).expect("the sheet is accepted");
        assert_eq!(sheet.bytes(), step.sheet);
        assert_eq!(Table::of(&sheet).sheet(sheet.t), sheet);
        let plans = IMPLEMENTATIONS.map(|implementation| implementation.plan(&step).plan);
        for plan in plans.iter().chain([&step.old]) {
            if !plan.is_empty() {
                let read = plan::read(plan).expect("the plan is accepted");
                assert_eq!(&read.bytes(), plan);
            }
        }
    }
}
