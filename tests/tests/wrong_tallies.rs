//! The runs of tallies can fail: whoever opens or keeps them wrong, in ways that are
//! plausible, is reported. The wrong ones take another limit, count or renew otherwise,
//! leave something of a refusal behind, or make a check otherwise or in the wrong order.
#![forbid(unsafe_code)]

use firrozka_tests::answers::{tallied, Answer, TalliedAnswer};
use firrozka_tests::bounds::MOST_PARTICLES;
use firrozka_tests::calls::OPEN_TALLY;
use firrozka_tests::implementations::{Implementation, OpenTally, TallyCall, REFERENCE};
use firrozka_tests::records::plans;
use firrozka_tests::reference::plan::{self, Plan};
use firrozka_tests::reference::sheet::{self, Sheet};
use firrozka_tests::reference::unopened::{reasons, Reason};
use firrozka_tests::reference::{open_tally, tally_add, tally_remove};
use firrozka_tests::settings::SEED;
use firrozka_tests::tally::{damaged, sequences, Change, Tally, Way};

/// How somebody does a call.
struct Keeper {
    /// Whether the call is refused with 58, with 59 and with 60.
    no_cell: fn(&Tally, &Change) -> bool,
    too_few: fn(&Tally, &Change) -> bool,
    too_many: fn(&Tally, &Change) -> bool,
    /// The order in which that is looked at.
    order: [u32; 3],
    /// What a refused call does to the tally.
    refused: fn(&mut Tally, &Change),
    /// How the particles are counted.
    count: fn(&mut Tally, &Change),
    /// How the leasts are renewed.
    renew: fn(&mut Tally, &Change),
    /// Whether the tree holds, by the tally before the call and behind it.
    holds: fn([&Tally; 2], &Change) -> bool,
}

const KEEPER: Keeper = Keeper {
    no_cell: |tally, change| !reasons(tally, change).is_empty(),
    too_few: |tally, change| change.way == Way::Remove && change.count > held(tally, change),
    too_many: |tally, change| change.way == Way::Add && sum(tally.total, change) > MOST,
    order: [58, 59, 60],
    refused: |_, _| (),
    count: |tally, change| {
        let [holder, subdomain] = change.cell();
        apply(&mut tally.counts[holder * 64 + subdomain], change);
        apply(&mut tally.totals[subdomain], change);
        apply(&mut tally.total, change);
    },
    renew: |tally, change| climb(tally, change, |_, _| true),
    holds: |[_, tally], _| nodes(tally).all(|node| tally.leasts[node] <= tally.limit),
};

const MOST: u64 = MOST_PARTICLES as u64;

fn nodes(tally: &Tally) -> std::ops::Range<usize> {
    0..(tally.n as usize).min(64)
}

/// What the cell has; nothing if there is none.
fn held(tally: &Tally, change: &Change) -> u32 {
    match change.cell() {
        [holder @ 0..=63, subdomain @ 0..=63] => tally.counts[holder * 64 + subdomain],
        _ => 0,
    }
}

/// The particles of the cell's subdomain.
fn of_subdomain(tally: &Tally, change: &Change) -> u32 {
    tally.totals.get(change.cell()[1]).copied().unwrap_or(0)
}

fn sum(number: u32, change: &Change) -> u64 {
    u64::from(number) + u64::from(change.count)
}

fn apply(number: &mut u32, change: &Change) {
    *number = match change.way {
        Way::Add => number.wrapping_add(change.count),
        Way::Remove => number.wrapping_sub(change.count),
    };
}

/// Renews leasts from the subdomain up. After each node it is asked whether to go on.
fn climb(tally: &mut Tally, change: &Change, goes_on: fn(&Tally, usize) -> bool) {
    climb_with(tally, change, least, goes_on);
}

/// The same with another least.
fn climb_with(
    tally: &mut Tally,
    change: &Change,
    least: fn(&Tally, usize) -> u32,
    goes_on: fn(&Tally, usize) -> bool,
) {
    let mut node = change.cell()[1];
    for _ in 0..=nodes(tally).len() {
        let new = least(tally, node);
        if new == tally.leasts[node] {
            return;
        }
        tally.leasts[node] = new;
        let helpand = tally.helpands[node] as usize;
        if helpand == node || helpand >= 64 || !goes_on(tally, node) {
            return;
        }
        node = helpand;
    }
}

fn helpers(tally: &Tally, owner: usize) -> Vec<usize> {
    let helps = |&node: &usize| node != owner && tally.helpands[node] as usize == owner;
    nodes(tally).filter(helps).collect()
}

fn least(tally: &Tally, owner: usize) -> u32 {
    let spare = |&helper: &usize| tally.limit.saturating_sub(tally.leasts[helper]);
    let spares = helpers(tally, owner);
    let start = tally.totals[owner];
    spares
        .iter()
        .fold(start, |left, helper| left.saturating_sub(spare(helper)))
}

fn call(tally: &mut Tally, change: Change, keeper: &Keeper) -> TalliedAnswer {
    for number in keeper.order {
        let is_met = match number {
            58 => keeper.no_cell,
            59 => keeper.too_few,
            _ => keeper.too_many,
        };
        if is_met(tally, &change) {
            (keeper.refused)(tally, &change);
            return Answer::refused(number);
        }
    }
    let before = tally.clone();
    (keeper.count)(tally, &change);
    (keeper.renew)(tally, &change);
    tallied((keeper.holds)([&before, tally], &change))
}

/// Someone with these calls, and an opening that is right.
macro_rules! keeper {
    ($name:expr, $keeper:expr) => {
        Implementation {
            name: $name,
            tally_add: |tally, holder, subdomain, count| {
                call(tally, Change::add(holder, subdomain, count), &$keeper)
            },
            tally_remove: |tally, holder, subdomain, count| {
                call(tally, Change::remove(holder, subdomain, count), &$keeper)
            },
            ..REFERENCE
        }
    };
}

/// Keepers with something otherwise are reported by the run on open tallies.
macro_rules! reported {
    ($field:ident: $($name:literal, $value:expr;)*) => {
        $(sequences::must_report(&keeper!($name, Keeper { $field: $value, ..KEEPER }));)*
    };
}

/// Keepers that are right on every open tally are reported by the run on damaged ones.
macro_rules! reported_if_damaged {
    ($field:ident: $($name:literal, $value:expr;)*) => {
        $({
            let wrong = keeper!($name, Keeper { $field: $value, ..KEEPER });
            let met = sequences::run(&wrong, SEED, 100);
            assert!(met.is_ok(), "{}: {:?}", wrong.name, met.err());
            damaged::must_report(&wrong);
        })*
    };
}

/// With nothing otherwise nothing is reported.
#[test]
fn the_right_one() {
    let right = keeper!("right", KEEPER);
    for met in [
        sequences::run(&right, SEED, 200).map(|_| ()),
        damaged::run(&right, SEED, 1_000).map(|_| ()),
    ] {
        assert!(met.is_ok(), "{:?}", met.err());
    }
}

/// Whether there is a reason for 58 other than this one.
fn others(tally: &Tally, change: &Change, forgiven: Reason) -> bool {
    reasons(tally, change).iter().any(|&it| it != forgiven)
}

/// Whether a node is not there at all.
fn beyond(node: u32) -> bool {
    node >= 64
}

#[test]
fn nodes_and_counts_of_0() {
    reported! { no_cell:
        "a count of 0 taken", |tally, change| others(tally, change, Reason::Count);
        "node N taken", |tally, change| {
            let most = (tally.n + 1).min(64);
            others(tally, change, Reason::Node) || change.holder.max(change.subdomain) >= most
        };
        "the holder alone looked at", |tally, change| {
            others(tally, change, Reason::Node)
                || change.holder >= tally.n
                || beyond(change.subdomain)
        };
        "the subdomain alone looked at", |tally, change| {
            others(tally, change, Reason::Node)
                || change.subdomain >= tally.n
                || beyond(change.holder)
        };
        "64 nodes, whatever N is", |tally, change| {
            others(tally, change, Reason::Node) || beyond(change.holder.max(change.subdomain))
        };
        "the place of the cell alone looked at", |tally, change| {
            let place = 64 * u64::from(change.holder) + u64::from(change.subdomain);
            let most = 64 * u64::from(tally.n);
            others(tally, change, Reason::Node) || place >= most || beyond(change.subdomain)
        };
        "a cell as large as its subdomain's total", |tally, change| {
            (KEEPER.no_cell)(tally, change) || held(tally, change) == of_subdomain(tally, change)
        };
        "a subdomain's total as large as all", |tally, change| {
            (KEEPER.no_cell)(tally, change) || of_subdomain(tally, change) == tally.total
        };
        "counts above the maximum", |tally, change| {
            (KEEPER.no_cell)(tally, change) || change.count > MOST_PARTICLES
        };
        "trees that do not hold", |tally, change| {
            (KEEPER.no_cell)(tally, change) || !(KEEPER.holds)([tally, tally], change)
        };
    }
}

#[test]
fn removing_more_than_there_is() {
    reported! { too_few:
        "the subdomain's total", |tally, change| {
            change.way == Way::Remove && change.count > of_subdomain(tally, change)
        };
        "the total", |tally, change| change.way == Way::Remove && change.count > tally.total;
        "the last particle refused", |tally, change| {
            change.way == Way::Remove && change.count >= held(tally, change)
        };
        "one particle too many", |tally, change| {
            change.way == Way::Remove && u64::from(change.count) > 1 + u64::from(held(tally, change))
        };
        "not looked at", |_, _| false;
        "in adding, too", |tally, change| change.count > held(tally, change);
        "in 31 bits", |tally, change| {
            change.way == Way::Remove && change.count as i32 > held(tally, change) as i32
        };
    }
}

#[test]
fn a_total_above_the_maximum() {
    reported! { too_many:
        "in 32 bits", |tally, change| {
            change.way == Way::Add && tally.total.wrapping_add(change.count) > MOST_PARTICLES
        };
        "in 31 bits", |tally, change| {
            change.way == Way::Add
                && tally.total.wrapping_add(change.count) as i32 > MOST_PARTICLES as i32
        };
        "the maximum refused", |tally, change| {
            change.way == Way::Add && sum(tally.total, change) >= MOST
        };
        "one particle too many", |tally, change| {
            change.way == Way::Add && sum(tally.total, change) > MOST + 1
        };
        "the subdomain's total", |tally, change| {
            change.way == Way::Add && sum(of_subdomain(tally, change), change) > MOST
        };
        "the cell", |tally, change| {
            change.way == Way::Add && sum(held(tally, change), change) > MOST
        };
        "the count", |_, change| change.way == Way::Add && u64::from(change.count) > MOST;
        "what the tree can hold", |tally, change| {
            let room = u64::from(tally.n) * u64::from(tally.limit);
            change.way == Way::Add && sum(tally.total, change) > room.min(MOST)
        };
        "not looked at", |_, _| false;
        "in removing, too", |tally, change| sum(tally.total, change) > MOST;
    }
}

#[test]
fn order() {
    reported! { order:
        "58 after 59", [59, 58, 60];
        "58 after 60", [60, 58, 59];
        "58 last", [59, 60, 58];
        "59 never", [58, 58, 60];
        "60 never", [58, 59, 59];
    }
    // "A count beyond the maximum in remove is 59."
    sequences::must_report(&keeper!(
        "60 before 59, for any count",
        Keeper {
            too_many: |tally, change| {
                (KEEPER.too_many)(tally, change) || u64::from(change.count) > MOST
            },
            order: [58, 60, 59],
            ..KEEPER
        }
    ));
}

/// The same, if there is such a cell.
fn if_there(tally: &mut Tally, change: &Change, then: fn(&mut Tally, &Change)) {
    if change.cell().iter().all(|&node| node < 64) {
        then(tally, change);
    }
}

#[test]
fn what_a_refused_call_leaves() {
    reported! { refused:
        "the cell changed", |tally, change| if_there(tally, change, |tally, change| {
            let [holder, subdomain] = change.cell();
            apply(&mut tally.counts[holder * 64 + subdomain], change);
        });
        "the subdomain's total changed", |tally, change| {
            if_there(tally, change, |tally, change| {
                apply(&mut tally.totals[change.cell()[1]], change);
            });
        };
        "the total changed", |tally, change| apply(&mut tally.total, change);
        "all counted", |tally, change| if_there(tally, change, KEEPER.count);
        "the cell at the maximum", |tally, change| if_there(tally, change, |tally, change| {
            let [holder, subdomain] = change.cell();
            tally.counts[holder * 64 + subdomain] = MOST_PARTICLES;
        });
        "the cell emptied", |tally, change| if_there(tally, change, |tally, change| {
            let [holder, subdomain] = change.cell();
            tally.counts[holder * 64 + subdomain] = 0;
        });
        "N 0", |tally, _| tally.n = 0;
    }
}

#[test]
fn counting() {
    reported! { count:
        "holder and subdomain exchanged", |tally, change| {
            let (holder, subdomain) = (change.subdomain, change.holder);
            (KEEPER.count)(tally, &Change { holder, subdomain, ..*change });
        };
        "the cell exchanged", |tally, change| {
            let [holder, subdomain] = change.cell();
            apply(&mut tally.counts[subdomain * 64 + holder], change);
            apply(&mut tally.totals[subdomain], change);
            apply(&mut tally.total, change);
        };
        "N cells in a row", |tally, change| {
            let [holder, subdomain] = change.cell();
            apply(&mut tally.counts[holder * tally.n as usize + subdomain], change);
            apply(&mut tally.totals[subdomain], change);
            apply(&mut tally.total, change);
        };
        "the holder's total", |tally, change| {
            let [holder, subdomain] = change.cell();
            apply(&mut tally.counts[holder * 64 + subdomain], change);
            apply(&mut tally.totals[holder], change);
            apply(&mut tally.total, change);
        };
        "not the cell", |tally, change| {
            apply(&mut tally.totals[change.cell()[1]], change);
            apply(&mut tally.total, change);
        };
        "not the subdomain's total", |tally, change| {
            let [holder, subdomain] = change.cell();
            apply(&mut tally.counts[holder * 64 + subdomain], change);
            apply(&mut tally.total, change);
        };
        "not the total", |tally, change| {
            let total = tally.total;
            (KEEPER.count)(tally, change);
            tally.total = total;
        };
        "added whatever is asked", |tally, change| {
            (KEEPER.count)(tally, &Change { way: Way::Add, ..*change });
        };
        "one particle", |tally, change| {
            (KEEPER.count)(tally, &Change { count: 1, ..*change });
        };
        "the limit follows the total", |tally, change| {
            let before = u64::from(tally.total).max(1);
            (KEEPER.count)(tally, change);
            let follows = u64::from(tally.limit) * u64::from(tally.total) / before;
            tally.limit = follows as u32;
        };
        "the limit no less than the average", |tally, change| {
            (KEEPER.count)(tally, change);
            let average = (u64::from(tally.total) + u64::from(tally.n) - 1) / u64::from(tally.n);
            tally.limit = tally.limit.max(average as u32);
        };
    }
}

/// All leasts anew, whatever stood there: as often as there are nodes, so that all
/// changes reach the root.
fn afresh(tally: &mut Tally) {
    for _ in nodes(tally) {
        for node in nodes(tally) {
            tally.leasts[node] = least(tally, node);
        }
    }
}

#[test]
fn renewing() {
    reported! { renew:
        "not at all", |_, _| ();
        "not after a removal", |tally, change| match change.way {
            Way::Add => (KEEPER.renew)(tally, change),
            Way::Remove => (),
        };
        "not after an addition", |tally, change| match change.way {
            Way::Add => (),
            Way::Remove => (KEEPER.renew)(tally, change),
        };
        "the subdomain's own alone", |tally, change| climb(tally, change, |_, _| false);
        "not the root's", |tally, change| climb(tally, change, |tally, node| {
            let helpand = tally.helpands[node] as usize;
            tally.helpands[helpand] as usize != helpand
        });
        "the helpand's and no further", |tally, change| {
            let helpand = tally.helpands[change.cell()[1]];
            climb(tally, change, |_, _| false);
            climb(tally, &Change { subdomain: helpand, ..*change }, |_, _| false);
        };
        // Only the deepest node of a chain has as many above it.
        "one node early", |tally, change| {
            let steps = nodes(tally).len() - 1;
            way_up(tally, change, steps, |[before, after], _| before != after);
        };
        "from the holder up", |tally, change| {
            (KEEPER.renew)(tally, &Change { subdomain: change.holder, ..*change });
        };
        "up to a least of 0", |tally, change| {
            climb(tally, change, |tally, node| tally.leasts[node] > 0);
        };
        "up to a least above the limit", |tally, change| {
            climb(tally, change, |tally, node| tally.leasts[node] <= tally.limit);
        };
        "from the first node to the last", |tally, _| {
            for node in nodes(tally) {
                tally.leasts[node] = least(tally, node);
            }
        };
        "the count handed up as it is", |tally, change| {
            let mut node = change.cell()[1];
            loop {
                apply(&mut tally.leasts[node], change);
                let helpand = tally.helpands[node] as usize;
                if helpand == node {
                    return;
                }
                node = helpand;
            }
        };
        "by the leasts' changes", |tally, change| {
            let (mut node, mut change) = (change.cell()[1], *change);
            loop {
                let before = tally.leasts[node];
                let after = match change.way {
                    Way::Add => before.saturating_add(change.count),
                    Way::Remove => before.saturating_sub(change.count),
                };
                tally.leasts[node] = after;
                let helpand = tally.helpands[node] as usize;
                if helpand == node || before == after {
                    return;
                }
                let [a, b] = [before, after].map(|it| tally.limit.saturating_sub(it));
                change.count = a.abs_diff(b);
                node = helpand;
            }
        };
        "the limit as every helper's spare", |tally, change| {
            climb_with(tally, change, |tally, owner| {
                let spare = u64::from(tally.limit) * helpers(tally, owner).len() as u64;
                u64::from(tally.totals[owner]).saturating_sub(spare) as u32
            }, |_, _| true);
        };
        "spares below 0", |tally, change| {
            climb_with(tally, change, |tally, owner| {
                let spare = |&it: &usize| i64::from(tally.limit) - i64::from(tally.leasts[it]);
                let spares: i64 = helpers(tally, owner).iter().map(spare).sum();
                (i64::from(tally.totals[owner]) - spares).max(0) as u32
            }, |_, _| true);
        };
        "leasts below 0", |tally, change| {
            climb_with(tally, change, |tally, owner| {
                let spare = |&it: &usize| tally.limit.saturating_sub(tally.leasts[it]);
                let spares = helpers(tally, owner);
                spares.iter().map(spare).fold(tally.totals[owner], u32::wrapping_sub)
            }, |_, _| true);
        };
        "a root that helps itself", |tally, change| {
            climb_with(tally, change, |tally, owner| {
                let itself = tally.helpands[owner] as usize == owner;
                let spare = tally.limit.saturating_sub(tally.leasts[owner]);
                least(tally, owner).saturating_sub(if itself { spare } else { 0 })
            }, |_, _| true);
        };
        "the first helper alone", |tally, change| {
            climb_with(tally, change, |tally, owner| {
                let first = helpers(tally, owner).into_iter().next();
                let spare = first.map_or(0, |it| tally.limit.saturating_sub(tally.leasts[it]));
                tally.totals[owner].saturating_sub(spare)
            }, |_, _| true);
        };
        "by totals in place of leasts", |tally, change| {
            climb_with(tally, change, |tally, owner| {
                let spare = |it: &usize| tally.limit.saturating_sub(tally.totals[*it]);
                let all = helpers(tally, owner);
                let spares: u64 = all.iter().map(|it| u64::from(spare(it))).sum();
                u64::from(tally.totals[owner]).saturating_sub(spares) as u32
            }, |_, _| true);
        };
    }
}

#[test]
fn what_is_said_of_the_tree() {
    reported! { holds:
        "that before the call", |[before, _], change| (KEEPER.holds)([before, before], change);
        "the subdomain's least alone",
            |[_, tally], change| tally.leasts[change.cell()[1]] <= tally.limit;
        "the root's least alone", |[_, tally], _| {
            let is_root = |&node: &usize| tally.helpands[node] as usize == node;
            nodes(tally).filter(is_root).all(|root| tally.leasts[root] <= tally.limit)
        };
        "no least at the limit", |[_, tally], _| {
            nodes(tally).all(|node| tally.leasts[node] < tally.limit)
        };
        "not the last node's", |[_, tally], _| {
            nodes(tally).skip(1).all(|node| tally.leasts[node - 1] <= tally.limit)
        };
        "not the first node's", |[_, tally], _| {
            nodes(tally).skip(1).all(|node| tally.leasts[node] <= tally.limit)
        };
        "no total above the limit", |[_, tally], _| {
            nodes(tally).all(|node| tally.totals[node] <= tally.limit)
        };
        "the total within N limits", |[_, tally], _| {
            u64::from(tally.total) <= u64::from(tally.n) * u64::from(tally.limit)
        };
        "only worse after adding", |[before, after], change| {
            (KEEPER.holds)([before, before], change) && (KEEPER.holds)([before, after], change)
        };
        "always", |_, _| true;
        "never", |_, _| false;
    }
    adding_reported("holds in a refusal", |tally, holder, subdomain, count| {
        let answer = tally_add(tally, holder, subdomain, count);
        let holds = answer.holds.max(u32::from(answer.refusal > 0));
        TalliedAnswer { holds, ..answer }
    });
    adding_reported(
        "another number for holds",
        |tally, holder, subdomain, count| {
            let answer = tally_add(tally, holder, subdomain, count);
            let holds = 3 * answer.holds;
            TalliedAnswer { holds, ..answer }
        },
    );
}

/// Whoever adds so is reported.
fn adding_reported(name: &'static str, tally_add: TallyCall) {
    sequences::must_report(&Implementation {
        name,
        tally_add,
        ..REFERENCE
    });
}

#[test]
fn one_call_for_the_other() {
    adding_reported("add removes", tally_remove);
    sequences::must_report(&Implementation {
        name: "remove adds",
        tally_remove: tally_add,
        ..REFERENCE
    });
}

/// On open tallies nothing is wrong.
#[test]
fn damaged_tallies() {
    reported_if_damaged! { no_cell:
        "N above 64 taken as 64", |tally, change| {
            others(tally, change, Reason::Nodes) || beyond(change.holder.max(change.subdomain))
        };
        "helpands not looked at", |tally, change| others(tally, change, Reason::Helpand);
        "the subdomain's helpand alone", |tally, change| {
            others(tally, change, Reason::Helpand)
                || change.subdomain < 64 && tally.helpands[change.cell()[1]] >= tally.n
        };
        "helpands up to 63", |tally, change| {
            let outside = nodes(tally).any(|node| tally.helpands[node] > 63);
            others(tally, change, Reason::Helpand) || outside
        };
        "all 64 helpands", |tally, change| {
            (KEEPER.no_cell)(tally, change) || tally.helpands.iter().any(|&it| it >= tally.n)
        };
        "cells not looked at", |tally, change| others(tally, change, Reason::Cell);
        "totals not looked at", |tally, change| others(tally, change, Reason::Total);
        "a total above the maximum", |tally, change| {
            (KEEPER.no_cell)(tally, change) || tally.total > MOST_PARTICLES
        };
        "a limit that no sheet has", |tally, change| {
            (KEEPER.no_cell)(tally, change) || tally.limit > 1_999_000_000
        };
        "no root or two", |tally, change| {
            let roots = nodes(tally).filter(|&k| tally.helpands[k] as usize == k).count();
            (KEEPER.no_cell)(tally, change) || roots != 1
        };
        "one node", |tally, change| (KEEPER.no_cell)(tally, change) || tally.n == 1;
    }
    reported_if_damaged! { renew:
        "all leasts afresh", |tally, _| afresh(tally);
        "on where nothing changes", |tally, change| {
            way_up(tally, change, 64, |_, _| true);
        };
        "64 nodes where a chain goes round", |tally, change| {
            way_up(tally, change, 64, |[before, after], _| before != after);
        };
        "N nodes where a chain goes round", |tally, change| {
            let steps = match goes_round(tally, change) {
                true => nodes(tally).len(),
                false => 64,
            };
            way_up(tally, change, steps, |[before, after], _| before != after);
        };
        "no node twice", |tally, change| {
            way_up(tally, change, nodes(tally).len(), |[before, after], seen| {
                before != after && !seen
            });
        };
        "spares in 32 bits", |tally, change| {
            climb_with(tally, change, |tally, owner| {
                let spare = |&it: &usize| tally.limit.saturating_sub(tally.leasts[it]);
                let all = helpers(tally, owner);
                let spares = all.iter().map(spare).fold(0, u32::wrapping_add);
                tally.totals[owner].saturating_sub(spares)
            }, |_, _| true);
        };
        "entries behind N cleared", |tally, change| {
            (KEEPER.renew)(tally, change);
            let n = nodes(tally).len();
            tally.leasts[n..].fill(0);
        };
    }
    reported_if_damaged! { holds:
        "all 64 leasts", |[_, tally], _| tally.leasts.iter().all(|&it| it <= tally.limit);
    }
}

/// Renews leasts from the subdomain up, so many at most. After each node it is asked
/// whether to go on, by its least before and after and by whether it was there already.
fn way_up(tally: &mut Tally, change: &Change, steps: usize, goes_on: fn([u32; 2], bool) -> bool) {
    let (mut node, mut seen) = (change.cell()[1], vec![false; 64]);
    for _ in 0..steps {
        let (before, after) = (tally.leasts[node], least(tally, node));
        tally.leasts[node] = after;
        let helpand = tally.helpands[node] as usize;
        if helpand == node || !goes_on([before, after], seen[node]) {
            return;
        }
        seen[node] = true;
        node = helpand;
    }
}

/// Whether the chain of helpands from the subdomain reaches no root.
fn goes_round(tally: &Tally, change: &Change) -> bool {
    let helpand = |node: usize| tally.helpands[node] as usize;
    let end = nodes(tally).fold(change.cell()[1], |node, _| helpand(node));
    helpand(end) != end
}

/// Openings that the run of *open tally* reports.
fn opening_reported(wrong: &[(&'static str, OpenTally)]) {
    for &(name, open_tally) in wrong {
        OPEN_TALLY.must_report(&Implementation {
            name,
            open_tally,
            ..REFERENCE
        });
    }
}

/// An accepted opening with something otherwise, by what was read and what stood there.
fn opened(
    sheet: &[u8],
    plan: &[u8],
    tally: &mut Tally,
    change: fn(&Sheet, &Plan, &mut Tally, &Tally),
) -> TalliedAnswer {
    let before = tally.clone();
    let answer = open_tally(sheet, plan, tally);
    if let (0, Ok(sheet), Ok(plan)) = (answer.refusal, sheet::read(sheet), plan::read(plan)) {
        change(&sheet, &plan, tally, &before);
    }
    answer
}

/// A refused opening with something left of what stood there.
fn left(
    sheet: &[u8],
    plan: &[u8],
    tally: &mut Tally,
    change: fn(&mut Tally, &Tally),
) -> TalliedAnswer {
    let before = tally.clone();
    let answer = open_tally(sheet, plan, tally);
    if answer.refusal != 0 {
        change(tally, &before);
    }
    answer
}

macro_rules! openings {
    ($way:ident: $($name:literal, $change:expr;)*) => {
        opening_reported(&[$(($name, |sheet, plan, tally| $way(sheet, plan, tally, $change))),*])
    };
}

/// The leasts with another limit in the tally.
fn limited(tally: &mut Tally, limit: u32) {
    tally.limit = limit;
    afresh(tally);
}

#[test]
fn openings() {
    openings! { opened:
        "the plan's limit", |_, plan, tally, _| limited(tally, plan.limit);
        "the plan's limit noted", |_, plan, tally, _| tally.limit = plan.limit;
        "the larger limit", |_, plan, tally, _| limited(tally, tally.limit.max(plan.limit));
        "the average for the limit", |sheet, _, tally, _| {
            limited(tally, (sheet.total() + sheet.n - 1) / sheet.n);
        };
        "N in six bits", |_, _, tally, _| tally.n %= 64;
        "no total", |_, _, tally, _| tally.total = 0;
        "the number of cells for the total", |sheet, _, tally, _| {
            tally.total = sheet.cells.len() as u32;
        };
        "the leasts left", |_, _, tally, before| tally.leasts = before.leasts;
        "the totals for the leasts", |_, _, tally, _| tally.leasts = tally.totals;
        "the shares for the leasts", |_, plan, tally, _| {
            tally.leasts[..plan.shares.len()].copy_from_slice(&plan.shares);
        };
        "totals by holder", |_, _, tally, _| {
            for (total, row) in tally.totals.iter_mut().zip(tally.counts.chunks(64)) {
                *total = row.iter().sum();
            }
        };
        "cells by subdomain and holder", |_, _, tally, _| {
            let counts = tally.counts;
            for (cell, count) in counts.into_iter().enumerate() {
                tally.counts[cell % 64 * 64 + cell / 64] = count;
            }
        };
        "absent cells left", |_, _, tally, before| {
            let cells = tally.counts.iter_mut().zip(before.counts);
            cells.filter(|(count, _)| **count == 0).for_each(|(count, old)| *count = old);
        };
        "helpands behind N left", |_, _, tally, before| {
            let n = nodes(tally).len();
            tally.helpands[n..].copy_from_slice(&before.helpands[n..]);
        };
        "roots behind N", |_, _, tally, _| {
            let n = nodes(tally).len();
            (n..64).for_each(|node| tally.helpands[node] = node as u32);
        };
        "totals behind N left", |_, _, tally, before| {
            let n = nodes(tally).len();
            tally.totals[n..].copy_from_slice(&before.totals[n..]);
        };
        "rows behind N left", |_, _, tally, before| {
            let n = nodes(tally).len();
            tally.counts[64 * n..].copy_from_slice(&before.counts[64 * n..]);
        };
        "the last cell left", |_, _, tally, before| tally.counts[4_095] = before.counts[4_095];
    }
}

#[test]
fn refused_openings() {
    openings! { left:
        "the old tally left", |tally, before| *tally = before.clone();
        "N alone 0", |tally, before| *tally = Tally { n: 0, ..before.clone() };
        "the counts left", |tally, before| tally.counts = before.counts;
        "the last count left", |tally, before| tally.counts[4_095] = before.counts[4_095];
        "the limit left", |tally, before| tally.limit = before.limit;
        "the leasts left", |tally, before| tally.leasts = before.leasts;
        "N left", |tally, before| tally.n = before.n;
    }
    opening_reported(&[
        ("N of the sheet", |sheet, plan, tally| {
            let answer = open_tally(sheet, plan, tally);
            if let (true, Ok(sheet)) = (answer.refusal > 0, sheet::read(sheet)) {
                tally.n = sheet.n;
            }
            answer
        }),
        ("opened before 21", |sheet, plan, tally| {
            let answer = open_tally(sheet, plan, tally);
            if answer.refusal == 21 {
                let n = sheet::read(sheet).map_or(1, |sheet| sheet.n);
                let chain = plans::plan(2, 0, &plans::chain(n), &vec![0; n as usize]);
                open_tally(sheet, &chain.bytes(), tally);
            }
            answer
        }),
    ]);
}

/// Another answer in place of this one.
fn answered(
    sheet: &[u8],
    plan: &[u8],
    tally: &mut Tally,
    other: fn(TalliedAnswer, &[u8], &[u8]) -> TalliedAnswer,
) -> TalliedAnswer {
    other(open_tally(sheet, plan, tally), sheet, plan)
}

#[test]
fn answers_of_openings() {
    openings! { answered:
        "always holds", |answer, _, _| TalliedAnswer { holds: 1, ..answer };
        "never holds", |answer, _, _| TalliedAnswer { holds: 0, ..answer };
        "holds in a refusal", |answer, _, _| match answer.refusal {
            0 => answer,
            _ => TalliedAnswer { holds: 1, ..answer },
        };
        "refused where the tree does not hold", |answer, _, _| match answer {
            TalliedAnswer { refusal: 0, holds: 0 } => Answer::refused(24),
            _ => answer,
        };
        "58 for every refusal", |answer, _, _| match answer.refusal {
            0 => answer,
            _ => Answer::refused(58),
        };
        "24 before 21", |answer, _, plan| match (answer.refusal, plan::read(plan)) {
            (21, Ok(Plan { kind: 0, .. })) => Answer::refused(24),
            _ => answer,
        };
        "21 before the plan's shares", |answer, sheet, plan| {
            let [a, b] = [sheet, plan].map(|it| it.first());
            match answer.refusal {
                18 if a != b => Answer::refused(21),
                _ => answer,
            }
        };
        "the plan before the sheet", |answer, _, plan| match plan::read(plan) {
            Err(refusal) => Answer::refused(refusal),
            Ok(_) => answer,
        };
        "kind 1 refused", |answer, _, plan| match (answer.refusal, plan::read(plan)) {
            (0, Ok(Plan { kind: 1, .. })) => Answer::refused(24),
            _ => answer,
        };
    }
}
