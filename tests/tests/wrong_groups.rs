//! The run of *groups* can fail: whoever writes them wrong, in ways that are plausible,
//! is reported. The wrong ones colour, name or fill the groups otherwise, lay them out
//! otherwise, or make a check otherwise or in the wrong order.
#![forbid(unsafe_code)]

use firrozka_tests::answers::{self, Answer, WrittenAnswer};
use firrozka_tests::calls::GROUPS;
use firrozka_tests::careless;
use firrozka_tests::careless::put;
use firrozka_tests::implementations::{Convert, Implementation, GROUPS_BYTES, REFERENCE};
use firrozka_tests::records::{to_bytes, to_words};
use firrozka_tests::reference::groups;
use firrozka_tests::reference::plan::{self, is_root, Plan};
use firrozka_tests::reference::tree;
use firrozka_tests::settings::SEED;
use firrozka_tests::worked;

const NONE: u32 = 64;

/// How somebody writes the groups of a plan.
struct Writer {
    /// Whether a buffer of this length is too short for so many nodes.
    short: fn(usize, usize) -> bool,
    /// The refusal then.
    refusal: u32,
    /// Whether the family of this owner is a group.
    group: fn(&Plan, usize) -> bool,
    /// Whether the family of this owner has this member.
    member: fn(&Plan, usize, usize) -> bool,
    /// The colour of this owner's group at this member: 0 for even, 1 for odd.
    colour: fn(&Plan, usize, usize) -> usize,
    /// What the group of this owner is called.
    name: fn(&Plan, usize) -> u32,
    /// What stands for none.
    none: fn(&Plan) -> u32,
    /// What is otherwise about the words.
    change: fn(&Plan, &mut Vec<u32>),
}

const WRITER: Writer = Writer {
    short: |room, n| room < 4 * (1 + 2 * n),
    refusal: 57,
    group: |plan, owner| !helpers(plan, owner).is_empty(),
    member: |plan, owner, node| node == owner || helpand(plan, node) == owner,
    colour: |plan, owner, _| distance(plan, owner) % 2,
    name: |_, owner| owner as u32,
    none: |_| NONE,
    change: |_, _| (),
};

fn helpand(plan: &Plan, node: usize) -> usize {
    plan.helpands[node] as usize
}

fn helpers(plan: &Plan, owner: usize) -> Vec<usize> {
    tree::helpers(&plan.helpands, owner)
}

fn distance(plan: &Plan, node: usize) -> usize {
    tree::distance(&plan.helpands, node)
}

/// How many groups have a lower owner.
fn groups_before(plan: &Plan, owner: usize) -> usize {
    (0..owner).filter(|&it| (WRITER.group)(plan, it)).count()
}

fn write(plan: &[u8], out: &mut [u8], writer: &Writer) -> WrittenAnswer {
    let plan = match plan::read(plan) {
        Ok(plan) => plan,
        Err(refusal) => return Answer::refused(refusal),
    };
    let n = plan.n as usize;
    if (writer.short)(out.len(), n) {
        return Answer::refused(writer.refusal);
    }
    let mut words = vec![(writer.none)(&plan); 1 + 2 * n];
    words[0] = plan.n;
    for owner in (0..n).filter(|&owner| (writer.group)(&plan, owner)) {
        for node in (0..n).filter(|&node| (writer.member)(&plan, owner, node)) {
            let colour = (writer.colour)(&plan, owner, node);
            words[1 + colour * n + node] = (writer.name)(&plan, owner);
        }
    }
    (writer.change)(&plan, &mut words);
    put(&to_bytes(&words), out);
    answers::written(4 * words.len() as u32)
}

/// Writers with something otherwise.
macro_rules! writers {
    ($field:ident: $($name:literal, $value:expr;)*) => {
        [$(($name, |plan, out| write(plan, out, &Writer { $field: $value, ..WRITER }))),*]
    };
}

fn reported(wrong: &[(&'static str, Convert)]) {
    for &(name, groups) in wrong {
        GROUPS.must_report(&Implementation {
            name,
            groups,
            ..REFERENCE
        });
    }
}

/// With nothing otherwise nothing is reported.
#[test]
fn the_right_one() {
    let right = Implementation {
        name: "right",
        groups: |plan, out| write(plan, out, &WRITER),
        ..REFERENCE
    };
    let met = GROUPS.run(&right, SEED, 500);
    assert!(met.is_ok(), "{:?}", met.err());
}

#[test]
fn colours() {
    reported(&writers! { colour:
        "the colours exchanged", |plan, owner, _| 1 - distance(plan, owner) % 2;
        "the distance of the member", |plan, _, node| distance(plan, node) % 2;
        "the number of the owner", |_, owner, _| owner % 2;
        "all groups even", |_, _, _| 0;
        "all groups but the root's odd", |plan, owner, _| distance(plan, owner).min(1);
        "from the deepest node up", |plan, owner, _| {
            let depth = (0..plan.helpands.len()).map(|node| distance(plan, node)).max();
            (depth.unwrap_or(0) - distance(plan, owner)) % 2
        };
        "distances up to 32", |plan, owner, _| distance(plan, owner).min(32) % 2;
        // Only a chain of 64 nodes has an owner further off.
        "distances up to 61", |plan, owner, _| distance(plan, owner).min(61) % 2;
        "owner 63 even",
            |plan, owner, _| if owner == 63 { 0 } else { distance(plan, owner) % 2 };
        "all groups of 64 nodes even",
            |plan, owner, _| if plan.n == 64 { 0 } else { distance(plan, owner) % 2 };
    });
}

#[test]
fn families() {
    reported(&writers! { group:
        "families without helpers", |_, _| true;
        // In kind 0 all are groups of one.
        "a root as its own helper", |plan, owner| plan.helpands.contains(&(owner as u32));
        "not the root's", |plan, owner| {
            !is_root(&plan.helpands, owner) && (WRITER.group)(plan, owner)
        };
        "not those of kept trees", |plan, owner| plan.kind != 1 && (WRITER.group)(plan, owner);
        "not those of rebuilt trees", |plan, owner| plan.kind != 2 && (WRITER.group)(plan, owner);
        "not those without shares",
            |plan, owner| helpers(plan, owner).iter().any(|&helper| plan.shares[helper] > 0);
    });
    reported(&writers! { member:
        "the owner left out", |plan, owner, node| node != owner && helpand(plan, node) == owner;
        "the helpand's group forgotten", |_, owner, node| node == owner;
        "the last helper left out", |plan, owner, node| {
            (WRITER.member)(plan, owner, node) && helpers(plan, owner).last() != Some(&node)
        };
        "the helpers' helpers too", |plan, owner, node| {
            (WRITER.member)(plan, owner, node) || helpand(plan, helpand(plan, node)) == owner
        };
        "helpers without a share left out", |plan, owner, node| {
            node == owner || helpand(plan, node) == owner && plan.shares[node] > 0
        };
        "node 63 left out", |plan, owner, node| {
            node != 63 && (WRITER.member)(plan, owner, node)
        };
    });
}

#[test]
fn names() {
    reported(&writers! { name:
        "the first helper", |plan, owner| helpers(plan, owner)[0] as u32;
        "the lowest member", |plan, owner| helpers(plan, owner)[0].min(owner) as u32;
        "the owner's helpand", |plan, owner| plan.helpands[owner];
        "the groups counted", |plan, owner| groups_before(plan, owner) as u32;
        "nodes from 1", |_, owner| owner as u32 + 1;
        "owner 63 as none", |_, owner| if owner == 63 { NONE } else { owner as u32 };
    });
    reported(&writers! { none:
        "0 for none", |_| 0;
        "N for none", |plan| plan.n;
        "2^32 − 1 for none", |_| u32::MAX;
    });
}

#[test]
fn words() {
    reported(&writers! { change:
        "no N", |_, words| { words.remove(0); };
        "N last", |_, words| words.rotate_left(1);
        "N in six bits", |_, words| words[0] %= 64;
        "the kind behind N", |plan, words| {
            words.insert(1, plan.kind);
            words.pop();
        };
        "the odd colour first", |plan, words| words[1..].rotate_left(plan.n as usize);
        "the even colour alone", |plan, words| words.truncate(1 + plan.n as usize);
        "both colours of each node in turn", |plan, words| {
            let (even, odd) = words[1..].split_at(plan.n as usize);
            let pairs = even.iter().zip(odd).flat_map(|(&even, &odd)| [even, odd]);
            *words = [plan.n].into_iter().chain(pairs).collect();
        };
        "64 entries of each colour", |plan, words| {
            let missing = 64 - plan.n as usize;
            let at = 1 + plan.n as usize;
            words.splice(at..at, vec![NONE; missing]);
            words.resize(129, NONE);
        };
        "the node itself for none", |plan, words| {
            for entries in words[1..].chunks_mut(plan.n as usize) {
                let none = (0..).zip(entries).filter(|(_, entry)| **entry == NONE);
                none.for_each(|(node, entry)| *entry = node);
            }
        };
        "the high byte first", |_, words| words.iter_mut().for_each(|it| *it = it.swap_bytes());
    });
}

#[test]
fn rooms() {
    reported(&writers! { short:
        "a short buffer taken", |_, _| false;
        "one byte more wanted", |room, n| room <= 4 * (1 + 2 * n);
        "one byte less taken", |room, n| room + 1 < 4 * (1 + 2 * n);
        "a longer buffer refused", |room, n| room != 4 * (1 + 2 * n);
        "room for the entries alone", |room, n| room < 8 * n;
        "room for one colour", |room, n| room < 4 * (1 + n);
        "room for a plan", |room, n| room < 4 * (3 + 2 * n);
        "room for 64 nodes", |room, _| room < GROUPS_BYTES;
    });
    reported(&writers! { refusal:
        "22 in place of 57", 22;
        "56 in place of 57", 56;
    });
}

/// Whether the buffer is too short for N, whatever else is wrong with the plan.
fn is_short(plan: &[u8], out: &[u8]) -> bool {
    let n = to_words(plan).first().map_or(1, |&n| n.min(64));
    (WRITER.short)(out.len(), n as usize)
}

/// 57 before this refusal of the plan.
fn room_before<const REFUSAL: u32>(plan: &[u8], out: &mut [u8]) -> WrittenAnswer {
    match groups(plan, out) {
        answer if answer.refusal == REFUSAL && is_short(plan, out) => Answer::refused(57),
        answer => answer,
    }
}

/// No groups in place of this refusal of the plan.
fn none_for<const REFUSAL: u32>(plan: &[u8], out: &mut [u8]) -> WrittenAnswer {
    match groups(plan, out) {
        answer if answer.refusal == REFUSAL => {
            let roots: Vec<u32> = (0..to_words(plan)[0]).collect();
            groups(&worked::plan(0, &roots), out)
        }
        answer => answer,
    }
}

#[test]
fn checks() {
    reported(&[
        ("57 before 11", room_before::<11>),
        ("57 before 12", room_before::<12>),
        ("57 before 13", room_before::<13>),
        ("57 before 14", room_before::<14>),
        ("57 before 15", room_before::<15>),
        ("57 before 16", room_before::<16>),
        ("57 before 17", room_before::<17>),
        ("57 before 18", room_before::<18>),
        ("no groups for 17", none_for::<17>),
        ("no groups for 18", none_for::<18>),
        ("24 for kind 0", |plan, out| match plan::read(plan) {
            Ok(Plan { kind: 0, .. }) => Answer::refused(24),
            _ => groups(plan, out),
        }),
        (
            "all refusals of the plan as one",
            |plan, out| match groups(plan, out) {
                WrittenAnswer {
                    refusal: 11..=18, ..
                } => Answer::refused(11),
                answer => answer,
            },
        ),
    ]);
}

/// Of an accepted plan as much as there is room for is written before 57.
fn half_written(plan: &[u8], out: &mut [u8]) -> WrittenAnswer {
    let answer = groups(plan, out);
    if answer.refusal == 57 {
        let writer = Writer {
            short: |_, _| false,
            ..WRITER
        };
        write(plan, out, &writer);
    }
    answer
}

/// N is written before this refusal.
fn nodes_before<const REFUSAL: u32>(plan: &[u8], out: &mut [u8]) -> WrittenAnswer {
    let answer = groups(plan, out);
    if answer.refusal == REFUSAL {
        put(&plan[..4], out);
    }
    answer
}

#[test]
fn buffers() {
    reported(&careless!(groups));
    reported(&[
        ("some groups before 57", half_written),
        ("N before 57", nodes_before::<57>),
        ("N before 13", nodes_before::<13>),
        ("N before 16", nodes_before::<16>),
        ("N before 18", nodes_before::<18>),
    ]);
}
