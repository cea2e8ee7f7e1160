//! "Shares in a kept tree, from the root down", with requests 2026-03, "Level
//! filling in a kept tree", and 2026-07, "Leave helpers' own particles in place".

use super::plan::Plan;
use super::table::Table;
use super::tree::{downwards, helpers};
use super::weighing::Weighing;

/// A helper in its helpand's family.
#[derive(Clone, Copy, Debug, PartialEq, Eq)]
pub struct Helper {
    pub node: usize,
    pub least: u64,
    pub hold: u64,
}

/// A family whose subdomain n is to be divided, and all that is known by then.
pub struct Undivided<'a> {
    /// n.
    pub owner: usize,
    /// By rising number.
    pub helpers: Vec<Helper>,
    /// What was given so far: to the owner, and to the nodes above it.
    pub shares: &'a [u64],
    pub weighing: &'a Weighing<'a>,
    pub table: &'a Table,
}

/// One member of a family, and subdomain n.
#[derive(Clone, Copy, Debug, PartialEq, Eq)]
pub struct Member {
    pub node: usize,
    pub is_owner: bool,
    /// Its load beside subdomain n: R for the owner, hold or least for a helper.
    pub base: u64,
    /// The most that it takes of subdomain n.
    pub space: u64,
    /// What it has of subdomain n: first what it keeps.
    pub amount: u64,
}

/// A family before the rest is given: its members by rising number, and the rest.
pub struct Family {
    pub members: Vec<Member>,
    pub rest: u64,
}

/// A way to find what the members of a family keep.
pub type Keep = fn(family: &Undivided) -> Family;

/// A way to give the rest to the members of a family, which stand by rising number.
pub type Fill = fn(members: &mut [Member], rest: u64);

/// How shares in a kept tree are found.
#[derive(Clone, Copy)]
pub struct Rules {
    pub keep: Keep,
    pub fill: Fill,
}

/// Today's rules.
pub const RULES: Rules = Rules {
    keep: hold_or_least,
    fill: level_filling,
};

/// Those before request 2026-07.
pub const WITH_LEAST: Rules = Rules {
    keep: least_always,
    ..RULES
};

/// Those before request 2026-03.
pub const OWNER_FIRST: Rules = Rules {
    fill: owner_first,
    ..WITH_LEAST
};

/// The shares of all nodes in a tree that holds.
pub fn shares(weighing: &Weighing, table: &Table, rules: Rules) -> Vec<u64> {
    // "Rn is n's share, 0 for the root."
    let mut shares = vec![0; table.nodes()];
    for owner in downwards(weighing.helpands) {
        let undivided = Undivided::new(owner, &shares, weighing, table);
        let Family { mut members, rest } = (rules.keep)(&undivided);
        (rules.fill)(&mut members, rest);
        for helper in members.iter().filter(|member| !member.is_owner) {
            shares[helper.node] = helper.amount;
        }
    }
    shares
}

/// "If P of the family's owner plus its R plus its helpers' holds is at most L
/// times the family's size, space and standing load use hold in place of least.
/// Otherwise they use least as before."
pub fn hold_or_least(family: &Undivided) -> Family {
    match family.affords_holds() {
        true => family.keeping(|helper| helper.hold),
        false => family.keeping(|helper| helper.least),
    }
}

/// As before request 2026-07: whatever helpers hold.
pub fn least_always(family: &Undivided) -> Family {
    family.keeping(|helper| helper.least)
}

/// What is found in those families of this plan, which is kept, that have helpers.
pub fn in_families<T>(plan: &Plan, table: &Table, find: impl Fn(&Undivided) -> T) -> Vec<T> {
    let weighing = Weighing {
        helpands: &plan.helpands,
        totals: &table.totals(),
        limit: u64::from(plan.limit),
    };
    let shares = plan.shares.iter().map(|&share| u64::from(share));
    let shares: Vec<u64> = shares.collect();
    (0..shares.len())
        .map(|owner| Undivided::new(owner, &shares, &weighing, table))
        .filter(|family| !family.helpers.is_empty())
        .map(|family| find(&family))
        .collect()
}

impl<'a> Undivided<'a> {
    pub fn new(
        owner: usize,
        shares: &'a [u64],
        weighing: &'a Weighing<'a>,
        table: &'a Table,
    ) -> Undivided<'a> {
        let helper = |node: usize| {
            let least = weighing.least(node);
            // "A helper's hold is the larger of its least and its own-subdomain
            // holding capped at L."
            let hold = least.max(table.counts[node][node].min(weighing.limit));
            Helper { node, least, hold }
        };
        let helpers = helpers(weighing.helpands, owner).into_iter();
        Undivided {
            owner,
            helpers: helpers.map(helper).collect(),
            shares,
            weighing,
            table,
        }
    }

    /// "P of the family's owner".
    pub fn total(&self) -> u64 {
        self.weighing.totals[self.owner]
    }

    /// "its R".
    pub fn share(&self) -> u64 {
        self.shares[self.owner]
    }

    /// "P of the family's owner plus its R plus its helpers' holds".
    pub fn load_with_holds(&self) -> u64 {
        let holds: u64 = self.helpers.iter().map(|helper| helper.hold).sum();
        self.total() + self.share() + holds
    }

    /// "L times the family's size", of which the owner is a part.
    pub fn room(&self) -> u64 {
        self.weighing.limit * (1 + self.helpers.len() as u64)
    }

    pub fn affords_holds(&self) -> bool {
        self.load_with_holds() <= self.room()
    }

    /// The same; nothing if holds are leasts, so that it does not matter.
    pub fn decision(&self) -> Option<bool> {
        let mut helpers = self.helpers.iter();
        let matters = helpers.any(|helper| helper.hold > helper.least);
        matters.then(|| self.affords_holds())
    }

    /// What the members keep, each helper having this beside subdomain n; and the
    /// rest.
    pub fn keeping(&self, beside: impl Fn(&Helper) -> u64) -> Family {
        let helpers = self.helpers.iter();
        let mut members: Vec<Member> = helpers
            .map(|helper| self.member(helper.node, beside(helper)))
            .collect();
        members.push(self.member(self.owner, self.share()));
        members.sort_unstable_by_key(|member| member.node);
        let kept: u64 = members.iter().map(|member| member.amount).sum();
        Family {
            rest: self.total() - kept,
            members,
        }
    }

    fn member(&self, node: usize, base: u64) -> Member {
        // "The space for subdomain n is L − Rn at n itself, and L − least at
        // each helper", or L − hold.
        let space = self.weighing.limit - base;
        Member {
            node,
            is_owner: node == self.owner,
            base,
            space,
            // "Each member first keeps the smaller of its space and what it
            // already holds of subdomain n."
            amount: space.min(self.table.counts[node][self.owner]),
        }
    }
}

impl Member {
    /// "Standing load is R plus its amount for the owner, and least plus its
    /// amount for a helper", or hold plus its amount.
    pub fn standing_load(&self) -> u64 {
        self.base + self.amount
    }

    /// What it could still be given.
    pub fn space_left(&self) -> u64 {
        self.space - self.amount
    }
}

/// What is true of a family in a tree that holds, as long as something is left.
const SPACE_FOR_ALL: &str = "a family of a tree that holds has space for all";

/// The rule itself: "as if one particle after another were given to the family
/// member with the smallest standing load that still has space, lowest node
/// number on ties".
pub fn one_after_another(members: &mut [Member], rest: u64) {
    for _ in 0..rest {
        let with_space = members.iter_mut().filter(|member| member.space_left() > 0);
        // The first of equals.
        let smallest = with_space.min_by_key(|member| member.standing_load());
        smallest.expect(SPACE_FOR_ALL).amount += 1;
    }
}

/// The same in few steps, since the rest may be all particles that there are:
/// the members that stand lowest rise together until another stands as low,
/// which then rises with them.
pub fn level_filling(members: &mut [Member], rest: u64) {
    let mut rest = rest;
    while rest > 0 {
        let (lowest, rise) = lowest(members);
        // "lowest node number on ties": what is too little for all of them goes
        // to the first ones.
        let (receivers, each) = match rest / lowest.len() as u64 {
            0 => (&lowest[..rest as usize], 1),
            even => (&lowest[..], even.min(rise)),
        };
        for &at in receivers {
            members[at].amount += each;
        }
        rest -= each * receivers.len() as u64;
    }
}

/// The places of those members with space that stand lowest, and how far they
/// can rise until one of them is full or another stands as low.
fn lowest(members: &[Member]) -> (Vec<usize>, u64) {
    let load = |&at: &usize| members[at].standing_load();
    let space = |&at: &usize| members[at].space_left();
    let with_space = (0..members.len()).filter(|at| space(at) > 0);
    let level = with_space.clone().map(|at| load(&at)).min();
    let level = level.expect(SPACE_FOR_ALL);
    let (lowest, higher): (Vec<usize>, Vec<usize>) = with_space.partition(|at| load(at) == level);
    let gaps = higher.iter().map(|at| load(at) - level);
    let rise = lowest.iter().map(space).chain(gaps).min();
    (lowest, rise.expect(SPACE_FOR_ALL))
}

/// As before request 2026-03: "The rest goes to the owner, then to helpers by
/// rising number, each up to its space."
pub fn owner_first(members: &mut [Member], rest: u64) {
    let mut rest = rest;
    // The order of equals stays.
    let mut in_turn: Vec<&mut Member> = members.iter_mut().collect();
    in_turn.sort_by_key(|member| !member.is_owner);
    for member in in_turn {
        let more = rest.min(member.space_left());
        member.amount += more;
        rest -= more;
    }
    assert_eq!(rest, 0, "{SPACE_FOR_ALL}");
}
