//! What must hold of a planned step, whoever planned it: demand 3, and rules of
//! documents 01 and 02 put in another way than in `reference`. Leasts are taken as
//! *weigh* writes them; tests/rival.rs looks into these by flow.

use crate::division::{members, Division};
use crate::implementations::{Implementation, Planned};
use crate::reference::moves::{self, Moves};
use crate::reference::plan::{self, Plan};
use crate::reference::sheet::{self, Sheet};
use crate::reference::table::Table;
use crate::rival::{by_flow, Verdict};
use crate::settings::SEED;
use crate::steps::{self, Size, Step};

/// A planned step, its records taken apart.
pub struct Judged {
    pub sheet: Sheet,
    pub held: Table,
    pub totals: Vec<u64>,
    pub limit: u64,
    /// The old plan, if it has a tree.
    pub old: Option<Plan>,
    /// Whether the old tree has a rival's division.
    pub rival: bool,
    pub plan: Plan,
    pub moves: Moves,
    pub division: Division,
}

/// The step planned and judged; panics if something is wrong.
pub fn judged(implementation: &Implementation, step: &Step, place: &str) -> Judged {
    judge(implementation, step)
        .unwrap_or_else(|wrong| panic!("{}: {place}: {wrong}\n{step}", implementation.name))
}

/// Plans a step that should be accepted and judges it: what was found, or what
/// is wrong.
pub fn judge(implementation: &Implementation, step: &Step) -> Result<Judged, String> {
    let planned = implementation.planned(&step.sheet, &step.old);
    let planned = planned.map_err(|refusal| format!("refused with {refusal}"))?;
    let judged = take_apart(step, &planned)?;
    judged.kind()?;
    judged.division()?;
    if judged.old.is_some() {
        let weighed = implementation.weighed(&step.sheet, &step.old);
        let weighed = weighed.map_err(|refusal| format!("weigh refuses with {refusal}"))?;
        let (leasts, holds) = weighed;
        ensure(holds == judged.rival, "weigh and the flow disagree")?;
        if judged.plan.kind == 1 {
            judged.kept_shares(&leasts)?;
        }
    }
    judged.moves()?;
    let next = implementation.carried_out(&step.sheet, &planned.moves);
    let next = next.map_err(|refusal| format!("carry out refuses with {refusal}"))?;
    judged.carried_out(&next)?;
    Ok(judged)
}

/// Panics unless something is wrong in some of a few steps that this one plans,
/// who plans wrong.
pub fn must_judge(wrong: &Implementation) {
    let mut steps = (0..500).map(|index| steps::at(SEED, index, Size::Small));
    let broken = steps.any(|step| judge(wrong, &step).is_err());
    assert!(broken, "{}: nothing is wrong", wrong.name);
}

fn ensure(holds: bool, wrong: &str) -> Result<(), String> {
    match holds {
        true => Ok(()),
        false => Err(wrong.into()),
    }
}

/// Everything is accepted, and the plan's numbers are a division along its tree.
fn take_apart(step: &Step, planned: &Planned) -> Result<Judged, String> {
    let refused = |what: &'static str| move |refusal| format!("{what} is refused with {refusal}");
    let sheet = sheet::read(&step.sheet).map_err(refused("the sheet"))?;
    let plan = plan::read(&planned.plan).map_err(refused("the plan written"))?;
    let moves = moves::read(&planned.moves).map_err(refused("the moves written"))?;
    let old = match step.old.is_empty() {
        true => None,
        false => Some(plan::read(&step.old).map_err(refused("the old plan"))?),
    };
    let old = old.filter(|old| old.kind > 0);
    let held = Table::of(&sheet);
    let totals = held.totals();
    let limit = u64::from(sheet.limit());
    ensure(plan.n == sheet.n && moves.n == sheet.n, "N changes")?;
    ensure(plan.limit == sheet.limit(), "the plan's limit is not L")?;
    let division = Division::of(&plan, &totals).ok_or("an owner has less than 0")?;
    ensure(division.is_along(&plan.helpands, &totals), "no division")?;
    let rival = match &old {
        Some(old) => has_rival(&old.helpands, &totals, limit)?,
        None => false,
    };
    Ok(Judged {
        sheet,
        held,
        totals,
        limit,
        old,
        rival,
        plan,
        moves,
        division,
    })
}

/// Whether there is a rival's division along this tree.
pub fn has_rival(helpands: &[u32], totals: &[u64], limit: u64) -> Result<bool, String> {
    let rooms = vec![limit; totals.len()];
    let verdict = by_flow(helpands, totals, &rooms);
    let proven = verdict.is_proven(helpands, totals, &rooms);
    ensure(proven, "the flow's verdict is not proven")?;
    Ok(matches!(verdict, Verdict::Division(_)))
}

/// One member of a family and what it has to do with the subdomain.
struct Member {
    node: usize,
    /// R for the owner, hold or least for a helper.
    base: u64,
    holding: u64,
    amount: u64,
}

impl Member {
    fn space(&self, limit: u64) -> u64 {
        limit.saturating_sub(self.base)
    }

    /// "the smaller of its space and what it already holds"
    fn keeps(&self, limit: u64) -> u64 {
        self.space(limit).min(self.holding)
    }

    fn standing_load(&self) -> u64 {
        self.base + self.amount
    }

    /// Whether this one, who was given a particle, had its turn for the last one
    /// before another has its turn for one more: it stood lower by then, or as
    /// low and has the lower number.
    fn was_before(&self, other: &Member) -> bool {
        (self.standing_load() - 1, self.node) < (other.standing_load(), other.node)
    }
}

impl Judged {
    /// Primary if all are within the limit, kept exactly when a rival has a
    /// division along the old tree, rebuilt otherwise.
    fn kind(&self) -> Result<(), String> {
        let even = self.totals.iter().all(|&total| total <= self.limit);
        let kind = match (even, self.rival) {
            (true, _) => 0,
            (false, true) => 1,
            (false, false) => 2,
        };
        let wrong = format!("kind {} where {kind} is right", self.plan.kind);
        ensure(self.plan.kind == kind, &wrong)
    }

    /// "in kind 1, which has the old helpands, a rival's division; in kind 2,
    /// one with every load equal to the node's target"
    fn division(&self) -> Result<(), String> {
        match (self.plan.kind, &self.old) {
            (1, Some(old)) => {
                ensure(self.plan.helpands == old.helpands, "other helpands")?;
                ensure(self.division.is_within(self.limit), "above the limit")
            }
            (2, old) => {
                ensure(self.division.is_on_target(), "not on target")?;
                // No target is above L, so this division along the old tree
                // would be a rival's.
                let old = old.as_ref().map(|old| &old.helpands);
                let same = old == Some(&self.plan.helpands);
                ensure(!same, "the old tree built again")
            }
            _ => ensure(self.plan.kind == 0, "kept without an old tree"),
        }
    }

    /// "Shares in a kept tree", by what must be true at the end of each family.
    fn kept_shares(&self, leasts: &[u32]) -> Result<(), String> {
        let mut owners = 0..self.totals.len();
        owners.try_for_each(|owner| self.kept_family(owner, leasts))
    }

    /// A family can afford its helpers' holds if all particles of its subdomain
    /// have space beside them. Then helpers' own particles are left in place, up to
    /// the limit.
    fn kept_family(&self, owner: usize, leasts: &[u32]) -> Result<(), String> {
        let least = |node: usize| u64::from(leasts[node]);
        let own = |node: usize| self.held.counts[node][node].min(self.limit);
        let with_holds = self.family(owner, |node| least(node).max(own(node)));
        let spaces = with_holds.iter().map(|member| member.space(self.limit));
        if spaces.sum::<u64>() < self.totals[owner] {
            return self.levelled(&self.family(owner, least));
        }
        let mut helpers = with_holds.iter().filter(|member| member.node != owner);
        let in_place = helpers.all(|helper| self.division.own[helper.node] >= own(helper.node));
        ensure(in_place, "a helper's own particles leave")?;
        self.levelled(&with_holds)
    }

    /// Nobody has more than its space or less than it keeps, and whoever was given a
    /// particle had its turn before all who still have space.
    fn levelled(&self, family: &[Member]) -> Result<(), String> {
        let limit = self.limit;
        let with_space = |member: &&Member| member.standing_load() < limit;
        for member in family {
            let keeps = member.keeps(limit);
            ensure(member.standing_load() <= limit, "more than the space")?;
            ensure(member.amount >= keeps, "less than what is kept")?;
            let mut others = family.iter().filter(with_space);
            let in_turn = member.amount == keeps || others.all(|other| member.was_before(other));
            ensure(in_turn, "given before a lower one")?;
        }
        Ok(())
    }

    /// The members of an owner's family, each helper having this beside its share.
    fn family(&self, owner: usize, beside: impl Fn(usize) -> u64) -> Vec<Member> {
        let Division { own, share } = &self.division;
        let member = |node: usize| Member {
            node,
            base: match node == owner {
                true => share[node],
                false => beside(node),
            },
            holding: self.held.counts[node][owner],
            amount: match node == owner {
                true => own[node],
                false => share[node],
            },
        };
        let nodes = members(&self.plan.helpands, &[owner]).into_iter();
        nodes.map(member).collect()
    }

    /// "Moves", by laying all surpluses of a subdomain end to end, and all
    /// shortages too: a pair moves as much as its two stretches overlap.
    fn moves(&self) -> Result<(), String> {
        let mut expected = Vec::new();
        for subdomain in 0..self.totals.len() {
            let held = |node: usize| self.held.counts[node][subdomain];
            let due = |node: usize| self.due(node, subdomain);
            let senders = self.stretches(|node| held(node).saturating_sub(due(node)));
            let receivers = self.stretches(|node| due(node).saturating_sub(held(node)));
            for (sender, from) in senders.iter().enumerate() {
                for (receiver, to) in receivers.iter().enumerate() {
                    let count = from.1.min(to.1).saturating_sub(from.0.max(to.0));
                    if count > 0 {
                        let route = subdomain * 4096 + sender * 64 + receiver;
                        expected.push((route as u32, count as u32));
                    }
                }
            }
        }
        let written = self.moves.routes.iter().zip(&self.moves.counts);
        let written: Vec<(u32, u32)> = written.map(|(&route, &count)| (route, count)).collect();
        ensure(written == expected, "other moves")
    }

    /// Begin and end of each node's stretch when all are laid end to end.
    fn stretches(&self, length: impl Fn(usize) -> u64) -> Vec<(u64, u64)> {
        let mut end = 0;
        let stretch = |node| {
            let begin = end;
            end += length(node);
            (begin, end)
        };
        (0..self.totals.len()).map(stretch).collect()
    }

    fn due(&self, node: usize, subdomain: usize) -> u64 {
        self.division.due(&self.plan.helpands, node, subdomain)
    }

    /// "in the sheet that it writes, each node's count of each subdomain is its
    /// due amount"
    fn carried_out(&self, next: &[u8]) -> Result<(), String> {
        let next = sheet::read(next)
            .map_err(|refusal| format!("the sheet that follows is refused with {refusal}"))?;
        ensure((next.n, next.t) == (self.sheet.n, self.sheet.t), "N or t")?;
        let next = Table::of(&next);
        let nodes = 0..self.totals.len();
        let mut cells = nodes
            .clone()
            .flat_map(|k| nodes.clone().map(move |n| (k, n)));
        let met = cells
            .all(|(node, subdomain)| next.counts[node][subdomain] == self.due(node, subdomain));
        ensure(met, "carried out, the amounts are not those due")
    }
}
