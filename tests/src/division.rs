//! "Divisions and the rival": what a division along a tree is, said without
//! anything of how a planner finds one.

use crate::reference::plan::Plan;

/// What each node gets of its own subdomain and of its helpand's.
#[derive(Clone, Debug, PartialEq, Eq)]
pub struct Division {
    pub own: Vec<u64>,
    /// 0 at a root.
    pub share: Vec<u64>,
}

impl Division {
    /// "A plan gives each helper its share, and each owner Pn less its helpers'
    /// shares." Nothing if that would be below 0 for some owner.
    pub fn of(plan: &Plan, totals: &[u64]) -> Option<Division> {
        let share: Vec<u64> = plan.shares.iter().map(|&share| u64::from(share)).collect();
        let own = (0..totals.len())
            .map(|owner| totals[owner].checked_sub(helped(&plan.helpands, &share, owner)))
            .collect::<Option<Vec<u64>>>()?;
        Some(Division { own, share })
    }

    /// "For every owner n, a division along a tree gives each member of n's
    /// family a whole number, 0 or more, of particles of subdomain n, and these
    /// sum to Pn."
    pub fn is_along(&self, helpands: &[u32], totals: &[u64]) -> bool {
        (0..totals.len()).all(|owner| {
            let is_root = helpands[owner] as usize == owner;
            let sum = self.own[owner] + helped(helpands, &self.share, owner);
            sum == totals[owner] && !(is_root && self.share[owner] != 0)
        })
    }

    /// "A node's load in it is what it gets of its own subdomain plus, unless
    /// it is the root, what it gets of its helpand's."
    pub fn loads(&self) -> Vec<u64> {
        let pairs = self.own.iter().zip(&self.share);
        pairs.map(|(own, share)| own + share).collect()
    }

    /// "with every load at most L"
    pub fn is_within(&self, limit: u64) -> bool {
        self.fits(&vec![limit; self.own.len()])
    }

    /// Whether no load is above its node's room.
    pub fn fits(&self, rooms: &[u64]) -> bool {
        let mut loads = self.loads().into_iter().zip(rooms);
        loads.all(|(load, &room)| load <= room)
    }

    /// "with every load equal to the node's target"
    pub fn is_on_target(&self) -> bool {
        let loads = self.loads();
        let (p, n) = (loads.iter().sum::<u64>(), loads.len() as u64);
        // "P/N rounded down, plus 1 for nodes below P mod N"
        let target = |node: u64| p / n + u64::from(node < p % n);
        (0..n).all(|node| loads[node as usize] == target(node))
    }

    /// The due amount of a subdomain for a node: "its share for a helper of the
    /// owner, Pn less those shares for the owner, and 0 for any other node".
    pub fn due(&self, helpands: &[u32], node: usize, subdomain: usize) -> u64 {
        if node == subdomain {
            self.own[node]
        } else if helpands[node] as usize == subdomain {
            self.share[node]
        } else {
            0
        }
    }
}

/// All members of the families of these owners, by rising number.
pub fn members(helpands: &[u32], owners: &[usize]) -> Vec<usize> {
    let is_member =
        |node: usize| owners.contains(&node) || owners.contains(&(helpands[node] as usize));
    (0..helpands.len())
        .filter(|&node| is_member(node))
        .collect()
}

/// What all helpers of an owner get of its subdomain.
fn helped(helpands: &[u32], share: &[u64], owner: usize) -> u64 {
    let helps = |&node: &usize| node != owner && helpands[node] as usize == owner;
    (0..share.len()).filter(helps).map(|node| share[node]).sum()
}
