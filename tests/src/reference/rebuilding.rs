//! "Rebuilding": a new tree in which every node's load is its target.

use std::cmp::Reverse;

/// Where a node stands.
#[derive(Clone, Copy, PartialEq, Eq)]
enum Group {
    /// "Group A holds nodes with load under target"
    A,
    /// "group B the others"
    B,
    /// "finished and in neither group from then on"
    Finished,
}

/// How things stand between two turns.
struct Rebuilding<'a> {
    old_tree: Option<&'a [u32]>,
    targets: Vec<u64>,
    loads: Vec<u64>,
    groups: Vec<Group>,
    helpands: Vec<u32>,
    shares: Vec<u64>,
}

/// The new helpands and shares.
pub fn rebuild(totals: &[u64], old_tree: Option<&[u32]>) -> (Vec<u32>, Vec<u64>) {
    let mut rebuilding = Rebuilding::begin(totals, old_tree);
    // "While A has a node"
    while let Some(l) = rebuilding.smallest() {
        rebuilding.turn(l);
    }
    rebuilding.finish();
    (rebuilding.helpands, rebuilding.shares)
}

/// "There is a target for every node: P/N rounded down, plus 1 for nodes below P mod N."
fn targets(totals: &[u64]) -> Vec<u64> {
    let n = totals.len() as u64;
    let p: u64 = totals.iter().sum();
    (0..n).map(|node| p / n + u64::from(node < p % n)).collect()
}

impl<'a> Rebuilding<'a> {
    /// "Load begins as Pn."
    fn begin(totals: &[u64], old_tree: Option<&'a [u32]>) -> Rebuilding<'a> {
        let n = totals.len();
        let mut rebuilding = Rebuilding {
            old_tree,
            targets: targets(totals),
            loads: totals.to_vec(),
            groups: vec![Group::B; n],
            helpands: (0..n as u32).collect(),
            shares: vec![0; n],
        };
        for node in 0..n {
            rebuilding.regroup(node);
        }
        rebuilding
    }

    /// Puts a node into A if its load is under its target.
    fn regroup(&mut self, node: usize) {
        if self.loads[node] < self.targets[node] {
            self.groups[node] = Group::A;
        }
    }

    /// The nodes of a group, by rising number.
    fn nodes_in(&self, group: Group) -> Vec<usize> {
        (0..self.groups.len())
            .filter(|&node| self.groups[node] == group)
            .collect()
    }

    /// "l is the node in A with the smallest load, lowest number on ties."
    fn smallest(&self) -> Option<usize> {
        let nodes = self.nodes_in(Group::A).into_iter();
        nodes.min_by_key(|&node| (self.loads[node], node))
    }

    /// "the node in B with the largest load, lowest number on ties"
    fn largest(&self) -> Option<usize> {
        let nodes = self.nodes_in(Group::B).into_iter();
        nodes.min_by_key(|&node| (Reverse(self.loads[node]), node))
    }

    /// "g is l's helpand in the old tree, if l was not its root, g is in B and
    /// g's load is at least the need."
    fn old_helpand(&self, l: usize, need: u64) -> Option<usize> {
        let g = self.old_tree?[l] as usize;
        let fit = g != l && self.groups[g] == Group::B && self.loads[g] >= need;
        fit.then_some(g)
    }

    /// One turn of the loop, for this l.
    fn turn(&mut self, l: usize) {
        // "It needs target − load."
        let need = self.targets[l] - self.loads[l];
        // "Otherwise g is the node in B with the largest load"
        let g = self.old_helpand(l, need).or(self.largest());
        let g = g.expect("while a node is under its target, another is above");
        // "l helps g, its share is the need, and l is finished"
        self.helpands[l] = g as u32;
        self.shares[l] = need;
        self.groups[l] = Group::Finished;
        // "g's load drops by the need, and g goes to A if now under target."
        self.loads[g] -= need;
        self.regroup(g);
    }

    /// "Then the lowest node of B is the root, and the others in B help it with share 0."
    fn finish(&mut self) {
        let left = self.nodes_in(Group::B);
        for &node in &left {
            self.helpands[node] = left[0] as u32;
            self.shares[node] = 0;
        }
    }
}
