//! The rival: "one along the old tree with every load at most L, however it was
//! found". Decided here without least and spare, and either way with a proof
//! that is easy to check: a division, or a set of subdomains that violates Hall's
//! condition.
//! Each node has a room of its own, so that leasts can be looked into as well.

use crate::division::{members, Division};
use std::collections::VecDeque;

/// Whether there is a division along a tree in which no load is above its room.
#[derive(Clone, Debug, PartialEq, Eq)]
pub enum Verdict {
    /// There is this one.
    Division(Division),
    /// There is none: these subdomains violate Hall's condition. They have more
    /// particles than all members of their families together have room for.
    HallViolation(Vec<usize>),
}

impl Verdict {
    /// Whether what the verdict shows is really so.
    pub fn is_proven(&self, helpands: &[u32], totals: &[u64], rooms: &[u64]) -> bool {
        match self {
            Verdict::Division(division) => {
                division.is_along(helpands, totals) && division.fits(rooms)
            }
            Verdict::HallViolation(subdomains) => {
                let particles: u64 = subdomains.iter().map(|&owner| totals[owner]).sum();
                let members = members(helpands, subdomains).into_iter();
                particles > members.map(|node| rooms[node]).sum()
            }
        }
    }
}

/// The verdict by trying all shares, one after the other: for tiny cases.
pub fn by_trying(helpands: &[u32], totals: &[u64], rooms: &[u64]) -> Option<Division> {
    let n = helpands.len();
    let mut share = vec![0; n];
    loop {
        let division = with_shares(&share, helpands, totals);
        if let Some(division) = division.filter(|division| division.fits(rooms)) {
            return Some(division);
        }
        // The next shares, counted up like a number whose first digit is the lowest.
        let most = |node: usize| match helpands[node] as usize {
            helpand if helpand == node => 0,
            helpand => totals[helpand],
        };
        let up = (0..n).find(|&node| share[node] < most(node))?;
        share[..up].fill(0);
        share[up] += 1;
    }
}

/// The division with these shares, if no owner comes out below 0.
fn with_shares(share: &[u64], helpands: &[u32], totals: &[u64]) -> Option<Division> {
    let mut own = totals.to_vec();
    for node in 0..share.len() {
        let helpand = helpands[node] as usize;
        own[helpand] = own[helpand].checked_sub(share[node])?;
    }
    let share = share.to_vec();
    Some(Division { own, share })
}

/// The verdict by a maximum flow: particles flow from the source to their
/// subdomain, on to the members of its family, and as far as a member has room
/// to the sink. There is a division if they all arrive.
pub fn by_flow(helpands: &[u32], totals: &[u64], rooms: &[u64]) -> Verdict {
    let n = helpands.len();
    let subdomain = |k: usize| k;
    let node = |k: usize| n + k;
    let (source, sink) = (2 * n, 2 * n + 1);
    let mut network = Network::new(2 * n + 2);
    let enter: Vec<usize> = (0..n)
        .map(|k| network.add_edge(source, subdomain(k), totals[k]))
        .collect();
    let own: Vec<usize> = (0..n)
        .map(|k| network.add_edge(subdomain(k), node(k), u64::MAX))
        .collect();
    let helping = (0..n).map(|k| match helpands[k] as usize {
        helpand if helpand == k => None,
        helpand => Some(network.add_edge(subdomain(helpand), node(k), u64::MAX)),
    });
    let share: Vec<Option<usize>> = helping.collect();
    for (k, &room) in rooms.iter().enumerate() {
        network.add_edge(node(k), sink, room);
    }
    let reached = network.maximise_flow(source, sink);
    if enter.iter().all(|&edge| network.residual[edge] == 0) {
        let flow = |edge: usize| network.flow(edge);
        return Verdict::Division(Division {
            own: own.into_iter().map(flow).collect(),
            share: share.into_iter().map(|edge| edge.map_or(0, flow)).collect(),
        });
    }
    // The source's side of a minimum cut.
    Verdict::HallViolation((0..n).filter(|&k| reached[subdomain(k)]).collect())
}

/// A flow network. Edges come in pairs: behind each stands its reverse.
struct Network {
    /// The edges that leave a vertex.
    edges: Vec<Vec<usize>>,
    /// The vertex where an edge ends.
    end: Vec<usize>,
    /// The residual capacity of an edge. What flows along the first of a pair
    /// can flow back along the second.
    residual: Vec<u64>,
}

impl Network {
    fn new(vertices: usize) -> Network {
        Network {
            edges: vec![Vec::new(); vertices],
            end: Vec::new(),
            residual: Vec::new(),
        }
    }

    /// Adds an edge and its reverse, and gives the edge's number.
    fn add_edge(&mut self, from: usize, to: usize, capacity: u64) -> usize {
        let number = self.end.len();
        self.edges[from].push(number);
        self.edges[to].push(number + 1);
        self.end.extend([to, from]);
        self.residual.extend([capacity, 0]);
        number
    }

    /// The flow along an edge.
    fn flow(&self, edge: usize) -> u64 {
        self.residual[edge + 1]
    }

    /// Makes the flow maximum by shortest augmenting paths, and gives the
    /// vertices that the source still reaches in the residual network.
    fn maximise_flow(&mut self, source: usize, sink: usize) -> Vec<bool> {
        loop {
            let into = self.search(source);
            if into[sink].is_none() {
                let reached = |vertex: usize| vertex == source || into[vertex].is_some();
                return (0..into.len()).map(reached).collect();
            }
            self.augment(&path(&into, &self.end, sink));
        }
    }

    /// For each vertex that the source reaches in the residual network, the edge
    /// that leads into it on a shortest path.
    fn search(&self, source: usize) -> Vec<Option<usize>> {
        let mut into = vec![None; self.edges.len()];
        let mut queue = VecDeque::from([source]);
        while let Some(vertex) = queue.pop_front() {
            for &edge in &self.edges[vertex] {
                let end = self.end[edge];
                if self.residual[edge] > 0 && end != source && into[end].is_none() {
                    into[end] = Some(edge);
                    queue.push_back(end);
                }
            }
        }
        into
    }

    /// Adds to the flow along a path what its least residual capacity allows.
    fn augment(&mut self, path: &[usize]) {
        let amount = path.iter().map(|&edge| self.residual[edge]).min();
        for &edge in path {
            self.residual[edge] -= amount.unwrap_or(0);
            self.residual[edge ^ 1] += amount.unwrap_or(0);
        }
    }
}

/// The edges of the path from the source to a vertex, the last one first.
fn path(into: &[Option<usize>], end: &[usize], vertex: usize) -> Vec<usize> {
    let next = |&edge: &usize| into[end[edge ^ 1]];
    std::iter::successors(into[vertex], next).collect()
}
