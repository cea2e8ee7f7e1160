//! The three records, as views of bytes that were accepted.

use crate::words::Words;
use std::error::Error;
use std::fmt;

/// What the words of a cell and a route are made of: node numbers below 64.
pub(crate) const NODES: u32 = 64;

/// A sheet: who holds how many particles of which subdomain.
#[derive(Clone, Copy, Debug, PartialEq, Eq)]
pub struct Sheet<'a> {
    /// N, the number of nodes.
    pub n: u32,
    /// t, the tolerance in tenths of a percent.
    pub t: u32,
    /// E, the number of cells.
    pub e: u32,
    /// P, the total of all counts.
    pub p: u32,
    /// L, the limit.
    pub limit: u32,
    /// The E cells: holder × 64 + subdomain.
    pub cells: Words<'a>,
    /// The E counts.
    pub counts: Words<'a>,
}

/// An entry of a sheet.
#[derive(Clone, Copy, Debug, PartialEq, Eq)]
#[allow(missing_docs)] // document 01's words
pub struct Cell {
    pub holder: u32,
    pub subdomain: u32,
    pub count: u32,
}

impl<'a> Sheet<'a> {
    /// The entries by rising cell.
    pub fn entries(self) -> impl Iterator<Item = Cell> + 'a {
        let pairs = self.cells.iter().zip(self.counts.iter());
        pairs.map(|(cell, count)| Cell {
            holder: cell / NODES,
            subdomain: cell % NODES,
            count,
        })
    }
}

/// The kind of a plan.
#[derive(Clone, Copy, Debug, PartialEq, Eq, Hash)]
pub enum Kind {
    /// No node helps.
    Primary = 0,
    /// The old tree.
    Kept = 1,
    /// A new tree.
    Rebuilt = 2,
}

impl Kind {
    /// Document 01's number.
    pub fn number(self) -> u32 {
        self as u32
    }

    /// Document 01's word.
    pub fn word(self) -> &'static str {
        match self {
            Kind::Primary => "primary",
            Kind::Kept => "kept",
            Kind::Rebuilt => "rebuilt",
        }
    }
}

impl fmt::Display for Kind {
    fn fmt(&self, f: &mut fmt::Formatter) -> fmt::Result {
        f.pad(self.word())
    }
}

/// A number that no kind has.
#[derive(Clone, Copy, Debug, PartialEq, Eq)]
pub struct NoKind(pub u32);

impl fmt::Display for NoKind {
    fn fmt(&self, f: &mut fmt::Formatter) -> fmt::Result {
        write!(f, "{} is no kind: 0 primary, 1 kept, 2 rebuilt", self.0)
    }
}

impl Error for NoKind {}

impl TryFrom<u32> for Kind {
    type Error = NoKind;

    fn try_from(number: u32) -> Result<Kind, NoKind> {
        match number {
            0 => Ok(Kind::Primary),
            1 => Ok(Kind::Kept),
            2 => Ok(Kind::Rebuilt),
            _ => Err(NoKind(number)),
        }
    }
}

/// A plan: who helps whom.
#[derive(Clone, Copy, Debug, PartialEq, Eq)]
pub struct Plan<'a> {
    /// N, the number of nodes.
    pub n: u32,
    /// Primary, kept or rebuilt.
    pub kind: Kind,
    /// The limit, as it stands in the record.
    pub limit: u32,
    /// The N helpands; a root's is its own number.
    pub helpands: Words<'a>,
    /// The N shares.
    pub shares: Words<'a>,
}

/// A node of a plan: its number, its helpand and its share.
#[derive(Clone, Copy, Debug, PartialEq, Eq)]
#[allow(missing_docs)] // document 01's words
pub struct Node {
    pub node: u32,
    pub helpand: u32,
    pub share: u32,
}

impl Node {
    /// "A root's helpand is its own number".
    pub fn is_root(self) -> bool {
        self.helpand == self.node
    }
}

impl<'a> Plan<'a> {
    /// The nodes by rising number.
    pub fn nodes(self) -> impl Iterator<Item = Node> + 'a {
        let pairs = self.helpands.iter().zip(self.shares.iter());
        (0..).zip(pairs).map(|(node, (helpand, share))| Node {
            node,
            helpand,
            share,
        })
    }
}

/// A list of moves: which particles go where.
#[derive(Clone, Copy, Debug, PartialEq, Eq)]
pub struct Moves<'a> {
    /// N, the number of nodes.
    pub n: u32,
    /// E, the number of moves.
    pub e: u32,
    /// The E routes: subdomain × 4,096 + sender × 64 + receiver.
    pub routes: Words<'a>,
    /// The E counts.
    pub counts: Words<'a>,
}

/// An entry of a list of moves.
#[derive(Clone, Copy, Debug, PartialEq, Eq)]
#[allow(missing_docs)] // document 01's words
pub struct Move {
    pub subdomain: u32,
    pub sender: u32,
    pub receiver: u32,
    pub count: u32,
}

impl<'a> Moves<'a> {
    /// The entries by rising route.
    pub fn entries(self) -> impl Iterator<Item = Move> + 'a {
        let pairs = self.routes.iter().zip(self.counts.iter());
        pairs.map(|(route, count)| Move {
            subdomain: route / NODES / NODES,
            sender: route / NODES % NODES,
            receiver: route % NODES,
            count,
        })
    }
}
