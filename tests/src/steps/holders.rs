//! Who holds the particles: "whoever holds them".

use super::totals::cut;
use super::Size;
use crate::random::Random;
use crate::reference::table::Table;

/// The particles of each subdomain given to holders, for all subdomains in one
/// way or for each in another.
pub fn spread(totals: &[u64], helpands: &[u32], size: Size, random: &mut Random) -> Table {
    let mut table = Table::empty(totals.len());
    let way = random.below(8);
    for (subdomain, &total) in totals.iter().enumerate() {
        let way = if way == 7 { random.below(7) } else { way };
        let holders = holders(way, subdomain, helpands, size, random);
        let pieces = cut(total, holders.len(), random);
        for (holder, piece) in holders.into_iter().zip(pieces) {
            table.counts[holder][subdomain] += piece;
        }
    }
    table
}

/// The holders of one subdomain's particles.
fn holders(
    way: u32,
    subdomain: usize,
    helpands: &[u32],
    size: Size,
    random: &mut Random,
) -> Vec<usize> {
    let n = helpands.len();
    let family = |node: &usize| *node == subdomain || helpands[*node] as usize == subdomain;
    match way {
        0 => vec![subdomain],
        1 => (0..n).filter(family).collect(),
        2 => (0..n)
            .filter(family)
            .chain([random.place(n), random.place(n)])
            .collect(),
        3 => vec![random.place(n)],
        // One node has as much as the whole family: a rest for many members.
        6 => {
            let mut holders: Vec<usize> = (0..n).filter(family).collect();
            holders.extend(vec![random.place(n); holders.len()]);
            holders
        }
        4 if !matches!(size, Size::Few(_)) => (0..n).collect(),
        _ => (0..random.between(1, 3)).map(|_| random.place(n)).collect(),
    }
}
