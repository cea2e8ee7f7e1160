//! A tight set: some subdomains of a tree whose particles fill all members of
//! their families to the limit. One particle more, and it violates Hall's
//! condition: no division along the tree keeps to the limit.

use super::setting::Setting;
use super::totals::{around, share_out};
use crate::division::members;
use crate::random::Random;

pub struct TightSet {
    pub subdomains: Vec<usize>,
    pub totals: Vec<u64>,
}

/// Some tight set in the tree, if the first try finds one.
pub fn tight_set(setting: &Setting, helpands: &[u32], random: &mut Random) -> Option<TightSet> {
    let limit = setting.limit();
    let subdomains = grow(helpands, setting.p / limit, random)?;
    let members = members(helpands, &subdomains);
    // The others have what the members have no room for.
    let rest = setting.p - limit * members.len() as u64;
    let others = share_out(rest, setting.n - members.len(), limit, random);
    let mut others = others.into_iter();
    let load = |node| match members.contains(&node) {
        true => Some(limit),
        false => others.next(),
    };
    let loads = (0..setting.n).map(load).collect::<Option<Vec<u64>>>()?;
    let totals = around(&loads, helpands, &subdomains, random);
    Some(TightSet { subdomains, totals })
}

/// Neighbouring subdomains whose families have at most this many members.
fn grow(helpands: &[u32], most: u64, random: &mut Random) -> Option<Vec<usize>> {
    let n = helpands.len();
    let fits = |set: &[usize]| members(helpands, set).len() as u64 <= most;
    let mut set = vec![random.place(n)];
    if !fits(&set) {
        return None;
    }
    let some = random.place(n);
    for _ in 0..random.one_of(&[0, 1, some, n]) {
        let next = beside(helpands, &set);
        if next.is_empty() {
            break;
        }
        set.push(random.one_of(&next));
        if !fits(&set) {
            set.pop();
        }
    }
    Some(set)
}

/// The helpers and the helpands of those in the set, as far as they are not
/// in it.
fn beside(helpands: &[u32], set: &[usize]) -> Vec<usize> {
    let pairs = (0..helpands.len()).map(|node| (node, helpands[node] as usize));
    let next = |(node, helpand)| match (set.contains(&node), set.contains(&helpand)) {
        (true, false) => Some(helpand),
        (false, true) => Some(node),
        _ => None,
    };
    pairs.filter_map(next).collect()
}
