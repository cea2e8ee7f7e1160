//! The groups of a plan as lines: what the library's record says, group by group.

use crate::record::explained;
use firrozka::{groups, Words, GROUPS_BYTES, NO_GROUP};
use std::collections::BTreeMap;

/// *Groups*: the number of nodes, and a line for each group.
pub fn listed(plan: &[u8]) -> Result<String, String> {
    let mut buffer = [0; GROUPS_BYTES];
    let groups = groups(plan, &mut buffer).map_err(|refusal| explained(refusal, plan))?;
    let mut lines = of_colour("even", groups.even) + &of_colour("odd", groups.odd);
    if lines.is_empty() {
        lines += "no group: no node helps\n";
    }
    Ok(format!("nodes {}\n{lines}", groups.even.len()))
}

/// The groups of a colour by rising owner, each with its members by rising number.
fn of_colour(colour: &str, entries: Words) -> String {
    let mut groups: BTreeMap<u32, String> = BTreeMap::new();
    let members = entries.iter().enumerate();
    for (node, owner) in members.filter(|(_, owner)| *owner != NO_GROUP) {
        *groups.entry(owner).or_default() += &format!(" {node}");
    }
    let groups = groups.into_iter();
    let lines = groups.map(|(owner, members)| format!("{colour} owner {owner} members{members}\n"));
    lines.collect()
}
