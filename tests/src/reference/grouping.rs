//! Request 2026-06, the groups: "Write N, then each node's group in the even colour,
//! then in the odd".

use super::plan::Plan;
use super::tree::{distance, helpers};
use super::words::record;

/// The groups of a plan.
pub fn bytes(plan: &Plan) -> Vec<u8> {
    // "64 is none"
    let none = vec![64; plan.n as usize];
    let mut colours = [none.clone(), none];
    for owner in 0..plan.n as usize {
        let helpers = helpers(&plan.helpands, owner);
        // "each family with a helper is a group"
        if helpers.is_empty() {
            continue;
        }
        // "coloured by whether its owner's distance from the root is even or odd"
        let colour = &mut colours[distance(&plan.helpands, owner) % 2];
        for member in helpers.into_iter().chain([owner]) {
            // "a group is named by its owner"
            colour[member] = owner as u32;
        }
    }
    let [even, odd] = colours;
    record(&[plan.n], &even, &odd)
}
