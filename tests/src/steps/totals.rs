//! How many particles each subdomain has.

use super::setting::Setting;
use crate::bounds::MOST_PARTICLES;
use crate::random::Random;

/// Any totals: over all subdomains, over some, or all in one.
pub fn scattered(setting: &Setting, random: &mut Random) -> Vec<u64> {
    let any = 1 + random.place(setting.n);
    let busy = random.one_of(&[1, any, setting.n, setting.n]);
    let mut totals = cut(setting.p, busy, random);
    totals.resize(setting.n, 0);
    random.shuffle(&mut totals);
    totals
}

/// The targets, with some particles moved from one subdomain to another.
pub fn level(setting: &Setting, random: &mut Random) -> Vec<u64> {
    let (p, n) = (setting.p, setting.n as u64);
    let mut totals: Vec<u64> = (0..n).map(|k| p / n + u64::from(k < p % n)).collect();
    for _ in 0..random.between(1, 3 * n as u32) {
        let (from, to) = (random.place(setting.n), random.place(setting.n));
        if totals[from] > 0 {
            totals[from] -= 1;
            totals[to] += 1;
        }
    }
    totals
}

/// Each total is one of three numbers.
pub fn tied(n: usize, random: &mut Random) -> Vec<u64> {
    let most = u64::from(MOST_PARTICLES) / n as u64;
    let most = random.one_of(&[1, 5, 40, most]).min(most);
    let (a, b) = (random.amount(0, most), random.amount(0, most));
    (0..n).map(|_| random.one_of(&[0, a, b])).collect()
}

/// The totals of a division along a tree with these loads. Whoever is in a
/// family of the tight set works for that set only.
pub fn around(loads: &[u64], helpands: &[u32], tight: &[usize], random: &mut Random) -> Vec<u64> {
    divided(loads, helpands, |node, load| {
        let helpand = helpands[node] as usize;
        match (tight.contains(&node), tight.contains(&helpand)) {
            (true, false) => 0,
            (false, true) => load,
            _ => some_part(load, random),
        }
    })
}

/// The totals of a division along a tree: each node's load is cut in two, its
/// share of its helpand's subdomain and the rest, of its own.
pub fn divided(
    loads: &[u64],
    helpands: &[u32],
    mut share: impl FnMut(usize, u64) -> u64,
) -> Vec<u64> {
    let mut totals = vec![0; loads.len()];
    for (node, &load) in loads.iter().enumerate() {
        let share = share(node, load);
        // At the root, both are the same subdomain.
        totals[helpands[node] as usize] += share;
        totals[node] += load - share;
    }
    totals
}

/// `count` loads that sum to the total, none above the most.
pub fn share_out(total: u64, count: usize, most: u64, random: &mut Random) -> Vec<u64> {
    let mut left = total;
    let mut loads = Vec::new();
    for behind in (0..count as u64).rev() {
        let low = left.saturating_sub(behind * most);
        let high = left.min(most);
        let even = (left / (behind + 1)).clamp(low, high);
        let any = random.amount(low, high);
        let load = random.one_of(&[low, high, even, even, any]);
        loads.push(load);
        left -= load;
    }
    random.shuffle(&mut loads);
    loads
}

/// The total cut into pieces, none of them 0 unless there are too few particles.
pub fn cut(total: u64, pieces: usize, random: &mut Random) -> Vec<u64> {
    let each = u64::from(total >= pieces as u64);
    let mut left = total - each * pieces as u64;
    let even = random.chance(1, 2);
    let mut cuts = Vec::new();
    for behind in (0..pieces as u64).rev() {
        let part = match behind {
            0 => left,
            _ if even => left / (behind + 1),
            _ => some_part(left, random),
        };
        cuts.push(each + part);
        left -= part;
    }
    random.shuffle(&mut cuts);
    cuts
}

/// None of an amount, all of it, half, or any part.
fn some_part(amount: u64, random: &mut Random) -> u64 {
    let any = random.amount(0, amount);
    random.one_of(&[0, amount, amount / 2, any, any, any])
}
