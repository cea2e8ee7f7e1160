//! Twelve steps of a small simulation: in each the inlet's particles are joined
//! with the resident ones, and the step is planned beside the plan of the step
//! before and carried out.

use firrozka::{
    carry_out, join_sheets, plan_step, read_moves, read_sheet, to_bytes, Refusal, MOVES_BYTES,
    PLAN_BYTES, SHEET_BYTES,
};

const NODES: usize = 5;
/// In tenths of a percent.
const TOLERANCE: u32 = 100;
const STEPS: u32 = 12;

/// How many particles of each subdomain each node holds: `held[node][subdomain]`.
type Counts = [[u32; NODES]; NODES];

/// A quarter of each count crosses into the next subdomain.
fn flow(held: &mut Counts) {
    for counts in held.iter_mut() {
        let crossing = counts.map(|count| count / 4);
        for n in 0..NODES {
            counts[n] -= crossing[n];
            counts[(n + 1) % NODES] += crossing[n];
        }
    }
}

/// What the inlet brings, as a sheet: 300 particles of subdomain 0 to node 0 in
/// steps 3 to 5, and else none.
fn inlet(step: u32) -> Vec<u8> {
    match step {
        3..=5 => to_bytes(&[NODES as u32, TOLERANCE, 1, 0, 300]),
        _ => to_bytes(&[NODES as u32, TOLERANCE, 0]),
    }
}

/// The counts as a sheet.
fn sheet_of(held: &Counts) -> Vec<u8> {
    let (mut cells, mut counts) = (Vec::new(), Vec::new());
    for (node, row) in (0..).zip(held) {
        for (subdomain, &count) in (0..).zip(row) {
            if count > 0 {
                cells.push(64 * node + subdomain);
                counts.push(count);
            }
        }
    }
    let sizes = vec![NODES as u32, TOLERANCE, cells.len() as u32];
    to_bytes(&[sizes, cells, counts].concat())
}

/// The counts that a sheet gives. A cell that is absent counts as 0.
fn counts_in(sheet: &[u8]) -> Result<Counts, Refusal> {
    let mut held = [[0; NODES]; NODES];
    for cell in read_sheet(sheet)?.entries() {
        held[cell.holder as usize][cell.subdomain as usize] = cell.count;
    }
    Ok(held)
}

fn main() -> Result<(), Refusal> {
    let mut held = [[0; NODES]; NODES];
    for (node, counts) in held.iter_mut().enumerate() {
        counts[node] = 1000;
    }
    let (mut old_plan, mut plan) = ([0; PLAN_BYTES], [0; PLAN_BYTES]);
    let (mut moves, mut joined, mut next) = ([0; MOVES_BYTES], [0; SHEET_BYTES], [0; SHEET_BYTES]);
    let mut old_len = 0; // no old plan yet
    for number in 1..=STEPS {
        flow(&mut held);
        let sheet = join_sheets(&sheet_of(&held), &inlet(number), &mut joined)?;
        let step = plan_step(sheet, &old_plan[..old_len], &mut plan, &mut moves)?;
        let (kind, limit, list) = (step.kind.number(), step.limit, read_moves(step.moves)?);
        let (count, particles) = (list.e, list.counts.iter().sum::<u32>());
        println!("step {number} kind {kind} limit {limit} moves {count} particles {particles}");
        // Here a simulation sends the particles; these are the counts thereafter.
        held = counts_in(carry_out(sheet, step.moves, &mut next)?)?;
        // Two buffers in turn: the plan of this step is the old plan of the next.
        old_len = step.plan.len();
        std::mem::swap(&mut old_plan, &mut plan);
    }
    let loads = held.map(|counts| counts.iter().sum::<u32>().to_string());
    println!("loads {}", loads.join(" "));
    Ok(())
}
