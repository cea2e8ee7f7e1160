//! Plans step D and prints it as the bench program does, and then its traffic page;
//! writes its sheet to an archive and reads it back; prints its plan's groups; tallies
//! arrivals until the tree gives way.

use firrozka::{
    groups, plan_step, read_archive, read_moves, read_plan, read_sheet, to_bytes, traffic_page,
    write_archive, Refusal, Tally, Words, ARCHIVE_BYTES, GROUPS_BYTES, MOVES_BYTES, NO_PLAN,
    PAGE_BYTES, PLAN_BYTES, SHEET_BYTES,
};

/// Each node's amount of its own subdomain: Pn less the shares of its helpers.
fn own(sheet: &[u8], plan: &[u8]) -> Result<Vec<u32>, Refusal> {
    let (sheet, plan) = (read_sheet(sheet)?, read_plan(plan)?);
    let mut own = vec![0; sheet.n as usize];
    for cell in sheet.entries() {
        own[cell.subdomain as usize] += cell.count;
    }
    for node in plan.nodes() {
        own[node.helpand as usize] -= node.share;
    }
    Ok(own)
}

fn with_blanks(words: Words) -> String {
    let words: Vec<String> = words.iter().map(|word| word.to_string()).collect();
    words.join(" ")
}

fn main() -> Result<(), Refusal> {
    // 3 nodes, a tolerance of 100 tenths of a percent, 3 cells.
    let sheet = to_bytes(&[3, 100, 3, 0, 65, 130, 90, 6, 4]);
    let (mut plan, mut moves) = ([0; PLAN_BYTES], [0; MOVES_BYTES]);
    let step = plan_step(&sheet, NO_PLAN, &mut plan, &mut moves)?;

    println!("kind {} limit {}", step.kind.number(), step.limit);
    for (node, own) in read_plan(step.plan)?.nodes().zip(own(&sheet, step.plan)?) {
        let (number, helpand, share) = (node.node, node.helpand, node.share);
        println!("node {number} helps {helpand} share {share} own {own}");
    }
    for entry in read_moves(step.moves)?.entries() {
        let (subdomain, from, to) = (entry.subdomain, entry.sender, entry.receiver);
        println!("move {subdomain} from {from} to {to} count {}", entry.count);
    }
    let mut page = [0; PAGE_BYTES];
    print!("{}", traffic_page(&sheet, step.moves, &mut page)?);

    let (mut archive, mut restored) = ([0; ARCHIVE_BYTES], [0; SHEET_BYTES]);
    let archive = write_archive(&sheet, &mut archive)?;
    let same = read_archive(archive, &mut restored)? == sheet;
    let read = if same { "the same" } else { "another" };
    println!("archive {} bytes, read back {read}", archive.len());

    let mut buffer = [0; GROUPS_BYTES];
    let groups = groups(step.plan, &mut buffer)?;
    let [even, odd] = [groups.even, groups.odd].map(with_blanks);
    println!("groups even {even} odd {odd}");

    // Particles of subdomain 0 arrive at node 0 one by one.
    let mut tally = Tally::open(&sheet, step.plan)?;
    let mut count = 0;
    while tally.holds() {
        tally.add(0, 0, 1)?;
        count += 1;
    }
    println!("tally: the tree gives way at {count} more of subdomain 0");
    Ok(())
}
