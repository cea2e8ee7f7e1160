//! The wrapper over the library: document 01's steps, refusals and parts, and
//! document 02's joined sheets, traffic pages, archives, groups and tallies.

use firrozka::{
    carry_out, ffi, groups, join_sheets, plan_step, read_archive, read_moves, read_plan,
    read_sheet, to_bytes, traffic_page, traffic_text, tree_in_force, weigh, write_archive, Cell,
    Kind, Move, Refusal, Step, Tally, Words, ARCHIVE_BYTES, GROUPS_BYTES, LEAST_BYTES, MOVES_BYTES,
    NO_GROUP, NO_PLAN, PAGE_BYTES, PLAN_BYTES, SHEET_BYTES,
};
use std::{mem, thread};

/// Step D: "sheet words", "plan words", "moves words".
const SHEET: [u32; 9] = [3, 100, 3, 0, 65, 130, 90, 6, 4];
const PLAN: [u32; 9] = [3, 2, 36, 0, 0, 0, 0, 27, 29];
const MOVES: [u32; 6] = [3, 2, 1, 2, 27, 29];

/// What the gas inlet injects at node 0: 17 of subdomain 0, 3 of subdomain 1.
const INLET: [u32; 7] = [3, 100, 2, 0, 1, 17, 3];

/// Step D's sheet and the inlet's, joined.
const JOINED: [u32; 11] = [3, 100, 4, 0, 1, 65, 130, 107, 3, 6, 4];
const JOINED_BYTES: usize = 44;

/// Nodes 0, 1 and 2 hold 34 and 3, 23, and 1,200 particles.
const BUSY: [u32; 11] = [3, 100, 4, 0, 1, 65, 128, 34, 3, 23, 1200];

/// Of subdomain 0 node 2 sends 1,000 to node 0 and 7 to node 1; of subdomain 1 node
/// 0 sends 3 to node 1, and node 1 sends 20 to node 2.
const TRAFFIC: [u32; 10] = [3, 4, 128, 129, 4096 + 1, 4096 + 66, 1000, 7, 3, 20];
const PAGE: &str = concat!(
    " 0          3       1000\n",
    " 1         20         10\n",
    " 2       1007         20\n",
    "==       1030       1030\n",
);

/// An archive by positions, which are written in base 4: each digit is twice a bit
/// of the holder and a bit of the subdomain.
fn archive(n: u32, t: u32, counts: &[(&str, u32)]) -> Vec<u8> {
    let mut words = [0; 2 + 4096];
    words[..2].copy_from_slice(&[n, t]);
    for (position, count) in counts {
        words[2 + usize::from_str_radix(position, 4).expect("it is in base 4")] = *count;
    }
    to_bytes(&words)
}

/// The archive of the busy sheet: holder and subdomain are 0 0, 0 1, 1 1 and 2 0.
fn busy_archive() -> Vec<u8> {
    archive(3, 100, &[("0", 34), ("1", 3), ("3", 23), ("20", 1200)])
}

/// Nodes 0 and 2 help node 1, which is the root, and nodes 3 and 4 help node 0.
const TREE: [u32; 13] = [5, 2, 36, 1, 1, 1, 0, 0, 20, 0, 15, 12, 9];

/// Its groups: in the even colour node 1's family, in the odd that of node 0.
const GROUPS: [u32; 11] = [5, 1, 1, 1, 64, 64, 0, 64, 64, 0, 0];
const TREE_GROUPS_BYTES: usize = 44;

/// Step H: nodes 0, 1 and 2 hold 28, 72 and 0 particles of their own subdomains.
const SHEET_H: [u32; 7] = [3, 100, 2, 0, 65, 28, 72];

/// Its old plan, in which node 1 helps node 0, and node 2 helps node 1.
const CHAIN: [u32; 9] = [3, 2, 36, 0, 0, 1, 0, 0, 0];

/// A plan of kind 0.
const ROOTS: [u32; 9] = [3, 0, 36, 0, 1, 2, 0, 0, 0];

struct Buffers {
    plan: [u8; PLAN_BYTES],
    moves: [u8; MOVES_BYTES],
}

impl Buffers {
    fn new() -> Buffers {
        Buffers {
            plan: [0xa5; PLAN_BYTES],
            moves: [0xa5; MOVES_BYTES],
        }
    }

    fn plan_step(&mut self, sheet: &[u8], old: &[u8]) -> Result<Step<'_>, Refusal> {
        plan_step(sheet, old, &mut self.plan, &mut self.moves)
    }
}

fn numbers(words: Words) -> Vec<u32> {
    words.iter().collect()
}

#[test]
fn step_d_is_planned_and_carried_out() -> Result<(), Refusal> {
    let sheet = to_bytes(&SHEET);
    let mut buffers = Buffers::new();
    let step = buffers.plan_step(&sheet, NO_PLAN)?;
    assert_eq!((step.kind, step.limit), (Kind::Rebuilt, 36));
    assert_eq!(numbers(Words::of(step.plan)), PLAN);
    assert_eq!(numbers(Words::of(step.moves)), MOVES);
    let mut next = [0; SHEET_BYTES];
    let next = read_sheet(carry_out(&sheet, step.moves, &mut next)?)?;
    assert_eq!(numbers(next.cells), [0, 64, 65, 128, 130]);
    assert_eq!(numbers(next.counts), [34, 27, 6, 29, 4]);
    assert_eq!((next.t, next.p), (100, 100));
    Ok(())
}

#[test]
fn records_are_taken_apart() -> Result<(), Refusal> {
    let bytes = to_bytes(&SHEET);
    let sheet = read_sheet(&bytes)?;
    assert_eq!(
        [sheet.n, sheet.t, sheet.e, sheet.p, sheet.limit],
        [3, 100, 3, 100, 36]
    );
    let last = sheet.entries().last();
    let (holder, subdomain, count) = (2, 2, 4);
    assert_eq!(
        last,
        Some(Cell {
            holder,
            subdomain,
            count
        })
    );
    let bytes = to_bytes(&PLAN);
    let plan = read_plan(&bytes)?;
    assert_eq!((plan.n, plan.kind, plan.limit), (3, Kind::Rebuilt, 36));
    let roots: Vec<bool> = plan.nodes().map(|node| node.is_root()).collect();
    assert_eq!(roots, [true, false, false]);
    // Subdomain 2 from 0 to 1.
    let bytes = to_bytes(&[3, 1, 2 * 4096 + 1, 7]);
    let moves = read_moves(&bytes)?;
    assert_eq!((moves.n, moves.e), (3, 1));
    let only = Move {
        subdomain: 2,
        sender: 0,
        receiver: 1,
        count: 7,
    };
    assert_eq!(moves.entries().collect::<Vec<Move>>(), [only]);
    Ok(())
}

#[test]
fn helpands_and_shares_are_indexed_and_gone_through() -> Result<(), Refusal> {
    let bytes = to_bytes(&PLAN);
    let plan = read_plan(&bytes)?;
    let by_place: Vec<Option<u32>> = (0..4).map(|node| plan.shares.get(node)).collect();
    assert_eq!(by_place, [Some(0), Some(27), Some(29), None]);
    let mut sum = 0;
    for share in plan.shares {
        sum += share;
    }
    assert_eq!(sum, 56);
    let mut backwards = plan.shares.iter().rev();
    assert_eq!((backwards.len(), backwards.next()), (3, Some(29)));
    assert!(plan.helpands.into_iter().all(|helpand| helpand == 0));
    Ok(())
}

#[test]
fn kinds_come_from_numbers_and_print_as_words() {
    let kinds = [0, 1, 2].map(Kind::try_from);
    assert_eq!(
        kinds,
        [Ok(Kind::Primary), Ok(Kind::Kept), Ok(Kind::Rebuilt)]
    );
    let words = kinds.map(|kind| kind.expect("a kind").to_string());
    assert_eq!(words, ["primary", "kept", "rebuilt"]);
    assert_eq!(format!("{:>8}", Kind::Kept), "    kept");
    let error = Kind::try_from(3).expect_err("there is no kind 3");
    assert_eq!(
        error.to_string(),
        "3 is no kind: 0 primary, 1 kept, 2 rebuilt"
    );
}

#[test]
fn the_tree_of_step_h_holds_and_that_of_step_i_does_not() -> Result<(), Refusal> {
    let old = to_bytes(&CHAIN);
    let mut least = [0xa5; LEAST_BYTES];
    let h = to_bytes(&SHEET_H);
    let weighed = weigh(&h, &old, &mut least)?;
    assert!(weighed.holds);
    assert_eq!(numbers(weighed.leasts), [28, 36, 0]);
    let i = to_bytes(&[3, 100, 2, 0, 65, 27, 73]);
    let weighed = weigh(&i, &old, &mut least)?;
    assert!(!weighed.holds);
    assert_eq!(numbers(weighed.leasts), [27, 37, 0]);
    assert_eq!(least[12..], [0xa5; LEAST_BYTES - 12]);
    Ok(())
}

#[test]
fn the_tree_in_force_is_a_part_of_a_plan() -> Result<(), Refusal> {
    let old = to_bytes(&CHAIN);
    let h = to_bytes(&SHEET_H);
    let mut buffers = Buffers::new();
    let kept = buffers.plan_step(&h, &old)?;
    assert_eq!(kept.kind, Kind::Kept);
    let helpands = tree_in_force(&old, kept.plan);
    assert_eq!(helpands.as_ptr_range(), old[12..24].as_ptr_range());
    let rebuilt = to_bytes(&PLAN);
    let helpands = tree_in_force(&old, &rebuilt);
    assert_eq!(helpands.as_ptr_range(), rebuilt[12..24].as_ptr_range());
    // The old plan has other helpands.
    assert!(tree_in_force(&rebuilt, kept.plan).is_empty());
    // A new plan of kind 0 gives its roots; without an old plan there is nothing.
    let roots = to_bytes(&ROOTS);
    let helpands = tree_in_force(&old, &roots);
    assert_eq!(helpands.as_ptr_range(), roots[12..24].as_ptr_range());
    for new in [&rebuilt, &roots] {
        assert!(tree_in_force(NO_PLAN, new).is_empty());
    }
    Ok(())
}

#[test]
fn refusals_leave_the_buffers_untouched() {
    let (sheet, old) = (to_bytes(&SHEET), to_bytes(&PLAN));
    let mut buffers = Buffers::new();
    let cut = &sheet[..sheet.len() - 1];
    assert_eq!(buffers.plan_step(cut, &old), Err(Refusal::SheetLength));
    assert_eq!(
        buffers.plan_step(&sheet, &old[..11]),
        Err(Refusal::PlanShort)
    );
    let two = to_bytes(&[2, 0, 0, 0, 1, 0, 0]);
    assert_eq!(
        buffers.plan_step(&sheet, &two),
        Err(Refusal::PlanNodesDiffer)
    );
    let Buffers { plan, moves } = &mut buffers;
    let step = plan_step(&sheet, NO_PLAN, &mut plan[..35], moves);
    assert_eq!(step, Err(Refusal::PlanBuffer));
    let step = plan_step(&sheet, NO_PLAN, plan, &mut moves[..23]);
    assert_eq!(step, Err(Refusal::MovesBuffer));
    assert_eq!(buffers.plan, [0xa5; PLAN_BYTES]);
    assert_eq!(buffers.moves, [0xa5; MOVES_BYTES]);
    assert_eq!(weigh(&sheet, &old, &mut []), Err(Refusal::LeastBuffer));
    let roots = to_bytes(&ROOTS);
    assert_eq!(weigh(&sheet, &roots, &mut []), Err(Refusal::PlanPrimary));
    let moves = to_bytes(&MOVES);
    assert_eq!(
        carry_out(&sheet, &moves, &mut []),
        Err(Refusal::SheetBuffer)
    );
    // Node 2 has 4 of subdomain 2.
    let too_many = to_bytes(&[3, 1, 2 * 4096 + 2 * 64, 5]);
    assert_eq!(
        carry_out(&sheet, &too_many, &mut []),
        Err(Refusal::MovesSends)
    );
}

#[test]
fn two_sheets_are_joined() -> Result<(), Refusal> {
    let [sheet, inlet, joined] = [&SHEET[..], &INLET, &JOINED].map(to_bytes);
    let mut out = [0xa5; SHEET_BYTES];
    assert_eq!(join_sheets(&sheet, &inlet, &mut out)?, joined);
    assert_eq!(out[JOINED_BYTES..], [0xa5; SHEET_BYTES - JOINED_BYTES]);
    // In the other order, into a buffer of just this length.
    let mut out = [0xa5; JOINED_BYTES];
    assert_eq!(join_sheets(&inlet, &sheet, &mut out)?, joined);
    let none = to_bytes(&[3, 100, 0]);
    assert_eq!(join_sheets(&sheet, &none, &mut out)?, sheet);
    let rest = to_bytes(&[3, 100, 1, 0, 999_999_900]);
    let most = read_sheet(join_sheets(&sheet, &rest, &mut out)?)?;
    assert_eq!(most.p, 1_000_000_000);
    Ok(())
}

#[test]
fn sheets_that_are_not_joined_leave_the_buffer_untouched() {
    let (sheet, inlet) = (to_bytes(&SHEET), to_bytes(&INLET));
    let cut = &inlet[..inlet.len() - 1];
    let other_nodes = to_bytes(&[2, 100, 0]);
    let too_many = to_bytes(&[3, 100, 2, 0, 1, 17, 999_999_884]);
    let other_tolerance = to_bytes(&[3, 35, 2, 0, 1, 17, 999_999_884]);
    // In the order of the checks; the buffer is a byte too short throughout.
    let cases: [(&[u8], &[u8], Refusal); 6] = [
        (cut, &[], Refusal::SheetLength),
        (&sheet, &[], Refusal::SheetShort),
        (&sheet, &other_nodes, Refusal::SheetsDiffer),
        (&sheet, &other_tolerance, Refusal::SheetsDiffer),
        (&sheet, &too_many, Refusal::SheetCount),
        (&sheet, &inlet, Refusal::JoinedBuffer),
    ];
    for (first, second, refusal) in cases {
        let mut out = [0xa5; JOINED_BYTES - 1];
        assert_eq!(join_sheets(first, second, &mut out), Err(refusal));
        assert_eq!(out, [0xa5; JOINED_BYTES - 1]);
    }
    // Each sheet by itself is accepted, so this 7 is that of the joint total.
    assert!(read_sheet(&sheet).is_ok() && read_sheet(&too_many).is_ok());
}

#[test]
fn the_traffic_of_moves_is_written_as_a_page() -> Result<(), Refusal> {
    let (sheet, moves) = (to_bytes(&BUSY), to_bytes(&TRAFFIC));
    let mut page = [0xa5; PAGE_BYTES];
    assert_eq!(traffic_page(&sheet, &moves, &mut page)?, PAGE);
    assert_eq!(page[PAGE.len()..], [0xa5; PAGE_BYTES][PAGE.len()..]);
    assert_eq!(traffic_text(&sheet, &moves)?, PAGE);
    // One node, no particle and no move, into a buffer of just this length.
    let (sheet, moves) = (to_bytes(&[1, 1, 0]), to_bytes(&[1, 0]));
    let quiet = " 0          0          0\n==          0          0\n";
    assert_eq!(traffic_page(&sheet, &moves, &mut [0xa5; 50])?, quiet);
    Ok(())
}

#[test]
fn the_longest_page_has_64_nodes() -> Result<(), Refusal> {
    // Node 0 sends all that there can be to node 63.
    let sheet = to_bytes(&[64, 100, 1, 0, 1_000_000_000]);
    let moves = to_bytes(&[64, 1, 63, 1_000_000_000]);
    let quiet = (1..63).map(|node| format!("{node:>2}          0          0\n"));
    let expected = format!(
        " 0 1000000000          0\n{}63          0 1000000000\n== 1000000000 1000000000\n",
        quiet.collect::<String>()
    );
    assert_eq!(expected.len(), PAGE_BYTES);
    assert_eq!(traffic_text(&sheet, &moves)?, expected);
    Ok(())
}

/// Of these two there is no page, and a buffer that is a byte too short for one is
/// left alone.
fn assert_no_page(sheet: &[u8], moves: &[u8], refusal: Refusal) {
    let mut page = [0xa5; PAGE.len() - 1];
    assert_eq!(traffic_page(sheet, moves, &mut page), Err(refusal));
    assert_eq!(page, [0xa5; PAGE.len() - 1]);
}

/// A sheet for each of its refusals, in the order of the checks.
const REFUSED: [(&[u32], Refusal); 7] = [
    (&[3, 100], Refusal::SheetShort),
    (&[65, 100, 0], Refusal::SheetNodes),
    (&[3, 1000, 0], Refusal::SheetTolerance),
    (&[3, 100, 10], Refusal::SheetEntries),
    (&[3, 100, 1, 0], Refusal::SheetLength),
    (&[3, 100, 1, 3, 1], Refusal::SheetCell),
    (&[3, 100, 1, 0, 0], Refusal::SheetCount),
];

#[test]
fn where_there_is_no_page_the_buffer_is_untouched() {
    // Beside these sheets stand no moves.
    for (words, refusal) in REFUSED {
        assert_no_page(&to_bytes(words), &[], refusal);
    }
    let lists: [(&[u32], Refusal); 9] = [
        (&[3], Refusal::MovesShort),
        (&[65, 0], Refusal::MovesNodes),
        (&[3, 7], Refusal::MovesEntries),
        (&[3, 1, 1], Refusal::MovesLength),
        (&[3, 1, 0, 1], Refusal::MovesRoute),
        (&[3, 1, 1, 0], Refusal::MovesCount),
        (&[2, 0], Refusal::MovesNodesDiffer),
        // Node 1 has 23.
        (&[3, 1, 4096 + 66, 24], Refusal::MovesSends),
        (&TRAFFIC, Refusal::PageBuffer),
    ];
    let sheet = to_bytes(&BUSY);
    for (words, refusal) in lists {
        assert_no_page(&sheet, &to_bytes(words), refusal);
    }
    assert_eq!(traffic_text(&[], &[]), Err(Refusal::SheetShort));
    assert_eq!(traffic_text(&sheet, &[]), Err(Refusal::MovesShort));
}

#[test]
fn a_sheet_goes_to_the_archive_and_back() -> Result<(), Refusal> {
    let (sheet, expected) = (to_bytes(&BUSY), busy_archive());
    let mut archive = [0xa5; ARCHIVE_BYTES + 4];
    assert_eq!(write_archive(&sheet, &mut archive)?, expected);
    assert_eq!(archive[ARCHIVE_BYTES..], [0xa5; 4]);
    let mut restored = [0xa5; 48];
    assert_eq!(read_archive(&expected, &mut restored)?, sheet);
    assert_eq!(restored[44..], [0xa5; 4]);
    // Buffers of just these lengths.
    let mut archive = [0xa5; ARCHIVE_BYTES];
    assert_eq!(write_archive(&sheet, &mut archive)?, expected);
    assert_eq!(read_archive(&archive, &mut [0xa5; 44])?, sheet);
    Ok(())
}

#[test]
fn an_archive_is_in_z_order() -> Result<(), Refusal> {
    // Holder 37 is 100101 in binary and subdomain 22 is 010110; 63 is all ones.
    let cells = [0, 63, 37 * 64 + 22, 63 * 64, 63 * 64 + 63];
    let counts = [7, 8, 9, 10, 999_999_966];
    let sheet = to_bytes(&[&[64, 1, 5][..], &cells, &counts].concat());
    let positions = ["0", "111111", "210312", "222222", "333333"];
    let counts: Vec<(&str, u32)> = positions.into_iter().zip(counts).collect();
    let expected = archive(64, 1, &counts);
    assert_eq!(write_archive(&sheet, &mut [0; ARCHIVE_BYTES])?, expected);
    assert_eq!(read_archive(&expected, &mut [0; SHEET_BYTES])?, sheet);
    Ok(())
}

#[test]
fn the_longest_and_the_shortest_sheet_are_archived() -> Result<(), Refusal> {
    let (longest, _) = long_chain();
    assert_eq!(longest.len(), SHEET_BYTES);
    for sheet in [longest, to_bytes(&[1, 999, 0])] {
        let mut archive = [0xa5; ARCHIVE_BYTES];
        assert_eq!(write_archive(&sheet, &mut archive)?.len(), ARCHIVE_BYTES);
        assert_eq!(read_archive(&archive, &mut [0; SHEET_BYTES])?, sheet);
    }
    Ok(())
}

#[test]
fn where_there_is_no_archive_the_buffer_is_untouched() {
    // The buffer is a byte too short throughout.
    let last: (&[u32], Refusal) = (&BUSY, Refusal::ArchiveBuffer);
    for (words, refusal) in REFUSED.into_iter().chain([last]) {
        let mut archive = [0xa5; ARCHIVE_BYTES - 1];
        let written = write_archive(&to_bytes(words), &mut archive);
        assert_eq!(written, Err(refusal));
        assert_eq!(archive, [0xa5; ARCHIVE_BYTES - 1]);
    }
}

/// This archive is not read, and a buffer that is a byte too short is left alone.
fn assert_not_read(archive: &[u8], refusal: Refusal) {
    let mut sheet = [0xa5; 43];
    assert_eq!(read_archive(archive, &mut sheet), Err(refusal));
    assert_eq!(sheet, [0xa5; 43]);
}

#[test]
fn archives_that_are_not_read_leave_the_buffer_untouched() {
    // In the order of the checks. Up to 3 a count is wrong, too.
    let much = [("3", u32::MAX)];
    let short = &archive(0, 0, &much)[..ARCHIVE_BYTES - 1];
    assert_not_read(short, Refusal::ArchiveLength);
    let long = [&archive(0, 0, &much)[..], &[0]].concat();
    assert_not_read(&long, Refusal::ArchiveLength);
    for n in [0, 65] {
        assert_not_read(&archive(n, 0, &much), Refusal::ArchiveNodes);
    }
    for t in [0, 1000] {
        assert_not_read(&archive(3, t, &much), Refusal::ArchiveTolerance);
    }
    let counts: [&[(&str, u32)]; 4] = [
        // Subdomain 3, and holder 3.
        &[("0", 34), ("11", 1)],
        &[("0", 34), ("22", 1)],
        // A particle too many, and a sum that would be 1 in 32 bits.
        &[("0", 1), ("1", 1_000_000_000)],
        &[("0", 2), ("1", u32::MAX)],
    ];
    for counts in counts {
        assert_not_read(&archive(3, 100, counts), Refusal::ArchiveCount);
    }
    assert_not_read(&busy_archive(), Refusal::ArchiveBuffer);
}

#[test]
fn an_archive_is_refused_as_one() {
    let said = |archive: &[u8]| {
        let read = read_archive(archive, &mut [0; SHEET_BYTES]).map(<[u8]>::to_vec);
        read.expect_err("it is refused").to_string()
    };
    let nodes = said(&archive(65, 100, &[]));
    assert_eq!(nodes, "refused 2: archive: N is not 1 to 64");
    let tolerance = said(&archive(3, 1000, &[]));
    assert_eq!(tolerance, "refused 3: archive: t is not 1 to 999");
    let length = said(&to_bytes(&BUSY));
    assert_eq!(
        length,
        "refused 54: archive: the length is not 16,392 bytes"
    );
    // What is refused of a sheet is the sheet's.
    let sheet = to_bytes(&[65, 100, 0]);
    let written = write_archive(&sheet, &mut []).map(<[u8]>::to_vec);
    let said = written.expect_err("it is refused").to_string();
    assert_eq!(said, "refused 2: sheet: N is not 1 to 64");
}

#[test]
fn each_family_with_a_helper_is_a_group() -> Result<(), Refusal> {
    let (plan, expected) = (to_bytes(&TREE), to_bytes(&GROUPS));
    let mut buffer = [0xa5; GROUPS_BYTES];
    let of_tree = groups(&plan, &mut buffer)?;
    assert_eq!(of_tree.record, expected);
    assert_eq!(numbers(of_tree.even), [1, 1, 1, NO_GROUP, NO_GROUP]);
    assert_eq!(numbers(of_tree.odd), [0, NO_GROUP, NO_GROUP, 0, 0]);
    let behind = &buffer[TREE_GROUPS_BYTES..];
    assert_eq!(behind, &[0xa5; GROUPS_BYTES][TREE_GROUPS_BYTES..]);
    // A kept tree has the same groups, into a buffer of just this length.
    let kept = to_bytes(&[&[5, 1], &TREE[2..]].concat());
    let mut buffer = [0xa5; TREE_GROUPS_BYTES];
    assert_eq!(groups(&kept, &mut buffer)?.record, expected);
    Ok(())
}

#[test]
fn a_plan_of_kind_0_has_no_group() -> Result<(), Refusal> {
    let mut buffer = [0xa5; GROUPS_BYTES];
    for n in [1, 3, 64] {
        let roots: Vec<u32> = (0..n).collect();
        let plan = to_bytes(&[&[n, 0, 36], &roots[..], &vec![0; n as usize]].concat());
        let of_roots = groups(&plan, &mut buffer)?;
        for entries in [of_roots.even, of_roots.odd] {
            assert_eq!(numbers(entries), vec![NO_GROUP; n as usize]);
        }
    }
    Ok(())
}

#[test]
fn the_groups_of_a_chain_take_turns_in_colour() -> Result<(), Refusal> {
    // Node k helps node k - 1, so that each node but the last owns a group.
    let (_, plan) = long_chain();
    let mut buffer = [0xa5; GROUPS_BYTES];
    let of_chain = groups(&plan, &mut buffer)?;
    assert_eq!(of_chain.record.len(), GROUPS_BYTES);
    let even: Vec<u32> = (0..64).map(|node| node / 2 * 2).collect();
    assert_eq!(numbers(of_chain.even), even);
    let odd: Vec<u32> = (1..63).map(|node| (node - 1) / 2 * 2 + 1).collect();
    let odd = [&[NO_GROUP][..], &odd, &[NO_GROUP]].concat();
    assert_eq!(numbers(of_chain.odd), odd);
    Ok(())
}

#[test]
fn where_there_are_no_groups_the_buffer_is_untouched() {
    // In the order of the checks; the buffer is a byte too short throughout.
    let plans: [(&[u32], Refusal); 9] = [
        (&[5, 2], Refusal::PlanShort),
        (&[65, 2, 36], Refusal::PlanNodes),
        (&[5, 3, 36], Refusal::PlanKind),
        (&[5, 2, 1_999_000_001], Refusal::PlanLimit),
        (&TREE[..12], Refusal::PlanLength),
        (
            &[5, 2, 36, 1, 1, 1, 0, 5, 20, 0, 15, 12, 9],
            Refusal::PlanHelpand,
        ),
        // Nodes 3 and 4 help each other.
        (
            &[5, 2, 36, 1, 1, 1, 4, 3, 20, 0, 15, 12, 9],
            Refusal::PlanShape,
        ),
        (
            &[5, 2, 36, 1, 1, 1, 0, 0, 20, 0, 15, 12, 37],
            Refusal::PlanShare,
        ),
        (&TREE, Refusal::GroupsBuffer),
    ];
    for (words, refusal) in plans {
        let mut buffer = [0xa5; TREE_GROUPS_BYTES - 1];
        assert_eq!(groups(&to_bytes(words), &mut buffer), Err(refusal));
        assert_eq!(buffer, [0xa5; TREE_GROUPS_BYTES - 1]);
    }
}

/// The tally of step H.
fn tally_h() -> Tally {
    Tally::open(&to_bytes(&SHEET_H), &to_bytes(&CHAIN)).expect("it is opened")
}

#[test]
fn a_tally_is_opened_from_a_sheet_and_a_plan() -> Result<(), Refusal> {
    assert_eq!(mem::size_of::<ffi::Tally>(), 17_164);
    let tally = tally_h();
    assert!(tally.holds());
    assert_eq!((tally.n(), tally.limit(), tally.total()), (3, 36, 100));
    assert_eq!(tally.helpands(), [0, 0, 1]);
    assert_eq!(tally.totals(), [28, 72, 0]);
    assert_eq!(tally.leasts(), [28, 36, 0]);
    assert_eq!([tally.count(0, 0), tally.count(1, 1)], [Some(28), Some(72)]);
    assert_eq!([tally.count(1, 0), tally.count(2, 1)], [Some(0); 2]);
    assert_eq!([tally.count(3, 0), tally.count(0, 64)], [None; 2]);
    // Step I, whose tree does not hold, and a kept plan with another limit.
    let kept = to_bytes(&[&[3, 1, 9], &CHAIN[3..]].concat());
    let tally = Tally::open(&to_bytes(&[3, 100, 2, 0, 65, 27, 73]), &kept)?;
    assert!(!tally.holds());
    assert_eq!((tally.limit(), tally.leasts()), (36, &[27, 37, 0][..]));
    Ok(())
}

#[test]
fn arrivals_are_felt_up_the_tree() -> Result<(), Refusal> {
    let mut tally = tally_h();
    // A particle of subdomain 2 at node 0: node 2 spares one fewer, and node 1 keeps
    // one more than the limit.
    assert!(!tally.add(0, 2, 1)? && !tally.holds());
    assert_eq!((tally.limit(), tally.total()), (36, 101));
    assert_eq!((tally.count(0, 2), tally.totals()[2]), (Some(1), 1));
    assert_eq!(tally.leasts(), [28, 37, 1]);
    assert!(tally.remove(0, 2, 1)? && tally.holds());
    assert_eq!(tally, tally_h());
    // With 10 fewer of its own node 1 can spare 10, which node 0 need not keep; that
    // they are held elsewhere plays no part.
    assert!(tally.remove(1, 1, 10)?);
    assert_eq!(tally.leasts(), [18, 26, 0]);
    assert!(tally.add(2, 1, 10)?);
    assert_eq!(tally.leasts(), [28, 36, 0]);
    assert_eq!([tally.count(1, 1), tally.count(2, 1)], [Some(62), Some(10)]);
    Ok(())
}

#[test]
fn a_call_that_is_refused_alters_no_tally() {
    let mut broken = tally_h();
    broken.add(1, 1, 1).expect("it is added");
    for opened in [tally_h(), broken] {
        let mut tally = opened.clone();
        // 58 comes before 60 and 59.
        for (holder, subdomain, count) in [(3, 0, u32::MAX), (0, u32::MAX, 1), (0, 0, 0)] {
            let calls = [
                tally.add(holder, subdomain, count),
                tally.remove(holder, subdomain, count),
            ];
            assert_eq!(calls, [Err(Refusal::TallyCell); 2]);
        }
        // The subdomain has 72 or more, the cell none.
        for (holder, subdomain, count) in [(0, 0, 29), (0, 1, 1), (0, 0, u32::MAX)] {
            let call = tally.remove(holder, subdomain, count);
            assert_eq!(call, Err(Refusal::TallyRemoves));
        }
        // A particle too many, and a sum that 32 bits do not hold.
        for count in [1_000_000_001 - tally.total(), u32::MAX] {
            assert_eq!(tally.add(2, 2, count), Err(Refusal::TallyTotal));
        }
        assert_eq!(tally, opened);
    }
}

#[test]
fn a_tally_counts_up_to_the_largest_total() -> Result<(), Refusal> {
    // All at node 0, whom node 1 helps: the limit is 550,000,000.
    let sheet = to_bytes(&[2, 100, 1, 0, 1_000_000_000]);
    let mut tally = Tally::open(&sheet, &to_bytes(&[2, 2, 0, 0, 0, 0, 0]))?;
    assert_eq!(tally.leasts(), [450_000_000, 0]);
    assert_eq!(tally.add(1, 0, 1), Err(Refusal::TallyTotal));
    assert!(tally.remove(0, 0, 1_000_000_000)?);
    assert_eq!((tally.total(), tally.leasts()), (0, &[0, 0][..]));
    assert!(!tally.add(0, 1, 1_000_000_000)?);
    assert_eq!(tally.leasts(), [0, 1_000_000_000]);
    Ok(())
}

#[test]
fn where_there_is_no_tree_no_tally_is_opened() {
    let (sheet, chain) = (to_bytes(&SHEET_H), to_bytes(&CHAIN));
    for (words, refusal) in REFUSED {
        assert_eq!(Tally::open(&to_bytes(words), &[]), Err(refusal));
    }
    // In the order of the checks; that of one node is of kind 0, too.
    let plans: [(&[u32], Refusal); 5] = [
        (&[3, 2], Refusal::PlanShort),
        (&CHAIN[..8], Refusal::PlanLength),
        (&TREE, Refusal::PlanNodesDiffer),
        (&[1, 0, 36, 0, 0], Refusal::PlanNodesDiffer),
        (&ROOTS, Refusal::PlanPrimary),
    ];
    for (words, refusal) in plans {
        assert_eq!(Tally::open(&sheet, &to_bytes(words)), Err(refusal));
    }
    // What the library leaves of a tally that was open.
    let mut tally = ffi::Tally::NONE;
    let opened = ffi::open_tally(&sheet, &chain, &mut tally);
    assert_eq!((opened.refusal, tally.n), (0, 3));
    let refused = ffi::open_tally(&sheet, &[], &mut tally);
    assert_eq!((refused.refusal, refused.holds), (11, 0));
    assert_eq!(tally, ffi::Tally::NONE);
    let call = ffi::tally_add(&mut tally, 0, 0, 1);
    assert_eq!((call.refusal, call.holds), (58, 0));
}

#[test]
fn a_tally_is_shown_without_its_counts() {
    let shown = "Tally { n: 3, limit: 36, total: 100, helpands: [0, 0, 1], totals: [28, 72, 0], \
        leasts: [28, 36, 0], holds: true, .. }";
    assert_eq!(format!("{:?}", tally_h()), shown);
}

/// The stack that docs/USING.md asks for.
const STACK: usize = 256 * 1024;

/// A sheet of 4,096 cells, and a chain of 64 nodes that it keeps: of the calls
/// that were measured, this one takes the most stack.
fn long_chain() -> (Vec<u8>, Vec<u8>) {
    let helpands = (0u32..64).map(|node| node.saturating_sub(1));
    let plan: Vec<u32> = [64, 2, 0]
        .into_iter()
        .chain(helpands)
        .chain([0; 64])
        .collect();
    let counts = (0..4096).map(|cell| if cell % 64 == 0 { 112 } else { 100 });
    let sheet: Vec<u32> = [64, 100, 4096]
        .into_iter()
        .chain(0..4096)
        .chain(counts)
        .collect();
    (to_bytes(&sheet), to_bytes(&plan))
}

#[test]
fn calls_from_several_threads_do_not_meet() {
    let (sheet, old) = long_chain();
    let planned = || {
        let mut buffers = Box::new(Buffers::new());
        let step = buffers
            .plan_step(&sheet, &old)
            .expect("the step is planned");
        assert_eq!(step.kind, Kind::Kept);
        (step.plan.to_vec(), step.moves.to_vec())
    };
    let alone = planned();
    thread::scope(|scope| {
        let thread = |_| {
            thread::Builder::new()
                .stack_size(STACK)
                .spawn_scoped(scope, planned)
        };
        let threads: Vec<_> = (0..8).map(thread).collect();
        for thread in threads {
            let together = thread.expect("the thread starts").join();
            assert_eq!(together.expect("the thread ends"), alone);
        }
    });
}
