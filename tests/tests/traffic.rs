//! Request 2026-04, the traffic page: what is written, and every refusal in its
//! order. The expectations are the papers' or worked out by hand.
#![forbid(unsafe_code)]

use firrozka_tests::buffers::{all_refuse, all_write};
use firrozka_tests::calls::{drafts, TRAFFIC_PAGE};
use firrozka_tests::implementations::{Implementation, Planned, IMPLEMENTATIONS};
use firrozka_tests::random::Random;
use firrozka_tests::records::moves::{moves, route};
use firrozka_tests::records::sheets::{self, all_cells, cell, sheet};
use firrozka_tests::records::to_words;
use firrozka_tests::settings::SEED;
use firrozka_tests::steps::{self, Size};
use firrozka_tests::{refused, worked};
use std::{fs, str};

const MOST: u32 = 1_000_000_000;

/// "moves words 3 2 1 2 27 29": node 0 sends 27 and 29.
const STEP_D: &str = concat!(
    " 0         56          0\n",
    " 1          0         27\n",
    " 2          0         29\n",
    "==         56         56\n",
);

/// All write this page.
fn write(sheet: &[u8], moves: &[u8], page: &str) {
    all_write(
        |by, out| (by.traffic_page)(sheet, moves, out),
        page.as_bytes(),
        53,
    );
}

/// All refuse the two.
fn refuse(sheet: &[u8], moves: &[u8], lengths: &[usize], refusal: u32) {
    all_refuse(
        |by, out| (by.traffic_page)(sheet, moves, out),
        lengths,
        refusal,
    );
}

/// A sheet of these cells, given as holder, subdomain and count.
fn held<const E: usize>(n: u32, cells: [(u32, u32, u32); E]) -> Vec<u8> {
    sheets::held(n, 1, &cells).bytes()
}

/// These moves, given as subdomain, sender, receiver and count.
fn sent<const E: usize>(n: u32, sends: [(u32, u32, u32, u32); E]) -> Vec<u8> {
    let routes = sends.map(|(subdomain, sender, receiver, _)| route(subdomain, sender, receiver));
    moves(n, &routes, &sends.map(|(_, _, _, count)| count)).bytes()
}

fn nothing_held(n: u32) -> Vec<u8> {
    held(n, [])
}

fn nothing_sent(n: u32) -> Vec<u8> {
    sent(n, [])
}

/// What a line says: the node, sent and received.
type Line = (String, u64, u64);

/// What the lines of a page say, all of which must have the same form.
fn lines(page: &[u8]) -> Vec<Line> {
    assert_eq!(page.len() % 25, 0);
    page.chunks(25).map(line).collect()
}

/// "node in 2 columns, blank, sent in 10, blank, received in 10, newline, all
/// right-aligned"
fn line(line: &[u8]) -> Line {
    assert_eq!([line[2], line[13], line[24]], [32, 32, 10]);
    let numbers = [&line[3..13], &line[14..24]];
    let [sent, received] = numbers.map(|columns| {
        let number: u64 = right(columns).parse().expect("a number");
        assert_eq!(number.to_string(), right(columns));
        number
    });
    (right(&line[..2]).into(), sent, received)
}

/// What stands at the right of these columns, with blanks before it.
fn right(columns: &[u8]) -> &str {
    let text = str::from_utf8(columns).expect("a text");
    text.trim_start_matches(' ')
}

/// The page of an accepted sheet and moves, and what must hold of it, whatever
/// they are.
fn page(implementation: &Implementation, sheet: &[u8], moves: &[u8]) -> Vec<Line> {
    let page = implementation.page(sheet, moves).expect("accepted");
    let words = to_words(moves);
    let (n, (routes, counts)) = (words[0], words[2..].split_at(words[1] as usize));
    assert_eq!(page.len(), 25 * (n as usize + 1));
    let sum = |chosen: &dyn Fn(u32) -> bool| -> u64 {
        let some = routes
            .iter()
            .zip(counts)
            .filter(|(&route, _)| chosen(route));
        some.map(|(_, &count)| u64::from(count)).sum()
    };
    let lines = lines(&page);
    for (node, line) in (0..n).zip(&lines) {
        let sent = sum(&|route| route / 64 % 64 == node);
        let received = sum(&|route| route % 64 == node);
        assert_eq!(*line, (node.to_string(), sent, received));
    }
    // "Both printed totals must equal the sum of the counts in the moves record."
    let total = sum(&|_| true);
    assert_eq!(lines[n as usize], ("==".into(), total, total));
    lines
}

/// Step D as the papers have it, and as the example has it on disk.
#[test]
fn step_d() {
    let moves = sent(3, [(0, 0, 1, 27), (0, 0, 2, 29)]);
    write(&worked::d().sheet, &moves, STEP_D);
    let examples = concat!(env!("CARGO_MANIFEST_DIR"), "/../examples");
    let file = |name| fs::read(format!("{examples}/{name}")).expect("the file is there");
    write(&file("step-d/sheet"), &file("step-d/moves"), STEP_D);
    assert_eq!(file("traffic.expected"), STEP_D.as_bytes());
}

/// "Steps worked by hand": what each node sends and receives in the step that
/// is planned, from the papers' shares and moves.
#[test]
fn steps_worked_by_hand() {
    let traffic: [&[[u64; 2]]; 11] = [
        &[[0, 0]],
        &[[0, 0], [0, 0]],
        // Node 1 gets its share, 1.
        &[[1, 0], [0, 1]],
        &[[56, 0], [0, 27], [0, 29]],
        // "moves of 1 from 2 to 0 [...] and of 3 from 0 to 2"
        &[[3, 1], [0, 0], [1, 3]],
        // Node 0 gets 7 of subdomain 1, node 2 gets 23 of subdomain 0.
        &[[23, 7], [7, 0], [0, 23]],
        &[[0, 3], [3, 0], [0, 0]],
        &[[0, 0], [36, 0], [0, 36]],
        &[[0, 7], [40, 0], [0, 33]],
        &[[0, 0], [0, 0], [0, 0]],
        // Node 0 gets 2 of subdomain 1, node 2 gets 5 of subdomain 0.
        &[[5, 2], [2, 0], [0, 5]],
    ];
    for ((letter, step), traffic) in worked::all().into_iter().zip(traffic) {
        for implementation in IMPLEMENTATIONS {
            let Planned { moves, .. } = implementation.plan(&step);
            let mut lines = page(implementation, &step.sheet, &moves);
            let (_, total, _) = lines.pop().expect("a last line");
            let numbers: Vec<[u64; 2]> = lines.iter().map(|line| [line.1, line.2]).collect();
            assert_eq!(numbers, traffic, "step {letter}");
            assert_eq!(total, traffic.iter().map(|[sent, _]| sent).sum::<u64>());
        }
    }
}

/// A node's numbers are sums over all subdomains and partners, and what it sends
/// is not set against what it receives.
#[test]
fn subdomains_and_partners() {
    let sheet = held(3, [(0, 0, 11), (0, 1, 20), (1, 2, 7), (2, 0, 5)]);
    let moves = sent(
        3,
        [
            (0, 0, 1, 10),
            (0, 2, 1, 5),
            (1, 0, 1, 20),
            (2, 1, 0, 3),
            (2, 1, 2, 4),
        ],
    );
    let page = concat!(
        " 0         30          3\n",
        " 1          7         35\n",
        " 2          5          4\n",
        "==         42         42\n",
    );
    write(&sheet, &moves, page);
    // The tolerance and what stays play no part.
    let mut other = held(
        3,
        [(0, 0, 10), (0, 1, 999), (1, 2, 8), (2, 0, 5), (2, 2, 1)],
    );
    other[4] = 99;
    write(&other, &moves, page);
}

/// Numbers of one digit up to ten: "at most 1,000,000,000".
#[test]
fn every_width() {
    let sheet = held(2, [(0, 0, MOST)]);
    for (count, columns) in [
        (1, "         1"),
        (9, "         9"),
        (10, "        10"),
        (99, "        99"),
        (100, "       100"),
        (999, "       999"),
        (1_000, "      1000"),
        (9_999, "      9999"),
        (10_000, "     10000"),
        (99_999, "     99999"),
        (100_000, "    100000"),
        (999_999, "    999999"),
        (1_000_000, "   1000000"),
        (9_999_999, "   9999999"),
        (10_000_000, "  10000000"),
        (99_999_999, "  99999999"),
        (100_000_000, " 100000000"),
        (999_999_999, " 999999999"),
        (1_000_000_000, "1000000000"),
    ] {
        let none = "         0";
        let page = format!(" 0 {columns} {none}\n 1 {none} {columns}\n== {columns} {columns}\n");
        write(&sheet, &sent(2, [(0, 0, 1, count)]), &page);
    }
}

/// All particles that there can be, sent and received in parts.
#[test]
fn the_most_particles_in_parts() {
    let part = MOST - 2;
    let sheet = held(3, [(0, 0, 1), (0, 1, part), (0, 2, 1)]);
    let page = concat!(
        " 0 1000000000          0\n",
        " 1          0          2\n",
        " 2          0  999999998\n",
        "== 1000000000 1000000000\n",
    );
    let moves = sent(3, [(0, 0, 1, 1), (1, 0, 2, part), (2, 0, 1, 1)]);
    write(&sheet, &moves, page);
    let sheet = held(3, [(0, 0, 1), (1, 0, part), (1, 2, 1)]);
    let page = concat!(
        " 0          1          0\n",
        " 1  999999999          0\n",
        " 2          0 1000000000\n",
        "== 1000000000 1000000000\n",
    );
    let moves = sent(3, [(0, 0, 2, 1), (0, 1, 2, part), (2, 1, 2, 1)]);
    write(&sheet, &moves, page);
}

/// One node has nobody to send to; and no node need send.
#[test]
fn no_moves() {
    let (node, last) = (" 0          0          0\n", "==          0          0\n");
    let one = [node, last].concat();
    write(&nothing_held(1), &nothing_sent(1), &one);
    write(&held(1, [(0, 0, MOST)]), &nothing_sent(1), &one);
    for n in 1..=64 {
        let nodes = (0..n).map(|node| match node {
            0..=9 => format!(" {node}          0          0\n"),
            _ => format!("{node}          0          0\n"),
        });
        let page = nodes.collect::<String>() + last;
        write(&nothing_held(n), &nothing_sent(n), &page);
    }
}

/// 64 nodes in a ring: node k sends k + 1 of its own subdomain to the next, which
/// is 1 + 2 + .. + 64 in all.
#[test]
fn a_ring_of_all_nodes() {
    let own: Vec<u32> = (0..64).map(|node| cell(node, node)).collect();
    let counts: Vec<u32> = (1..=64).collect();
    let next = (0..64).map(|node| route(node, node, (node + 1) % 64));
    let sheet = sheet(64, 1, &own, &counts).bytes();
    let moves = moves(64, &next.collect::<Vec<_>>(), &counts).bytes();
    for implementation in IMPLEMENTATIONS {
        let lines = page(implementation, &sheet, &moves);
        assert_eq!(lines[0], ("0".into(), 1, 64));
        for node in 1..64 {
            assert_eq!(lines[node as usize], (node.to_string(), node + 1, node));
        }
        let page = implementation.page(&sheet, &moves).expect("accepted");
        assert_eq!(page.len(), 1_625);
        let lines: Vec<&[u8]> = page.chunks(25).collect();
        assert_eq!(lines[0], b" 0          1         64\n");
        assert_eq!(lines[9], b" 9         10          9\n");
        assert_eq!(lines[10], b"10         11         10\n");
        assert_eq!(lines[63], b"63         64         63\n");
        assert_eq!(lines[64], b"==       2080       2080\n");
    }
}

/// As many moves as there can be: each node sends a particle of each subdomain
/// but the last, or of each but its own.
#[test]
fn the_most_moves() {
    let n = 64;
    let cells = all_cells(n);
    let sheet = sheet(n, 1, &cells, &vec![1; cells.len()]).bytes();
    let to_the_next = (0..n * (n - 1)).map(|k| route(k / n, k % n, (k % n + 1) % n));
    let pairs = (0..n * n).map(|k| (k / n, k % n));
    let to_the_owner = pairs.filter(|(owner, sender)| owner != sender);
    let to_the_owner = to_the_owner.map(|(owner, sender)| route(owner, sender, owner));
    for routes in [to_the_next.collect::<Vec<_>>(), to_the_owner.collect()] {
        let moves = moves(n, &routes, &[1; 64 * 63]).bytes();
        let nodes = (0..n).map(|node| format!("{node:2}         63         63\n"));
        let page = nodes.collect::<String>() + "==       4032       4032\n";
        write(&sheet, &moves, &page);
    }
}

/// "those of *carry out*": the sheet's, then the moves', whatever else is wrong.
#[test]
fn refused_records() {
    let lengths = [0, 99, 100, 1_625];
    let (three, two) = (worked::d().sheet, worked::b().sheet);
    let too_much = sent(3, [(1, 0, 1, 1)]);
    for (refusal, sheet) in refused::sheets() {
        for (_, moves) in refused::moves() {
            refuse(&sheet, &moves, &lengths, refusal);
        }
        for moves in [nothing_sent(3), nothing_sent(2), too_much.clone()] {
            refuse(&sheet, &moves, &lengths, refusal);
        }
    }
    for (refusal, moves) in refused::moves() {
        refuse(&three, &moves, &lengths, refusal);
        refuse(&two, &moves, &lengths, refusal);
    }
    // Neither is left out by giving it length 0.
    refuse(&[], &nothing_sent(3), &lengths, 1);
    refuse(&three, &[], &lengths, 31);
}

/// "41, N differ", whatever is sent and however long the buffer is.
#[test]
fn unequal_nodes() {
    let sheet = worked::d().sheet;
    let lengths = [0, 50, 74, 75, 100, 125, 1_625];
    for n in [1, 2, 4, 63, 64] {
        refuse(&sheet, &nothing_sent(n), &lengths, 41);
    }
    refuse(&sheet, &sent(2, [(0, 0, 1, 27)]), &lengths, 41);
    refuse(&sheet, &sent(2, [(1, 0, 1, 1)]), &lengths, 41);
    refuse(&sheet, &sent(64, [(0, 0, 63, 27)]), &lengths, 41);
}

/// "42, some cell sends in all more than the old sheet gives it", however long
/// the buffer is.
#[test]
fn sends_too_much() {
    let lengths = [0, 75, 99, 100, 1_625];
    let sheet = worked::d().sheet;
    let refuse = |moves: Vec<u8>| refuse(&sheet, &moves, &lengths, 42);
    refuse(sent(3, [(0, 0, 1, 91)]));
    refuse(sent(3, [(0, 0, 1, 90), (0, 0, 2, 1)]));
    refuse(sent(3, [(0, 0, 1, 1), (0, 0, 2, 90)]));
    // Node 0 has 90 of another subdomain, and another node has this one.
    refuse(sent(3, [(1, 0, 2, 1)]));
    refuse(sent(3, [(0, 0, 1, 90), (1, 1, 0, 6), (2, 2, 0, 5)]));
    // What arrives in the same step does not help.
    refuse(sent(3, [(0, 0, 1, 5), (0, 1, 2, 5)]));
    refuse(sent(3, [(0, 0, 1, MOST), (0, 0, 2, MOST)]));
}

/// Sends of one cell that come to little in 32 bits.
#[test]
fn sends_beyond_32_bits() {
    let sheet = held(64, [(0, 0, MOST)]);
    for (count, each) in [(5, MOST), (63, MOST), (8, 1 << 29), (33, 1 << 27)] {
        let routes: Vec<u32> = (1..=count).map(|receiver| route(0, 0, receiver)).collect();
        let moves = moves(64, &routes, &vec![each; count as usize]).bytes();
        refuse(&sheet, &moves, &[0, 1_625], 42);
    }
}

/// "53 for a buffer under 25 × (N+1) bytes", for every N.
#[test]
fn short_buffers() {
    let d = sent(3, [(0, 0, 1, 27), (0, 0, 2, 29)]);
    let lengths: Vec<usize> = (0..100).collect();
    refuse(&worked::d().sheet, &d, &lengths, 53);
    for n in 1..=64 {
        let lines = n as usize;
        let short = [0, 1, 24, 25, 25 * lines, 25 * lines + 1, 25 * lines + 24];
        refuse(&nothing_held(n), &nothing_sent(n), &short, 53);
    }
}

/// What each of n nodes holds in all.
fn holdings(sheet: &[u8]) -> Vec<i64> {
    let words = to_words(sheet);
    let (cells, counts) = words[3..].split_at(words[2] as usize);
    let mut holdings = vec![0; words[0] as usize];
    for (cell, &count) in cells.iter().zip(counts) {
        holdings[*cell as usize / 64] += i64::from(count);
    }
    holdings
}

/// On the sheet that follows, `next`, a node holds what it held, less what it
/// sends, plus what it receives.
fn carried(lines: &[Line], sheet: &[u8], next: &[u8]) {
    let [before, after] = [sheet, next].map(holdings);
    for (node, (_, sent, received)) in lines[..before.len()].iter().enumerate() {
        let more = *received as i64 - *sent as i64;
        assert_eq!(after[node] - before[node], more, "node {node}");
    }
}

/// Whatever accepted moves are shown.
#[test]
fn seeded_moves() {
    let (mut shown, mut ten_digits) = (0, 0);
    for index in 0..1_000 {
        let draft = drafts::traffic_page(&mut Random::at(SEED, index));
        let [sheet, moves] = draft.records.map(|record| record.bytes());
        for implementation in IMPLEMENTATIONS {
            if let Ok(next) = implementation.carried_out(&sheet, &moves) {
                let lines = page(implementation, &sheet, &moves);
                carried(&lines, &sheet, &next);
                shown += 1;
                ten_digits += usize::from(lines.iter().any(|line| line.1 == u64::from(MOST)));
            }
        }
    }
    assert!(shown > 1_500 && ten_digits > 50, "{shown}, {ten_digits}");
}

/// "From a sheet and moves that *carry out* would accept, buffer aside": what one
/// refuses the other refuses by the same number.
#[test]
fn accepted_like_carry_out() {
    let (mut accepted, mut refused) = (0, 0);
    for index in 0..3_000 {
        let random = &mut Random::at(SEED, index);
        let mut draft = drafts::traffic_page(random);
        draft.mutate(&TRAFFIC_PAGE.numbers(), random);
        let [sheet, moves] = draft.records.map(|record| record.bytes());
        for implementation in IMPLEMENTATIONS {
            let carried_out = implementation.carried_out(&sheet, &moves).err();
            assert_eq!(implementation.page(&sheet, &moves).err(), carried_out);
            match carried_out {
                None => accepted += 1,
                Some(_) => refused += 1,
            }
        }
    }
    assert!(accepted > 1_000 && refused > 1_000, "{accepted}, {refused}");
}

/// The moves of planned steps.
#[test]
fn planned_steps() {
    for index in 0..500 {
        let step = steps::at(SEED, index, Size::Any);
        for implementation in IMPLEMENTATIONS {
            let Planned { moves, .. } = implementation.plan(&step);
            let next = implementation.carried_out(&step.sheet, &moves);
            let lines = page(implementation, &step.sheet, &moves);
            carried(&lines, &step.sheet, &next.expect("accepted"));
        }
    }
}
