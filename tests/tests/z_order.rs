//! Request 2026-05, the archive in Z order: where each count stands, both ways, and
//! every refusal in its order; with 2026-09, by a table, all of it stays. The
//! expectations are the papers' or worked out by hand.
#![forbid(unsafe_code)]

use firrozka_tests::answers::SheetAnswer;
use firrozka_tests::buffers::{all_refuse, all_write};
use firrozka_tests::calls::{drafts, READ_ARCHIVE, WRITE_ARCHIVE};
use firrozka_tests::implementations::{Implementation, IMPLEMENTATIONS};
use firrozka_tests::random::Random;
use firrozka_tests::records::sheets::{self, all_cells, by_cell, cell, counts, sheet, some_total};
use firrozka_tests::records::{to_bytes, to_words};
use firrozka_tests::reference::sheet::limit;
use firrozka_tests::settings::SEED;
use firrozka_tests::{refused, worked};
use std::fs;

const MOST: u32 = 1_000_000_000;

/// Lengths of buffers, too short and long enough for whatever is read.
const LENGTHS: [usize; 6] = [0, 11, 12, 20, 36, 32_780];

/// Some parts of all cells, in percents.
const FILLED: [u32; 6] = [0, 1, 10, 50, 99, 100];

/// All write this archive.
fn write(sheet: &[u8], archive: &[u8]) {
    all_write(|by, out| (by.write_archive)(sheet, out), archive, 56);
}

/// All read this sheet.
fn read(archive: &[u8], sheet: &[u8]) {
    all_write(|by, out| (by.read_archive)(archive, out), sheet, 56);
}

/// "Going to the archive and back must give the same sheet".
fn both_ways(sheet: &[u8], archive: &[u8]) {
    write(sheet, archive);
    read(archive, sheet);
}

fn write_refused(sheet: &[u8], lengths: &[usize], refusal: u32) {
    all_refuse(|by, out| (by.write_archive)(sheet, out), lengths, refusal);
}

fn read_refused(archive: &[u8], lengths: &[usize], refusal: u32) {
    all_refuse(|by, out| (by.read_archive)(archive, out), lengths, refusal);
}

/// A sheet of these cells, given as holder, subdomain and count.
fn held<const E: usize>(n: u32, t: u32, cells: [(u32, u32, u32); E]) -> Vec<u8> {
    sheets::held(n, t, &cells).bytes()
}

/// An archive with these counts, given as position and count. All others are 0.
fn archive(n: u32, t: u32, counts: impl IntoIterator<Item = (usize, u32)>) -> Vec<u8> {
    let mut words = vec![0; 4_098];
    (words[0], words[1]) = (n, t);
    for (position, count) in counts {
        words[2 + position] = count;
    }
    to_bytes(&words)
}

/// An archive that begins with these words. All others are 0.
fn by_hand(words: &[u32]) -> Vec<u8> {
    let mut words = words.to_vec();
    words.resize(4_098, 0);
    to_bytes(&words)
}

/// Holder and subdomain.
type Cell = (u32, u32);

/// The cells in the order of their positions, drawn square by square: first comes a
/// square, then the one with higher subdomains, then both with higher holders.
fn in_z_order() -> Vec<Cell> {
    let mut cells = vec![(0, 0)];
    for side in [1, 2, 4, 8, 16, 32] {
        let square = |(down, right)| -> Vec<Cell> {
            let cells = cells.iter();
            cells.map(|&(h, s)| (h + down, s + right)).collect()
        };
        cells = [(0, 0), (0, side), (side, 0), (side, side)]
            .map(square)
            .concat();
    }
    cells
}

/// The positions of holders in rows and subdomains in columns.
const FIRST: [[usize; 8]; 8] = [
    [0, 1, 4, 5, 16, 17, 20, 21],
    [2, 3, 6, 7, 18, 19, 22, 23],
    [8, 9, 12, 13, 24, 25, 28, 29],
    [10, 11, 14, 15, 26, 27, 30, 31],
    [32, 33, 36, 37, 48, 49, 52, 53],
    [34, 35, 38, 39, 50, 51, 54, 55],
    [40, 41, 44, 45, 56, 57, 60, 61],
    [42, 43, 46, 47, 58, 59, 62, 63],
];

#[test]
fn the_first_positions() {
    for (holder, row) in (0..).zip(FIRST) {
        for (subdomain, position) in (0..).zip(row) {
            let sheet = held(8, 1, [(holder, subdomain, 7)]);
            both_ways(&sheet, &archive(8, 1, [(position, 7)]));
        }
    }
}

/// "Bit i of the subdomain becomes bit 2i of the position, and bit i of the holder
/// bit 2i+1": it is worth 4^i, and twice that. Each bit alone, and all others.
#[test]
fn every_bit() {
    let expect = |holder, subdomain, position| {
        let sheet = held(64, 999, [(holder, subdomain, MOST)]);
        both_ways(&sheet, &archive(64, 999, [(position, MOST)]));
    };
    for (bit, worth) in [(1, 1), (2, 4), (4, 16), (8, 64), (16, 256), (32, 1_024)] {
        expect(0, bit, worth);
        expect(bit, 0, 2 * worth);
        expect(63, 63 - bit, 4_095 - worth);
        expect(63 - bit, 63, 4_095 - 2 * worth);
    }
    expect(0, 0, 0);
    expect(0, 63, 1_365);
    expect(63, 0, 2_730);
    expect(63, 63, 4_095);
    // 010101 and 101010 in base two.
    expect(42, 21, 2_457);
    expect(21, 42, 1_638);
}

/// All cells with counts of their own: each stands at its position, and every
/// position is taken once.
#[test]
fn every_cell() {
    let all: Vec<u32> = (1..=4_096).collect();
    let sheet = sheet(64, 35, &all_cells(64), &all).bytes();
    let drawn = in_z_order()
        .into_iter()
        .map(|(holder, subdomain)| 1 + cell(holder, subdomain));
    let words: Vec<u32> = [64, 35].into_iter().chain(drawn).collect();
    both_ways(&sheet, &to_bytes(&words));
    for implementation in IMPLEMENTATIONS {
        let archive = implementation.archived(&sheet).expect("accepted");
        let mut taken = to_words(&archive)[2..].to_vec();
        taken.sort_unstable();
        assert_eq!(taken, all, "{}", implementation.name);
    }
}

/// Request 2026-09, "a fixed table of 4,096 positions": each entry by itself, with a
/// particle in its cell alone, stands where the order is drawn.
#[test]
fn every_entry_alone() {
    for (position, (holder, subdomain)) in in_z_order().into_iter().enumerate() {
        let sheet = held(64, 35, [(holder, subdomain, 1)]);
        both_ways(&sheet, &archive(64, 35, [(position, 1)]));
    }
}

/// "sheet words 3 10 3 0 65 130 90 6 4", with ten times its t: nodes 0, 1 and 2 hold
/// their own, at positions 0, 3 and 12.
const STEP_D: [u32; 15] = [3, 100, 90, 0, 0, 6, 0, 0, 0, 0, 0, 0, 0, 0, 4];

/// As the papers have it, and as the example has it on disk and prints its first
/// words.
#[test]
fn step_d() {
    let archive = by_hand(&STEP_D);
    both_ways(&worked::d().sheet, &archive);
    assert_eq!(archive[..12], [3, 0, 0, 0, 100, 0, 0, 0, 90, 0, 0, 0]);
    let examples = concat!(env!("CARGO_MANIFEST_DIR"), "/../examples");
    let file = |name| fs::read(format!("{examples}/{name}")).expect("the file is there");
    both_ways(&file("step-d/sheet"), &archive);
    let words = "3 100 90 0 0 6 0 0 0 0 0 0 0 0 4 0 0 0";
    let printed = format!("16392 bytes\n{words}\n");
    assert!(file("archive.expected").starts_with(printed.as_bytes()));
}

/// "subdomain 0 held 30, 27, 30 by nodes 0, 1, 2; node 1 holds 6 of 1; nodes 0 and 2
/// hold 3 and 4 of 2"
#[test]
fn step_e() {
    let words = [3, 100, 30, 0, 27, 6, 3, 0, 0, 0, 30, 0, 0, 0, 4];
    both_ways(&worked::e().sheet, &by_hand(&words));
}

/// Nothing but N and t, for every N.
#[test]
fn no_particles() {
    for n in 1..=64 {
        for t in [1, 2, 99, 100, 255, 256, 998, 999] {
            both_ways(&held(n, t, []), &archive(n, t, []));
        }
    }
}

/// So many counts, with any total that is accepted.
fn some_counts(e: usize, random: &mut Random) -> Vec<u32> {
    let total = some_total(e as u32, random);
    counts(e as u32, total, random)
}

/// Sheets of n nodes with no cells, with some and with all.
fn some_sheets(n: u32, random: &mut Random) -> [Vec<u8>; 6] {
    FILLED.map(|part| {
        let mut cells = all_cells(n);
        cells.retain(|_| random.chance(part, 100));
        let counts = some_counts(cells.len(), random);
        sheet(n, random.between(1, 999), &cells, &counts).bytes()
    })
}

/// Archives of n nodes with no counts above 0, with some, and with as many as there
/// can be.
fn some_archives(n: u32, order: &[Cell], random: &mut Random) -> [Vec<u8>; 6] {
    FILLED.map(|part| {
        let mut places: Vec<usize> = (0..4_096).collect();
        places.retain(|&at| order[at].0 < n && order[at].1 < n && random.chance(part, 100));
        let counts = some_counts(places.len(), random);
        archive(n, random.between(1, 999), places.into_iter().zip(counts))
    })
}

/// N, t and every count of a sheet stand in its archive, and nothing else.
fn say_the_same(sheet: &[u8], archive: &[u8], order: &[Cell]) {
    let words = to_words(archive);
    assert_eq!(archive.len(), 16_392);
    assert_eq!(words[..2], to_words(&sheet[..8]));
    let held = by_cell(sheet);
    for (&(holder, subdomain), count) in order.iter().zip(&words[2..]) {
        // "Cells absent from the sheet count as 0."
        let expected = held.get(&cell(holder, subdomain)).unwrap_or(&0);
        assert_eq!(count, expected, "holder {holder}, subdomain {subdomain}");
    }
}

/// "Going to the archive and back must give the same sheet".
fn there_and_back(by: &Implementation, sheet: &[u8], order: &[Cell]) {
    let archive = by.archived(sheet).expect("accepted");
    say_the_same(sheet, &archive, order);
    assert_eq!(by.brought_back(&archive).as_deref(), Ok(sheet));
}

/// "an accepted archive must come back the same too". What is read is an accepted
/// sheet of the same N, t and sum.
fn back_and_there(by: &Implementation, archive: &[u8], order: &[Cell]) {
    let sheet = by.brought_back(archive).expect("accepted");
    say_the_same(&sheet, archive, order);
    assert_eq!(by.archived(&sheet).as_deref(), Ok(archive));
    let words = to_words(archive);
    let (n, t, p) = (words[0], words[1], words[2..].iter().sum());
    let e = words[2..].iter().filter(|&&count| count > 0).count() as u32;
    let [wide_p, wide_n, wide_t] = [p, n, t].map(u64::from);
    let expected = SheetAnswer {
        refusal: 0,
        n,
        t,
        e,
        p,
        limit: limit(wide_p, wide_n, wide_t) as u32,
    };
    assert_eq!((by.read_sheet)(&sheet), expected);
}

#[test]
fn every_number_of_nodes() {
    let order = in_z_order();
    for n in 1..=64 {
        let random = &mut Random::at(SEED, n.into());
        let (sheets, archives) = (some_sheets(n, random), some_archives(n, &order, random));
        for by in IMPLEMENTATIONS {
            for sheet in &sheets {
                there_and_back(by, sheet, &order);
            }
            for archive in &archives {
                back_and_there(by, archive, &order);
            }
        }
    }
}

/// "writing has the sheet's": what *read sheet* refuses is refused by the same
/// number, and everything else goes there and back.
#[test]
fn written_like_read_sheet() {
    let order = in_z_order();
    let (mut accepted, mut refused) = (0, 0);
    for index in 0..2_000 {
        let random = &mut Random::at(SEED, index);
        let mut draft = drafts::write_archive(random);
        draft.mutate(&WRITE_ARCHIVE.numbers(), random);
        let sheet = draft.records[0].bytes();
        for by in IMPLEMENTATIONS {
            match (by.read_sheet)(&sheet).refusal {
                0 => {
                    there_and_back(by, &sheet, &order);
                    accepted += 1;
                }
                refusal => {
                    assert_eq!(by.archived(&sheet), Err(refusal));
                    refused += 1;
                }
            }
        }
    }
    assert!(accepted > 1_000 && refused > 1_000, "{accepted}, {refused}");
}

/// Whatever archives are accepted.
#[test]
fn seeded_archives() {
    let order = in_z_order();
    let (mut accepted, mut refused) = (0, 0);
    for index in 0..2_000 {
        let random = &mut Random::at(SEED, index);
        let mut draft = drafts::read_archive(random);
        draft.mutate(&READ_ARCHIVE.numbers(), random);
        let archive = draft.records[0].bytes();
        for by in IMPLEMENTATIONS {
            match by.brought_back(&archive) {
                Ok(_) => {
                    back_and_there(by, &archive, &order);
                    accepted += 1;
                }
                Err(_) => refused += 1,
            }
        }
    }
    assert!(accepted > 1_000 && refused > 1_000, "{accepted}, {refused}");
}

/// What stood in the buffer plays no part: another archive, or a longer sheet, the
/// rest of which stays.
#[test]
fn one_over_another() {
    let (d, full) = (
        worked::d().sheet,
        sheet(64, 999, &all_cells(64), &[9; 4_096]).bytes(),
    );
    for by in IMPLEMENTATIONS {
        let archive = by.archived(&d).expect("accepted");
        let mut out = by.archived(&full).expect("accepted");
        assert_eq!((by.write_archive)(&d, &mut out).refusal, 0);
        assert!(out == archive, "{}", by.name);
        let mut out = full.clone();
        assert_eq!((by.read_archive)(&archive, &mut out).refusal, 0);
        assert!(out == [&d[..], &full[d.len()..]].concat(), "{}", by.name);
    }
}

/// "writing has the sheet's", however long the buffer is.
#[test]
fn refused_sheets() {
    let lengths = [0, 12, 36, 16_391, 16_392, 20_000];
    for (refusal, sheet) in refused::sheets() {
        write_refused(&sheet, &lengths, refusal);
    }
    write_refused(&[], &lengths, 1);
    // An archive is no sheet: the first count is no E.
    let archive = by_hand(&[3, 100, 90]);
    write_refused(&archive, &lengths, 4);
}

/// "54 for another length", "2", "3" and "55", however long the buffer is.
#[test]
fn refused_archives() {
    for (refusal, archive) in refused::archives() {
        read_refused(&archive, &LENGTHS, refusal);
    }
}

/// "54 for another length", whatever else is wrong.
#[test]
fn other_lengths() {
    let near = (0..=20).chain(16_384..=16_391).chain(16_393..=16_400);
    // The last is the same in 16 bits.
    let far = [36, 8_200, 16_256, 16_640, 32_780, 32_784, 65_536 + 16_392];
    for length in near.chain(far) {
        let mut archive = by_hand(&STEP_D);
        archive.resize(length, 0);
        read_refused(&archive, &LENGTHS, 54);
        archive.fill(0xff);
        read_refused(&archive, &LENGTHS, 54);
    }
    // A sheet is no archive.
    for (_, step) in worked::all() {
        read_refused(&step.sheet, &LENGTHS, 54);
    }
}

/// Counts that are fine for one node, counts of other nodes, and too many.
const COUNTS: [[(usize, u32); 2]; 3] = [
    [(0, 1), (1, 0)],
    [(4_094, 1), (4_095, 1)],
    [(0, MOST), (1, MOST)],
];

/// "2": N from 1 to 64, before t and the counts are looked at.
#[test]
fn other_nodes() {
    for n in [0, 65, 66, 128, 256, 257, 65_537, 1 << 31, u32::MAX] {
        for t in [0, 1, 999, 1_000] {
            for counts in COUNTS {
                read_refused(&archive(n, t, counts), &LENGTHS, 2);
            }
        }
    }
}

/// "3": t from 1 to 999, before the counts are looked at.
#[test]
fn other_tolerances() {
    for t in [0, 1_000, 1_001, 1_024, 65_537, 1 << 31, u32::MAX] {
        for n in [1, 2, 64] {
            for counts in COUNTS {
                read_refused(&archive(n, t, counts), &LENGTHS, 3);
            }
        }
    }
}

/// "55 for a count above 0 at a node not below N": the nine positions of three nodes
/// stand in the picture, and a count anywhere else is refused.
#[test]
fn positions_of_three_nodes() {
    let there = [0, 1, 2, 3, 4, 6, 8, 9, 12];
    for position in 0..4_096 {
        let archive = archive(3, 1, [(position, 1)]);
        match there.contains(&position) {
            true => IMPLEMENTATIONS
                .iter()
                .for_each(|by| assert_eq!(by.brought_back(&archive).err(), None)),
            false => read_refused(&archive, &LENGTHS, 55),
        }
    }
}

/// Holder N, subdomain N, both, and the highest, beside counts that are fine.
#[test]
fn nodes_not_below_n() {
    let order = in_z_order();
    let position = |cell| order.iter().position(|&it| it == cell).expect("a cell");
    for n in 1..=63 {
        let last = n - 1;
        let fine = (position((last, last)), 5);
        read(
            &archive(n, 1, [(0, 0), fine]),
            &held(n, 1, [(last, last, 5)]),
        );
        let one = [(n, 0), (n, last), (63, 0), (63, last)];
        let other = one.map(|(a, b)| (b, a));
        for cell in one.into_iter().chain(other).chain([(n, n), (63, 63)]) {
            for count in [1, MOST, u32::MAX] {
                let archive = archive(n, 1, [fine, (position(cell), count)]);
                read_refused(&archive, &LENGTHS, 55);
            }
        }
    }
}

/// An archive of 64 nodes with these counts at some positions.
fn placed(counts: &[u32], place: fn(usize) -> usize) -> Vec<u8> {
    let counts = counts.iter().enumerate();
    archive(64, 1, counts.map(|(k, &count)| (place(k), count)))
}

/// "or a sum above the maximum", which is 1,000,000,000: at the first positions, at
/// the last, and apart. Some sums are small in 32 bits.
#[test]
fn sums() {
    let order = in_z_order();
    let half = MOST / 2;
    let accepted: [&[u32]; 6] = [
        &[MOST],
        &[MOST - 1, 1],
        &[1, MOST - 1],
        &[half, 0, half],
        &[0, 0, 0, MOST],
        &[half / 2; 4],
    ];
    let refused: [&[u32]; 17] = [
        &[MOST + 1],
        &[MOST, 1],
        &[1, MOST],
        &[half, 1, half],
        &[1 << 30],
        &[1 << 31],
        &[u32::MAX],
        &[1 << 31; 2],
        &[1 << 31, 1 << 31, 5],
        &[5, 1 << 31, 1 << 31],
        &[1 << 30; 4],
        &[1, 1 << 30, 1 << 30, 1 << 30, 1 << 30],
        &[u32::MAX, 1],
        &[2, u32::MAX],
        &[5, u32::MAX - 3, 1],
        &[MOST; 5],
        &[1 << 29; 8],
    ];
    let places: [fn(usize) -> usize; 3] = [|k| k, |k| 4_095 - k, |k| 500 * k];
    for place in places {
        for counts in accepted {
            for by in IMPLEMENTATIONS {
                back_and_there(by, &placed(counts, place), &order);
            }
        }
        for counts in refused {
            read_refused(&placed(counts, place), &LENGTHS, 55);
        }
    }
}

/// The same with 4,096 counts: 4,096 × 244,140 and 2,560 are the most, and 4,096 ×
/// 2^20 is 2^32.
#[test]
fn sums_of_all_counts() {
    let order = in_z_order();
    let mut counts = [244_140; 4_096];
    for at in [0, 2_047, 4_095] {
        counts[at] += 2_560;
        for by in IMPLEMENTATIONS {
            back_and_there(by, &placed(&counts, |k| k), &order);
        }
        counts[at] += 1;
        read_refused(&placed(&counts, |k| k), &LENGTHS, 55);
        counts[at] = 244_140;
        for more in [0, 1, 1_000] {
            let mut counts = [1 << 20; 4_096];
            counts[at] += more;
            read_refused(&placed(&counts, |k| k), &LENGTHS, 55);
        }
    }
    read_refused(&placed(&[u32::MAX; 4_096], |k| k), &LENGTHS, 55);
}

/// "56 for a short buffer": under 16,392 bytes, whatever the sheet has.
#[test]
fn short_buffers_to_write() {
    let near: Vec<usize> = (0..=40).chain(16_370..16_392).collect();
    for (_, step) in worked::all() {
        write_refused(&step.sheet, &near, 56);
    }
    // Its sheet is longer than its archive.
    let full = sheet(64, 1, &all_cells(64), &[1; 4_096]).bytes();
    write_refused(&full, &near, 56);
}

/// "then 56": under 4 × (3+2E) bytes, for E counts above 0.
#[test]
fn short_buffers_to_read() {
    let under = |length: usize| (0..length).collect::<Vec<_>>();
    read_refused(&by_hand(&STEP_D), &under(36), 56);
    read_refused(&archive(64, 1, []), &under(12), 56);
    read_refused(&archive(64, 1, [(4_095, MOST)]), &under(20), 56);
    let full = placed(&[1; 4_096], |k| k);
    read_refused(&full, &[0, 12, 16_392, 32_772, 32_776, 32_779], 56);
}
