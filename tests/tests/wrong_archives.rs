//! The runs of *write archive* and *read archive* can fail: whoever writes or reads
//! wrong, in ways that are plausible, is reported. The wrong ones make one check
//! otherwise, or two in the wrong order, or find other positions, or write something
//! else.
#![forbid(unsafe_code)]

use firrozka_tests::answers::{self, Answer, WrittenAnswer};
use firrozka_tests::calls::{READ_ARCHIVE, WRITE_ARCHIVE};
use firrozka_tests::careless;
use firrozka_tests::careless::put;
use firrozka_tests::implementations::{
    Convert, Implementation, REFERENCE, SHEET_BYTES, Z_ORDER_BYTES,
};
use firrozka_tests::records::{to_bytes, to_words};
use firrozka_tests::reference::sheet::{self, Sheet};
use firrozka_tests::reference::z_order::position;
use firrozka_tests::reference::{read_archive, write_archive};
use firrozka_tests::settings::SEED;

const MOST: u32 = 1_000_000_000;

fn writers_reported(wrong: &[(&'static str, Convert)]) {
    for &(name, write_archive) in wrong {
        WRITE_ARCHIVE.must_report(&Implementation {
            name,
            write_archive,
            ..REFERENCE
        });
    }
}

fn readers_reported(wrong: &[(&'static str, Convert)]) {
    for &(name, read_archive) in wrong {
        READ_ARCHIVE.must_report(&Implementation {
            name,
            read_archive,
            ..REFERENCE
        });
    }
}

/// With the right checks and positions nothing is reported.
#[test]
fn the_right_ones() {
    let right = Implementation {
        name: "right",
        write_archive: |sheet, out| write(sheet, out, &WRITER),
        read_archive: |archive, out| read(archive, out, &READER),
        ..REFERENCE
    };
    for operation in [&WRITE_ARCHIVE, &READ_ARCHIVE] {
        let met = operation.run(&right, SEED, 500);
        assert!(met.is_ok(), "{:?}", met.err());
    }
}

/// Where the count of a cell stands.
fn place_of(cell: u32) -> usize {
    position(cell as usize / 64, cell as usize % 64)
}

/// A position, from N, holder and subdomain.
type Place = fn(usize, usize, usize) -> usize;

/// Somebody who does it with other positions: `$with` makes one of a position.
macro_rules! places {
    ($with:ident) => {
        $with! {
            "holder and subdomain exchanged", place: |_, h, s| position(s, h);
            "bit 0 of the holder left out", place: |_, h, s| position(h & 62, s);
            "bit 0 of the subdomain left out", place: |_, h, s| position(h, s & 62);
            "bit 3 of the holder left out", place: |_, h, s| position(h & 55, s);
            "bit 3 of the subdomain left out", place: |_, h, s| position(h, s & 55);
            "bit 5 of the holder left out", place: |_, h, s| position(h & 31, s);
            "bit 5 of the subdomain left out", place: |_, h, s| position(h, s & 31);
            "bits 0 to 4 only", place: |_, h, s| position(h & 31, s & 31);
            "bits from 1 on", place: |_, h, s| position(h / 2, s / 2);
            "the highest bits first", place: |_, h, s| position(turned(h), turned(s));
            "two bits of each in turn", place: |_, h, s| grouped(h, s, 2);
            "three bits of each in turn", place: |_, h, s| grouped(h, s, 3);
            "holder by holder", place: |_, h, s| 64 * h + s;
            "subdomain by subdomain", place: |_, h, s| 64 * s + h;
            "holder by holder, N of each", place: |n, h, s| n * h + s;
            "from the last position down", place: |_, h, s| 4_095 - position(h, s);
            "one position further", place: |_, h, s| (position(h, s) + 1) % 4_096;
            "odd holders the other way round",
                place: |_, h, s| position(h, if h % 2 == 0 { s } else { 63 - s });
            "the bits of both added", place: |_, h, s| position(h ^ s, s);
            "entries 1 and 64 exchanged", place: |_, h, s| exchanged(h, s, [1, 64]);
            "entries 2,047 and 2,048 exchanged",
                place: |_, h, s| exchanged(h, s, [2_047, 2_048]);
            "the last two entries exchanged", place: |_, h, s| exchanged(h, s, [4_094, 4_095]);
            "the entries of holders 4 and 5 exchanged",
                place: |_, h, s| position(if h / 2 == 2 { h ^ 1 } else { h }, s);
            "entry 650 in the place of 651",
                place: |_, h, s| position(h, if (h, s) == (10, 11) { 10 } else { s });
            "each entry one cell early", place: |_, h, s| place_of((64 * h + s + 1) as u32 % 4_096);
            "0 in the place of the last entry", place: |_, h, s| position(h, s) % 4_095;
        }
    };
}

/// A position from a table in which the entries of two cells are exchanged.
fn exchanged(holder: usize, subdomain: usize, cells: [u32; 2]) -> usize {
    let cell = (64 * holder + subdomain) as u32;
    match cells.into_iter().position(|it| it == cell) {
        Some(which) => place_of(cells[1 - which]),
        None => place_of(cell),
    }
}

/// Six bits in the other direction.
fn turned(node: usize) -> usize {
    (0..6).map(|i| (node >> i & 1) << (5 - i)).sum()
}

/// So many bits of the subdomain, as many of the holder, and so on.
fn grouped(holder: usize, subdomain: usize, bits: usize) -> usize {
    let groups = 0..6 / bits;
    let group = |node: usize, at: usize| node >> (bits * at) & ((1 << bits) - 1);
    groups
        .map(|at| {
            let pair = group(holder, at) << bits | group(subdomain, at);
            pair << (2 * bits * at)
        })
        .sum()
}

// Writing.

/// How somebody writes a sheet.
struct Writer {
    /// Whether a buffer of this length is too short.
    short: fn(usize) -> bool,
    /// The refusal then.
    refusal: u32,
    place: Place,
    /// What a count becomes.
    count: fn(u32) -> u32,
    /// What is otherwise about the words.
    change: fn(&Sheet, &mut Vec<u32>),
}

const WRITER: Writer = Writer {
    short: |room| room < 16_392,
    refusal: 56,
    place: |_, holder, subdomain| position(holder, subdomain),
    count: |count| count,
    change: |_, _| (),
};

fn write(sheet: &[u8], out: &mut [u8], writer: &Writer) -> WrittenAnswer {
    let sheet = match sheet::read(sheet) {
        Ok(sheet) => sheet,
        Err(refusal) => return Answer::refused(refusal),
    };
    if (writer.short)(out.len()) {
        return Answer::refused(writer.refusal);
    }
    let mut words = vec![0; 4_098];
    (words[0], words[1]) = (sheet.n, sheet.t);
    for (&cell, &count) in sheet.cells.iter().zip(&sheet.counts) {
        let (holder, subdomain) = (cell as usize / 64, cell as usize % 64);
        let place = (writer.place)(sheet.n as usize, holder, subdomain);
        words[2 + place] = (writer.count)(count);
    }
    (writer.change)(&sheet, &mut words);
    put(&to_bytes(&words), out);
    answers::written(4 * words.len() as u32)
}

/// Writers with something otherwise.
macro_rules! writers {
    ($($name:literal, $field:ident: $value:expr;)*) => {
        [$(($name, |sheet, out| write(sheet, out, &Writer { $field: $value, ..WRITER }))),*]
    };
}

#[test]
fn positions_written() {
    writers_reported(&places!(writers));
}

#[test]
fn words_written() {
    writers_reported(&writers! {
        "N and t exchanged", change: |_, words| words.swap(0, 1);
        "N 64", change: |_, words| words[0] = 64;
        "one node more", change: |_, words| words[0] += 1;
        "t in percents", change: |_, words| words[1] /= 10;
        "t in a byte", change: |_, words| words[1] %= 256;
        "t 0", change: |_, words| words[1] = 0;
        "E in place of t", change: |it, words| words[1] = it.cells.len() as u32;
        "E behind t", change: |it, words| {
            words.insert(2, it.cells.len() as u32);
            words.truncate(4_098);
        };
        "no N", change: |_, words| words.rotate_left(1);
        "the counts first", change: |_, words| words.rotate_left(2);
        "N × N counts", change: |it, words| words.truncate(2 + it.n.pow(2) as usize);
        "one count too few", change: |_, words| words.truncate(4_097);
        "one word more", change: |_, words| words.push(0);
        "the last cell left out", change: |it, words| {
            if let Some(&cell) = it.cells.last() {
                words[2 + place_of(cell)] = 0;
            }
        };
        "the cell in place of its count", change: |it, words| {
            it.cells.iter().for_each(|&cell| words[2 + place_of(cell)] = cell);
        };
        "running sums", change: |_, words| {
            (3..4_098).for_each(|at| words[at] += words[at - 1]);
        };
        "1 for 0", change: |_, words| words[2..].iter_mut().for_each(|it| *it = (*it).max(1));
    });
    writers_reported(&writers! {
        "counts in 16 bits", count: |count| count % 65_536;
        "counts in 29 bits", count: |count| count % (1 << 29);
        "counts as floats", count: |count| count as f32 as u32;
        "1 for each count", count: |_| 1;
        "one particle fewer", count: |count| count - 1;
        "the high byte first", count: u32::swap_bytes;
        "at most 999,999,999", count: |count| count.min(MOST - 1);
    });
}

#[test]
fn rooms_to_write() {
    writers_reported(&writers! {
        "a short buffer taken", short: |_| false;
        "one byte more wanted", short: |room| room <= 16_392;
        "one byte less taken", short: |room| room < 16_391;
        "a longer buffer refused", short: |room| room != 16_392;
        "room for the counts alone", short: |room| room < 16_384;
        "room for the longest sheet", short: |room| room < SHEET_BYTES;
        "room in words", short: |room| room < 4_098;
    });
    writers_reported(&writers! {
        "43 in place of 56", refusal: 43;
        "52 in place of 56", refusal: 52;
        "53 in place of 56", refusal: 53;
        "54 in place of 56", refusal: 54;
        "55 in place of 56", refusal: 55;
    });
}

/// 56 before this refusal of the sheet and those behind it.
fn room_before<const REFUSAL: u32>(sheet: &[u8], out: &mut [u8]) -> WrittenAnswer {
    match write_archive(sheet, out) {
        answer if answer.refusal >= REFUSAL && out.len() < 16_392 => Answer::refused(56),
        answer => answer,
    }
}

#[test]
fn orders_of_writing() {
    writers_reported(&[
        ("56 before 1", room_before::<1>),
        ("56 before 2", room_before::<2>),
        ("56 before 3", room_before::<3>),
        ("56 before 4", room_before::<4>),
        ("56 before 5", room_before::<5>),
        ("56 before 6", room_before::<6>),
        ("56 before 7", room_before::<7>),
        (
            "the sheet's refusals but for its sizes not given",
            counts_not_read,
        ),
        (
            "all refusals of the sheet as one",
            |sheet, out| match write_archive(sheet, out) {
                WrittenAnswer { refusal: 1..=7, .. } => Answer::refused(1),
                answer => answer,
            },
        ),
    ]);
}

/// A sheet of good sizes is taken, whatever its cells and counts are.
fn counts_not_read(sheet: &[u8], out: &mut [u8]) -> WrittenAnswer {
    match write_archive(sheet, out) {
        WrittenAnswer { refusal: 6 | 7, .. } => {
            let words = to_words(sheet);
            let none = Sheet {
                n: words[0],
                t: words[1],
                cells: Vec::new(),
                counts: Vec::new(),
            };
            write_archive(&none.bytes(), out)
        }
        answer => answer,
    }
}

// Reading.

/// An archive as far as its words are there, and the length of the buffer.
struct Reading {
    length: usize,
    words: Vec<u32>,
    room: usize,
}

impl Reading {
    /// A size, or 1 if it is not there.
    fn size(&self, at: usize) -> u32 {
        self.words.get(at).copied().unwrap_or(1)
    }

    fn n(&self) -> u32 {
        self.size(0)
    }

    fn t(&self) -> u32 {
        self.size(1)
    }

    /// The count at a position, or 0 if it is not there.
    fn at(&self, position: usize) -> u32 {
        self.words.get(2 + position).copied().unwrap_or(0)
    }

    /// All counts, by position.
    fn counts(&self) -> Vec<u32> {
        (0..4_096).map(|position| self.at(position)).collect()
    }

    fn sum(&self) -> u64 {
        self.counts().into_iter().map(u64::from).sum()
    }

    fn too_many(&self) -> bool {
        self.sum() > u64::from(MOST)
    }

    /// Whether some count above 0 is where N, holder and subdomain are so.
    fn any(&self, met: fn(usize, usize, usize) -> bool) -> bool {
        let mut cells = (0..4_096).map(|cell| (cell / 64, cell % 64));
        let n = self.n() as usize;
        cells.any(|(holder, subdomain)| {
            self.at(position(holder, subdomain)) > 0 && met(n, holder, subdomain)
        })
    }

    /// The length of the sheet.
    fn needed(&self) -> usize {
        4 * (3 + 2 * self.counts().into_iter().filter(|&count| count > 0).count())
    }
}

/// A refusal and its check.
type Check = (u32, fn(&Reading) -> bool);

const LENGTH: Check = (54, |it| it.length != 16_392);
const NODES: Check = (2, |it| it.n() < 1 || it.n() > 64);
const TOLERANCE: Check = (3, |it| it.t() < 1 || it.t() > 999);
const COUNTS: Check = (55, |it| it.any(|n, h, s| h >= n || s >= n) || it.too_many());
const ROOM: Check = (56, |it| it.room < it.needed());
const CHECKS: [Check; 5] = [LENGTH, NODES, TOLERANCE, COUNTS, ROOM];

/// How somebody reads an archive.
struct Reader<'a> {
    checks: &'a [Check],
    place: Place,
    /// Whether a cell with this count is written.
    kept: fn(u32) -> bool,
    /// What is otherwise about the sheet.
    change: fn(&mut Sheet),
    /// What is otherwise about its words.
    words: fn(&mut Vec<u32>),
}

const READER: Reader = Reader {
    checks: &CHECKS,
    place: WRITER.place,
    kept: |count| count > 0,
    change: |_| (),
    words: |_| (),
};

fn read(archive: &[u8], out: &mut [u8], reader: &Reader) -> WrittenAnswer {
    let reading = Reading {
        length: archive.len(),
        words: to_words(archive),
        room: out.len(),
    };
    if let Some((refusal, _)) = reader.checks.iter().find(|(_, met)| met(&reading)) {
        return Answer::refused(*refusal);
    }
    let mut sheet = found(&reading, reader);
    (reader.change)(&mut sheet);
    let mut words = to_words(&sheet.bytes());
    (reader.words)(&mut words);
    put(&to_bytes(&words), out);
    answers::written(4 * words.len() as u32)
}

/// The sheet that somebody finds.
fn found(reading: &Reading, reader: &Reader) -> Sheet {
    let mut sheet = Sheet {
        n: reading.n(),
        t: reading.t(),
        cells: Vec::new(),
        counts: Vec::new(),
    };
    let n = sheet.n.min(64) as usize;
    for (holder, subdomain) in (0..n * n).map(|k| (k / n, k % n)) {
        let count = reading.at((reader.place)(n, holder, subdomain));
        if (reader.kept)(count) {
            sheet.cells.push((64 * holder + subdomain) as u32);
            sheet.counts.push(count);
        }
    }
    sheet
}

/// Readers with something otherwise.
macro_rules! readers {
    ($($name:literal, $field:ident: $value:expr;)*) => {
        [$(($name, |archive, out| read(archive, out, &Reader { $field: $value, ..READER }))),*]
    };
}

/// Readers with other checks.
macro_rules! checking {
    ($($name:literal, [$($check:expr),*];)*) => {
        readers! { $($name, checks: &[$($check),*];)* }
    };
}

/// Readers that make the check of this number otherwise.
macro_rules! otherwise {
    ($number:literal: $($name:literal, $check:expr;)*) => {
        [$(($name, |archive, out| read_otherwise(archive, out, ($number, $check)))),*]
    };
}

fn read_otherwise(archive: &[u8], out: &mut [u8], other: Check) -> WrittenAnswer {
    let checks = CHECKS.map(|check| if check.0 == other.0 { other } else { check });
    let reader = Reader {
        checks: &checks,
        ..READER
    };
    read(archive, out, &reader)
}

#[test]
fn positions_read() {
    readers_reported(&places!(readers));
}

#[test]
fn lengths() {
    readers_reported(&otherwise! { 54:
        "any length taken", |_| false;
        "shorter archives taken", |it| it.length > 16_392;
        "longer archives taken", |it| it.length < 16_392;
        "one byte more wanted", |it| it.length <= 16_392;
        "one byte less taken", |it| it.length < 16_391 || it.length > 16_392;
        "one byte more taken", |it| it.length < 16_392 || it.length > 16_393;
        "bytes behind the last word taken", |it| it.length / 4 != 4_098;
        "the counts alone", |it| it.length != 16_384;
        "N × N counts", |it| it.length != 4 * (2 + it.n().min(64).pow(2) as usize);
        "lengths of whole words taken", |it| it.length % 4 != 0;
        "sizes are enough", |it| it.length < 8;
    });
}

#[test]
fn nodes() {
    readers_reported(&otherwise! { 2:
        "N not looked at", |_| false;
        "0 nodes taken", |it| it.n() > 64;
        "1 node refused", |it| it.n() <= 1 || it.n() > 64;
        "64 nodes refused", |it| it.n() < 1 || it.n() >= 64;
        "65 nodes taken", |it| it.n() < 1 || it.n() > 65;
        "N in a byte", |it| it.n() % 256 < 1 || it.n() % 256 > 64;
        "a signed N", |it| it.n() == 0 || it.n() as i32 > 64;
        "N not 64 refused", |it| it.n() != 64;
    });
}

#[test]
fn tolerances() {
    readers_reported(&otherwise! { 3:
        "t not looked at", |_| false;
        "t 0 taken", |it| it.t() > 999;
        "t 1 refused", |it| it.t() <= 1 || it.t() > 999;
        "t 999 refused", |it| it.t() < 1 || it.t() >= 999;
        "t 1,000 taken", |it| it.t() < 1 || it.t() > 1_000;
        "whole percents", |it| it.t() < 1 || it.t() > 99;
        "t in 16 bits", |it| it.t() % 65_536 < 1 || it.t() % 65_536 > 999;
    });
}

#[test]
fn counts_of_other_nodes() {
    readers_reported(&otherwise! { 55:
        "55 not looked at", |_| false;
        "nodes not looked at", |it| it.too_many();
        "holders not looked at", |it| it.any(|n, _, s| s >= n) || it.too_many();
        "subdomains not looked at", |it| it.any(|n, h, _| h >= n) || it.too_many();
        "holder and subdomain together", |it| it.any(|n, h, s| h >= n && s >= n) || it.too_many();
        "node N taken", |it| it.any(|n, h, s| h > n || s > n) || it.too_many();
        "holder N taken", |it| it.any(|n, h, s| h > n || s >= n) || it.too_many();
        "subdomain N taken", |it| it.any(|n, h, s| h >= n || s > n) || it.too_many();
        "the last node refused", |it| it.any(|n, h, s| h + 1 >= n || s + 1 >= n) || it.too_many();
        "their sum below 2N", |it| it.any(|n, h, s| h + s >= 2 * n) || it.too_many();
        "the cell below N × 64", |it| it.any(|n, h, s| 64 * h + s >= 64 * n) || it.too_many();
        "the position below N × N",
            |it| it.any(|n, h, s| position(h, s) >= n * n) || it.too_many();
        "the position as a cell", |it| {
            let no_node = |n, at: usize| at / 64 >= n || at % 64 >= n;
            let n = it.n() as usize;
            (0..4_096).any(|at| it.at(at) > 0 && no_node(n, at)) || it.too_many()
        };
        "a count of 0 refused there", |it| it.n() < 64 || it.too_many();
        "a count of 1 taken there", |it| {
            let fine = |h, s| h < it.n() as usize && s < it.n() as usize;
            let mut cells = (0..4_096).map(|cell| (cell / 64, cell % 64));
            cells.any(|(h, s)| it.at(position(h, s)) > 1 && !fine(h, s)) || it.too_many()
        };
    });
}

/// The right check of nodes, and another of the sum.
macro_rules! summing {
    ($($name:literal, $check:expr;)*) => {
        otherwise! { 55: $($name, |it| {
            let too_many: fn(&Reading) -> bool = $check;
            it.any(|n, h, s| h >= n || s >= n) || too_many(it)
        };)* }
    };
}

#[test]
fn sums() {
    readers_reported(&summing! {
        "the sum not looked at", |_| false;
        "the sum in 32 bits", |it| it.sum() as u32 > MOST;
        "the sum in 31 bits and a sign", |it| it.sum() as i32 > MOST as i32;
        "the sum as a float", |it| it.sum() as f32 > MOST as f32;
        "the largest sum refused", |it| it.sum() >= u64::from(MOST);
        "a larger one taken", |it| it.sum() > u64::from(MOST) + 1;
        "up to 2^30", |it| it.sum() > 1 << 30;
        "up to 2^32", |it| it.sum() >= 1 << 32;
        "each count, not the sum", |it| it.counts().into_iter().any(|count| count > MOST);
        "the first half of the counts", |it| {
            let half = it.counts().into_iter().take(2_048);
            half.map(u64::from).sum::<u64>() > u64::from(MOST)
        };
        "all counts but the last", |it| it.sum() - u64::from(it.at(4_095)) > u64::from(MOST);
        "the sum so far in 32 bits", |it| {
            let mut sum = 0u32;
            it.counts().into_iter().any(|count| {
                sum = sum.wrapping_add(count);
                sum > MOST
            })
        };
        "no particles refused", |it| it.sum() == 0 || it.too_many();
        "more than half refused", |it| it.sum() > u64::from(MOST / 2);
    });
}

#[test]
fn rooms_to_read() {
    readers_reported(&otherwise! { 56:
        "a short buffer taken", |_| false;
        "one byte more wanted", |it| it.room <= it.needed();
        "one byte less taken", |it| it.room + 1 < it.needed();
        "a longer buffer refused", |it| it.room != it.needed();
        "one cell less taken", |it| it.room + 8 < it.needed();
        "room for one cell more", |it| it.room < it.needed() + 8;
        "room for cells and counts alone", |it| it.room + 12 < it.needed();
        "room for N × N cells", |it| it.room < 4 * (3 + 2 * it.n().pow(2) as usize);
        "room for all cells", |it| it.room < SHEET_BYTES;
        "room for the archive", |it| it.room < Z_ORDER_BYTES;
    });
}

#[test]
fn other_refusals() {
    readers_reported(&checking! {
        "1 in place of 54", [(1, LENGTH.1), NODES, TOLERANCE, COUNTS, ROOM];
        "5 in place of 54", [(5, LENGTH.1), NODES, TOLERANCE, COUNTS, ROOM];
        "56 in place of 54", [(56, LENGTH.1), NODES, TOLERANCE, COUNTS, ROOM];
        "1 for less than the sizes",
            [(1, |it| it.length < 8), LENGTH, NODES, TOLERANCE, COUNTS, ROOM];
        "12 in place of 2", [LENGTH, (12, NODES.1), TOLERANCE, COUNTS, ROOM];
        "55 in place of 2", [LENGTH, (55, NODES.1), TOLERANCE, COUNTS, ROOM];
        "2 in place of 3", [LENGTH, NODES, (2, TOLERANCE.1), COUNTS, ROOM];
        "6 in place of 55", [LENGTH, NODES, TOLERANCE, (6, COUNTS.1), ROOM];
        "7 in place of 55", [LENGTH, NODES, TOLERANCE, (7, COUNTS.1), ROOM];
        "6 for the nodes", [
            LENGTH, NODES, TOLERANCE, (6, |it| it.any(|n, h, s| h >= n || s >= n)), COUNTS, ROOM
        ];
        "7 for the sum", [LENGTH, NODES, TOLERANCE, (7, Reading::too_many), COUNTS, ROOM];
        "43 in place of 56", [LENGTH, NODES, TOLERANCE, COUNTS, (43, ROOM.1)];
        "52 in place of 56", [LENGTH, NODES, TOLERANCE, COUNTS, (52, ROOM.1)];
        "53 in place of 56", [LENGTH, NODES, TOLERANCE, COUNTS, (53, ROOM.1)];
    });
}

/// Each check before each that should come before it, and none of them.
#[test]
fn orders_of_reading() {
    readers_reported(&checking! {
        "no checks", [];
        "2 before 54", [NODES, LENGTH, TOLERANCE, COUNTS, ROOM];
        "3 before 54", [TOLERANCE, LENGTH, NODES, COUNTS, ROOM];
        "55 before 54", [COUNTS, LENGTH, NODES, TOLERANCE, ROOM];
        "56 before 54", [ROOM, LENGTH, NODES, TOLERANCE, COUNTS];
        "2 and 3 before 54", [NODES, TOLERANCE, LENGTH, COUNTS, ROOM];
        "3 before 2", [LENGTH, TOLERANCE, NODES, COUNTS, ROOM];
        "55 before 2", [LENGTH, COUNTS, NODES, TOLERANCE, ROOM];
        "56 before 2", [LENGTH, ROOM, NODES, TOLERANCE, COUNTS];
        "55 before 3", [LENGTH, NODES, COUNTS, TOLERANCE, ROOM];
        "56 before 3", [LENGTH, NODES, ROOM, TOLERANCE, COUNTS];
        "56 before 55", [LENGTH, NODES, TOLERANCE, ROOM, COUNTS];
        "56 before the sum", [
            LENGTH, NODES, TOLERANCE, (55, |it| it.any(|n, h, s| h >= n || s >= n)), ROOM, COUNTS
        ];
        "56 before the nodes", [LENGTH, NODES, TOLERANCE, (55, Reading::too_many), ROOM, COUNTS];
    });
}

#[test]
fn sheets_read() {
    readers_reported(&readers! {
        "counts of 0 written", kept: |_| true;
        "counts of 1 left out", kept: |count| count > 1;
        "counts above 2^29 left out", kept: |count| count > 0 && count < 1 << 29;
    });
    readers_reported(&readers! {
        "N and t exchanged", change: |it| (it.n, it.t) = (it.t, it.n);
        "N 64", change: |it| it.n = 64;
        "t 1", change: |it| it.t = 1;
        "t in percents", change: |it| it.t /= 10;
        "the first cell left out", change: |it| {
            it.cells = it.cells.drain(..).skip(1).collect();
            it.counts = it.counts.drain(..).skip(1).collect();
        };
        "the last cell left out", change: |it| {
            it.cells.pop();
            it.counts.pop();
        };
        "positions in place of cells",
            change: |it| it.cells.iter_mut().for_each(|c| *c = place_of(*c) as u32);
        "cells of N columns",
            change: |it| it.cells.iter_mut().for_each(|c| *c = *c / 64 * it.n + *c % 64);
        "subdomain × 64 + holder",
            change: |it| it.cells.iter_mut().for_each(|c| *c = *c % 64 * 64 + *c / 64);
        "in the order of positions", change: |it| {
            let mut pairs: Vec<_> = it.cells.iter().copied().zip(it.counts.drain(..)).collect();
            pairs.sort_unstable_by_key(|&(cell, _)| place_of(cell));
            (it.cells, it.counts) = pairs.into_iter().unzip();
        };
        "counts in the order of positions", change: |it| {
            let mut pairs: Vec<_> = it.cells.iter().copied().zip(it.counts.drain(..)).collect();
            pairs.sort_unstable_by_key(|&(cell, _)| place_of(cell));
            it.counts = pairs.into_iter().map(|(_, count)| count).collect();
        };
        "counts before cells", change: |it| std::mem::swap(&mut it.cells, &mut it.counts);
        "from the last cell down", change: |it| {
            it.cells.reverse();
            it.counts.reverse();
        };
    });
    readers_reported(&readers! {
        "E is N × N", words: |words| words[2] = words[0] * words[0];
        "E is 4,096", words: |words| words[2] = 4_096;
        "no E", words: |words| { words.remove(2); };
        "a word more", words: |words| words.push(0);
    });
}

// Both.

#[test]
fn buffers() {
    writers_reported(&careless!(write_archive));
    readers_reported(&careless!(read_archive));
}

/// Of an accepted sheet as much as there is room for is written before 56.
fn half_written(sheet: &[u8], out: &mut [u8]) -> WrittenAnswer {
    let answer = write_archive(sheet, out);
    if answer.refusal == 56 {
        write(
            sheet,
            out,
            &Writer {
                short: |_| false,
                ..WRITER
            },
        );
    }
    answer
}

/// N and t are written before this refusal of the sheet.
fn sizes_before<const REFUSAL: u32>(sheet: &[u8], out: &mut [u8]) -> WrittenAnswer {
    let answer = write_archive(sheet, out);
    if answer.refusal == REFUSAL {
        put(&sheet[..8], out);
    }
    answer
}

/// What an archive has is written before this refusal, as much as there is room for.
fn read_before<const REFUSAL: u32>(archive: &[u8], out: &mut [u8]) -> WrittenAnswer {
    let answer = read_archive(archive, out);
    if answer.refusal == REFUSAL {
        let reader = Reader {
            checks: &[],
            ..READER
        };
        read(archive, out, &reader);
    }
    answer
}

#[test]
fn written_before_a_refusal() {
    writers_reported(&[
        ("half an archive before 56", half_written),
        ("N and t before 56", sizes_before::<56>),
        ("N and t before 4", sizes_before::<4>),
        ("N and t before 5", sizes_before::<5>),
        ("N and t before 6", sizes_before::<6>),
        ("N and t before 7", sizes_before::<7>),
    ]);
    readers_reported(&[
        ("a sheet before 54", read_before::<54>),
        ("a sheet before 2", read_before::<2>),
        ("a sheet before 3", read_before::<3>),
        ("a sheet before 55", read_before::<55>),
        ("half a sheet before 56", read_before::<56>),
    ]);
}
