//! The run of *traffic page* can fail: whoever writes the page wrong, in ways that
//! are plausible, is reported. The wrong ones make one check otherwise, or two in
//! the wrong order, or count or write something else.
#![forbid(unsafe_code)]

use firrozka_tests::answers::{self, Answer, WrittenAnswer};
use firrozka_tests::calls::TRAFFIC_PAGE;
use firrozka_tests::careless::put;
use firrozka_tests::implementations::{Implementation, Write, PAGE_BYTES, REFERENCE};
use firrozka_tests::reference::moves::{self, parts, Moves};
use firrozka_tests::reference::sheet::{self, Sheet};
use firrozka_tests::reference::traffic_page;
use firrozka_tests::settings::SEED;

/// Subdomain, sender and receiver.
type Parts = [usize; 3];

fn subdomain([subdomain, _, _]: Parts) -> usize {
    subdomain
}

fn sender([_, sender, _]: Parts) -> usize {
    sender
}

fn receiver([_, _, receiver]: Parts) -> usize {
    receiver
}

/// The cell that sends.
fn from([subdomain, sender, _]: Parts) -> usize {
    64 * sender + subdomain
}

/// The cell that receives.
fn to([subdomain, _, receiver]: Parts) -> usize {
    64 * receiver + subdomain
}

/// An accepted sheet and accepted moves, and the length of the buffer.
struct Paging {
    sheet: Sheet,
    moves: Moves,
    room: usize,
}

impl Paging {
    /// The moves and their counts.
    fn moves(&self) -> Vec<(Parts, u64)> {
        let all = self.moves.routes.iter().zip(&self.moves.counts);
        all.map(|(&route, &count)| (parts(route), u64::from(count)))
            .collect()
    }

    /// How many particles are moved at each place, which is a cell or a node.
    fn moved(&self, place: fn(Parts) -> usize) -> Vec<u64> {
        self.moved_if(|_| true, place)
    }

    /// The same, of some moves only.
    fn moved_if(&self, chosen: fn(Parts) -> bool, place: fn(Parts) -> usize) -> Vec<u64> {
        let mut sums = vec![0; 4_096];
        for (parts, count) in self.moves() {
            sums[place(parts)] += if chosen(parts) { count } else { 0 };
        }
        sums
    }

    /// How many particles the sheet has at each place.
    fn held(&self, place: fn(usize) -> usize) -> Vec<u64> {
        let mut sums = vec![0; 4_096];
        for (&cell, &count) in self.sheet.cells.iter().zip(&self.sheet.counts) {
            sums[place(cell as usize)] += u64::from(count);
        }
        sums
    }

    /// The length of the page.
    fn length(&self) -> usize {
        25 * (self.sheet.n as usize + 1)
    }
}

/// Whether somewhere more is moved than is held.
fn exceeds(moved: &[u64], held: &[u64]) -> bool {
    moved.iter().zip(held).any(|(moved, held)| moved > held)
}

/// A refusal and its check.
type Check = (u32, fn(&Paging) -> bool);

const UNEQUAL: Check = (41, |it| it.sheet.n != it.moves.n);
const TOO_MUCH: Check = (42, |it| exceeds(&it.moved(from), &it.held(|cell| cell)));
const TOO_SHORT: Check = (53, |it| it.room < it.length());
const CHECKS: [Check; 3] = [UNEQUAL, TOO_MUCH, TOO_SHORT];

/// What stands on the lines: sent and received, by each node and in all.
struct Numbers {
    nodes: Vec<[u64; 2]>,
    totals: [u64; 2],
}

impl Numbers {
    fn of(it: &Paging) -> Numbers {
        let total = it.moves().iter().map(|(_, count)| count).sum();
        let mut numbers = Numbers {
            nodes: vec![[0; 2]; it.sheet.n as usize],
            totals: [total; 2],
        };
        numbers.send(it.moved(sender));
        numbers.receive(it.moved(receiver));
        numbers
    }

    /// Has the nodes send so much.
    fn send(&mut self, sent: Vec<u64>) {
        let nodes = self.nodes.iter_mut().zip(sent);
        nodes.for_each(|(node, sent)| node[0] = sent);
    }

    /// Has the nodes receive so much.
    fn receive(&mut self, received: Vec<u64>) {
        let nodes = self.nodes.iter_mut().zip(received);
        nodes.for_each(|(node, received)| node[1] = received);
    }

    /// Changes every number.
    fn each(&mut self, change: fn(u64) -> u64) {
        let all = self.nodes.iter_mut().chain([&mut self.totals]);
        all.for_each(|pair| *pair = pair.map(change));
    }

    /// All lines, the last of them with the totals.
    fn lines(&self, line: Line) -> Vec<String> {
        let nodes = self.nodes.iter().enumerate();
        let nodes = nodes.map(|(node, &numbers)| line(&node.to_string(), numbers));
        nodes.chain([line("==", self.totals)]).collect()
    }
}

/// A line from the node and its numbers.
type Line = fn(&str, [u64; 2]) -> String;

const LINE: Line = |node, [sent, received]| format!("{node:>2} {sent:>10} {received:>10}\n");

fn right(numbers: &Numbers) -> String {
    numbers.lines(LINE).concat()
}

/// What is otherwise about the numbers.
type Change = fn(&Paging, &mut Numbers);

fn unchanged(_: &Paging, _: &mut Numbers) {}

/// Writes a page with these checks, this change and this text.
fn page(
    [sheet, moves]: [&[u8]; 2],
    out: &mut [u8],
    checks: &[Check],
    change: Change,
    text: fn(&Numbers) -> String,
) -> WrittenAnswer {
    let (sheet, moves) = match (sheet::read(sheet), moves::read(moves)) {
        (Ok(sheet), Ok(moves)) => (sheet, moves),
        (Err(refusal), _) | (_, Err(refusal)) => return Answer::refused(refusal),
    };
    let room = out.len();
    let paging = Paging { sheet, moves, room };
    if let Some((refusal, _)) = checks.iter().find(|(_, met)| met(&paging)) {
        return Answer::refused(*refusal);
    }
    let mut numbers = Numbers::of(&paging);
    change(&paging, &mut numbers);
    let text = text(&numbers);
    put(text.as_bytes(), out);
    answers::written(text.len() as u32)
}

/// Pages with other checks.
macro_rules! checking {
    ($($name:literal, [$($check:expr),*];)*) => {
        [$(($name, |a, b, out| page([a, b], out, &[$($check),*], unchanged, right))),*]
    };
}

/// Pages with another check 42.
macro_rules! sending {
    ($($name:literal, $check:expr;)*) => {
        checking! { $($name, [UNEQUAL, (42, $check), TOO_SHORT];)* }
    };
}

/// Pages with another check 53.
macro_rules! rooming {
    ($($name:literal, $check:expr;)*) => {
        checking! { $($name, [UNEQUAL, TOO_MUCH, (53, $check)];)* }
    };
}

/// Pages with other numbers.
macro_rules! counting {
    ($($name:literal, $change:expr;)*) => {
        [$(($name, |a, b, out| page([a, b], out, &CHECKS, $change, right))),*]
    };
}

/// Pages that are another text.
macro_rules! writing {
    ($($name:literal, $text:expr;)*) => {
        [$(($name, |a, b, out| page([a, b], out, &CHECKS, unchanged, $text))),*]
    };
}

/// Pages with other lines.
macro_rules! lining {
    ($($name:literal, $line:expr;)*) => {
        writing! { $($name, |it| it.lines($line).concat();)* }
    };
}

fn reported(wrong: &[(&'static str, Write)]) {
    for &(name, traffic_page) in wrong {
        TRAFFIC_PAGE.must_report(&Implementation {
            name,
            traffic_page,
            ..REFERENCE
        });
    }
}

/// With the right checks, numbers and lines nothing is reported.
#[test]
fn the_right_page() {
    let [(name, traffic_page)]: [(_, Write); 1] = checking! {
        "right", [UNEQUAL, TOO_MUCH, TOO_SHORT];
    };
    let right = Implementation {
        name,
        traffic_page,
        ..REFERENCE
    };
    let met = TRAFFIC_PAGE.run(&right, SEED, 2_000);
    assert!(met.is_ok(), "{:?}", met.err());
}

#[test]
fn sends() {
    reported(&sending! {
        "sends not tested", |_| false;
        "each move by itself", |it| {
            let held = it.held(|cell| cell);
            it.moves().iter().any(|&(parts, count)| count > held[from(parts)])
        };
        "all that a cell has refused", |it| {
            let (moved, held) = (it.moved(from), it.held(|cell| cell));
            moved.iter().zip(&held).any(|(moved, held)| *moved > 0 && moved >= held)
        };
        "by node, not by cell", |it| exceeds(&it.moved(sender), &it.held(|cell| cell / 64));
        "by subdomain", |it| exceeds(&it.moved(subdomain), &it.held(|cell| cell % 64));
        "the receiver's cell tested", |it| exceeds(&it.moved(to), &it.held(|cell| cell));
        "what arrives can be sent", |it| {
            let more = it.moved(to).into_iter().zip(it.held(|cell| cell));
            let more: Vec<u64> = more.map(|(arrived, held)| arrived + held).collect();
            exceeds(&it.moved(from), &more)
        };
    });
}

#[test]
fn rooms() {
    reported(&rooming! {
        "a short buffer taken", |_| false;
        "room for N lines", |it| it.room + 25 < it.length();
        "room for N + 2 lines", |it| it.room < it.length() + 25;
        "room for all 64 nodes", |it| it.room < PAGE_BYTES;
        "one byte more wanted", |it| it.room <= it.length();
        "one byte less taken", |it| it.room + 1 < it.length();
        "a longer buffer refused", |it| it.room != it.length();
    });
    reported(&checking! {
        "43 in place of 53", [UNEQUAL, TOO_MUCH, (43, TOO_SHORT.1)];
        "52 in place of 53", [UNEQUAL, TOO_MUCH, (52, TOO_SHORT.1)];
    });
}

#[test]
fn orders() {
    reported(&checking! {
        "N not compared", [TOO_MUCH, TOO_SHORT];
        "42 before 41", [TOO_MUCH, UNEQUAL, TOO_SHORT];
        "53 before 42", [UNEQUAL, TOO_SHORT, TOO_MUCH];
        "53 before 41", [TOO_SHORT, UNEQUAL, TOO_MUCH];
    });
    reported(&[
        ("the moves before the sheet", moves_first),
        ("53 before the moves are read", room_first),
        ("41 before the moves are read", unequal_first),
    ]);
}

fn moves_first(sheet: &[u8], moves: &[u8], out: &mut [u8]) -> WrittenAnswer {
    match moves::read(moves) {
        Ok(_) => traffic_page(sheet, moves, out),
        Err(refusal) => Answer::refused(refusal),
    }
}

fn room_first(sheet: &[u8], moves: &[u8], out: &mut [u8]) -> WrittenAnswer {
    match sheet::read(sheet) {
        Ok(sheet) if out.len() < 25 * (sheet.n as usize + 1) => Answer::refused(53),
        _ => traffic_page(sheet, moves, out),
    }
}

fn unequal_first(sheet: &[u8], moves: &[u8], out: &mut [u8]) -> WrittenAnswer {
    let unequal = moves.len() >= 4 && !sheet.starts_with(&moves[..4]);
    match sheet::read(sheet) {
        Ok(_) if unequal => Answer::refused(41),
        _ => traffic_page(sheet, moves, out),
    }
}

#[test]
fn numbers_of_nodes() {
    reported(&counting! {
        "sent and received exchanged", |_, page| page.nodes.iter_mut().for_each(|it| it.reverse());
        "sent in both columns", |it, page| page.receive(it.moved(sender));
        "received in both columns", |it, page| page.send(it.moved(receiver));
        "sent by subdomain", |it, page| page.send(it.moved(subdomain));
        "received by subdomain", |it, page| page.receive(it.moved(subdomain));
        "sent in subdomain 0 only", |it, page| page.send(it.moved_if(|[d, _, _]| d == 0, sender));
        "received in subdomain 0 only",
            |it, page| page.receive(it.moved_if(|[d, _, _]| d == 0, receiver));
        "sent of its own subdomain only",
            |it, page| page.send(it.moved_if(|[d, s, _]| d == s, sender));
        "received of other subdomains only",
            |it, page| page.receive(it.moved_if(|[d, _, r]| d != r, receiver));
        "sent to higher nodes only", |it, page| page.send(it.moved_if(|[_, s, r]| s < r, sender));
        "held in place of sent", |it, page| page.send(it.held(|cell| cell / 64));
        "the last count in place of the sum", |it, page| {
            it.moves().iter().for_each(|&(parts, count)| page.nodes[receiver(parts)][1] = count);
        };
        "the number of moves", |it, page| {
            let moves = it.moves();
            let of = |node| moves.iter().filter(|&&(parts, _)| sender(parts) == node).count();
            page.send((0..page.nodes.len()).map(|node| of(node) as u64).collect());
        };
        "the last move left out", |it, page| {
            let last = it.moves().pop();
            last.into_iter().for_each(|(parts, count)| page.nodes[receiver(parts)][1] -= count);
        };
        "sent by all nodes so far", |_, page| {
            let mut sum = 0;
            page.nodes.iter_mut().for_each(|node| {
                sum += node[0];
                node[0] = sum;
            });
        };
        "one set against the other", |_, page| {
            let less = |[a, b]: [u64; 2]| [a.saturating_sub(b), b.saturating_sub(a)];
            page.nodes.iter_mut().for_each(|node| *node = less(*node));
        };
    });
}

#[test]
fn totals() {
    reported(&counting! {
        "the first node's", |_, page| page.totals = page.nodes[0];
        "the last node's", |_, page| page.totals = page.nodes[page.nodes.len() - 1];
        "without the last node", |_, page| page.totals[0] -= page.nodes[page.nodes.len() - 1][0];
        "sent and received together", |_, page| page.totals[1] *= 2;
        "received less sent", |_, page| page.totals[1] -= page.totals[0];
        "all that the sheet has", |it, page| page.totals[0] = u64::from(it.sheet.total());
        "the number of moves", |it, page| page.totals = [it.moves().len() as u64; 2];
        "the largest count", |it, page| {
            page.totals[1] = it.moves().iter().map(|&(_, count)| count).max().unwrap_or(0);
        };
    });
}

#[test]
fn digits() {
    reported(&counting! {
        "the nine lowest digits", |_, page| page.each(|number| number % 1_000_000_000);
        "the nine highest digits",
            |_, page| page.each(|number| if number < 1_000_000_000 { number } else { number / 10 });
        "at most nine nines", |_, page| page.each(|number| number.min(999_999_999));
        "numbers in 16 bits", |_, page| page.each(|number| number % 65_536);
        "numbers as floats", |_, page| page.each(|number| number as f32 as u64);
    });
    reported(&lining! {
        "numbers to the left", |node, [a, b]| format!("{node:>2} {a:<10} {b:<10}\n");
        "nodes to the left", |node, [a, b]| format!("{node:<2} {a:>10} {b:>10}\n");
        "nodes with a leading zero", |node, [a, b]| format!("{node:0>2} {a:>10} {b:>10}\n");
        "numbers with leading zeros", |node, [a, b]| format!("{node:>2} {a:010} {b:010}\n");
        "zero as a blank", |node, numbers| {
            let [a, b] = numbers.map(|it| if it == 0 { String::new() } else { it.to_string() });
            format!("{node:>2} {a:>10} {b:>10}\n")
        };
        "in base 16", |node, [a, b]| format!("{node:>2} {a:>10x} {b:>10x}\n");
    });
}

#[test]
fn lines() {
    reported(&lining! {
        "a blank at the end of the line", |node, [a, b]| format!("{node:>2}{a:>10} {b:>10} \n");
        "no blank between the numbers", |node, [a, b]| format!("{node:>2} {a:>10}{b:>10}\n");
        "received in nine columns", |node, [a, b]| format!("{node:>2} {a:>10} {b:>9}\n");
        "tabs", |node, [a, b]| format!("{node:>2}\t{a:>10}\t{b:>10}\n");
        "carriage returns", |node, [a, b]| format!("{node:>2} {a:>10} {b:>10}\r\n");
        "null bytes for newlines", |node, [a, b]| format!("{node:>2} {a:>10} {b:>10}\0");
        "no newlines", |node, [a, b]| format!("{node:>2} {a:>10} {b:>10}");
        "nodes from 1", |node, numbers| match node.parse::<u32>() {
            Ok(node) => LINE(&(node + 1).to_string(), numbers),
            Err(_) => LINE(node, numbers),
        };
        "one sign for the totals", |node, numbers| LINE(&node.replace("==", "="), numbers);
        "no sign for the totals", |node, numbers| LINE(&node.replace("==", ""), numbers);
    });
    reported(&writing! {
        "no last line", |it| it.lines(LINE)[..it.nodes.len()].concat();
        "the last line twice", |it| right(it) + &LINE("==", it.totals);
        "no newline at the end", |it| right(it).trim_end().into();
        "a blank for the last newline", |it| right(it).trim_end().to_owned() + " ";
        "the totals first", |it| {
            let lines = it.lines(LINE);
            [&lines[it.nodes.len()..], &lines[..it.nodes.len()]].concat().concat()
        };
        "from the last node down", |it| {
            let mut lines = it.lines(LINE);
            lines[..it.nodes.len()].reverse();
            lines.concat()
        };
        "nodes without traffic left out", |it| {
            let lines = it.lines(LINE).into_iter();
            lines.filter(|line| !line.ends_with(" 0          0\n")).collect()
        };
    });
}

#[test]
fn buffers() {
    reported(&[
        ("writes before 41", writes_before::<41>),
        ("writes before 42", writes_before::<42>),
        ("writes before 53", writes_before::<53>),
        ("writes nothing", writes_nothing),
        ("a null byte behind the page", null_behind),
        ("blanks behind the page", blanks_behind),
        ("a length with a refusal", length_with_refusal),
        ("the length of the buffer", length_of_the_buffer),
    ]);
}

/// Of an accepted sheet and accepted moves, as much as there is room for is
/// written before this refusal.
fn writes_before<const REFUSAL: u32>(sheet: &[u8], moves: &[u8], out: &mut [u8]) -> WrittenAnswer {
    let answer = traffic_page(sheet, moves, out);
    if answer.refusal == REFUSAL {
        page([sheet, moves], out, &[], unchanged, right);
    }
    answer
}

fn writes_nothing(sheet: &[u8], moves: &[u8], out: &mut [u8]) -> WrittenAnswer {
    traffic_page(sheet, moves, &mut out.to_vec())
}

fn null_behind(sheet: &[u8], moves: &[u8], out: &mut [u8]) -> WrittenAnswer {
    let answer = traffic_page(sheet, moves, out);
    if let (0, Some(byte)) = (answer.refusal, out.get_mut(answer.bytes as usize)) {
        *byte = 0;
    }
    answer
}

fn blanks_behind(sheet: &[u8], moves: &[u8], out: &mut [u8]) -> WrittenAnswer {
    let answer = traffic_page(sheet, moves, out);
    if answer.refusal == 0 {
        out[answer.bytes as usize..].fill(b' ');
    }
    answer
}

/// What a buffer that is long enough would get.
fn length_with_refusal(sheet: &[u8], moves: &[u8], out: &mut [u8]) -> WrittenAnswer {
    let answer = traffic_page(sheet, moves, out);
    let longer = traffic_page(sheet, moves, &mut [0; PAGE_BYTES]);
    WrittenAnswer {
        bytes: longer.bytes,
        ..answer
    }
}

fn length_of_the_buffer(sheet: &[u8], moves: &[u8], out: &mut [u8]) -> WrittenAnswer {
    let answer = traffic_page(sheet, moves, out);
    match answer.refusal {
        0 => answers::written(out.len() as u32),
        _ => answer,
    }
}
