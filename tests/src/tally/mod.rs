//! Request 2026-08, tallies: what they hold, the calls on them, and the differential
//! run of these.
//!
//! | file | what it holds |
//! |---|---|
//! | `lent` | a tally lent with guards before and behind |
//! | `changes` | calls at and past each bound |
//! | `openings` | sheets and plans that a tally is opened from |
//! | `sequences` | tallies opened, and many calls on each |
//! | `damage` | tallies that no opening and calls can have given |
//! | `damaged` | calls on these |

pub mod changes;
mod damage;
pub mod damaged;
pub mod lent;
pub mod openings;
pub mod sequences;

use crate::answers::TalliedAnswer;
use crate::demands::has_rival;
use crate::implementations::Implementation;
use crate::random::Random;

pub use firrozka::ffi::Tally;

/// How many words a tally has.
pub const WORDS: usize = 3 + 3 * 64 + 64 * 64;

/// "adds or removes"
#[derive(Clone, Copy, Debug, PartialEq, Eq)]
pub enum Way {
    Add,
    Remove,
}

/// What a call is to do: "adds or removes a count in a cell, named by holder and
/// subdomain".
#[derive(Clone, Copy, Debug, PartialEq, Eq)]
pub struct Change {
    pub way: Way,
    pub holder: u32,
    pub subdomain: u32,
    pub count: u32,
}

impl Change {
    pub fn add(holder: u32, subdomain: u32, count: u32) -> Change {
        Change {
            way: Way::Add,
            holder,
            subdomain,
            count,
        }
    }

    pub fn remove(holder: u32, subdomain: u32, count: u32) -> Change {
        Change {
            way: Way::Remove,
            ..Change::add(holder, subdomain, count)
        }
    }

    /// What takes it back.
    pub fn back(self) -> Change {
        let way = match self.way {
            Way::Add => Way::Remove,
            Way::Remove => Way::Add,
        };
        Change { way, ..self }
    }

    /// Holder and subdomain, which may be no nodes.
    pub fn cell(&self) -> [usize; 2] {
        [self.holder as usize, self.subdomain as usize]
    }

    /// The call, done by someone.
    pub fn by(&self, who: &Implementation, tally: &mut Tally) -> TalliedAnswer {
        let call = match self.way {
            Way::Add => who.tally_add,
            Way::Remove => who.tally_remove,
        };
        call(tally, self.holder, self.subdomain, self.count)
    }
}

/// All words of a tally, in the order in which they lie in memory.
pub fn words(tally: &Tally) -> Vec<u32> {
    let head = [tally.n, tally.limit, tally.total];
    let nodes = [tally.helpands, tally.totals, tally.leasts].concat();
    [&head, &nodes[..], &tally.counts].concat()
}

/// The tally with these words.
pub fn of_words(words: &[u32]) -> Tally {
    assert_eq!(words.len(), WORDS);
    let nodes = |at: usize| {
        let part = &words[3 + 64 * at..][..64];
        part.try_into().expect("64 words")
    };
    Tally {
        n: words[0],
        limit: words[1],
        total: words[2],
        helpands: nodes(0),
        totals: nodes(1),
        leasts: nodes(2),
        counts: words[3 + 3 * 64..].try_into().expect("4,096 words"),
    }
}

/// Words without any sense.
pub fn noise(random: &mut Random) -> Tally {
    let words: Vec<u32> = (0..WORDS).map(|_| random.word()).collect();
    of_words(&words)
}

/// The name of the word at this place.
fn name(place: usize) -> String {
    let node = |name: &str, first: usize| format!("{name}[{}]", place - first);
    match place {
        0 => "n".into(),
        1 => "limit".into(),
        2 => "total".into(),
        3..=66 => node("helpands", 3),
        67..=130 => node("totals", 67),
        131..=194 => node("leasts", 131),
        _ => node("counts", 195),
    }
}

/// Compares two tallies word for word.
pub fn compare(expected: &Tally, tally: &Tally) -> Result<(), String> {
    let both = words(expected).into_iter().zip(words(tally));
    let mut other = both.enumerate().filter(|(_, (a, b))| a != b);
    match other.next() {
        Some((place, (a, b))) => Err(format!("{} is {b}, not {a}", name(place))),
        None => Ok(()),
    }
}

/// The tally for a message: all that stands before the counts.
pub fn shown(tally: &Tally) -> String {
    let n = (tally.n as usize).min(64);
    let head = [tally.n, tally.limit, tally.total];
    let nodes = [&tally.helpands, &tally.totals, &tally.leasts].map(|it| &it[..n]);
    format!("n, limit and total {head:?}, helpands, totals and leasts {nodes:?}")
}

/// Whether there is a division along the tally's tree within its limit, by a search for
/// a flow.
pub fn has_division(tally: &Tally) -> Result<bool, String> {
    let n = tally.n as usize;
    let totals: Vec<u64> = tally.totals[..n].iter().map(|&it| it.into()).collect();
    has_rival(&tally.helpands[..n], &totals, tally.limit.into())
}

/// So many sequences of calls on open tallies, and calls on as many damaged ones. Gives
/// the first thing that is wrong.
pub fn run(tested: &Implementation, seed: u64, tallies: usize) -> Result<(), String> {
    sequences::run(tested, seed, tallies)?;
    damaged::run(tested, seed, tallies)?;
    Ok(())
}
