//! Why an operation refuses.

use std::error::Error;
use std::fmt;

macro_rules! refusals {
    ($($name:ident = $number:literal, $subject:literal, $reason:literal;)*) => {
        /// A refusal: its number in documents 01 and 02, and its reason in words.
        #[derive(Clone, Copy, PartialEq, Eq, PartialOrd, Ord, Hash)]
        pub enum Refusal {
            $(#[doc = concat!($subject, ": ", $reason)] $name = $number,)*
        }

        impl Refusal {
            /// All of them: by rising number, and then those that have the number of
            /// another.
            pub const ALL: &'static [Refusal] = &[$(Refusal::$name),*];

            /// Its name in this enum.
            pub fn name(self) -> &'static str {
                match self {
                    $(Refusal::$name => stringify!($name),)*
                }
            }

            /// The record or operation that it belongs to.
            pub fn subject(self) -> &'static str {
                match self {
                    $(Refusal::$name => $subject,)*
                }
            }

            /// The reason in words.
            pub fn reason(self) -> &'static str {
                match self {
                    $(Refusal::$name => $reason,)*
                }
            }
        }
    };
}

refusals! {
    SheetShort = 1, "sheet", "under 12 bytes";
    SheetNodes = 2, "sheet", "N is not 1 to 64";
    SheetTolerance = 3, "sheet", "t is not 1 to 999";
    SheetEntries = 4, "sheet", "E is above N × N";
    SheetLength = 5, "sheet", "the length is not 4 × (3 + 2E) bytes";
    SheetCell = 6, "sheet", "a cell does not rise, or names a node not below N";
    SheetCount = 7, "sheet", "a count is 0, or the running sum is above 1,000,000,000";
    PlanShort = 11, "plan", "under 12 bytes";
    PlanNodes = 12, "plan", "N is not 1 to 64";
    PlanKind = 13, "plan", "the kind is above 2, or not 0 with one node";
    PlanLimit = 14, "plan", "the limit is above 1,999,000,000";
    PlanLength = 15, "plan", "the length is not 4 × (3 + 2N) bytes";
    PlanHelpand = 16, "plan", "a helpand is not below N";
    PlanShape = 17, "plan", "the wrong shape: kind 0 has only roots; \
        kinds 1 and 2 have one root, which every chain of helpands reaches";
    PlanShare = 18, "plan", "a share is above the limit, or not 0 at a root";
    PlanNodesDiffer = 21, "weigh, plan a step, open tally", "the N of sheet and plan differ";
    PlanBuffer = 22, "plan a step", "the plan's buffer is too short";
    MovesBuffer = 23, "plan a step", "the moves' buffer is too short";
    PlanPrimary = 24, "weigh, open tally", "the plan is kind 0 and has no tree";
    LeastBuffer = 25, "weigh", "the buffer is under 4N bytes";
    MovesShort = 31, "moves", "under 8 bytes";
    MovesNodes = 32, "moves", "N is not 1 to 64";
    MovesEntries = 33, "moves", "E is above N × (N−1)";
    MovesLength = 34, "moves", "the length is not 4 × (2 + 2E) bytes";
    MovesRoute = 35, "moves", "a route does not rise, names a node not below N, \
        or has one node as sender and receiver";
    MovesCount = 36, "moves", "a count is 0 or above 1,000,000,000";
    MovesNodesDiffer = 41, "carry out, traffic page", "the N of sheet and moves differ";
    MovesSends = 42, "carry out, traffic page", "some cell sends in all more than the old sheet \
        gives it";
    SheetBuffer = 43, "carry out", "the buffer is too short";
    SheetsDiffer = 51, "join sheets", "the N or the t of the two sheets differ";
    JoinedBuffer = 52, "join sheets", "the buffer is too short";
    PageBuffer = 53, "traffic page", "the buffer is under 25 × (N+1) bytes";
    ArchiveLength = 54, "archive", "the length is not 16,392 bytes";
    ArchiveCount = 55, "archive", "a count is above 0 at a node not below N, \
        or the sum is above 1,000,000,000";
    ArchiveBuffer = 56, "write archive, read archive", "the buffer is too short";
    GroupsBuffer = 57, "groups", "the buffer is under 4 × (1 + 2N) bytes";
    TallyCell = 58, "tally add, tally remove", "a node is not below N, or the count is 0";
    TallyRemoves = 59, "tally remove", "the cell has fewer than are removed";
    TallyTotal = 60, "tally add", "the total would be above 1,000,000,000";
    // Numbers 2 and 3 once more.
    ArchiveNodes = 1002, "archive", "N is not 1 to 64";
    ArchiveTolerance = 1003, "archive", "t is not 1 to 999";
}

/// Where two refusals share a number, this is added to the value of the second.
const AGAIN: u32 = 1000;

impl Refusal {
    /// The refusal with this number. 2 and 3 are those of a sheet.
    pub fn from_number(number: u32) -> Option<Refusal> {
        let all = Refusal::ALL.iter().copied();
        all.into_iter().find(|refusal| refusal.number() == number)
    }

    /// Its number in documents 01 and 02.
    pub fn number(self) -> u32 {
        self as u32 % AGAIN
    }

    /// The refusal where an archive was read: it has 2 and 3, too.
    pub(crate) fn of_archive(self) -> Refusal {
        match self {
            Refusal::SheetNodes => Refusal::ArchiveNodes,
            Refusal::SheetTolerance => Refusal::ArchiveTolerance,
            other => other,
        }
    }
}

impl fmt::Display for Refusal {
    fn fmt(&self, f: &mut fmt::Formatter) -> fmt::Result {
        let (number, subject, reason) = (self.number(), self.subject(), self.reason());
        write!(f, "refused {number}: {subject}: {reason}")
    }
}

/// The name with number and reason: this is what a `main` that returns the
/// refusal prints.
impl fmt::Debug for Refusal {
    fn fmt(&self, f: &mut fmt::Formatter) -> fmt::Result {
        write!(f, "{} ({self})", self.name())
    }
}

impl Error for Refusal {}
