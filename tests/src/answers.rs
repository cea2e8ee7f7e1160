//! What the operations answer: "An answer carries 0 or a refusal number, and
//! the values named." The second implementation and the archive both answer
//! with these, so whole answers can be compared.

use std::fmt::Debug;

pub use firrozka::ffi::{
    MovesAnswer, PartAnswer, PlanAnswer, SheetAnswer, StepAnswer, TalliedAnswer, WeighedAnswer,
    WrittenAnswer,
};

/// What the answer of every operation that can refuse has.
pub trait Answer: Copy + Debug + Default + PartialEq {
    /// 0, or the refusal number.
    fn refusal(&self) -> u32;

    /// "A refusal's other values are all 0".
    fn refused(refusal: u32) -> Self;
}

/// *Weigh* "says whether the tree holds."
pub fn weighed(holds: bool) -> WeighedAnswer {
    WeighedAnswer {
        refusal: 0,
        holds: u32::from(holds),
    }
}

/// A call on a tally "says whether the tree holds", and so does the opening.
pub fn tallied(holds: bool) -> TalliedAnswer {
    TalliedAnswer {
        refusal: 0,
        holds: u32::from(holds),
    }
}

/// *Plan a step* "gives kind, L and both lengths in bytes."
pub fn planned([kind, limit, plan_bytes, moves_bytes]: [u32; 4]) -> StepAnswer {
    StepAnswer {
        refusal: 0,
        kind,
        limit,
        plan_bytes,
        moves_bytes,
    }
}

/// *Carry out* "gives its length in bytes", and so do *join sheets*, *traffic page*,
/// *write archive*, *read archive* and *groups*.
pub fn written(bytes: u32) -> WrittenAnswer {
    WrittenAnswer { refusal: 0, bytes }
}

/// "an empty stretch of the new plan"
pub const NOTHING: PartAnswer = PartAnswer {
    source: PartAnswer::NEW,
    start: 0,
    length: 0,
};

/// "the helpand stretch" of a plan of n nodes.
pub fn helpands(source: u32, n: u32) -> PartAnswer {
    PartAnswer {
        source,
        start: 12,
        length: 4 * n,
    }
}

macro_rules! answers {
    ($($answer:ident),*) => {
        $(impl Answer for $answer {
            fn refusal(&self) -> u32 {
                self.refusal
            }

            fn refused(refusal: u32) -> $answer {
                $answer {
                    refusal,
                    ..$answer::default()
                }
            }
        })*
    };
}

answers!(
    SheetAnswer,
    PlanAnswer,
    MovesAnswer,
    WeighedAnswer,
    StepAnswer,
    WrittenAnswer,
    TalliedAnswer
);
