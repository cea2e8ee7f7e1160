//! The benchmark's baseline, which is a crate by itself, with the answers of
//! the others.

use crate::answers::{self, Answer, StepAnswer, TalliedAnswer, WeighedAnswer, WrittenAnswer};
use crate::tally::Tally;

/// *Weigh*, as the baseline does it.
pub fn weigh(sheet: &[u8], plan: &[u8], least: &mut [u8]) -> WeighedAnswer {
    firrozka_plain::weigh(sheet, plan, least).map_or_else(Answer::refused, answers::weighed)
}

/// *Plan a step*, as the baseline does it.
pub fn plan_step(sheet: &[u8], old: &[u8], plan: &mut [u8], moves: &mut [u8]) -> StepAnswer {
    firrozka_plain::plan_step(sheet, old, plan, moves)
        .map(|step| [step.kind, step.limit, step.plan_bytes, step.moves_bytes])
        .map_or_else(Answer::refused, answers::planned)
}

/// *Carry out*, as the baseline does it.
pub fn carry_out(sheet: &[u8], moves: &[u8], next: &mut [u8]) -> WrittenAnswer {
    firrozka_plain::carry_out(sheet, moves, next).map_or_else(Answer::refused, answers::written)
}

/// *Join sheets*, as the baseline does it.
pub fn join_sheets(first: &[u8], second: &[u8], out: &mut [u8]) -> WrittenAnswer {
    firrozka_plain::join_sheets(first, second, out).map_or_else(Answer::refused, answers::written)
}

/// *Traffic page*, as the baseline does it.
pub fn traffic_page(sheet: &[u8], moves: &[u8], page: &mut [u8]) -> WrittenAnswer {
    firrozka_plain::traffic_page(sheet, moves, page).map_or_else(Answer::refused, answers::written)
}

/// *Write archive*, as the baseline does it.
pub fn write_archive(sheet: &[u8], archive: &mut [u8]) -> WrittenAnswer {
    firrozka_plain::write_archive(sheet, archive).map_or_else(Answer::refused, answers::written)
}

/// *Read archive*, as the baseline does it.
pub fn read_archive(archive: &[u8], sheet: &mut [u8]) -> WrittenAnswer {
    firrozka_plain::read_archive(archive, sheet).map_or_else(Answer::refused, answers::written)
}

/// *Groups*, as the baseline does it.
pub fn groups(plan: &[u8], groups: &mut [u8]) -> WrittenAnswer {
    firrozka_plain::groups(plan, groups).map_or_else(Answer::refused, answers::written)
}

/// *Open tally*, as the baseline does it.
pub fn open_tally(sheet: &[u8], plan: &[u8], tally: &mut Tally) -> TalliedAnswer {
    firrozka_plain::open_tally(sheet, plan, tally).map_or_else(Answer::refused, answers::tallied)
}

/// *Tally add*, as the baseline does it.
pub fn tally_add(tally: &mut Tally, holder: u32, subdomain: u32, count: u32) -> TalliedAnswer {
    firrozka_plain::tally_add(tally, holder, subdomain, count)
        .map_or_else(Answer::refused, answers::tallied)
}

/// *Tally remove*, as the baseline does it.
pub fn tally_remove(tally: &mut Tally, holder: u32, subdomain: u32, count: u32) -> TalliedAnswer {
    firrozka_plain::tally_remove(tally, holder, subdomain, count)
        .map_or_else(Answer::refused, answers::tallied)
}
