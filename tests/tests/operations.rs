//! The operations on more than one record: every refusal with its number, in
//! the order written, with buffers untouched; lengths at and one past each
//! bound; and nothing written behind the record.
#![forbid(unsafe_code)]

use firrozka_tests::answers::{helpands, PartAnswer, StepAnswer, WeighedAnswer, NOTHING};
use firrozka_tests::buffers::{all_refuse, all_write, buffer, untouched};
use firrozka_tests::implementations::IMPLEMENTATIONS;
use firrozka_tests::records::moves::{moves, route};
use firrozka_tests::records::plans::plan;
use firrozka_tests::records::sheets::{cell, sheet};
use firrozka_tests::records::{shown, to_words};
use firrozka_tests::settings::SEED;
use firrozka_tests::steps::{self, Size, Step};
use firrozka_tests::{refused, worked};

/// Some steps to try everything on.
fn some_steps() -> Vec<Step> {
    let worked = worked::all().into_iter().map(|(_, step)| step);
    let seeded = (0..300).map(|index| steps::at(SEED, index, Size::Any));
    worked.chain(seeded).collect()
}

// Weigh.

/// A refusal, with buffers of any length untouched.
fn weigh_refuses(sheet: &[u8], plan: &[u8], lengths: &[usize], refusal: u32) {
    for implementation in IMPLEMENTATIONS {
        for &length in lengths {
            let mut least = buffer(length);
            let answer = (implementation.weigh)(sheet, plan, &mut least);
            let expected = WeighedAnswer { refusal, holds: 0 };
            assert_eq!(answer, expected, "{}", implementation.name);
            assert!(untouched(&least));
        }
    }
}

/// "Refused: the sheet's; the plan's; 21, their N differ; 24, kind 0; 25,
/// buffer under 4N bytes."
#[test]
fn weigh_refusals() {
    let good = worked::d().sheet;
    for (refusal, sheet) in refused::sheets() {
        weigh_refuses(&sheet, &worked::d_plan(), &[0, 12, 99], refusal);
        // Everything else is wrong too.
        weigh_refuses(&sheet, &[], &[0, 12, 99], refusal);
    }
    for (refusal, plan) in refused::plans() {
        weigh_refuses(&good, &plan, &[0, 12, 99], refusal);
        weigh_refuses(&worked::b().sheet, &plan, &[0, 12, 99], refusal);
    }
    // Only plan a step takes a plan of length 0.
    weigh_refuses(&good, &[], &[0, 12, 99], 11);
    let two_roots = plan(0, 36, &[0, 1], &[0, 0]).bytes();
    weigh_refuses(&good, &worked::old(&[0, 0]), &[0, 12, 99], 21);
    weigh_refuses(&good, &two_roots, &[0, 12, 99], 21);
    let three_roots = plan(0, 36, &[0, 1, 2], &[0; 3]).bytes();
    weigh_refuses(&good, &three_roots, &[0, 12, 99], 24);
    let alone = plan(0, 36, &[0], &[0]).bytes();
    weigh_refuses(&worked::a().sheet, &alone, &[0, 4, 99], 24);
    weigh_refuses(&good, &worked::d_plan(), &[0, 1, 4, 11], 25);
}

/// The leasts are written whether the tree holds or not, and nothing more.
#[test]
fn weigh_writes() {
    let trees = [
        worked::e(),
        worked::f(),
        worked::g(),
        worked::h(),
        worked::i(),
    ];
    let expected = [
        ([28, 6, 7], 1),
        // Node 1 spares nothing, its least is above L.
        ([24, 40, 10], 0),
        // Node 1 helps node 0, node 0 helps node 2.
        ([0, 5, 0], 0),
        ([28, 36, 0], 1),
        ([27, 37, 0], 0),
    ];
    for implementation in IMPLEMENTATIONS {
        for (step, (words, holds)) in trees.iter().zip(expected) {
            for length in [12, 13, 99] {
                let mut least = buffer(length);
                let answer = (implementation.weigh)(&step.sheet, &step.old, &mut least);
                assert_eq!(answer, WeighedAnswer { refusal: 0, holds });
                assert_eq!(to_words(&least[..12]), words);
                assert!(untouched(&least[12..]));
            }
        }
    }
}

// Plan a step.

/// A refusal with buffers of these lengths, both untouched.
fn plan_refuses(step: &Step, lengths: [usize; 2], refusal: u32) {
    for implementation in IMPLEMENTATIONS {
        let [mut plan, mut moves] = lengths.map(buffer);
        let answer = (implementation.plan_step)(&step.sheet, &step.old, &mut plan, &mut moves);
        let expected = StepAnswer {
            refusal,
            ..StepAnswer::default()
        };
        assert_eq!(answer, expected, "{}:\n{step}", implementation.name);
        assert!(untouched(&plan) && untouched(&moves));
    }
}

fn plan_refuses_inputs(sheet: &[u8], old: &[u8], refusal: u32) {
    let (sheet, old) = (sheet.to_vec(), old.to_vec());
    let step = Step { sheet, old };
    for lengths in [[0, 0], [524, 0], [0, 32_264], [524, 32_264]] {
        plan_refuses(&step, lengths, refusal);
    }
}

/// "Refused: the sheet's; the plan's; 21".
#[test]
fn plan_step_refusals() {
    for (refusal, step) in refused::all() {
        plan_refuses_inputs(&step.sheet, &step.old, refusal);
    }
    for (refusal, sheet) in refused::sheets() {
        for (_, old) in refused::plans() {
            plan_refuses_inputs(&sheet, &old, refusal);
        }
        plan_refuses_inputs(&sheet, &[], refusal);
    }
    for (refusal, old) in refused::plans() {
        // Of other N too, and where the old tree would play no part.
        plan_refuses_inputs(&worked::b().sheet, &old, refusal);
        plan_refuses_inputs(&worked::j().sheet, &old, refusal);
    }
    for length in 1..=11 {
        plan_refuses_inputs(&worked::j().sheet, &worked::d_plan()[..length], 11);
    }
    // 21, even for a plan without a tree and an even load.
    let two_roots = plan(0, 36, &[0, 1], &[0, 0]).bytes();
    plan_refuses_inputs(&worked::j().sheet, &two_roots, 21);
    plan_refuses_inputs(&worked::j().sheet, &worked::old(&[0, 0]), 21);
}

/// "22, plan buffer too short; 23, moves buffer too short." And a buffer that
/// is just long enough will do, one that is longer keeps its end.
#[test]
fn plan_step_buffers() {
    for implementation in IMPLEMENTATIONS {
        for step in some_steps() {
            let planned = implementation.plan(&step);
            let (plan, moves) = (planned.plan.len(), planned.moves.len());
            for short in [
                [plan - 1, moves - 1],
                [plan - 1, moves],
                [0, 0],
                [11, moves],
            ] {
                plan_refuses(&step, short, 22);
            }
            for short in [[plan, moves - 1], [plan + 9, 0], [plan, 7]] {
                plan_refuses(&step, short, 23);
            }
            for more in [0, 1, 50] {
                let [mut plan_buffer, mut moves_buffer] = [plan + more, moves + more].map(buffer);
                let answer = (implementation.plan_step)(
                    &step.sheet,
                    &step.old,
                    &mut plan_buffer,
                    &mut moves_buffer,
                );
                let lengths = [answer.plan_bytes, answer.moves_bytes];
                assert_eq!(lengths.map(|length| length as usize), [plan, moves]);
                assert_eq!(plan_buffer[..plan], planned.plan);
                assert_eq!(moves_buffer[..moves], planned.moves);
                assert!(untouched(&plan_buffer[plan..]) && untouched(&moves_buffer[moves..]));
                let words = to_words(&planned.plan);
                assert_eq!(
                    [answer.refusal, answer.kind, answer.limit],
                    [0, words[1], words[2]]
                );
            }
        }
    }
}

// Carry out.

fn carry_out_refuses(sheet: &[u8], moves: &[u8], lengths: &[usize], refusal: u32) {
    all_refuse(
        |by, next| (by.carry_out)(sheet, moves, next),
        lengths,
        refusal,
    );
}

/// "Refused: the sheet's; the moves'; 41, N differ; 42, some cell sends in all
/// more than the old sheet gives it; 43, buffer too short."
#[test]
fn carry_out_refusals() {
    let good = worked::d().sheet;
    let lengths = [0, 99];
    for (refusal, sheet) in refused::sheets() {
        carry_out_refuses(&sheet, &moves(3, &[], &[]).bytes(), &lengths, refusal);
        carry_out_refuses(&sheet, &[], &lengths, refusal);
    }
    for (refusal, moves) in refused::moves() {
        carry_out_refuses(&good, &moves, &lengths, refusal);
        carry_out_refuses(&worked::b().sheet, &moves, &lengths, refusal);
    }
    // The cell would also send too much.
    let two = moves(2, &[route(1, 0, 1)], &[1]).bytes();
    carry_out_refuses(&good, &two, &lengths, 41);
    carry_out_refuses(&good, &moves(4, &[], &[]).bytes(), &lengths, 41);
    let sends = |routes: &[u32], counts: &[u32]| moves(3, routes, counts).bytes();
    carry_out_refuses(&good, &sends(&[route(1, 0, 1)], &[1]), &lengths, 42);
    carry_out_refuses(&good, &sends(&[route(0, 0, 1)], &[91]), &lengths, 42);
    let both = [route(0, 0, 1), route(0, 0, 2)];
    carry_out_refuses(&good, &sends(&both, &[90, 1]), &lengths, 42);
    carry_out_refuses(&good, &sends(&both, &[1, 90]), &lengths, 42);
    carry_out_refuses(&good, &sends(&both, &[45, 45]), &[0, 43], 43);
}

/// "Testing a send against what arrived in the same step."
#[test]
fn what_arrives_cannot_be_sent() {
    let through = [route(0, 0, 1), route(0, 1, 2)];
    let through = moves(3, &through, &[5, 5]).bytes();
    carry_out_refuses(&worked::d().sheet, &through, &[0, 99], 42);
    // Nor does what arrives make room, or what leaves make a debt.
    let around = [route(0, 0, 1), route(0, 1, 0)];
    let around = moves(3, &around, &[30, 27]).bytes();
    for implementation in IMPLEMENTATIONS {
        let next = implementation.carried_out(&worked::e().sheet, &around);
        let words = to_words(&next.expect("accepted"));
        assert_eq!(
            words,
            [3, 100, 6, 0, 2, 64, 65, 128, 130, 27, 3, 30, 6, 30, 4]
        );
    }
}

/// Sends that add up to something small in 32 bits.
#[test]
fn sends_beyond_32_bits() {
    const MOST: u32 = 1_000_000_000;
    let all = sheet(64, 1, &[0], &[MOST]).bytes();
    for (count, each) in [(5, MOST), (63, MOST), (8, 1 << 29), (33, 1 << 27)] {
        let routes: Vec<u32> = (1..=count).map(|receiver| route(0, 0, receiver)).collect();
        let counts = vec![each; count as usize];
        let record = moves(64, &routes, &counts).bytes();
        carry_out_refuses(&all, &record, &[0, 32_780], 42);
    }
}

/// Cells that come to 0 vanish, new ones appear, t stays, and nothing is
/// written behind the sheet.
#[test]
fn carry_out_writes() {
    for implementation in IMPLEMENTATIONS {
        let step = worked::d();
        let record = moves(3, &[route(0, 0, 2), route(1, 1, 0)], &[90, 2]).bytes();
        let next = implementation
            .carried_out(&step.sheet, &record)
            .expect("accepted");
        let cells = [cell(0, 1), cell(1, 1), cell(2, 0), cell(2, 2)];
        assert_eq!(
            next,
            sheet(3, worked::TEN_PERCENT, &cells, &[2, 4, 90, 4]).bytes()
        );
        for step in some_steps() {
            let planned = implementation.plan(&step);
            let next = implementation.carried_out(&step.sheet, &planned.moves);
            let next = next.expect("accepted");
            all_write(
                |by, out| (by.carry_out)(&step.sheet, &planned.moves, out),
                &next,
                43,
            );
            // With no moves the sheet stays as it is.
            let n = to_words(&step.sheet)[0];
            let rest = moves(n, &[], &[]).bytes();
            assert_eq!(implementation.carried_out(&next, &rest), Ok(next));
        }
    }
}

// Tree in force.

const STAR: [u32; 3] = [0, 0, 0];
const CHAIN: [u32; 3] = [0, 0, 1];

/// Kind 1 over a star. Limits and shares are not compared.
fn kept() -> Vec<u8> {
    plan(1, 50, &STAR, &[0, 50, 1]).bytes()
}

fn roots() -> Vec<u8> {
    worked::plan(0, &[0, 1, 2])
}

/// The part that is handed back for an old and a new plan.
fn hands_back(old: Vec<u8>, new: Vec<u8>, part: PartAnswer) {
    for implementation in IMPLEMENTATIONS {
        let answer = (implementation.tree_in_force)(&old, &new);
        assert_eq!(answer, part, "{}, {}", shown(&old), shown(&new));
    }
}

#[test]
fn tree_in_force_helpands() {
    let of = worked::plan;
    let (from_old, from_new) = (helpands(PartAnswer::OLD, 3), helpands(PartAnswer::NEW, 3));
    // "If the new kind is 1, it hands back the helpand stretch of the old plan"
    hands_back(worked::d_plan(), kept(), from_old);
    hands_back(of(1, &STAR), kept(), from_old);
    // "otherwise that of the new"
    hands_back(worked::d_plan(), of(2, &CHAIN), from_new);
    hands_back(worked::d_plan(), of(2, &STAR), from_new);
    hands_back(worked::d_plan(), roots(), from_new);
    hands_back(roots(), roots(), from_new);
    hands_back(roots(), of(2, &STAR), from_new);
    let alone = of(0, &[0]);
    hands_back(alone.clone(), alone, helpands(PartAnswer::NEW, 1));
}

#[test]
fn tree_in_force_empty() {
    let of = worked::plan;
    let bad = plan(2, 1, &STAR, &[0, 27, 29]).bytes();
    // "when either is refused"
    hands_back(bad.clone(), kept(), NOTHING);
    hands_back(worked::d_plan(), bad.clone(), NOTHING);
    hands_back(bad.clone(), bad, NOTHING);
    hands_back(Vec::new(), of(2, &STAR), NOTHING);
    hands_back(Vec::new(), roots(), NOTHING);
    hands_back(roots(), Vec::new(), NOTHING);
    // "the N differ"
    hands_back(of(2, &[0, 0]), of(2, &STAR), NOTHING);
    hands_back(of(2, &[0, 0]), kept(), NOTHING);
    hands_back(of(0, &[0]), roots(), NOTHING);
    // "the new kind is 1 and the old is kind 0 or has other helpands"
    hands_back(roots(), kept(), NOTHING);
    hands_back(of(2, &CHAIN), kept(), NOTHING);
    hands_back(of(1, &[1, 1, 1]), kept(), NOTHING);
}

/// After a step the tree in force is the one that the plan names, wherever it
/// is taken from.
#[test]
fn tree_in_force_after_a_step() {
    for implementation in IMPLEMENTATIONS {
        for step in some_steps() {
            let planned = implementation.plan(&step);
            let part = (implementation.tree_in_force)(&step.old, &planned.plan);
            let n = to_words(&step.sheet)[0];
            if step.old.is_empty() {
                assert_eq!(part, NOTHING);
                continue;
            }
            let kept = to_words(&planned.plan)[1] == 1;
            let source = if kept {
                PartAnswer::OLD
            } else {
                PartAnswer::NEW
            };
            assert_eq!(part, helpands(source, n));
            let record = if kept { &step.old } else { &planned.plan };
            let stretch = part.start as usize..(part.start + part.length) as usize;
            assert_eq!(record[stretch.clone()], planned.plan[stretch]);
        }
    }
}
