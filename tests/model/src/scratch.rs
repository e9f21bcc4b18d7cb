//! A scratch in place of the lead list (02, ticket 10): the second way in of the planner and the
//! desk. Its answers, and the desk it leaves, are those of the full list. Of the scratch nothing is
//! asked but its length, and no call writes it: it holds what it held, refused or not.

use crate::book::{answer, refused_answer, Answer, Call};
use crate::card::{judge_record, read_card, Figures};
use crate::desk::{open, Desk};
use crate::pairs::{self, judge_pairs_record, PAIRS, VISITS};
use crate::plan::{leads, plan_of, times, worst2, Plan, Planned, Showing};
use crate::refusal::{cause, refuse, Refusal};

/// Numbers of a scratch, at least.
pub const SCRATCH: usize = 512;

/// A scratch below 512 is 13.
pub fn judge_scratch(scratch: &[u32]) -> Result<(), Refusal> {
    if scratch.len() < SCRATCH {
        return refuse(cause::TOO_SHORT, 0);
    }
    Ok(())
}

/// The full list of a record, by its figures for the showing that it says. A record whose figures
/// are refused, or whose word says no showing, has none; it is unsound with every list. Pairs have
/// leads of 0.
pub fn full_leads(plan: &Plan) -> Vec<u32> {
    if plan.showing == PAIRS && judge_pairs_record(&plan.figures).is_ok() {
        return vec![0; plan.figures.blocks as usize];
    }
    match Showing::of(plan.showing) {
        Some(showing) if judge_record(&plan.figures).is_ok() => {
            let times = times(&plan.figures, showing);
            leads(&times, showing, worst2(&plan.figures, showing))
        }
        _ => Vec::new(),
    }
}

// The planner, with the lengths of the lent positions and of the scratch.

/// 13, for the scratch too, then 12, of judged figures.
fn plan_judged(
    figures: &Figures,
    showing: Showing,
    positions: usize,
    scratch: usize,
) -> Result<Planned, Refusal> {
    if positions < figures.blocks as usize || scratch < SCRATCH {
        return refuse(cause::TOO_SHORT, 0);
    }
    match plan_of(figures, showing) {
        Some(planned) => Ok(planned),
        None => refuse(cause::NO_STREAM, 0),
    }
}

/// The plan of a record: 3 to 10, 25 and 26, 13, 12. The leads that come with it are lent nowhere.
pub fn plan_record_scratch(
    figures: &Figures,
    showing: Showing,
    positions: usize,
    scratch: usize,
) -> Result<Planned, Refusal> {
    if let Err(number) = judge_record(figures) {
        return refuse(number, 0);
    }
    plan_judged(figures, showing, positions, scratch)
}

/// The plan of a card: 1 to 11, 25 and 26 with offset, 13, 12.
pub fn plan_card_scratch(
    card: &[u8],
    showing: Showing,
    positions: usize,
    scratch: usize,
) -> Result<Planned, Refusal> {
    plan_judged(&read_card(card)?, showing, positions, scratch)
}

/// 13, for the scratch too, then 12, of figures judged for pairs.
fn plan_judged_pairs(
    figures: &Figures,
    positions: usize,
    scratch: usize,
) -> Result<Planned, Refusal> {
    if positions < VISITS * figures.blocks as usize || scratch < SCRATCH {
        return refuse(cause::TOO_SHORT, 0);
    }
    match pairs::plan_of(figures) {
        Some(planned) => Ok(planned),
        None => refuse(cause::NO_STREAM, 0),
    }
}

/// The plan of a record as pairs: 3 to 8, 10, 25, 26 and 28, 13, 12.
pub fn plan_pairs_record_scratch(
    figures: &Figures,
    positions: usize,
    scratch: usize,
) -> Result<Planned, Refusal> {
    if let Err(number) = judge_pairs_record(figures) {
        return refuse(number, 0);
    }
    plan_judged_pairs(figures, positions, scratch)
}

/// The plan of a card as pairs: 1 to 8, 10, 11, 25, 26 and 28 with offset, 13, 12.
pub fn plan_pairs_card_scratch(
    card: &[u8],
    positions: usize,
    scratch: usize,
) -> Result<Planned, Refusal> {
    plan_judged_pairs(&pairs::read_pairs_card(card)?, positions, scratch)
}

// The desk: a scratch below 512 is 13 ahead of 14.

/// Opens a desk from a plan and its positions.
pub fn open_scratch(plan: &Plan, positions: &[u32], scratch: &[u32]) -> Result<Desk, Refusal> {
    judge_scratch(scratch)?;
    open(plan, positions, &full_leads(plan))
}

/// Makes one call on a desk: join, leave, begin or end.
pub fn answer_scratch(desk: &Desk, positions: &[u32], scratch: &[u32], call: &Call) -> Answer {
    match judge_scratch(scratch) {
        Ok(()) => answer(desk, positions, &full_leads(&desk.plan), call),
        Err(refusal) => refused_answer(desk, refusal),
    }
}
