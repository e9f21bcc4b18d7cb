//! A scratch in place of the lead list (02, tickets 10 and 14), for every rule. Its answers, and the
//! desk it leaves, are those of the full list. No call reads or writes it.

use super::book::{answer, Answer, Call, Run, Step};
use super::card::{judge_record, Figures};
use super::desk::{open, Desk};
use super::plan::{all_times, leads, plan_card, plan_record, worst2, Plan, Planned};
use super::Rule;
use crate::refusal::Refusal;
use crate::scratch::{judge_scratch, SCRATCH};

/// The full list of a record, by its figures for the rule that it says. A record whose figures are
/// refused, or whose word says no rule, has none; it is unsound with every list.
pub fn full_leads(plan: &Plan) -> Vec<u32> {
    match Rule::of(plan.showing) {
        Some(rule) if judge_record(&plan.figures, rule).is_ok() => {
            let times = all_times(&plan.figures, rule);
            leads(&times, rule, worst2(&times, rule))
        }
        _ => Vec::new(),
    }
}

// The planner, with the lengths of the lent positions and of the scratch. The leads that come with a
// plan are lent nowhere.

/// The length of a lead list that is refused where the scratch is, and only there.
fn as_leads(scratch: usize) -> usize {
    if scratch < SCRATCH {
        0
    } else {
        usize::MAX
    }
}

/// The plan of a record: 3 to 10, 25, 26, 28 and 30, 13 for the scratch too, 12, each at 0.
pub fn plan_record_scratch(
    figures: &Figures,
    rule: Rule,
    positions: usize,
    scratch: usize,
) -> Result<Planned, Refusal> {
    plan_record(figures, rule, positions, as_leads(scratch))
}

/// The plan of a card: 1 to 11, 25, 26, 28 and 30 with offset, 13 for the scratch too, 12.
pub fn plan_card_scratch(
    card: &[u8],
    rule: Rule,
    positions: usize,
    scratch: usize,
) -> Result<Planned, Refusal> {
    plan_card(card, rule, positions, as_leads(scratch))
}

// The desk: a scratch below 512 is 13 ahead of 14.

/// Opens a desk from a plan and its positions.
pub fn open_scratch(plan: &Plan, positions: &[u32], scratch: &[u32]) -> Result<Desk, Refusal> {
    judge_scratch(scratch)?;
    open(plan, positions, &full_leads(plan))
}

/// Makes one call on a desk: join, leave, begin or end.
pub fn answer_scratch(desk: &Desk, positions: &[u32], scratch: &[u32], call: &Call) -> Answer {
    match judge_scratch(scratch) {
        Ok(()) => answer(desk, positions, &full_leads(&desk.plan), call),
        Err(refusal) => Answer::refused(desk, refusal),
    }
}

impl Run {
    /// Makes a call with a scratch in place of the step's leads.
    pub fn call_scratch(&mut self, step: &Step, scratch: &[u32]) -> Result<Answer, String> {
        let answer = answer_scratch(&self.desk, &step.positions, scratch, &step.call);
        self.checked(&step.call, answer)
    }
}
