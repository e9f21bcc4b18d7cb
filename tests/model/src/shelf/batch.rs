//! A batch of joins and leaves on a shelf (02, tickets 6 and 14): an item has number, slot, start
//! block and film.

use super::book::{answer, Answer, Call, Run};
use super::desk::{join_sound, judge_sound, leave_sound, Desk};
use super::scratch::full_leads;
use crate::batch::{judge_lengths, ItemAnswer, JOIN};
use crate::refusal::Refusal;
use crate::scratch::judge_scratch;

/// One join or leave of a batch. A leave's block and film are not read.
#[derive(Clone, Copy, Debug, PartialEq, Eq)]
pub struct Item {
    pub number: u32,
    pub slot: u32,
    pub block: u32,
    pub film: u32,
}

impl Item {
    /// The single call that it stands for.
    pub fn call(&self) -> Call {
        match self.number {
            JOIN => Call::Join { slot: self.slot, block: self.block, film: self.film },
            _ => Call::Leave { slot: self.slot },
        }
    }

    /// The item on a sound desk: 15 and on.
    fn made(&self, desk: &Desk) -> Result<Desk, Refusal> {
        match self.number {
            JOIN => join_sound(desk, self.slot, self.block, self.film),
            _ => leave_sound(desk, self.slot),
        }
    }

    /// A sound desk after it, accepted or not.
    pub fn after(&self, desk: &Desk) -> Desk {
        self.made(desk).unwrap_or_else(|_| desk.clone())
    }
}

/// The items as single calls in list order, each on the desk that the last one left.
pub fn singly(
    desk: &mut Desk,
    positions: &[u32],
    leads: &[u32],
    items: &[Item],
) -> Vec<ItemAnswer> {
    let mut answers = Vec::new();
    for item in items {
        let Answer { number, place, desk: after, .. } =
            answer(desk, positions, leads, &item.call());
        answers.push(ItemAnswer { number, place });
        *desk = after;
    }
    answers
}

/// The batch: 14, judged once, then 13, then each item's own answer. Answers past the items stay;
/// refused, it leaves the desk and all answers.
pub fn batch(
    desk: &mut Desk,
    positions: &[u32],
    leads: &[u32],
    items: &[Item],
    answers: &mut [ItemAnswer],
) -> Result<(), Refusal> {
    judge_sound(desk, positions, leads)?;
    judge_lengths(items.len(), answers.len())?;
    for (item, told) in items.iter().zip(answers) {
        *told = match item.made(desk) {
            Ok(after) => {
                *desk = after;
                ItemAnswer { number: 0, place: 0 }
            }
            Err(Refusal { number, place }) => ItemAnswer { number, place },
        };
    }
    Ok(())
}

/// The same with a scratch in place of the leads: its 13 is ahead of 14, the other behind.
pub fn batch_scratch(
    desk: &mut Desk,
    positions: &[u32],
    scratch: &[u32],
    items: &[Item],
    answers: &mut [ItemAnswer],
) -> Result<(), Refusal> {
    judge_scratch(scratch)?;
    let leads = full_leads(&desk.plan);
    batch(desk, positions, &leads, items, answers)
}

impl Run {
    /// Makes a batch by the model's rules. Accepted, it counts as its calls: book and queue are fed
    /// them one by one, and the claims checked after each.
    pub fn batch(
        &mut self,
        positions: &[u32],
        leads: &[u32],
        items: &[Item],
        answers: &mut [ItemAnswer],
    ) -> Result<Result<(), Refusal>, String> {
        let mut left = self.desk.clone();
        let verdict = batch(&mut left, positions, leads, items, answers);
        if verdict.is_ok() {
            for (item, told) in items.iter().zip(answers) {
                let ItemAnswer { number, place } = *told;
                let after = Answer::of_desk(item.after(&self.desk));
                self.checked(&item.call(), Answer { number, place, ..after })?;
            }
        }
        if self.desk != left {
            return Err(format!("a batch left another desk: {verdict:?}"));
        }
        Ok(verdict)
    }

    /// The same with a scratch in place of the leads.
    pub fn batch_scratch(
        &mut self,
        positions: &[u32],
        scratch: &[u32],
        items: &[Item],
        answers: &mut [ItemAnswer],
    ) -> Result<Result<(), Refusal>, String> {
        match judge_scratch(scratch) {
            Ok(()) => self.batch(positions, &full_leads(&self.desk.plan), items, answers),
            Err(refusal) => Ok(Err(refusal)),
        }
    }
}
