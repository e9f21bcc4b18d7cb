//! A batch of joins and leaves in one call (02, ticket 6). It is lent the desk and alters it there,
//! and answers each item as the single call does on the desk that the items before it left.

use crate::book::{answer, Answer, Call, Run};
use crate::desk::{join_sound, judge_sound, leave_sound, Desk};
use crate::refusal::{cause, refuse, Refusal};
use crate::scratch::{full_leads, judge_scratch};

/// Items of a batch, at most.
pub const ITEMS: usize = 512;

/// The number of a join. Any other is a leave.
pub const JOIN: u32 = 0;

/// One join or leave of a batch. A leave's block is not read.
#[derive(Clone, Copy, Debug, PartialEq, Eq)]
pub struct Item {
    pub number: u32,
    pub slot: u32,
    pub block: u32,
}

impl Item {
    /// The single call that it stands for.
    pub fn call(&self) -> Call {
        match self.number {
            JOIN => Call::Join { slot: self.slot, block: self.block },
            _ => Call::Leave { slot: self.slot },
        }
    }

    /// A sound desk after it, accepted or not.
    pub fn after(&self, desk: &Desk) -> Desk {
        made(desk, self).unwrap_or_else(|_| desk.clone())
    }
}

/// Number and place of one item's answer, both 0 where it was accepted.
#[derive(Clone, Copy, Debug, PartialEq, Eq)]
pub struct ItemAnswer {
    pub number: u32,
    pub place: u64,
}

impl ItemAnswer {
    fn of(answer: &Answer) -> ItemAnswer {
        ItemAnswer { number: answer.number, place: answer.place }
    }
}

/// The items as single calls in list order, each on the desk that the last one left.
pub fn singly(
    desk: &mut Desk,
    positions: &[u32],
    leads: &[u32],
    items: &[Item],
) -> Vec<ItemAnswer> {
    let mut answers = Vec::new();
    for item in items {
        let answer = answer(desk, positions, leads, &item.call());
        answers.push(ItemAnswer::of(&answer));
        *desk = answer.desk;
    }
    answers
}

/// One item on a sound desk: 15 and on.
fn made(desk: &Desk, item: &Item) -> Result<Desk, Refusal> {
    match item.number {
        JOIN => join_sound(desk, item.slot, item.block),
        _ => leave_sound(desk, item.slot),
    }
}

/// More than 512 items, or fewer answers than items, is 13.
pub(crate) fn judge_lengths(items: usize, answers: usize) -> Result<(), Refusal> {
    if items > ITEMS || answers < items {
        return refuse(cause::TOO_SHORT, 0);
    }
    Ok(())
}

/// The batch: 14, judged once, then 13, then each item's own answer. Answers past the items stay;
/// refused, it leaves the desk and all answers.
pub fn batch(
    desk: &mut Desk,
    positions: &[u32],
    leads: &[u32],
    items: &[Item],
    answers: &mut [ItemAnswer],
) -> Result<(), Refusal> {
    judge_sound(desk, positions, leads)?;
    judge_lengths(items.len(), answers.len())?;
    for (item, told) in items.iter().zip(answers) {
        *told = match made(desk, item) {
            Ok(after) => {
                *desk = after;
                ItemAnswer { number: 0, place: 0 }
            }
            Err(Refusal { number, place }) => ItemAnswer { number, place },
        };
    }
    Ok(())
}

/// The same with a scratch in place of the leads: its 13 is ahead of 14, the other behind.
pub fn batch_scratch(
    desk: &mut Desk,
    positions: &[u32],
    scratch: &[u32],
    items: &[Item],
    answers: &mut [ItemAnswer],
) -> Result<(), Refusal> {
    judge_scratch(scratch)?;
    let leads = full_leads(&desk.plan);
    batch(desk, positions, &leads, items, answers)
}

impl Run {
    /// Makes a batch by the model's rules. Accepted, it counts as its calls: book and queue are fed
    /// them one by one, and the claims checked after each.
    pub fn batch(
        &mut self,
        positions: &[u32],
        leads: &[u32],
        items: &[Item],
        answers: &mut [ItemAnswer],
    ) -> Result<Result<(), Refusal>, String> {
        let mut desk = self.desk.clone();
        let verdict = batch(&mut desk, positions, leads, items, answers);
        self.counted(verdict, items, answers, &desk)
    }

    /// The same with a scratch in place of the leads.
    pub fn batch_scratch(
        &mut self,
        positions: &[u32],
        scratch: &[u32],
        items: &[Item],
        answers: &mut [ItemAnswer],
    ) -> Result<Result<(), Refusal>, String> {
        let mut desk = self.desk.clone();
        let verdict = batch_scratch(&mut desk, positions, scratch, items, answers);
        self.counted(verdict, items, answers, &desk)
    }

    /// Feeds the items of an accepted batch. An error if they do not end at the desk that it left.
    fn counted(
        &mut self,
        verdict: Result<(), Refusal>,
        items: &[Item],
        answers: &[ItemAnswer],
        left: &Desk,
    ) -> Result<Result<(), Refusal>, String> {
        if verdict.is_ok() {
            for (item, told) in items.iter().zip(answers) {
                let desk = item.after(&self.desk);
                let ItemAnswer { number, place } = *told;
                let answer =
                    Answer { number, place, desk, count: 0, bound: 0, entries: Vec::new() };
                self.checked(&item.call(), answer)?;
            }
        }
        if self.desk != *left {
            return Err(format!("a batch left another desk: {verdict:?}"));
        }
        Ok(verdict)
    }
}
