//! Lists of calls on a shelf, with the book of demand 3 and the order of the requests. The book reads
//! no film: its claim is about all slots together.

use super::desk::{begin, end, join, leave, Begun, Desk};
use super::plan::Plan;
use crate::book::{self, check_claim, Book};
use crate::desk::Entry;
use crate::queue::{least_sweeps, Queue};
use crate::refusal::Refusal;

/// A call of a list. Begin has the length of the lent fetch list.
#[derive(Clone, Debug, PartialEq, Eq)]
pub enum Call {
    Join { slot: u32, block: u32, film: u32 },
    Leave { slot: u32 },
    Begin { fetch_list: usize },
    End { draws: Vec<u32> },
}

impl Call {
    /// What book and queue read of it: a join without its film.
    pub fn without_film(&self) -> book::Call {
        match self {
            Call::Join { slot, block, .. } => book::Call::Join { slot: *slot, block: *block },
            Call::Leave { slot } => book::Call::Leave { slot: *slot },
            Call::Begin { fetch_list } => book::Call::Begin { fetch_list: *fetch_list },
            Call::End { draws } => book::Call::End { draws: draws.clone() },
        }
    }
}

/// A call with the lists lent to it.
#[derive(Clone, Debug, PartialEq, Eq)]
pub struct Step {
    pub positions: Vec<u32>,
    pub leads: Vec<u32>,
    pub call: Call,
}

/// All that a call answers: number and place 0 where accepted, the desk it was given where
/// refused. Only an accepted begin has count, bound and entries; elsewhere they are zero.
#[derive(Clone, Debug, PartialEq, Eq)]
pub struct Answer {
    pub number: u32,
    pub place: u64,
    pub desk: Desk,
    pub count: u32,
    pub bound: u32,
    pub entries: Vec<Entry>,
}

impl Answer {
    pub fn accepted(&self) -> bool {
        self.number == 0
    }

    pub(super) fn refused(desk: &Desk, refusal: Refusal) -> Answer {
        let Refusal { number, place } = refusal;
        Answer { number, place, ..Answer::of_desk(desk.clone()) }
    }

    pub(super) fn of_desk(desk: Desk) -> Answer {
        Answer { number: 0, place: 0, desk, count: 0, bound: 0, entries: Vec::new() }
    }

    fn of_begun(begun: Begun) -> Answer {
        let Begun { desk, count, bound, entries } = begun;
        Answer { number: 0, place: 0, desk, count, bound, entries }
    }
}

/// Makes one call on a desk.
pub fn answer(desk: &Desk, positions: &[u32], leads: &[u32], call: &Call) -> Answer {
    let result = match call {
        Call::Join { slot, block, film } => {
            join(desk, positions, leads, *slot, *block, *film).map(Answer::of_desk)
        }
        Call::Leave { slot } => leave(desk, positions, leads, *slot).map(Answer::of_desk),
        Call::Begin { fetch_list } => {
            begin(desk, positions, leads, *fetch_list).map(Answer::of_begun)
        }
        Call::End { draws } => end(desk, positions, leads, draws).map(Answer::of_desk),
    };
    result.unwrap_or_else(|refusal| Answer::refused(desk, refusal))
}

/// G of a plan, by the common worst2 and margin.
pub fn most_sweeps(plan: &Plan) -> u64 {
    least_sweeps(&plan.figures.table, plan.streams, plan.worst2, plan.margin)
}

/// A desk under the model's rules with its book and the requests that wait.
#[derive(Clone, Debug)]
pub struct Run {
    pub desk: Desk,
    pub book: Book,
    pub queue: Queue,
}

impl Run {
    /// From an accepted opening.
    pub fn new(desk: Desk) -> Run {
        let book = Book::new(desk.plan.figures.block_bytes);
        let queue = Queue::with_most(most_sweeps(&desk.plan));
        Run { desk, book, queue }
    }

    /// Makes a call by the model's rules, feeds the book and checks the claims after it.
    pub fn call(&mut self, step: &Step) -> Result<Answer, String> {
        let answer = answer(&self.desk, &step.positions, &step.leads, &step.call);
        self.checked(&step.call, answer)
    }

    pub(super) fn checked(&mut self, call: &Call, answer: Answer) -> Result<Answer, String> {
        let fed = call.without_film();
        self.book.feed(&fed, answer.accepted(), &answer.entries)?;
        let begun = answer.accepted() && matches!(call, Call::Begin { .. });
        let last_bound = if begun { Some(answer.bound) } else { None };
        check_claim(&self.book, &answer.desk, &answer.desk, last_bound)?;
        self.queue.feed(&fed, answer.accepted(), &answer.desk)?;
        self.desk = answer.desk.clone();
        Ok(answer)
    }
}
