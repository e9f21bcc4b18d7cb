//! Rooms served in the order they asked (02, ticket 5): who waits, and how long at most.

use crate::book::Call;
use crate::card::ENTRIES;
use crate::desk::{Desk, Slots, ASKED, FILLING, SLOTS};
use crate::plan::Plan;

/// G: the least number with G × (worst2 + twice the difference between the overhead for n blocks and
/// that for n - 1) at least margin. All are tried.
pub fn least_sweeps(table: &[u32; ENTRIES], n: u32, worst2: u32, margin: u32) -> u64 {
    let step = table[n as usize] - table[n as usize - 1];
    let gain = worst2 as u64 + 2 * step as u64;
    (0..).find(|sweeps| sweeps * gain >= margin as u64).expect("a pair takes time")
}

/// G of a plan.
pub fn most_sweeps(plan: &Plan) -> u64 {
    least_sweeps(&plan.figures.table, plan.streams, plan.worst2, plan.margin)
}

/// A slot that has asked.
#[derive(Clone, Copy, Debug, PartialEq, Eq)]
struct Request {
    slot: usize,
    /// Its place when it asked.
    place: u64,
    /// Sweeps finished since then.
    finished: u64,
}

/// The requests of a list of calls, by the calls and by which slots fill after a begin. It reads no
/// place.
#[derive(Clone, Debug, PartialEq, Eq)]
pub struct Queue {
    /// Eldest first.
    waiting: Vec<Request>,
    /// Sweeps finished since the eldest became so.
    finished: u64,
    /// G.
    most: u64,
    /// The most sweeps that an eldest request has waited for its grant.
    pub longest: u64,
}

impl Queue {
    /// From an opening.
    pub fn new(plan: &Plan) -> Queue {
        Queue::with_most(most_sweeps(plan))
    }

    /// From an opening of a plan with this G.
    pub fn with_most(most: u64) -> Queue {
        Queue { waiting: Vec::new(), finished: 0, most, longest: 0 }
    }

    /// From a sound desk between sweeps, whether or not a list reaches it: its requests by their
    /// places, all just made.
    pub fn of(desk: &Desk) -> Queue {
        Queue::new(&desk.plan).waiting_on(desk)
    }

    /// With the requests of a sound desk, by their places, all just made.
    pub fn waiting_on(mut self, desk: &impl Slots) -> Queue {
        let mut slots: Vec<usize> = (0..SLOTS).filter(|&s| desk.kinds()[s] == ASKED).collect();
        slots.sort_by_key(|&slot| desk.places()[slot]);
        slots.into_iter().for_each(|slot| self.join(slot));
        self
    }

    /// Feeds one call, with the desk that it left. An error if a request was granted behind one that
    /// waits, or not in time, or if the places are not those of the order in which the slots asked.
    pub fn feed(&mut self, call: &Call, accepted: bool, desk: &impl Slots) -> Result<(), String> {
        if accepted {
            match call {
                Call::Join { slot, .. } => self.join(*slot as usize),
                Call::Leave { slot } => self.leave(*slot as usize),
                Call::Begin { .. } => self.begin(desk)?,
                Call::End { .. } => self.end(),
            }
        }
        self.check_places(desk)
    }

    fn join(&mut self, slot: usize) {
        if self.waiting.is_empty() {
            self.finished = 0;
        }
        let place = self.waiting.len() as u64 + 1;
        self.waiting.push(Request { slot, place, finished: 0 });
    }

    fn leave(&mut self, slot: usize) {
        if self.waiting.first().is_some_and(|eldest| eldest.slot == slot) {
            self.finished = 0;
        }
        self.waiting.retain(|request| request.slot != slot);
    }

    fn end(&mut self) {
        self.finished += 1;
        self.waiting.iter_mut().for_each(|request| request.finished += 1);
    }

    /// Granted are the eldest ones, none behind one that waits. A request that was the eldest for G
    /// finished sweeps is among them. The next one becomes the eldest in this begin, and its sweep
    /// counts; so whoever asked at place p has not waited for p × G finished sweeps.
    fn begin(&mut self, desk: &impl Slots) -> Result<(), String> {
        let kind = |request: &Request| desk.kinds()[request.slot];
        let granted = self.waiting.iter().take_while(|request| kind(request) == FILLING).count();
        let left = &self.waiting[granted..];
        if let Some(request) = left.iter().find(|request| kind(request) != ASKED) {
            return Err(format!("slot {} was granted behind slot {}", request.slot, left[0].slot));
        }
        if granted == 0 && !left.is_empty() && self.finished >= self.most {
            let (slot, sweeps) = (left[0].slot, self.finished);
            return Err(format!("slot {slot} still waits, the eldest for {sweeps} sweeps"));
        }
        let is_due = |request: &&Request| request.finished >= request.place * self.most;
        if let Some(request) = left.iter().find(is_due) {
            return Err(format!("still waits: {request:?}"));
        }
        if granted > 0 {
            self.longest = self.longest.max(self.finished);
            self.waiting.drain(..granted);
            self.finished = 0;
        }
        Ok(())
    }

    fn check_places(&self, desk: &impl Slots) -> Result<(), String> {
        for (slot, &place) in desk.places().iter().enumerate() {
            let index = self.waiting.iter().position(|request| request.slot == slot);
            let expected = index.map_or(0, |index| index as u32 + 1);
            if place != expected {
                return Err(format!("slot {slot}: place {place}, by the calls {expected}"));
            }
        }
        Ok(())
    }
}
