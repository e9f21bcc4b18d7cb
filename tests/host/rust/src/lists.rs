//! Long lists of calls from an accepted opening: the library's desk goes from call to call as bytes, and the book's claim, the order of
//! the requests and their waits are checked after each. Each call is made with the lead list and with a scratch, and the desk goes on as one of the two left it: by lists
//! alone, by scratch alone, or by either in turn.

use crate::call::{
    Call, Outcome, Strings, Way, CARD, DESK, FETCHES, LEADS, PLAN, POSITIONS, SCRATCH,
};
use crate::cases::{long_scratch, noise, some_plan, step_strings};
use crate::expected::model_call;
use crate::layout::{bytes_of, read_desk, read_fetches, DESK_BYTES, ENTRY_BYTES, PLAN_BYTES};
use crate::trial::Trial;
use film_disk_model::rng::desks::{full_house, temper, Temper};
use film_disk_model::rng::shelf::desks::next_step;
use film_disk_model::shelf::book::most_sweeps;
use film_disk_model::shelf::{card_bytes, Desk, Planned, Rule, Step};
use film_disk_model::{check_claim, Book, Queue, Rng};

/// The ways in of a list's calls: one, or both at random.
const WAYS: [&[Way]; 3] = [&[Way::List], &[Way::Scratch], &[Way::List, Way::Scratch]];

/// A desk that the library opened, of a card that it planned.
fn open_desk(
    rng: &mut Rng,
    trial: &mut Trial,
    planned: &Planned,
    ways: &[Way],
) -> Result<Vec<u8>, String> {
    let mut strings = Strings::default();
    strings[CARD] = card_bytes(&planned.plan.figures);
    strings[PLAN] = noise(rng, PLAN_BYTES);
    strings[POSITIONS] = noise(rng, planned.positions.len() * ENTRY_BYTES);
    strings[LEADS] = noise(rng, planned.leads.len() * ENTRY_BYTES);
    strings[DESK] = noise(rng, DESK_BYTES);
    strings[SCRATCH] = long_scratch(rng);
    let rule = Rule::of(planned.plan.showing).expect("the word of a plan");
    let way = rng.pick(ways);
    let mut strings = trial.accepted(rng, Call::Plan(rule), way, &strings)?.strings;
    strings[CARD].clear();
    // By scratch no call has written them.
    strings[LEADS] = bytes_of(&planned.leads);
    let way = rng.pick(ways);
    Ok(trial.accepted(rng, Call::Open, way, &strings)?.strings[DESK].clone())
}

/// Feeds the book what the playout process sees of a call.
fn feed(book: &mut Book, call: Call, before: &Strings, got: &Outcome) -> Result<(), String> {
    let entries = read_fetches(&got.strings[FETCHES], got.answer.count);
    book.feed(&model_call(call, before).without_film(), got.answer.number == 0, &entries)
}

/// The bound of an accepted begin.
fn begun(call: Call, got: &Outcome) -> Option<u32> {
    (call == Call::Begin && got.answer.number == 0).then_some(got.answer.bound)
}

/// One list of calls from one opening.
pub struct List<'a> {
    planned: &'a Planned,
    ways: &'static [Way],
    /// The library's desk, and the one by the model's rules.
    desk: Vec<u8>,
    pub rules: Desk,
    book: Book,
    queue: Queue,
    number: usize,
}

impl<'a> List<'a> {
    pub fn open(rng: &mut Rng, trial: &mut Trial, planned: &'a Planned) -> Result<Self, String> {
        let ways = rng.pick(&WAYS);
        let desk = open_desk(rng, trial, planned, ways)?;
        let book = Book::new(planned.plan.figures.block_bytes);
        let rules = Desk::all_free(&planned.plan);
        let queue = Queue::with_most(most_sweeps(&planned.plan));
        Ok(List { planned, ways, desk, rules, book, queue, number: 0 })
    }

    /// Makes a call; once in `damaged` times a list that it is lent is spoiled.
    pub fn call(
        &mut self,
        rng: &mut Rng,
        trial: &mut Trial,
        step: &Step,
        damaged: usize,
    ) -> Result<Outcome, String> {
        let got = self.checked_call(rng, trial, step, damaged);
        self.number += 1;
        got.map_err(|words| format!("call {} of the list: {words}", self.number))
    }

    fn checked_call(
        &mut self,
        rng: &mut Rng,
        trial: &mut Trial,
        step: &Step,
        damaged: usize,
    ) -> Result<Outcome, String> {
        let (call, before) = step_strings(rng, self.desk.clone(), step, damaged);
        let way = rng.pick(self.ways);
        let (got, expected) = trial.both(rng, call, way, &before)?;
        feed(&mut self.book, call, &before, &got)?;
        self.desk = got.strings[DESK].clone();
        self.rules = read_desk(&expected.strings[DESK]);
        trial.note_rounds(self.rounds());
        if let Some(bound) = begun(call, &got) {
            let slot = rng.below(self.planned.plan.streams as usize) as u32;
            trial.both(rng, Call::DrawLimit { slot, bound }, Way::List, &got.strings)?;
        }
        let desk = read_desk(&self.desk);
        check_claim(&self.book, &desk, &self.rules, begun(call, &got))?;
        let fed = model_call(call, &before).without_film();
        self.queue.feed(&fed, got.answer.number == 0, &desk)?;
        trial.note_wait(self.queue.longest);
        Ok(got)
    }

    /// The most times that an occupied slot of a loop has got its whole film; 0 for any other.
    pub fn rounds(&self) -> u128 {
        if self.planned.plan.showing != Rule::Loop.word() {
            return 0;
        }
        let fetched = |slot: usize| self.book.rows[slot].fetched;
        let length =
            |slot: usize| self.planned.plan.figures.blocks[self.rules.films[slot] as usize];
        let occupied = self.rules.used_slots().filter(|&slot| self.rules.kinds[slot] != 0);
        occupied.map(|slot| fetched(slot) / length(slot) as u128).max().unwrap_or(0)
    }
}

/// A list of random calls.
pub fn list_case(rng: &mut Rng, trial: &mut Trial) -> Result<(), String> {
    let temper = temper(rng);
    run_list(rng, trial, &temper)
}

/// A list of a full house: slots that were fetched for leave and others ask in the same gap.
pub fn house_case(rng: &mut Rng, trial: &mut Trial) -> Result<(), String> {
    let temper = full_house(rng);
    run_list(rng, trial, &temper)
}

fn run_list(rng: &mut Rng, trial: &mut Trial, temper: &Temper) -> Result<(), String> {
    let planned = some_plan(rng);
    let mut list = List::open(rng, trial, &planned)?;
    let most = if planned.leads.len() > 256 { 20 } else { rng.pick(&[10, 40, 150, 400]) };
    for _ in 0..most {
        let step = next_step(rng, &planned, &list.rules, temper);
        list.call(rng, trial, &step, 40)?;
    }
    Ok(())
}
