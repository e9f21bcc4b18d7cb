//! The list of calls and the book of demand 3, with a checker of its claim.

use crate::desk::{
    begin, drawn_in, end, join, leave, Begun, Desk, Entry, Slots, FREE, PLAYING, SLOTS, TAIL,
};
use crate::queue::Queue;
use crate::refusal::Refusal;
use crate::scratch::answer_scratch;

/// A call of a list. Begin has the length of the lent fetch list.
#[derive(Clone, Debug, PartialEq, Eq)]
pub enum Call {
    Join { slot: u32, block: u32 },
    Leave { slot: u32 },
    Begin { fetch_list: usize },
    End { draws: Vec<u32> },
}

/// A call with the lists lent to it.
#[derive(Clone, Debug, PartialEq, Eq)]
pub struct Step {
    pub positions: Vec<u32>,
    pub leads: Vec<u32>,
    pub call: Call,
}

/// All that a call answers: number and place 0 where accepted, the desk it was given where
/// refused. Only an accepted begin has count, bound and entries; elsewhere they are zero.
#[derive(Clone, Debug, PartialEq, Eq)]
pub struct Answer {
    pub number: u32,
    pub place: u64,
    pub desk: Desk,
    pub count: u32,
    pub bound: u32,
    pub entries: Vec<Entry>,
}

impl Answer {
    pub fn accepted(&self) -> bool {
        self.number == 0
    }
}

pub(crate) fn refused_answer(desk: &Desk, refusal: Refusal) -> Answer {
    let Refusal { number, place } = refusal;
    Answer { number, place, desk: desk.clone(), count: 0, bound: 0, entries: Vec::new() }
}

pub(crate) fn desk_answer(given: &Desk, result: Result<Desk, Refusal>) -> Answer {
    match result {
        Ok(desk) => Answer { number: 0, place: 0, desk, count: 0, bound: 0, entries: Vec::new() },
        Err(refusal) => refused_answer(given, refusal),
    }
}

pub(crate) fn begin_answer(given: &Desk, result: Result<Begun, Refusal>) -> Answer {
    match result {
        Ok(Begun { desk, count, bound, entries }) => {
            Answer { number: 0, place: 0, desk, count, bound, entries }
        }
        Err(refusal) => refused_answer(given, refusal),
    }
}

/// Makes one call on a desk.
pub fn answer(desk: &Desk, positions: &[u32], leads: &[u32], call: &Call) -> Answer {
    match call {
        Call::Join { slot, block } => {
            desk_answer(desk, join(desk, positions, leads, *slot, *block))
        }
        Call::Leave { slot } => desk_answer(desk, leave(desk, positions, leads, *slot)),
        Call::Begin { fetch_list } => {
            begin_answer(desk, begin(desk, positions, leads, *fetch_list))
        }
        Call::End { draws } => desk_answer(desk, end(desk, positions, leads, draws)),
    }
}

/// One slot in the book.
#[derive(Clone, Copy, Debug, PartialEq, Eq)]
pub struct Row {
    pub open: bool,
    pub fetched: u128,
    pub drawn: u128,
    pub marked: bool,
}

/// The book: fed the calls, whether each was accepted, and a begin's entries. It reads nothing of
/// the desk.
#[derive(Clone, Debug, PartialEq, Eq)]
pub struct Book {
    pub rows: [Row; SLOTS],
    /// B.
    pub block_bytes: u32,
}

impl Book {
    /// The book at an opening: all closed, 0 and unmarked.
    pub fn new(block_bytes: u32) -> Book {
        let row = Row { open: false, fetched: 0, drawn: 0, marked: false };
        Book { rows: [row; SLOTS], block_bytes }
    }

    /// Feeds one call. An accepted call that names no slot of a desk breaks the claim.
    pub fn feed(&mut self, call: &Call, accepted: bool, entries: &[Entry]) -> Result<(), String> {
        if !accepted {
            return Ok(());
        }
        match call {
            Call::Join { slot, .. } => self.join(*slot),
            Call::Leave { slot } => self.leave(*slot),
            Call::Begin { .. } => self.begin(entries),
            Call::End { draws } => self.end(draws),
        }
    }

    fn row(&mut self, slot: u32) -> Result<&mut Row, String> {
        self.rows.get_mut(slot as usize).ok_or(format!("accepted slot {slot}"))
    }

    /// The slot opens, fetched and drawn 0.
    fn join(&mut self, slot: u32) -> Result<(), String> {
        let row = self.row(slot)?;
        row.open = true;
        row.fetched = 0;
        row.drawn = 0;
        Ok(())
    }

    /// The slot closes.
    fn leave(&mut self, slot: u32) -> Result<(), String> {
        self.row(slot)?.open = false;
        Ok(())
    }

    /// Each slot named in the entries is marked.
    fn begin(&mut self, entries: &[Entry]) -> Result<(), String> {
        for entry in entries {
            self.row(entry.slot)?.marked = true;
        }
        Ok(())
    }

    /// Each open slot's drawn rises by its draw, each marked slot's fetched by one. Then an open
    /// slot with fetched at least 1 and fetched × B equal to drawn closes.
    fn end(&mut self, draws: &[u32]) -> Result<(), String> {
        for (slot, row) in self.rows.iter_mut().enumerate() {
            if row.open {
                let draw = draws.get(slot).ok_or(format!("no draw for open slot {slot}"))?;
                row.drawn += *draw as u128;
            }
            if row.marked {
                row.fetched += 1;
                row.marked = false;
            }
            if row.open && row.fetched >= 1 && row.fetched * self.block_bytes as u128 == row.drawn {
                row.open = false;
            }
        }
        Ok(())
    }
}

/// The claim about one slot: occupied exactly if open; then held + drawn equals fetched × B, and
/// held is at most buffer.
fn check_slot(book: &Book, desk: &impl Slots, slot: usize) -> Result<(), String> {
    let row = book.rows[slot];
    let (kind, held) = (desk.kinds()[slot], desk.held()[slot]);
    let occupied = kind > FREE && kind <= TAIL;
    if occupied != row.open {
        return Err(format!("slot {slot}: kind {kind}, {row:?}"));
    }
    if row.open && held as u128 + row.drawn != row.fetched * book.block_bytes as u128 {
        return Err(format!("slot {slot}: held {held}, {row:?}"));
    }
    if row.open && held > desk.buffer() {
        return Err(format!("slot {slot}: held {held} above the buffer"));
    }
    Ok(())
}

/// Where an accepted begin is the last call, each playing slot holds at least what it may draw
/// with the bound that was answered.
fn check_last_begin(desk: &impl Slots, bound: u32) -> Result<(), String> {
    let need = drawn_in(desk.rate(), bound);
    for slot in 0..SLOTS {
        let held = desk.held()[slot];
        if desk.kinds()[slot] == PLAYING && (held as u128) < need {
            return Err(format!("slot {slot}: holds {held} of {need} to draw"));
        }
    }
    Ok(())
}

/// The claim after a list: `desk` is the desk that it left, `rules` the one that the desk's rules
/// give over the same list, `last_bound` the bound of an accepted begin as last call.
pub fn check_claim<D: Slots>(
    book: &Book,
    desk: &D,
    rules: &D,
    last_bound: Option<u32>,
) -> Result<(), String> {
    for slot in 0..SLOTS {
        check_slot(book, desk, slot)?;
        let (got, expected) = (desk.kinds()[slot], rules.kinds()[slot]);
        if got != expected {
            return Err(format!("slot {slot}: kind {got}, by the rules {expected}"));
        }
    }
    match last_bound {
        Some(bound) => check_last_begin(desk, bound),
        None => Ok(()),
    }
}

/// A desk under the model's rules with its book and the requests that wait.
#[derive(Clone, Debug)]
pub struct Run {
    pub desk: Desk,
    pub book: Book,
    pub queue: Queue,
}

impl Run {
    /// From an accepted opening.
    pub fn new(desk: Desk) -> Run {
        let book = Book::new(desk.plan.figures.block_bytes);
        let queue = Queue::new(&desk.plan);
        Run { desk, book, queue }
    }

    /// Makes a call by the model's rules, feeds the book and checks the claims after it.
    pub fn call(&mut self, step: &Step) -> Result<Answer, String> {
        let answer = answer(&self.desk, &step.positions, &step.leads, &step.call);
        self.checked(&step.call, answer)
    }

    /// The same with a scratch in place of the step's leads.
    pub fn call_scratch(&mut self, step: &Step, scratch: &[u32]) -> Result<Answer, String> {
        let answer = answer_scratch(&self.desk, &step.positions, scratch, &step.call);
        self.checked(&step.call, answer)
    }

    pub(crate) fn checked(&mut self, call: &Call, answer: Answer) -> Result<Answer, String> {
        self.book.feed(call, answer.accepted(), &answer.entries)?;
        let begun = answer.accepted() && matches!(call, Call::Begin { .. });
        let last_bound = if begun { Some(answer.bound) } else { None };
        check_claim(&self.book, &answer.desk, &answer.desk, last_bound)?;
        self.queue.feed(call, answer.accepted(), &answer.desk)?;
        self.desk = answer.desk.clone();
        Ok(answer)
    }
}
