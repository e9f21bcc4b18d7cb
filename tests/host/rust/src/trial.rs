//! A call made of the library and of the model, or of an earlier library in its place, and the tally of what was answered.

use crate::call::{Call, Outcome, Strings, Way, DESK, LEADS, NAMES, PLAN, SORTS};
use crate::entries::{EARLIER, PRESENT};
use crate::expected::{expected, is_for_pairs, is_same_by_scratch};
use crate::layout::{read_desk, read_plan};
use crate::library::{Lending, Library};
use film_disk_model::desk::TAIL;
use film_disk_model::shelf::desk::is_fetched;
use film_disk_model::shelf::plan::film_and_block;
use film_disk_model::shelf::Plan;
use film_disk_model::{Rng, SLOTS};

/// Numbers of answers, 0 to 31.
const NUMBERS: usize = 32;
/// A slot of some loop must go round so many times.
const MANY_ROUNDS: u128 = 5;
/// Where the worst pair of a film may be.
const PLACES: [&str; 3] = ["at a film's block 0", "in mid film", "at its last block"];
/// Kinds of a card.
const KINDS: [&str; 2] = ["of kind 1", "of kind 2"];
/// Where the worst window of a film may be.
const WINDOWS: [&str; 3] = ["at a film's block 0", "in mid film", "past its last block"];
/// Sizes of a draw limit.
const LIMITS: [&str; 3] = ["of 0", "of 32 bits", "of more"];
/// What a begin makes of the requests.
const REQUESTS: [&str; 4] = ["none there", "all granted", "some granted", "all waiting on"];
/// What comes of calls for pairs.
const PAIRS_MET: [&str; 11] = [
    "the slowest block at block 0",
    "the slowest block in mid film",
    "the slowest block at the last",
    "128 streams",
    "an opening",
    "a join",
    "a leave",
    "a begin",
    "a begin with 256 fetches",
    "an end",
    "a window",
];
/// What comes of calls on shelves.
const SHELVES_MET: [&str; 13] = [
    "a plan of 1 film",
    "of 2 films",
    "of 3 films",
    "of 16 films",
    "of 16,384 blocks of several films",
    "with its worst pair in the first of several films",
    "with its worst pair in a later one",
    "a join of the first of several films",
    "a join of a later one",
    "a begin for slots of several films",
    "an end after the last block of a later film",
    "a window in a later film",
    "a window that one of the films is too short for",
];
/// Calls made in both ways.
const ALIKE: [&str; 2] = ["with another list or a short scratch", "alike"];

pub struct Trial {
    library: Library,
    /// What the library is compared with, if not with the model.
    earlier: Option<Library>,
    /// For each sort of call, how often each number was answered.
    tally: [[u64; NUMBERS]; SORTS.len()],
    /// The most times that a slot of a loop has got the whole film since its join.
    rounds: u128,
    /// For each place, how many planned films have their worst pair there.
    worst_pairs: [u64; PLACES.len()],
    /// For each kind of card, how many were planned.
    kinds: [u64; KINDS.len()],
    /// For each place, how many worst windows of more than one block are there.
    windows: [u64; WINDOWS.len()],
    /// For each size, how many draw limits have it.
    limits: [u64; LIMITS.len()],
    /// For each outcome, how many accepted begins have it.
    requests: [u64; REQUESTS.len()],
    /// The most requests at an accepted begin.
    crowd: u32,
    /// The most sweeps that an eldest request of a list waited for its grant.
    wait: u64,
    /// For each of these, how often it came of an accepted call for pairs.
    pairs: [u64; PAIRS_MET.len()],
    /// For each of these, how often it came of an accepted call.
    shelves: [u64; SHELVES_MET.len()],
    /// Calls that answered the same by list and by scratch, and those where the list was not the film's or the scratch short.
    alike: [u64; ALIKE.len()],
}

/// The place of the worst pair in its film.
fn worst_place(plan: &Plan) -> usize {
    let (film, block) = film_and_block(&plan.figures, plan.worstat);
    match block {
        0 => 0,
        block if block + 1 < plan.figures.blocks[film] => 1,
        _ => 2,
    }
}

/// The place in its film of a window that has so many blocks.
fn window_place(plan: &Plan, first: u32, blocks: u32) -> usize {
    let (film, block) = film_and_block(&plan.figures, first);
    match block {
        0 => 0,
        _ if block + blocks <= plan.figures.blocks[film] => 1,
        _ => 2,
    }
}

fn limit_size(limit: u64) -> usize {
    match limit {
        0 => 0,
        _ if limit <= u32::MAX as u64 => 1,
        _ => 2,
    }
}

/// What became of so many requests, of which so many wait on.
fn requests_left(before: u32, after: u32) -> usize {
    match (before, after) {
        (0, _) => 0,
        (_, 0) => 1,
        _ if after < before => 2,
        _ => 3,
    }
}

/// What came of an accepted call for pairs, as places of `PAIRS_MET`.
fn pairs_met(call: Call, wanted: &Outcome) -> Vec<usize> {
    match call {
        Call::Plan(_) => {
            let plan = read_plan(&wanted.strings[PLAN]);
            let full = (plan.streams == 128).then_some(3);
            [worst_place(&plan)].into_iter().chain(full).collect()
        }
        Call::Open => vec![4],
        Call::Join { .. } => vec![5],
        Call::Leave { .. } => vec![6],
        Call::Begin if wanted.answer.count == 256 => vec![7, 8],
        Call::Begin => vec![7],
        Call::End => vec![9],
        Call::Window { .. } => vec![10],
        Call::DrawLimit { .. } => vec![],
    }
}

/// What came of a plan, as places of `SHELVES_MET`.
fn plan_met(plan: &Plan) -> Vec<usize> {
    let films = plan.figures.films;
    let counted = [1, 2, 3, 16].iter().position(|&count| count == films);
    let full = (films > 1 && plan.figures.all_blocks() == 16_384).then_some(4);
    let in_film = film_and_block(&plan.figures, plan.worstat).0;
    let worst = (films > 1).then_some(5 + (in_film > 0) as usize);
    [counted, full, worst].into_iter().flatten().collect()
}

/// What came of an accepted call, as places of `SHELVES_MET`.
fn shelves_met(call: Call, before: &Strings, wanted: &Outcome) -> Vec<usize> {
    match call {
        Call::Plan(_) => plan_met(&read_plan(&wanted.strings[PLAN])),
        Call::Join { film, .. } => {
            let several = read_desk(&before[DESK]).plan.figures.films > 1;
            several.then_some(7 + (film > 0) as usize).into_iter().collect()
        }
        Call::Begin => {
            let desk = read_desk(&wanted.strings[DESK]);
            let fetched: Vec<usize> =
                desk.used_slots().filter(|&slot| is_fetched(&desk, slot)).collect();
            let is_other = |&slot: &usize| desk.films[slot] != desk.films[fetched[0]];
            fetched.iter().any(is_other).then_some(9).into_iter().collect()
        }
        Call::End => {
            let (from, to) = (read_desk(&before[DESK]), read_desk(&wanted.strings[DESK]));
            let past = |slot: usize| {
                from.films[slot] > 0
                    && is_fetched(&from, slot)
                    && to.next[slot] != from.next[slot] + 1
                    || to.films[slot] > 0 && to.kinds[slot] == TAIL && from.kinds[slot] != TAIL
            };
            from.used_slots().any(past).then_some(10).into_iter().collect()
        }
        Call::Window { blocks } => {
            let figures = read_plan(&before[PLAN]).figures;
            let later = film_and_block(&figures, wanted.answer.first).0 > 0;
            let short = figures.lengths().iter().any(|&length| length < blocks);
            [later.then_some(11), short.then_some(12)].into_iter().flatten().collect()
        }
        Call::Open | Call::Leave { .. } | Call::DrawLimit { .. } => vec![],
    }
}

/// The call and the lengths of what it was lent.
fn describe(call: Call, way: Way, strings: &Strings) -> String {
    let lent = call.lent(way).into_iter();
    let lengths: Vec<String> =
        lent.map(|(which, _)| format!("{} {} bytes", NAMES[which], strings[which].len())).collect();
    format!("{call:?} with {}", lengths.join(", "))
}

/// Places, each with how often it was met.
fn tallied(places: &[&str], counts: &[u64]) -> String {
    let words = places.iter().zip(counts).map(|(place, count)| format!("{place} x {count}"));
    words.collect::<Vec<_>>().join(", ")
}

impl Trial {
    pub fn new() -> Trial {
        Trial {
            library: Library::new(PRESENT),
            earlier: EARLIER.map(Library::new),
            tally: [[0; NUMBERS]; SORTS.len()],
            rounds: 0,
            worst_pairs: [0; PLACES.len()],
            kinds: [0; KINDS.len()],
            windows: [0; WINDOWS.len()],
            limits: [0; LIMITS.len()],
            requests: [0; REQUESTS.len()],
            crowd: 0,
            wait: 0,
            pairs: [0; PAIRS_MET.len()],
            shelves: [0; SHELVES_MET.len()],
            alike: [0; ALIKE.len()],
        }
    }

    /// Makes the call of both and compares the answer and every byte of every string.
    fn by(
        &mut self,
        rng: &mut Rng,
        call: Call,
        way: Way,
        strings: &Strings,
    ) -> Result<(Outcome, Outcome), String> {
        let lending = Lending { at_start: rng.once_in(2), empty_is_null: rng.once_in(2) };
        let wanted = match &mut self.earlier {
            Some(earlier) => earlier.call(call, way, strings, lending)?,
            None => expected(call, way, strings),
        };
        self.note(call, way, strings, &wanted);
        let named = |words| format!("{}: {words}", describe(call, way, strings));
        let got = self.library.call(call, way, strings, lending).map_err(named)?;
        got.compare(&wanted).map_err(named)?;
        Ok((got, wanted))
    }

    /// Makes the call with its lead list and then with a scratch, where it takes these: each as it is to be, and the two alike where the list
    /// is the film's own. Answers what came of the given way.
    pub fn both(
        &mut self,
        rng: &mut Rng,
        call: Call,
        way: Way,
        strings: &Strings,
    ) -> Result<(Outcome, Outcome), String> {
        let listed = self.by(rng, call, Way::List, strings)?;
        if !call.takes_leads() {
            return Ok(listed);
        }
        let scratched = self.by(rng, call, Way::Scratch, strings)?;
        let is_same = is_same_by_scratch(call, strings);
        self.alike[is_same as usize] += 1;
        if is_same {
            let differs = scratched.0.compare_but(&listed.0, &[LEADS]);
            let named =
                |words| format!("{} and by list: {words}", describe(call, Way::Scratch, strings));
            differs.map_err(named)?;
        }
        Ok(if way == Way::List { listed } else { scratched })
    }

    fn note(&mut self, call: Call, way: Way, before: &Strings, wanted: &Outcome) {
        let number = wanted.answer.number;
        self.tally[call.sort(way)][number as usize] += 1;
        if number != 0 {
            return;
        }
        if is_for_pairs(call, before) {
            pairs_met(call, wanted).into_iter().for_each(|met| self.pairs[met] += 1);
        }
        shelves_met(call, before, wanted).into_iter().for_each(|met| self.shelves[met] += 1);
        match call {
            Call::Plan(_) => {
                let plan = read_plan(&wanted.strings[PLAN]);
                self.worst_pairs[worst_place(&plan)] += 1;
                self.kinds[plan.figures.kind as usize - 1] += 1;
            }
            Call::Window { blocks } if blocks > 1 => {
                let plan = read_plan(&wanted.strings[PLAN]);
                self.windows[window_place(&plan, wanted.answer.first, blocks)] += 1;
            }
            Call::Begin => {
                let waiting = |strings: &Strings| read_desk(&strings[DESK]).waiting();
                let (asked, left) = (waiting(before), waiting(&wanted.strings));
                self.requests[requests_left(asked, left)] += 1;
                self.crowd = self.crowd.max(asked);
            }
            Call::DrawLimit { .. } => self.limits[limit_size(wanted.answer.limit)] += 1,
            _ => {}
        }
    }

    /// A call that both accept, in either way.
    pub fn accepted(
        &mut self,
        rng: &mut Rng,
        call: Call,
        way: Way,
        strings: &Strings,
    ) -> Result<Outcome, String> {
        let (got, _) = self.both(rng, call, way, strings)?;
        if got.answer.number != 0 {
            return Err(format!("{}: refused {}", describe(call, way, strings), got.answer.number));
        }
        Ok(got)
    }

    /// Notes how often a slot has gone round a loop.
    pub fn note_rounds(&mut self, rounds: u128) {
        self.rounds = self.rounds.max(rounds);
    }

    /// Notes how many sweeps an eldest request has waited.
    pub fn note_wait(&mut self, sweeps: u64) {
        self.wait = self.wait.max(sweeps);
    }

    /// A line for each sort of call: how many, and how often each number was answered.
    pub fn report(&self) {
        for (sort, counts) in SORTS.iter().zip(&self.tally) {
            let met = (0..NUMBERS).filter(|&number| counts[number] > 0);
            let words: Vec<String> = met.map(|n| format!("{n} x {}", counts[n])).collect();
            println!("{sort}: {} calls; numbers {}", counts.iter().sum::<u64>(), words.join(", "));
        }
        println!("worst pairs: {}", tallied(&PLACES, &self.worst_pairs));
        println!("worst windows: {}", tallied(&WINDOWS, &self.windows));
        println!("draw limits: {}", tallied(&LIMITS, &self.limits));
        println!("plans: {}", tallied(&KINDS, &self.kinds));
        println!("requests at a begin: {}", tallied(&REQUESTS, &self.requests));
        println!("requests: {} at once; the eldest waited {} sweeps", self.crowd, self.wait);
        println!("pairs: {}", tallied(&PAIRS_MET, &self.pairs));
        println!("shelves: {}", tallied(&SHELVES_MET, &self.shelves));
        println!("by list and by scratch: {}", tallied(&ALIKE, &self.alike));
        println!("loops: a slot went round {} times", self.rounds);
    }

    /// The numbers that each sort of call can answer and that no call was answered; places where no
    /// worst pair or window was; a kind of card; a size of a draw limit; requests, of which all slots may be and one has to wait a
    /// sweep; what was not met of pairs and of shelves; and loops, if none went round often enough.
    pub fn missing(&self) -> Vec<String> {
        let plan: Vec<usize> = (0..=13).chain([25, 26, 30]).collect();
        let pairs: Vec<usize> = (0..=8).chain(10..=13).chain([25, 26, 28, 30]).collect();
        let answers: [&[usize]; SORTS.len()] = [
            &plan,
            &plan,
            &pairs,
            &[0, 13, 14],
            &[0, 14, 15, 16, 17, 18, 31],
            &[0, 14, 15, 16, 17],
            &[0, 13, 14, 15],
            &[0, 14, 15, 19, 20, 21],
            &plan,
            &plan,
            &pairs,
            &[0, 13, 14],
            &[0, 13, 14, 15, 16, 17, 18, 31],
            &[0, 13, 14, 15, 16, 17],
            &[0, 13, 14, 15],
            &[0, 13, 14, 15, 19, 20, 21],
            &[0, 14, 27],
            &[0],
        ];
        let mut missing = Vec::new();
        for (sort, numbers) in answers.iter().enumerate() {
            for &number in numbers.iter().filter(|&&number| self.tally[sort][number] == 0) {
                missing.push(format!("{} {number}", SORTS[sort]));
            }
        }
        for (place, _) in PLACES.iter().zip(self.worst_pairs).filter(|&(_, count)| count == 0) {
            missing.push(format!("a worst pair {place}"));
        }
        for (kind, _) in KINDS.iter().zip(self.kinds).filter(|&(_, count)| count == 0) {
            missing.push(format!("a plan {kind}"));
        }
        for (place, _) in WINDOWS.iter().zip(self.windows).filter(|&(_, count)| count == 0) {
            missing.push(format!("a worst window {place}"));
        }
        for (size, _) in LIMITS.iter().zip(self.limits).filter(|&(_, count)| count == 0) {
            missing.push(format!("a draw limit {size}"));
        }
        for (how, _) in ALIKE.iter().zip(self.alike).filter(|&(_, count)| count == 0) {
            missing.push(format!("a call in both ways, {how}"));
        }
        for (what, _) in PAIRS_MET.iter().zip(self.pairs).filter(|&(_, count)| count == 0) {
            missing.push(format!("{what} of pairs"));
        }
        for (what, _) in SHELVES_MET.iter().zip(self.shelves).filter(|&(_, count)| count == 0) {
            missing.push(format!("{what} of a shelf"));
        }
        for (what, _) in REQUESTS.iter().zip(self.requests).filter(|&(_, count)| count == 0) {
            missing.push(format!("a begin with requests, {what}"));
        }
        if self.crowd < SLOTS as u32 || self.wait < 1 {
            missing.push("requests of all slots, or one that waited a sweep".to_string());
        }
        if self.rounds < MANY_ROUNDS {
            missing.push(format!("a loop gone round {MANY_ROUNDS} times"));
        }
        missing
    }
}
