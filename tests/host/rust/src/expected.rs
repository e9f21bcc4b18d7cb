//! The outcome of a call by the model, with docs/LAYOUT.md's lengths and what is left in each string.

use crate::call::{
    Answer, Call, Outcome, Strings, Way, CARD, DESK, DRAWS, FETCHES, LEADS, PLAN, POSITIONS,
    SCRATCH,
};
use crate::layout::{
    bytes_of, desk_bytes, fetch_bytes, plan_bytes, read_desk, read_plan, words_of, DESK_BYTES,
    ENTRY_BYTES, FETCH_BYTES, PLAN_BYTES,
};
use film_disk_model::desk::SLOTS;
use film_disk_model::scratch::judge_scratch;
use film_disk_model::shelf::desk::draw_limit;
use film_disk_model::shelf::scratch::full_leads;
use film_disk_model::shelf::{
    self, answer, answer_scratch, open, open_scratch, plan_card, plan_card_scratch, read_card,
    window, Plan, Rule,
};
use film_disk_model::{cause, fill_lent, Refusal, Window};

/// An accepted call with nothing more to say.
fn accepted(strings: Strings) -> Outcome {
    Outcome { answer: Answer::default(), strings }
}

fn refused(strings: &Strings, refusal: Refusal) -> Outcome {
    let Refusal { number, place } = refusal;
    Outcome { answer: Answer { number, place, ..Answer::default() }, strings: strings.clone() }
}

/// Refused, and a string that has its length is all zero.
fn cleared(strings: &Strings, refusal: Refusal, which: usize, length: usize) -> Outcome {
    let mut outcome = refused(strings, refusal);
    if outcome.strings[which].len() == length {
        outcome.strings[which].fill(0);
    }
    outcome
}

fn expected_plan(rule: Rule, way: Way, strings: &Strings) -> Outcome {
    let too_short = Refusal { number: cause::TOO_SHORT, place: 0 };
    if let Err(refusal) = read_card(&strings[CARD], rule) {
        return cleared(strings, refusal, PLAN, PLAN_BYTES);
    }
    if strings[PLAN].len() != PLAN_BYTES {
        return refused(strings, too_short);
    }
    let entries = |which: usize| strings[which].len() / ENTRY_BYTES;
    let (card, positions) = (&strings[CARD], entries(POSITIONS));
    let planned = match way {
        Way::List => plan_card(card, rule, positions, entries(LEADS)),
        Way::Scratch => plan_card_scratch(card, rule, positions, entries(SCRATCH)),
    };
    match planned {
        Err(refusal) if refusal == too_short => refused(strings, refusal),
        Err(refusal) => cleared(strings, refusal, PLAN, PLAN_BYTES),
        Ok(planned) => {
            let mut after = strings.clone();
            fill_lent(&mut after[PLAN], &plan_bytes(&planned.plan));
            fill_lent(&mut after[POSITIONS], &bytes_of(&planned.positions));
            if way == Way::List {
                fill_lent(&mut after[LEADS], &bytes_of(&planned.leads));
            }
            accepted(after)
        }
    }
}

/// A call on a desk, an opening too, refuses a short scratch first of all, and nothing is written.
fn refused_scratch(way: Way, strings: &Strings) -> Option<Outcome> {
    match (way, judge_scratch(&words_of(&strings[SCRATCH]))) {
        (Way::Scratch, Err(refusal)) => Some(refused(strings, refusal)),
        _ => None,
    }
}

fn expected_open(way: Way, strings: &Strings) -> Outcome {
    if let Some(outcome) = refused_scratch(way, strings) {
        return outcome;
    }
    let not_sound = Refusal { number: cause::NOT_SOUND, place: 0 };
    if strings[PLAN].len() != PLAN_BYTES {
        return cleared(strings, not_sound, DESK, DESK_BYTES);
    }
    let (plan, positions) = (read_plan(&strings[PLAN]), words_of(&strings[POSITIONS]));
    let lent = words_of(&strings[way.string()]);
    let opened = match way {
        Way::List => open(&plan, &positions, &lent),
        Way::Scratch => open_scratch(&plan, &positions, &lent),
    };
    match opened {
        Err(refusal) => cleared(strings, refusal, DESK, DESK_BYTES),
        Ok(_) if strings[DESK].len() != DESK_BYTES => {
            refused(strings, Refusal { number: cause::TOO_SHORT, place: 0 })
        }
        Ok(desk) => {
            let mut after = strings.clone();
            fill_lent(&mut after[DESK], &desk_bytes(&desk));
            accepted(after)
        }
    }
}

/// The call as the model knows it: whole entries of the lent lists count.
pub fn model_call(call: Call, strings: &Strings) -> shelf::Call {
    match call {
        Call::Join { slot, block, film } => shelf::Call::Join { slot, block, film },
        Call::Leave { slot } => shelf::Call::Leave { slot },
        Call::Begin => shelf::Call::Begin { fetch_list: strings[FETCHES].len() / FETCH_BYTES },
        Call::End => shelf::Call::End { draws: words_of(&strings[DRAWS]) },
        Call::Plan(_) | Call::Open | Call::Window { .. } | Call::DrawLimit { .. } => {
            unreachable!("no call that alters a desk")
        }
    }
}

fn expected_desk_call(call: Call, way: Way, strings: &Strings) -> Outcome {
    if let Some(outcome) = refused_scratch(way, strings) {
        return outcome;
    }
    if strings[DESK].len() != DESK_BYTES {
        return refused(strings, Refusal { number: cause::NOT_SOUND, place: 0 });
    }
    let desk = read_desk(&strings[DESK]);
    let (positions, lent) = (words_of(&strings[POSITIONS]), words_of(&strings[way.string()]));
    let made = model_call(call, strings);
    let answer = match way {
        Way::List => answer(&desk, &positions, &lent, &made),
        Way::Scratch => answer_scratch(&desk, &positions, &lent, &made),
    };
    let mut after = strings.clone();
    fill_lent(&mut after[DESK], &desk_bytes(&answer.desk));
    fill_lent(&mut after[FETCHES], &fetch_bytes(&answer.entries));
    let shelf::Answer { number, place, count, bound, .. } = answer;
    Outcome { answer: Answer { number, place, count, bound, ..Answer::default() }, strings: after }
}

/// A window writes nothing.
fn expected_window(strings: &Strings, blocks: u32) -> Outcome {
    if strings[PLAN].len() != PLAN_BYTES {
        return refused(strings, Refusal { number: cause::NOT_SOUND, place: 0 });
    }
    match window(&read_plan(&strings[PLAN]), &words_of(&strings[POSITIONS]), blocks) {
        Err(refusal) => refused(strings, refusal),
        Ok(Window { time, first, bytes }) => Outcome {
            answer: Answer { time, first, bytes, ..Answer::default() },
            strings: strings.clone(),
        },
    }
}

/// A draw limit refuses nothing: where there is no such slot it is 0.
fn expected_limit(strings: &Strings, slot: u32, bound: u32) -> Outcome {
    let mut outcome = accepted(strings.clone());
    if strings[DESK].len() == DESK_BYTES && (slot as usize) < SLOTS {
        let limit = draw_limit(&read_desk(&strings[DESK]), slot as usize, bound);
        outcome.answer.limit = limit as u64;
    }
    outcome
}

pub fn expected(call: Call, way: Way, strings: &Strings) -> Outcome {
    match call {
        Call::Plan(rule) => expected_plan(rule, way, strings),
        Call::Open => expected_open(way, strings),
        Call::Window { blocks } => expected_window(strings, blocks),
        Call::DrawLimit { slot, bound } => expected_limit(strings, slot, bound),
        _ => expected_desk_call(call, way, strings),
    }
}

/// Is the call for pairs: their planner, or one on a record that says so?
pub fn is_for_pairs(call: Call, strings: &Strings) -> bool {
    let says = |plan: Plan| plan.showing == Rule::Pairs.word();
    match call {
        Call::Plan(rule) => rule == Rule::Pairs,
        Call::Open | Call::Window { .. } => {
            strings[PLAN].len() == PLAN_BYTES && says(read_plan(&strings[PLAN]))
        }
        _ => strings[DESK].len() == DESK_BYTES && says(read_desk(&strings[DESK]).plan),
    }
}

/// Does a call by its scratch answer as by its lead list? So where the scratch is not short and the list is the full one: long enough for a
/// planner, the film's own for a desk. A refused card, or a string that is no plan or desk, asks nothing of either.
pub fn is_same_by_scratch(call: Call, strings: &Strings) -> bool {
    let begins = |plan| words_of(&strings[LEADS]).starts_with(&full_leads(&plan));
    let is_full = match call {
        Call::Plan(rule) => match read_card(&strings[CARD], rule) {
            Ok(figures) => strings[LEADS].len() / ENTRY_BYTES >= figures.all_blocks() as usize,
            Err(_) => return true,
        },
        Call::Open if strings[PLAN].len() == PLAN_BYTES => begins(read_plan(&strings[PLAN])),
        Call::Join { .. } | Call::Leave { .. } | Call::Begin | Call::End
            if strings[DESK].len() == DESK_BYTES =>
        {
            begins(read_desk(&strings[DESK]).plan)
        }
        _ => true,
    };
    is_full && judge_scratch(&words_of(&strings[SCRATCH])).is_ok()
}
