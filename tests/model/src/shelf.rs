//! A shelf of films (02, ticket 14): up to 16 films on a disk with common B and c, laid in list
//! order, each on the highest positions still free. One call has one rule for all its films.
//!
//! - `card`: the figures with each film's N; reading, judging and writing a card.
//! - `plan`: layings film by film, and one plan of them all.
//! - `window`: the worst time of several successive blocks of one film.
//! - `desk`: soundness and the calls; a slot names its film and counts blocks within it.
//! - `book`: lists of calls with the book of demand 3 and the order of the requests.
//! - `scratch`: the same calls with a scratch in place of the lead list.
//! - `batch`: several joins and leaves in one call.
//! - `try_all`: the second planner, which takes one film.
//!
//! The lists hold the films one after the other. A block is listed at its film's start, the blocks
//! of all films before it, plus its number within the film.

pub mod batch;
pub mod book;
pub mod card;
pub mod desk;
pub mod plan;
pub mod scratch;
pub mod try_all;
pub mod window;

pub use batch::{batch, batch_scratch, singly, Item};
pub use book::{answer, Answer, Call, Run, Step};
pub use card::{
    card_bytes, judge_record, one_film_card, read_card, write_card, Figures, MAX_FILMS,
};
pub use desk::{begin, end, is_sound, join, leave, open, Begun, Desk};
pub use plan::{is_plan, is_plan_with_positions, plan_card, plan_record, Plan, Planned};
pub use scratch::{answer_scratch, open_scratch, plan_card_scratch, plan_record_scratch};
pub use try_all::{try_card, try_record};
pub use window::window;

use crate::pairs::{PAIRS, VISITS};
use crate::plan::Showing;

/// The rule of a planner's call: all films of the shelf shown once, as loops, or once and stored as
/// pairs of half blocks.
#[derive(Clone, Copy, Debug, PartialEq, Eq)]
pub enum Rule {
    Once,
    Loop,
    Pairs,
}

impl Rule {
    pub const ALL: [Rule; 3] = [Rule::Once, Rule::Loop, Rule::Pairs];

    /// The word of a plan record.
    pub fn word(self) -> u32 {
        match self {
            Rule::Once => Showing::Once.word(),
            Rule::Loop => Showing::Loop.word(),
            Rule::Pairs => PAIRS,
        }
    }

    /// The rule that a record's word says; any fourth word says none.
    pub fn of(word: u32) -> Option<Rule> {
        Rule::ALL.into_iter().find(|rule| rule.word() == word)
    }

    /// How the films are shown.
    pub fn showing(self) -> Showing {
        match self {
            Rule::Loop => Showing::Loop,
            _ => Showing::Once,
        }
    }

    /// Visits of the disk for one block, a position each.
    pub fn visits(self) -> usize {
        match self {
            Rule::Pairs => VISITS,
            _ => 1,
        }
    }
}
