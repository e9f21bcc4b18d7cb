//! An executable model of the film-disk planner and its sweep desk, written from the words of its
//! documents ("01" in the comments, "02" for later requests) in the most direct form. It is the
//! oracle of comparisons, and so it is never made quicker than the words.
//!
//! - `card`: the figures, reading, judging and writing a card.
//! - `plan`: laying, streams, leads, buffer; the plan of a card or a record, shown once or as a
//!   loop.
//! - `pairs`: the plan and the windows of half blocks on paired tracks. `planner`: which planner call.
//! - `desk`: soundness and the calls open, join, leave, begin and end.
//! - `book`: lists of calls, the book of demand 3 and the checker of its claim.
//! - `queue`: who waits, in the order they asked, and for how many sweeps at most.
//! - `batch`: several joins and leaves in one call.
//! - `scratch`: the same calls with a scratch in place of the lead list.
//! - `shelf`: all of these for up to 16 films on a disk.
//! - `window`: the worst time of several successive blocks, and the text of the windows program.
//! - `try_all`: the second planner, which tries every laying, and all small cards.
//! - `listing`: the text of the listing program. `text`: the card of a text of figures. `maker`: the
//!   figures of a maker's zone listing.
//! - `bench`: fixed cards. `rng`: random inputs of every sort from a seed.
//! - `programs`: a program run on inputs and compared with the model.
//!
//! Answers are values: a refusal has 01's number and place, and leaves what was lent. An accepted
//! call has number 0 and place 0.

pub mod batch;
pub mod bench;
pub mod book;
pub mod card;
pub mod desk;
pub mod listing;
pub mod maker;
pub mod pairs;
pub mod plan;
pub mod planner;
pub mod programs;
pub mod queue;
pub mod refusal;
pub mod rng;
pub mod scratch;
pub mod shelf;
pub mod text;
pub mod try_all;
pub mod window;

pub use batch::{batch, batch_scratch, singly, Item, ItemAnswer};
pub use book::{answer, check_claim, Answer, Book, Call, Row, Run, Step};
pub use card::{card_bytes, judge_record, read_card, write_card, Figures};
pub use desk::{begin, end, is_sound, join, leave, open, Begun, Desk, Entry, SLOTS};
pub use listing::{listing, loop_listing, pairs_listing};
pub use pairs::{is_pairs_plan, plan_pairs_card, plan_pairs_record, window_pairs};
pub use plan::{
    fill_lent, is_plan, plan_card, plan_loop_card, plan_loop_record, plan_record, Plan, Planned,
    Showing,
};
pub use planner::Planner;
pub use queue::Queue;
pub use refusal::{cause, Refusal};
pub use rng::Rng;
pub use scratch::{answer_scratch, open_scratch, plan_card_scratch, plan_record_scratch};
pub use text::{card_of_text, mkcard, TextRefusal};
pub use window::{window, windows_with, Window};
