//! The try-them-all engine (02, tickets 12 and 14) of a shelf: it takes one film.

use super::card::{judge_record, read_card, Figures};
use super::Rule;
use crate::plan::Showing;
use crate::refusal::{cause, refuse, Refusal};
use crate::try_all::{self, Tried};

/// 29, for more films than one too, then 12, of judged figures.
fn try_judged(figures: &Figures, showing: Showing) -> Result<Tried, Refusal> {
    match figures.lengths() {
        [blocks] => try_all::try_judged(&figures.of_one(*blocks), showing),
        _ => refuse(cause::TOO_MANY_BLOCKS, 0),
    }
}

/// The second planner of a record: 3 to 10, 25, 26 and 30, 29, 12, each at 0.
pub fn try_record(figures: &Figures, showing: Showing) -> Result<Tried, Refusal> {
    if let Err(number) = judge_record(figures, Rule::Once) {
        return refuse(number, 0);
    }
    try_judged(figures, showing)
}

/// The second planner of a card: 1 to 11, 25, 26 and 30 with offset, 29, 12.
pub fn try_card(card: &[u8], showing: Showing) -> Result<Tried, Refusal> {
    try_judged(&read_card(card, Rule::Once)?, showing)
}
