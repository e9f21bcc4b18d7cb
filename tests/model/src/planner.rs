//! The three planner calls: for one showing, for a loop, for half blocks on paired tracks. A word of
//! the plan record names the call.

use crate::card::{read_card, Figures};
use crate::pairs::{self, plan_pairs_card, read_pairs_card, PAIRS, VISITS};
use crate::plan::{self, plan_card_for, Planned, Showing};
use crate::refusal::Refusal;
use crate::scratch::{plan_card_scratch, plan_pairs_card_scratch};

#[derive(Clone, Copy, Debug, PartialEq, Eq)]
pub enum Planner {
    Shown(Showing),
    Pairs,
}

impl Planner {
    pub const ALL: [Planner; 3] =
        [Planner::Shown(Showing::Once), Planner::Shown(Showing::Loop), Planner::Pairs];

    /// The word of a plan record.
    pub fn word(self) -> u32 {
        match self {
            Planner::Shown(showing) => showing.word(),
            Planner::Pairs => PAIRS,
        }
    }

    /// The call that a record's word names; any fourth word names none.
    pub fn of(word: u32) -> Option<Planner> {
        Planner::ALL.into_iter().find(|planner| planner.word() == word)
    }

    /// Entries of a block in the positions list.
    pub fn visits(self) -> usize {
        match self {
            Planner::Shown(_) => 1,
            Planner::Pairs => VISITS,
        }
    }

    /// The figures of a card, or what the call refuses it for.
    pub fn read_card(self, card: &[u8]) -> Result<Figures, Refusal> {
        match self {
            Planner::Shown(_) => read_card(card),
            Planner::Pairs => read_pairs_card(card),
        }
    }

    /// The plan of judged figures, or nothing where not even one stream fits.
    pub fn plan_of(self, figures: &Figures) -> Option<Planned> {
        match self {
            Planner::Shown(showing) => plan::plan_of(figures, showing),
            Planner::Pairs => pairs::plan_of(figures),
        }
    }

    /// The call with the lengths of both lists.
    pub fn plan_card(
        self,
        card: &[u8],
        positions: usize,
        leads: usize,
    ) -> Result<Planned, Refusal> {
        match self {
            Planner::Shown(showing) => plan_card_for(card, showing, positions, leads),
            Planner::Pairs => plan_pairs_card(card, positions, leads),
        }
    }

    /// The call with the lengths of the positions list and of a scratch.
    pub fn plan_card_scratch(
        self,
        card: &[u8],
        positions: usize,
        scratch: usize,
    ) -> Result<Planned, Refusal> {
        match self {
            Planner::Shown(showing) => plan_card_scratch(card, showing, positions, scratch),
            Planner::Pairs => plan_pairs_card_scratch(card, positions, scratch),
        }
    }
}
