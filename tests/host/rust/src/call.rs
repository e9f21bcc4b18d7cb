//! A call, the strings that it is lent, and what comes of it.

use film_disk_model::shelf::Rule;

/// The strings of all calls, by name.
pub type Strings = [Vec<u8>; 8];
pub const CARD: usize = 0;
pub const PLAN: usize = 1;
pub const POSITIONS: usize = 2;
pub const LEADS: usize = 3;
pub const DESK: usize = 4;
pub const FETCHES: usize = 5;
pub const DRAWS: usize = 6;
pub const SCRATCH: usize = 7;
pub const NAMES: [&str; 8] =
    ["card", "plan", "positions", "leads", "desk", "fetches", "draws", "scratch"];

/// The way in: with the lead list, or with a scratch in its place.
#[derive(Clone, Copy, Debug, PartialEq, Eq)]
pub enum Way {
    List,
    Scratch,
}

impl Way {
    /// The string that is lent.
    pub fn string(self) -> usize {
        match self {
            Way::List => LEADS,
            Way::Scratch => SCRATCH,
        }
    }
}

#[derive(Clone, Copy, Debug, PartialEq, Eq)]
pub enum Call {
    Plan(Rule),
    Open,
    Join { slot: u32, block: u32, film: u32 },
    Leave { slot: u32 },
    Begin,
    End,
    Window { blocks: u32 },
    DrawLimit { slot: u32, bound: u32 },
}

impl Call {
    /// Does the call take the lead list, and so a scratch in its place?
    pub fn takes_leads(&self) -> bool {
        !matches!(self, Call::Window { .. } | Call::DrawLimit { .. })
    }

    /// The place of the call's sort in a tally.
    pub fn sort(&self, way: Way) -> usize {
        let sort = match self {
            Call::Plan(Rule::Once) => 0,
            Call::Plan(Rule::Loop) => 1,
            Call::Plan(Rule::Pairs) => 2,
            Call::Open => 3,
            Call::Join { .. } => 4,
            Call::Leave { .. } => 5,
            Call::Begin => 6,
            Call::End => 7,
            Call::Window { .. } => return 16,
            Call::DrawLimit { .. } => return 17,
        };
        sort + 8 * (way == Way::Scratch) as usize
    }

    /// The strings that the call is lent; the true ones it may write. A scratch it never may.
    pub fn lent(&self, way: Way) -> Vec<(usize, bool)> {
        let (written, lent) = (way == Way::List, way.string());
        match self {
            Call::Plan(_) => vec![(CARD, false), (PLAN, true), (POSITIONS, true), (lent, written)],
            Call::Open => vec![(PLAN, false), (POSITIONS, false), (lent, false), (DESK, true)],
            Call::Join { .. } | Call::Leave { .. } => {
                vec![(DESK, true), (POSITIONS, false), (lent, false)]
            }
            Call::Begin => vec![(DESK, true), (POSITIONS, false), (lent, false), (FETCHES, true)],
            Call::End => vec![(DESK, true), (POSITIONS, false), (lent, false), (DRAWS, false)],
            Call::Window { .. } => vec![(PLAN, false), (POSITIONS, false)],
            Call::DrawLimit { .. } => vec![(DESK, false)],
        }
    }
}

pub const SORTS: [&str; 18] = [
    "plan",
    "plan_loop",
    "plan_pairs",
    "open",
    "join",
    "leave",
    "begin",
    "end",
    "plan_scratch",
    "plan_loop_scratch",
    "plan_pairs_scratch",
    "open_scratch",
    "join_scratch",
    "leave_scratch",
    "begin_scratch",
    "end_scratch",
    "window",
    "draw_limit",
];

/// What a call answers; a part that it does not have is 0.
#[derive(Clone, Copy, Debug, Default, PartialEq, Eq)]
pub struct Answer {
    pub number: u32,
    pub place: u64,
    /// Of a begin.
    pub count: u32,
    pub bound: u32,
    /// Of a window.
    pub time: u32,
    pub first: u32,
    pub bytes: u32,
    /// Of a draw limit.
    pub limit: u64,
}

/// The answer of a call and all strings after it.
#[derive(Clone, Debug, PartialEq, Eq)]
pub struct Outcome {
    pub answer: Answer,
    pub strings: Strings,
}

impl Outcome {
    /// What differs from the expected outcome, if anything does.
    pub fn compare(&self, expected: &Outcome) -> Result<(), String> {
        self.compare_but(expected, &[])
    }

    /// The same, some strings left out.
    pub fn compare_but(&self, expected: &Outcome, but: &[usize]) -> Result<(), String> {
        if self.answer != expected.answer {
            return Err(format!("expected {:?}; got {:?}", expected.answer, self.answer));
        }
        for which in (0..NAMES.len()).filter(|which| !but.contains(which)) {
            let (name, got, wanted) =
                (NAMES[which], &self.strings[which], &expected.strings[which]);
            if let Some(at) = (0..wanted.len()).find(|&at| got.get(at) != wanted.get(at)) {
                let (word, wanted, got) = (at / 4, wanted[at], got[at]);
                return Err(format!(
                    "{name}: byte {at} (word {word}): expected {wanted}, got {got}"
                ));
            }
        }
        Ok(())
    }
}
