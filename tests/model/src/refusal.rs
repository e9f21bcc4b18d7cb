//! A call turned down: 01's or 02's number of the cause and the place that goes with it.

/// Number and offset of a card, number and slot of a desk call. Place 0 where only the number is
/// returned.
#[derive(Clone, Copy, Debug, PartialEq, Eq)]
pub struct Refusal {
    pub number: u32,
    pub place: u64,
}

/// The causes by 01's numbers, and 02's from 22 on.
pub mod cause {
    pub const ENDS_EARLY: u32 = 1;
    pub const BAD_NUMBER: u32 = 2;
    pub const KIND: u32 = 3;
    pub const ZONES: u32 = 4;
    pub const POSITIONS: u32 = 5;
    pub const TIME: u32 = 6;
    pub const TIME_RISES: u32 = 7;
    pub const BLOCKS: u32 = 8;
    pub const BLOCKS_ABOVE_POSITIONS: u32 = 9;
    pub const OTHER_FIGURE: u32 = 10;
    pub const LEFT_OVER: u32 = 11;
    pub const NO_STREAM: u32 = 12;
    pub const TOO_SHORT: u32 = 13;
    pub const NOT_SOUND: u32 = 14;
    pub const WRONG_PHASE: u32 = 15;
    pub const SLOT: u32 = 16;
    pub const OCCUPIED_OR_FREE: u32 = 17;
    pub const START_BLOCK: u32 = 18;
    pub const DRAW_LIST: u32 = 19;
    pub const DRAW_ABOVE_LIMIT: u32 = 20;
    pub const DRAW_ABOVE_HELD: u32 = 21;
    pub const LINE_FORM: u32 = 22;
    pub const LINE_ONE: u32 = 23;
    pub const ROW: u32 = 24;
    pub const OVERHEAD: u32 = 25;
    pub const HALF_DEAD: u32 = 26;
    pub const WINDOW: u32 = 27;
    pub const PAIRS_ABOVE_POSITIONS: u32 = 28;
    pub const TOO_MANY_BLOCKS: u32 = 29;
    pub const SHELF: u32 = 30;
    pub const NO_FILM: u32 = 31;
}

/// The answer of a refused call.
pub fn refuse<T>(number: u32, place: u64) -> Result<T, Refusal> {
    Err(Refusal { number, place })
}
