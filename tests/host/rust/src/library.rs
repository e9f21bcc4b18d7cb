//! A static library, called over guarded strings.

use crate::call::{
    Answer, Call, Outcome, Strings, Way, CARD, DESK, DRAWS, FETCHES, NAMES, PLAN, POSITIONS,
    SCRATCH,
};
use crate::entries::{Calls, Entries, FilmdiskAnswer, FilmdiskWindowAnswer};
use film_disk_model::shelf::Rule;
use std::ffi::{c_char, c_int, CString};

/// Room for the longest string of a case.
const MOST_BYTES: usize = 140_000;

impl From<FilmdiskAnswer> for Answer {
    fn from(answer: FilmdiskAnswer) -> Answer {
        let FilmdiskAnswer { number, place, count, bound } = answer;
        Answer { number, place: place as u64, count, bound, ..Answer::default() }
    }
}

impl From<FilmdiskWindowAnswer> for Answer {
    fn from(answer: FilmdiskWindowAnswer) -> Answer {
        let FilmdiskWindowAnswer { number, place, time, first, bytes } = answer;
        Answer { number, place: place as u64, time, first, bytes, ..Answer::default() }
    }
}

/// guarded.h
#[repr(C)]
struct Guarded {
    room: *mut u8,
    capacity: usize,
    bytes: *mut u8,
    length: usize,
}

extern "C" {
    fn guarded_make(string: *mut Guarded, most: usize);
    fn guarded_lend(string: *mut Guarded, from: *const u8, length: usize, edge: c_int) -> *mut u8;
    fn guarded_seal(string: *const Guarded, sealing: c_int);
    fn guarded_beside_kept(string: *const Guarded) -> c_int;
    fn guarded_watch();
    fn guarded_scene(words: *const c_char);
}

/// How strings are lent: the edge that touches a forbidden page, and whether an empty one is NULL.
#[derive(Clone, Copy, Debug)]
pub struct Lending {
    pub at_start: bool,
    pub empty_is_null: bool,
}

/// The library with room for each string. One at a time: the strings are its own.
pub struct Library {
    entries: Entries,
    lent: [Guarded; 8],
    pointers: [*mut u8; 8],
}

/// What is said if the library touches a byte that it was not lent.
pub fn set_scene(words: &str) {
    let words = CString::new(words).expect("words without a zero byte");
    // SAFETY: the words are copied.
    unsafe { guarded_scene(words.as_ptr()) }
}

/// guarded.h: what a call may write is open, the rest may be read. A scratch may not be touched: nothing but its length is asked.
fn sealing(which: usize, is_written: bool) -> c_int {
    match which {
        SCRATCH => 2,
        _ => !is_written as c_int,
    }
}

impl Library {
    pub fn new(entries: Entries) -> Library {
        // SAFETY: sets the handlers of two signals.
        unsafe { guarded_watch() };
        let lent = NAMES.map(|_| {
            let (room, bytes) = (std::ptr::null_mut(), std::ptr::null_mut());
            let mut string = Guarded { room, capacity: 0, bytes, length: 0 };
            // SAFETY: the record is written whole.
            unsafe { guarded_make(&mut string, MOST_BYTES) };
            string
        });
        Library { entries, lent, pointers: [std::ptr::null_mut(); 8] }
    }

    fn lend(&mut self, which: usize, bytes: &[u8], is_written: bool, lending: Lending) {
        let string = &mut self.lent[which];
        let edge = lending.at_start as c_int;
        // SAFETY: the contents have that length; guarded_lend ends the program if there is no room.
        self.pointers[which] = unsafe {
            let pointer = guarded_lend(string, bytes.as_ptr(), bytes.len(), edge);
            guarded_seal(string, sealing(which, is_written));
            pointer
        };
        if bytes.is_empty() && lending.empty_is_null {
            self.pointers[which] = std::ptr::null_mut();
        }
    }

    /// The string after the call; its neighbour bytes must be as they were.
    fn take_back(&mut self, which: usize) -> Result<Vec<u8>, String> {
        let string = &self.lent[which];
        // SAFETY: the string lies in its room, which may be read and written again.
        let (is_kept, bytes) = unsafe {
            guarded_seal(string, 0);
            let bytes = std::slice::from_raw_parts(string.bytes, string.length).to_vec();
            (guarded_beside_kept(string), bytes)
        };
        if is_kept == 0 {
            return Err(format!("a byte beside {} was written", NAMES[which]));
        }
        Ok(bytes)
    }

    /// The calls of a way in.
    fn calls(&self, way: Way) -> &Calls {
        match way {
            Way::List => &self.entries.by_list,
            Way::Scratch => &self.entries.by_scratch,
        }
    }

    /// SAFETY: the strings of the call are lent.
    #[rustfmt::skip]
    unsafe fn make(&self, call: Call, way: Way) -> Answer {
        let e = self.calls(way);
        let p = |which: usize| self.pointers[which];
        let n = |which: usize| self.lent[which].length;
        let lent = way.string();
        match call {
            Call::Plan(Rule::Once) => (e.plan)(p(CARD), n(CARD), p(PLAN), n(PLAN), p(POSITIONS), n(POSITIONS), p(lent), n(lent)).into(),
            Call::Plan(Rule::Loop) => (e.plan_loop)(p(CARD), n(CARD), p(PLAN), n(PLAN), p(POSITIONS), n(POSITIONS), p(lent), n(lent)).into(),
            Call::Plan(Rule::Pairs) => (e.plan_pairs)(p(CARD), n(CARD), p(PLAN), n(PLAN), p(POSITIONS), n(POSITIONS), p(lent), n(lent)).into(),
            Call::Open => (e.open)(p(PLAN), n(PLAN), p(POSITIONS), n(POSITIONS), p(lent), n(lent), p(DESK), n(DESK)).into(),
            Call::Join { slot, block, film } => (e.join)(p(DESK), n(DESK), p(POSITIONS), n(POSITIONS), p(lent), n(lent), slot, block, film).into(),
            Call::Leave { slot } => (e.leave)(p(DESK), n(DESK), p(POSITIONS), n(POSITIONS), p(lent), n(lent), slot).into(),
            Call::Begin => (e.begin)(p(DESK), n(DESK), p(POSITIONS), n(POSITIONS), p(lent), n(lent), p(FETCHES), n(FETCHES)).into(),
            Call::End => (e.end)(p(DESK), n(DESK), p(POSITIONS), n(POSITIONS), p(lent), n(lent), p(DRAWS), n(DRAWS)).into(),
            Call::Window { blocks } => (self.entries.window)(p(PLAN), n(PLAN), p(POSITIONS), n(POSITIONS), blocks).into(),
            Call::DrawLimit { slot, bound } => Answer { limit: (self.entries.draw_limit)(p(DESK), n(DESK), slot, bound), ..Answer::default() },
        }
    }

    /// Makes a call over copies of the strings. Those that it is not lent come back as they are.
    pub fn call(
        &mut self,
        call: Call,
        way: Way,
        strings: &Strings,
        lending: Lending,
    ) -> Result<Outcome, String> {
        for (which, is_written) in call.lent(way) {
            self.lend(which, &strings[which], is_written, lending);
        }
        // SAFETY: just lent.
        let answer = unsafe { self.make(call, way) };
        let mut after = strings.clone();
        for (which, _) in call.lent(way) {
            after[which] = self.take_back(which)?;
        }
        Ok(Outcome { answer, strings: after })
    }
}
