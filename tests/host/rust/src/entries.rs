//! The entry points of include/filmdisk.h: those of the static library, and with the feature `earlier` those of an earlier one, whose
//! names begin with `earlier_`.

pub type Read = *const u8;
pub type Write = *mut u8;

#[repr(C)]
pub struct FilmdiskAnswer {
    pub number: u32,
    pub place: usize,
    pub count: u32,
    pub bound: u32,
}

#[repr(C)]
pub struct FilmdiskWindowAnswer {
    pub number: u32,
    pub place: usize,
    pub time: u32,
    pub first: u32,
    pub bytes: u32,
}

/// The calls that are lent four strings, each with its length.
type Planning =
    unsafe extern "C" fn(Read, usize, Write, usize, Write, usize, Write, usize) -> FilmdiskAnswer;
type Opening =
    unsafe extern "C" fn(Read, usize, Read, usize, Read, usize, Write, usize) -> FilmdiskAnswer;
type Beginning =
    unsafe extern "C" fn(Write, usize, Read, usize, Read, usize, Write, usize) -> FilmdiskAnswer;
type Ending =
    unsafe extern "C" fn(Write, usize, Read, usize, Read, usize, Read, usize) -> FilmdiskAnswer;
/// Those that are lent a desk and its lists, and take a slot.
type Joining =
    unsafe extern "C" fn(Write, usize, Read, usize, Read, usize, u32, u32, u32) -> FilmdiskAnswer;
type Leaving = unsafe extern "C" fn(Write, usize, Read, usize, Read, usize, u32) -> FilmdiskAnswer;
type Limiting = unsafe extern "C" fn(Read, usize, u32, u32) -> u64;
type Windowing = unsafe extern "C" fn(Read, usize, Read, usize, u32) -> FilmdiskWindowAnswer;

/// The calls that are lent leads, or a scratch in their place.
pub struct Calls {
    pub plan: Planning,
    pub plan_loop: Planning,
    pub plan_pairs: Planning,
    pub open: Opening,
    pub join: Joining,
    pub leave: Leaving,
    pub begin: Beginning,
    pub end: Ending,
}

pub struct Entries {
    pub by_list: Calls,
    pub by_scratch: Calls,
    pub window: Windowing,
    pub draw_limit: Limiting,
}

/// The calls whose names begin with a prefix and end with a suffix.
macro_rules! calls {
    ($prefix:literal, $suffix:literal) => {{
        #[rustfmt::skip]
        extern "C" {
            #[link_name = concat!($prefix, "plan", $suffix)]
            fn plan(card: Read, card_len: usize, plan: Write, plan_len: usize, positions: Write, positions_len: usize, lent: Write, lent_len: usize) -> FilmdiskAnswer;
            #[link_name = concat!($prefix, "plan_loop", $suffix)]
            fn plan_loop(card: Read, card_len: usize, plan: Write, plan_len: usize, positions: Write, positions_len: usize, lent: Write, lent_len: usize) -> FilmdiskAnswer;
            #[link_name = concat!($prefix, "plan_pairs", $suffix)]
            fn plan_pairs(card: Read, card_len: usize, plan: Write, plan_len: usize, positions: Write, positions_len: usize, lent: Write, lent_len: usize) -> FilmdiskAnswer;
            #[link_name = concat!($prefix, "open", $suffix)]
            fn open(plan: Read, plan_len: usize, positions: Read, positions_len: usize, lent: Read, lent_len: usize, desk: Write, desk_len: usize) -> FilmdiskAnswer;
            #[link_name = concat!($prefix, "join", $suffix)]
            fn join(desk: Write, desk_len: usize, positions: Read, positions_len: usize, lent: Read, lent_len: usize, slot: u32, block: u32, film: u32) -> FilmdiskAnswer;
            #[link_name = concat!($prefix, "leave", $suffix)]
            fn leave(desk: Write, desk_len: usize, positions: Read, positions_len: usize, lent: Read, lent_len: usize, slot: u32) -> FilmdiskAnswer;
            #[link_name = concat!($prefix, "begin", $suffix)]
            fn begin(desk: Write, desk_len: usize, positions: Read, positions_len: usize, lent: Read, lent_len: usize, fetches: Write, fetches_len: usize) -> FilmdiskAnswer;
            #[link_name = concat!($prefix, "end", $suffix)]
            fn end(desk: Write, desk_len: usize, positions: Read, positions_len: usize, lent: Read, lent_len: usize, draws: Read, draws_len: usize) -> FilmdiskAnswer;
        }
        Calls { plan, plan_loop, plan_pairs, open, join, leave, begin, end }
    }};
}

/// The entry points whose names begin with a prefix.
macro_rules! entries {
    ($prefix:literal) => {{
        #[rustfmt::skip]
        extern "C" {
            #[link_name = concat!($prefix, "window")]
            fn window(plan: Read, plan_len: usize, positions: Read, positions_len: usize, blocks: u32) -> FilmdiskWindowAnswer;
            #[link_name = concat!($prefix, "draw_limit")]
            fn draw_limit(desk: Read, desk_len: usize, slot: u32, bound: u32) -> u64;
        }
        let (by_list, by_scratch) = (calls!($prefix, ""), calls!($prefix, "_scratch"));
        Entries { by_list, by_scratch, window, draw_limit }
    }};
}

pub const PRESENT: Entries = entries!("filmdisk_");
#[cfg(feature = "earlier")]
pub const EARLIER: Option<Entries> = Some(entries!("earlier_filmdisk_"));
#[cfg(not(feature = "earlier"))]
pub const EARLIER: Option<Entries> = None;
