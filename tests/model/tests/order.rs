//! Rooms served in the order they asked: request 5 of 02. Places, who is granted when, and how long a
//! request waits.

use film_disk_model::bench::{bench_film, bench_rising, figures_of};
use film_disk_model::desk::{floor, ASKED, FILLING, FREE, PLAYING, SWEEPING, TAIL};
use film_disk_model::plan::{plan_of, TWO_MILLION};
use film_disk_model::queue::most_sweeps;
use film_disk_model::rng::borders::border_plan_for;
use film_disk_model::rng::desks::{
    alter_places, full_house, next_step, set_places, sound_desk, Temper,
};
use film_disk_model::rng::figures::{desk_plan_for, large_desk_plan_for, uneven_plan_for};
use film_disk_model::scratch::SCRATCH;
use film_disk_model::*;

/// B of the bench film.
const BLOCK: u32 = 262_144;
const NOT_SOUND: Refusal = Refusal { number: 14, place: 0 };

fn bench() -> Planned {
    plan_record(&bench_film(), 6, 6).unwrap()
}

/// A desk between sweeps with these slots: kind, next, held, place.
fn desk_with(planned: &Planned, slots: &[(u32, u32, u32, u32)]) -> Desk {
    let mut desk = Desk::all_free(&planned.plan);
    for (slot, &(kind, next, held, place)) in slots.iter().enumerate() {
        (desk.kinds[slot], desk.next[slot], desk.held[slot]) = (kind, next, held);
        desk.places[slot] = place;
    }
    desk
}

fn call(planned: &Planned, desk: &Desk, call: Call) -> Answer {
    answer(desk, &planned.positions, &planned.leads, &call)
}

/// The desk that an accepted call leaves.
fn after(planned: &Planned, desk: &Desk, made: Call) -> Desk {
    let answer = call(planned, desk, made);
    assert_eq!((answer.number, answer.place), (0, 0));
    answer.desk
}

fn begun(planned: &Planned, desk: &Desk) -> Desk {
    after(planned, desk, Call::Begin { fetch_list: planned.plan.streams as usize })
}

/// An end without draws.
fn ended(planned: &Planned, desk: &Desk) -> Desk {
    after(planned, desk, Call::End { draws: vec![0; planned.plan.streams as usize] })
}

fn joined(planned: &Planned, desk: &Desk, slot: u32, block: u32) -> Desk {
    after(planned, desk, Call::Join { slot, block })
}

fn left(planned: &Planned, desk: &Desk, slot: u32) -> Desk {
    after(planned, desk, Call::Leave { slot })
}

fn sound(planned: &Planned, desk: &Desk) -> bool {
    is_sound(desk, &planned.positions, &planned.leads)
}

/// 01's desk case: slot 0 stays filling at the second begin, slot 1 is granted there, and the bound is
/// 78330.
#[test]
fn desk_case() {
    let bench = bench();
    let desk = joined(&bench, &Desk::all_free(&bench.plan), 0, 0);
    assert_eq!((desk.places[0], desk.waiting()), (1, 1));
    let desk = ended(&bench, &begun(&bench, &desk));
    assert_eq!((desk.kinds[0], desk.held[0], desk.places[0]), (FILLING, BLOCK, 0));
    let desk = joined(&bench, &desk, 1, 0);
    assert_eq!(desk.places[..3], [0, 1, 0]);
    let answer = call(&bench, &desk, Call::Begin { fetch_list: 16 });
    assert_eq!((answer.number, answer.count, answer.bound), (0, 2, 78_330));
    assert_eq!(answer.desk.kinds[..3], [FILLING, FILLING, FREE]);
    assert_eq!(answer.desk.places, [0; SLOTS]);
}

// Joins, leaves and ends.

/// A join is behind all that wait; it alters its slot alone.
#[test]
fn joins_are_last() {
    let bench = bench();
    let mut desk = Desk::all_free(&bench.plan);
    for (place, slot) in [(1, 9), (2, 0), (3, 15), (4, 1)] {
        let before = desk.clone();
        desk = joined(&bench, &desk, slot, 5);
        let mut expected = before;
        let slot = slot as usize;
        (expected.kinds[slot], expected.next[slot], expected.places[slot]) = (ASKED, 5, place);
        assert_eq!(desk, expected);
    }
    assert_eq!(desk.waiting(), 4);
    assert_eq!(desk.eldest(), Some(9));
}

/// A request that leaves: those behind it drop by one, those before it stay.
#[test]
fn leaves_drop_later_places() {
    let bench = bench();
    let asked = |place| (ASKED, 0, 0, place);
    let slots = [asked(3), asked(1), (PLAYING, 1, 2 * BLOCK, 0), asked(4), asked(2)];
    let desk = desk_with(&bench, &slots);
    assert!(sound(&bench, &desk));
    for (slot, places) in [
        (0, [0, 1, 0, 3, 2]),
        (1, [2, 0, 0, 3, 1]),
        (2, [3, 1, 0, 4, 2]),
        (3, [3, 1, 0, 0, 2]),
        (4, [2, 1, 0, 3, 0]),
    ] {
        let desk = left(&bench, &desk, slot);
        assert_eq!(desk.places[..5], places);
        assert_eq!(desk.kinds[slot as usize], FREE);
        assert!(sound(&bench, &desk));
        // Whoever comes back is last.
        let waiting = desk.waiting();
        let desk = joined(&bench, &desk, slot, 2);
        assert_eq!(desk.places[slot as usize], waiting + 1);
    }
}

/// An end changes no place, though slots become free in it.
#[test]
fn ends_keep_places() {
    let bench = bench();
    let slots = [(ASKED, 0, 0, 2), (TAIL, 6, 9, 0), (ASKED, 3, 0, 1), (PLAYING, 5, BLOCK, 0)];
    let desk = Desk { phase: SWEEPING, ..desk_with(&bench, &slots) };
    let mut draws = vec![0; 16];
    draws[1] = 9;
    let after = after(&bench, &desk, Call::End { draws });
    assert_eq!(after.places, desk.places);
    assert_eq!(after.kinds[..4], [ASKED, FREE, ASKED, TAIL]);
}

// Begins.

/// With no playing slot all are granted, in whatever order they asked.
#[test]
fn all_granted_where_none_plays() {
    let bench = bench();
    let slots = [(ASKED, 0, 0, 3), (FILLING, 0, 0, 0), (ASKED, 0, 0, 1), (ASKED, 0, 0, 2)];
    let desk = begun(&bench, &desk_with(&bench, &slots));
    assert_eq!(desk.kinds[..4], [FILLING; 4]);
    assert_eq!(desk.places, [0; SLOTS]);
}

/// Each of the requests lifts the floor by 1637.5 bytes: granted are as many as the playing slot
/// allows, by place and not by slot.
#[test]
fn eldest_first() {
    let bench = bench();
    for (held, granted) in [(1637, 0), (1638, 1), (3274, 1), (3275, 2), (4912, 2), (4913, 3)] {
        for places in [[1, 2, 3], [1, 3, 2], [2, 1, 3], [2, 3, 1], [3, 1, 2], [3, 2, 1]] {
            let asked = places.map(|place| (ASKED, 0, 0, place));
            let slots = [&[(PLAYING, 1, BLOCK + held, 0)], &asked[..]].concat();
            let desk = begun(&bench, &desk_with(&bench, &slots));
            for (slot, place) in (1..).zip(places) {
                let is_granted = place <= granted;
                let kind = if is_granted { FILLING } else { ASKED };
                assert_eq!(desk.kinds[slot], kind, "{places:?}, {held} held");
                assert_eq!(desk.places[slot], place.saturating_sub(granted));
            }
            assert!(sound(&bench, &desk));
        }
    }
}

/// A request that has to wait stops those behind it, though they have no lead.
#[test]
fn none_behind_one_that_waits() {
    let bench = bench();
    for places in [[1, 2], [2, 1]] {
        let [one, other] = places;
        let slots = [(PLAYING, 1, BLOCK, 0), (ASKED, 0, 0, one), (ASKED, 3, 0, other)];
        let desk = begun(&bench, &desk_with(&bench, &slots));
        let expected = if one == 1 { [ASKED, ASKED] } else { [ASKED, FILLING] };
        assert_eq!(desk.kinds[1..3], expected);
        let left = if one == 1 { [1, 2] } else { [1, 0] };
        assert_eq!(desk.places[1..3], left);
    }
}

/// While a request waits, a filling slot starts to play only with the eldest's lead added: of 6550,
/// 3110 and 190 that is 1637.5, 777.5 and 47.5 bytes.
#[test]
fn play_starts_with_the_eldests_lead() {
    let bench = bench();
    for (block, lifted) in [(0, 1638), (2, 778), (4, 48), (5, 0)] {
        for behind in 0..6 {
            let waiting = [(ASKED, behind, 0, 2), (ASKED, block, 0, 1), (ASKED, behind, 0, 3)];
            for held in [BLOCK + lifted, (BLOCK + lifted).saturating_sub(1)] {
                let slots = [&[(FILLING, 1, held, 0)], &waiting[..]].concat();
                let desk = begun(&bench, &desk_with(&bench, &slots));
                let plays = held == BLOCK + lifted;
                assert_eq!(desk.kinds[0], if plays { PLAYING } else { FILLING });
                // The eldest is granted either way.
                assert_eq!(desk.kinds[2], FILLING);
            }
        }
    }
    // With none that waits the floor alone counts.
    let desk = begun(&bench, &desk_with(&bench, &[(FILLING, 1, BLOCK, 0)]));
    assert_eq!(desk.kinds[0], PLAYING);
}

/// A filling slot that held too little for the eldest is not tried again after the grants, though none
/// waits any more.
#[test]
fn fillers_are_tried_once() {
    let bench = bench();
    let slots = [(FILLING, 1, BLOCK, 0), (ASKED, 0, 0, 1)];
    let desk = begun(&bench, &desk_with(&bench, &slots));
    assert_eq!(desk.kinds[..2], [FILLING, FILLING]);
    // The floor has the granted slot in it from now on: 263781.5 bytes with block 0 to come.
    let again = begun(&bench, &Desk { phase: 0, ..desk.clone() });
    assert_eq!(again.kinds[..2], [FILLING, FILLING]);
    // The eldest has to wait on, for slot 2 holds too little: slot 0 holds the floor, and fills on.
    let slots = [(FILLING, 1, BLOCK, 0), (ASKED, 0, 0, 1), (PLAYING, 1, BLOCK, 0)];
    let waits = begun(&bench, &desk_with(&bench, &slots));
    assert_eq!(waits.kinds[..3], [FILLING, ASKED, PLAYING]);
    // One sweep later block 1 is to come, without a lead, and both hold enough.
    let desk = begun(&bench, &ended(&bench, &desk));
    assert_eq!(desk.kinds[..2], [PLAYING, FILLING]);
}

/// With two blocks a filling slot starts to play, whoever waits: no floor is above one block and a half.
#[test]
fn two_blocks_are_enough() {
    let mut rng = Rng::new(57);
    let mut filling = 0;
    for case in 0..4000 {
        let planned = match case % 3 {
            0 => border_plan_for(&mut rng, Showing::ALL[case / 3 % 2]),
            _ => desk_plan_for(&mut rng, Showing::ALL[case / 3 % 2]),
        };
        let desk = Desk { phase: 0, ..sound_desk(&mut rng, &planned) };
        let after = begun(&planned, &desk);
        for slot in desk.used_slots().filter(|&slot| after.kinds[slot] == FILLING) {
            assert!(desk.held[slot] < 2 * planned.plan.figures.block_bytes);
            filling += 1;
        }
    }
    assert!(filling > 1000, "{filling}");
}

/// All slots wait: they are granted in one begin where none plays, one by one as far as a playing slot
/// allows.
#[test]
fn a_whole_house_waits() {
    let figures =
        figures_of(&[(20, 3000), (20, 2000)], 40, 1_768_000, 1_000_000).with_moves(500, 1_000_000);
    for showing in Showing::ALL {
        let planned = plan_of(&figures, showing).unwrap();
        let n = planned.plan.streams as usize;
        assert_eq!(n, SLOTS);
        let mut rng = Rng::new(51);
        let mut desk = Desk::all_free(&planned.plan);
        desk.kinds = [ASKED; SLOTS];
        set_places(&mut rng, &mut desk);
        let all = begun(&planned, &desk);
        assert_eq!((all.kinds, all.places), ([FILLING; SLOTS], [0; SLOTS]));
        // Slot 7 plays and holds the floor with so many leads.
        let lead = planned.leads[0] as u128 * planned.plan.figures.rate as u128;
        for granted in [0, 1, 2, 100, 254, 255] {
            (desk.kinds[7], desk.next[7]) = (PLAYING, 1);
            set_places(&mut rng, &mut desk);
            let level = floor(&desk, &planned.leads) + granted as u128 * lead;
            desk.held[7] = level.div_ceil(TWO_MILLION) as u32;
            let after = begun(&planned, &desk);
            for slot in (0..SLOTS).filter(|&slot| slot != 7) {
                let place = desk.places[slot];
                assert_eq!(after.places[slot], place.saturating_sub(granted));
                assert_eq!(after.kinds[slot], if place <= granted { FILLING } else { ASKED });
            }
        }
    }
}

// Soundness.

/// Places of asked slots are 1 up to their count, each once.
#[test]
fn places_of_three_requests() {
    let bench = bench();
    for one in 0..5 {
        for two in 0..5 {
            for three in 0..5 {
                let slots = [one, two, three].map(|place| (ASKED, 0, 0, place));
                let mut sorted = [one, two, three];
                sorted.sort_unstable();
                assert_eq!(sound(&bench, &desk_with(&bench, &slots)), sorted == [1, 2, 3]);
            }
        }
    }
}

/// All others have place 0: those of another kind, free ones, and those from n on.
#[test]
fn places_of_others() {
    let bench = bench();
    let slots = [(FILLING, 1, 5, 0), (PLAYING, 1, BLOCK, 0), (TAIL, 6, 5, 0), (ASKED, 1, 0, 1)];
    let right = desk_with(&bench, &slots);
    assert!(sound(&bench, &right));
    for slot in (0..SLOTS).filter(|&slot| slot != 3) {
        for place in [1, 2, 256, u32::MAX] {
            let mut desk = right.clone();
            desk.places[slot] = place;
            assert!(!sound(&bench, &desk), "slot {slot}, place {place}");
            // The one request's place on another slot.
            desk.places[3] = 0;
            assert!(!sound(&bench, &desk), "slot {slot}, place {place}");
        }
    }
    for place in [0, 2, 3, 255, 256, 257, 65_537, u32::MAX] {
        let mut desk = right.clone();
        desk.places[3] = place;
        assert!(!sound(&bench, &desk), "place {place}");
    }
}

/// Every call on a desk with damaged places is 14, by list and by scratch, and leaves it.
#[test]
fn damaged_places() {
    let mut rng = Rng::new(52);
    let mut met = [0; 2];
    for case in 0..2000 {
        let planned = desk_plan_for(&mut rng, Showing::ALL[case % 2]);
        let mut desk = sound_desk(&mut rng, &planned);
        alter_places(&mut rng, &mut desk);
        let is = sound(&planned, &desk);
        met[is as usize] += 1;
        let n = planned.plan.streams as usize;
        for call in [
            Call::Join { slot: 0, block: 0 },
            Call::Leave { slot: 0 },
            Call::Begin { fetch_list: n },
            Call::End { draws: vec![0; n] },
        ] {
            let listed = answer(&desk, &planned.positions, &planned.leads, &call);
            assert_eq!(listed.number == NOT_SOUND.number, !is);
            assert!(is || (listed.place, &listed.desk) == (NOT_SOUND.place, &desk));
            let scratch = answer_scratch(&desk, &planned.positions, &[7; SCRATCH], &call);
            assert_eq!(scratch, listed);
        }
    }
    assert!(met.iter().all(|&count| count > 200), "{met:?}");
}

// How long a request waits.

/// The bench film: 6550 against 37990 and two hops.
#[test]
fn sweeps_of_the_bench_film() {
    assert_eq!(most_sweeps(&bench().plan), 1);
    // One zone: no lead, so none waits.
    let even = plan_of(&figures_of(&[(3, 20_000)], 3, BLOCK, 500_000), Showing::Once).unwrap();
    assert_eq!((even.plan.margin, most_sweeps(&even.plan)), (0, 0));
    // The overheads go by the table.
    let measured = plan_of(&bench_rising(16, 2648), Showing::Once).unwrap();
    assert_eq!((measured.plan.streams, most_sweeps(&measured.plan)), (16, 1));
}

/// G is 0 or 1, and 0 only without a margin.
#[test]
fn none_or_one_sweep() {
    let mut rng = Rng::new(53);
    let mut met = [0; 2];
    for case in 0..6000 {
        let showing = Showing::ALL[case % 2];
        let planned = match case % 60 {
            0 | 1 => large_desk_plan_for(&mut rng, showing),
            2..=21 => border_plan_for(&mut rng, showing),
            22..=39 => uneven_plan_for(&mut rng, showing),
            _ => desk_plan_for(&mut rng, showing),
        };
        let sweeps = most_sweeps(&planned.plan);
        assert_eq!(sweeps, (planned.plan.margin > 0) as u64);
        met[sweeps as usize] += 1;
    }
    assert!(met.iter().all(|&count| count > 500), "{met:?}");
}

/// What lists of a full house met.
#[derive(Debug, Default)]
struct Met {
    /// Requests that waited at a begin, and those that a later begin granted.
    waits: usize,
    grants: usize,
    /// Requests granted in a begin behind which others wait.
    parted: usize,
    /// Requests that left again.
    left: usize,
    /// The most that waited at once.
    crowd: u32,
    /// The most sweeps that an eldest request waited.
    longest: u64,
}

impl Met {
    fn note(&mut self, before: &Desk, call: &Call, answer: &Answer) {
        let count = |wanted: (u32, u32)| {
            let kinds = before.kinds.iter().zip(&answer.desk.kinds);
            kinds.filter(|&(&old, &new)| (old, new) == wanted).count()
        };
        if let (Call::Begin { .. }, true) = (call, answer.accepted()) {
            let (waits, grants) = (count((ASKED, ASKED)), count((ASKED, FILLING)));
            self.waits += waits;
            self.grants += grants;
            self.parted += (waits > 0 && grants > 0) as usize;
        }
        self.left += count((ASKED, FREE));
        self.crowd = self.crowd.max(answer.desk.waiting());
    }
}

/// Runs a list; each call is checked by the book, the order of the requests and their waits. The
/// eldest waits only after a sweep in which all n slots were fetched for: else there is room for it.
fn run_list(rng: &mut Rng, planned: &Planned, temper: &Temper, calls: usize, met: &mut Met) {
    let desk = open(&planned.plan, &planned.positions, &planned.leads).unwrap();
    let mut run = Run::new(desk);
    let mut fetched = 0;
    for _ in 0..calls {
        let before = run.desk.clone();
        let step = next_step(rng, planned, &before, temper);
        let answer = match run.call(&step) {
            Ok(answer) => answer,
            Err(fault) => panic!("{fault}: {before:?} {:?}", step.call),
        };
        met.note(&before, &step.call, &answer);
        assert!(sound(planned, &run.desk));
        if let (Call::Begin { .. }, true) = (&step.call, answer.accepted()) {
            let waits = before.eldest().is_some_and(|slot| run.desk.kinds[slot] == ASKED);
            assert!(!waits || fetched == planned.plan.streams, "{fetched} slots were fetched for");
            fetched = answer.count;
        }
    }
    met.longest = met.longest.max(run.queue.longest);
}

/// In full houses slots that were fetched for leave and others ask in the same gap. No request waits
/// longer than it may, and all are granted in the order they asked.
#[test]
fn waits_of_full_houses() {
    for showing in Showing::ALL {
        let mut rng = Rng::new(54);
        let mut met = Met::default();
        for _ in 0..800 {
            let planned = desk_plan_for(&mut rng, showing);
            let temper = full_house(&mut rng);
            run_list(&mut rng, &planned, &temper, 200, &mut met);
        }
        assert!(met.grants > 10_000 && met.left > 1000 && met.crowd > 100, "{met:?}");
        assert!(met.waits > 20 && met.parted > 1 && met.longest == 1, "{met:?}");
    }
}

#[test]
fn waits_of_the_bench_film() {
    for figures in [bench_film(), bench_rising(16, 2648)] {
        let plans = Showing::ALL.map(|showing| plan_of(&figures, showing).unwrap());
        for planned in plans {
            let mut rng = Rng::new(55);
            let mut met = Met::default();
            for _ in 0..60 {
                let temper = full_house(&mut rng);
                run_list(&mut rng, &planned, &temper, 400, &mut met);
            }
            assert!(met.grants > 1000, "{met:?}");
        }
    }
}

/// From any sound desk between sweeps, most of which no list reaches, requests wait no longer.
#[test]
fn waits_from_any_desk() {
    for showing in Showing::ALL {
        let mut rng = Rng::new(56);
        let mut met = Met::default();
        for _ in 0..4000 {
            let planned = desk_plan_for(&mut rng, showing);
            let temper = full_house(&mut rng);
            let mut desk = Desk { phase: 0, ..sound_desk(&mut rng, &planned) };
            let mut queue = Queue::of(&desk);
            for _ in 0..16 {
                let step = next_step(&mut rng, &planned, &desk, &temper);
                let answer = answer(&desk, &step.positions, &step.leads, &step.call);
                met.note(&desk, &step.call, &answer);
                queue.feed(&step.call, answer.accepted(), &answer.desk).unwrap();
                desk = answer.desk;
            }
            met.longest = met.longest.max(queue.longest);
        }
        assert!(met.waits > 1000 && met.grants > 10_000 && met.left > 1000, "{met:?}");
        assert!(met.parted > 20 && met.crowd == 256 && met.longest == 1, "{met:?}");
    }
}

/// The checker turns down desks that are not in the order of the calls.
#[test]
fn wrong_orders_are_found() {
    let bench = bench();
    let slots = [(PLAYING, 1, BLOCK + 1638, 0), (ASKED, 0, 0, 2), (ASKED, 0, 0, 1)];
    let desk = desk_with(&bench, &slots);
    let begin = Call::Begin { fetch_list: 16 };
    let right = begun(&bench, &desk);
    let feed = |desk: &Desk, finished: usize, after: &Desk| {
        let mut queue = Queue::of(desk);
        for _ in 0..finished {
            queue.feed(&Call::End { draws: Vec::new() }, true, desk).unwrap();
        }
        queue.feed(&begin, true, after)
    };
    assert_eq!(feed(&desk, 0, &right), Ok(()));
    assert_eq!(right.places[..3], [0, 1, 0]);
    let wrong = |alter: fn(&mut Desk)| {
        let mut after = right.clone();
        alter(&mut after);
        feed(&desk, 0, &after).is_err()
    };
    // By slot; a place kept after its grant, not dropped; another that asks.
    assert!(wrong(|desk| (desk.kinds[1], desk.kinds[2]) = (FILLING, ASKED)));
    assert!(wrong(|desk| desk.places[2] = 1));
    assert!(wrong(|desk| desk.places[1] = 2));
    assert!(wrong(|desk| desk.places[9] = 2));
    // None granted: in time before a sweep is finished, too late after it.
    assert_eq!(feed(&desk, 0, &desk), Ok(()));
    assert!(feed(&desk, 1, &desk).is_err());
}
