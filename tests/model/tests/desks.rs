//! The desk's calls one by one: soundness, order of refusals, rules of begin and end.

use film_disk_model::bench::{bench_film, figures_of};
use film_disk_model::desk::{
    drawn_in, floor, is_fetched, sweep_bound, ASKED, FILLING, FREE, PLAYING, SWEEPING, TAIL,
};
use film_disk_model::plan::{time, TWO_MILLION};
use film_disk_model::rng::desks::{alter_plan, any_desk, any_step, sound_desk, spoiled_list};
use film_disk_model::rng::figures::desk_plan_for;
use film_disk_model::*;

/// B of the bench film.
const BLOCK: u32 = 262_144;

fn bench() -> Planned {
    plan_record(&bench_film(), 6, 6).unwrap()
}

/// A desk on the plan with these slots: kind, next, held. Those that ask did so in slot order.
fn desk_with(planned: &Planned, slots: &[(u32, u32, u32)]) -> Desk {
    let mut desk = Desk::all_free(&planned.plan);
    for (slot, &(kind, next, held)) in slots.iter().enumerate() {
        (desk.kinds[slot], desk.next[slot], desk.held[slot]) = (kind, next, held);
        desk.places[slot] = if kind == ASKED { desk.waiting() } else { 0 };
    }
    desk
}

/// The same in a sweep.
fn sweeping(planned: &Planned, slots: &[(u32, u32, u32)]) -> Desk {
    Desk { phase: SWEEPING, ..desk_with(planned, slots) }
}

fn sound(planned: &Planned, desk: &Desk) -> bool {
    is_sound(desk, &planned.positions, &planned.leads)
}

fn call(planned: &Planned, desk: &Desk, call: Call) -> Answer {
    answer(desk, &planned.positions, &planned.leads, &call)
}

/// Number and place of a call's answer.
fn refusal(planned: &Planned, desk: &Desk, made: Call) -> (u32, u64) {
    let answer = call(planned, desk, made);
    (answer.number, answer.place)
}

/// The desk after a begin with a list of n.
fn begun(planned: &Planned, desk: &Desk) -> Answer {
    let answer = call(planned, desk, Call::Begin { fetch_list: planned.plan.streams as usize });
    assert!(answer.accepted());
    answer
}

// Soundness, clause by clause.

#[test]
fn phase_and_kinds() {
    let bench = bench();
    for (phase, is) in [(0, true), (1, true), (2, false), (u32::MAX, false)] {
        assert_eq!(sound(&bench, &Desk { phase, ..desk_with(&bench, &[]) }), is);
    }
    for kind in [5, 6, 255, u32::MAX] {
        assert!(!sound(&bench, &desk_with(&bench, &[(kind, 0, 0)])));
    }
}

#[test]
fn slots_by_kind() {
    let bench = bench();
    let most = bench.plan.buffer;
    for (slot, is) in [
        ((FREE, 0, 0), true),
        ((FREE, 1, 0), false),
        ((FREE, 0, 1), false),
        ((ASKED, 5, 0), true),
        ((ASKED, 6, 0), false),
        ((ASKED, 0, 1), false),
        ((FILLING, 5, 0), true),
        ((FILLING, 6, 0), false),
        ((FILLING, 0, most), true),
        ((FILLING, 0, most + 1), false),
        ((FILLING, 0, u32::MAX), false),
        ((FILLING, u32::MAX, 0), false),
        ((PLAYING, 5, BLOCK), true),
        ((PLAYING, 5, BLOCK - 1), false),
        ((PLAYING, 6, most), false),
        ((PLAYING, 1, most + 1), false),
        ((TAIL, 6, 1), true),
        ((TAIL, 6, most), true),
        ((TAIL, 6, most + 1), false),
        ((TAIL, 6, 0), false),
        ((TAIL, 5, 1), false),
        ((TAIL, 7, 1), false),
    ] {
        assert_eq!(sound(&bench, &desk_with(&bench, &[slot])), is, "{slot:?}");
    }
}

/// Slots from n on are zero.
#[test]
fn unused_slots() {
    let bench = bench();
    for slot in 0..SLOTS {
        let mut desk = desk_with(&bench, &[]);
        (desk.kinds[slot], desk.places[slot]) = (ASKED, 1);
        assert_eq!(sound(&bench, &desk), slot < 16);
        (desk.kinds[slot], desk.places[slot]) = (FREE, 0);
        desk.next[slot] = 1;
        assert!(!sound(&bench, &desk));
        desk.next[slot] = 0;
        desk.held[slot] = 1;
        assert!(!sound(&bench, &desk));
    }
}

/// The floor has the leads of filling and playing slots, not those of asked ones and tails.
#[test]
fn floor_of_playing_slots() {
    let bench = bench();
    // lead(0) is 6550: 1637.5 bytes each.
    let others = [(FILLING, 0, 0), (ASKED, 0, 0), (TAIL, 6, 1)];
    for (held, is) in [(BLOCK + 1637, false), (BLOCK + 1638, true)] {
        let slots = [&[(PLAYING, 1, held)], &others[..]].concat();
        assert_eq!(sound(&bench, &desk_with(&bench, &slots)), is);
    }
    for (held, is) in [(BLOCK + 3274, false), (BLOCK + 3275, true)] {
        let slots = [(PLAYING, 0, held), (FILLING, 0, 0)];
        assert_eq!(sound(&bench, &desk_with(&bench, &slots)), is);
    }
}

#[test]
fn plan_and_lists() {
    let bench = bench();
    let mut rng = Rng::new(21);
    let desk = desk_with(&bench, &[]);
    for _ in 0..2000 {
        let positions = spoiled_list(&mut rng, &bench.positions);
        let leads = spoiled_list(&mut rng, &bench.leads);
        assert!(!is_sound(&desk, &positions, &bench.leads));
        assert!(!is_sound(&desk, &bench.positions, &leads));
        assert_eq!(
            open(&bench.plan, &positions, &bench.leads),
            Err(Refusal { number: 14, place: 0 })
        );
        let mut plan = bench.plan.clone();
        alter_plan(&mut rng, &mut plan);
        let opened = open(&plan, &bench.positions, &bench.leads);
        assert_eq!(opened.is_ok(), is_plan(&plan, &bench.positions, &bench.leads));
    }
    assert_eq!(open(&bench.plan, &bench.positions, &bench.leads), Ok(desk));
}

// Order and places of the refusals.

#[test]
fn join_refusals() {
    let bench = bench();
    let bad = sweeping(&bench, &[(9, 0, 0)]);
    let busy = sweeping(&bench, &[(ASKED, 0, 0)]);
    let idle = desk_with(&bench, &[(ASKED, 0, 0)]);
    let join = |desk, slot, block| refusal(&bench, desk, Call::Join { slot, block });
    assert_eq!(join(&bad, 16, 6), (14, 0));
    assert_eq!(join(&busy, 16, 6), (15, 0));
    assert_eq!(join(&idle, 16, 6), (16, 16));
    assert_eq!(join(&idle, u32::MAX, 0), (16, u32::MAX as u64));
    assert_eq!(join(&idle, 0, 6), (17, 0));
    assert_eq!(join(&idle, 15, 6), (18, 15));
    assert_eq!(join(&idle, 15, u32::MAX), (18, 15));
    assert_eq!(join(&idle, 15, 5), (0, 0));
}

#[test]
fn leave_refusals() {
    let bench = bench();
    let slots = [(ASKED, 3, 0), (FILLING, 3, 9), (PLAYING, 1, BLOCK), (TAIL, 6, 5)];
    let bad = sweeping(&bench, &[(9, 0, 0)]);
    let busy = sweeping(&bench, &slots);
    let idle = desk_with(&bench, &slots);
    // The playing slot holds the floor: lead(3) and lead(1) are 0.
    assert!(sound(&bench, &idle));
    let leave = |desk, slot| refusal(&bench, desk, Call::Leave { slot });
    assert_eq!(leave(&bad, 16), (14, 0));
    assert_eq!(leave(&busy, 16), (15, 0));
    assert_eq!(leave(&idle, 16), (16, 16));
    assert_eq!(leave(&idle, 4), (17, 4));
    for slot in 0..4 {
        let answer = call(&bench, &idle, Call::Leave { slot });
        let mut after = idle.clone();
        let slot = slot as usize;
        (after.kinds[slot], after.next[slot], after.held[slot]) = (0, 0, 0);
        after.places[slot] = 0;
        assert_eq!((answer.number, answer.desk), (0, after));
    }
}

#[test]
fn begin_refusals() {
    let bench = bench();
    let begin = |desk: &Desk, fetch_list| refusal(&bench, desk, Call::Begin { fetch_list });
    assert_eq!(begin(&sweeping(&bench, &[(9, 0, 0)]), 0), (14, 0));
    assert_eq!(begin(&sweeping(&bench, &[]), 0), (15, 0));
    assert_eq!(begin(&desk_with(&bench, &[]), 15), (13, 0));
    assert_eq!(begin(&desk_with(&bench, &[]), 16), (0, 0));
}

/// An end with draws of these slots, the others 0, in a list of `length`.
fn draws(length: usize, drawn: &[(usize, u32)]) -> Call {
    let mut draws = vec![0; length];
    for &(slot, draw) in drawn {
        draws[slot] = draw;
    }
    Call::End { draws }
}

#[test]
fn end_refusals() {
    let bench = bench();
    // No fetch: the bound is the return, 15000, and the limit 7500.
    let full = bench.plan.buffer;
    let slots = [(TAIL, 6, 1), (FREE, 0, 0), (ASKED, 1, 0), (FILLING, 1, full), (PLAYING, 1, full)];
    let desk = sweeping(&bench, &slots);
    assert!(sound(&bench, &desk));
    let end = |drawn: &[(usize, u32)]| refusal(&bench, &desk, draws(16, drawn));
    assert_eq!(refusal(&bench, &sweeping(&bench, &[(9, 0, 0)]), draws(3, &[])), (14, 0));
    assert_eq!(refusal(&bench, &desk_with(&bench, &slots), draws(3, &[])), (15, 0));
    for length in [0, 15, 17] {
        assert_eq!(refusal(&bench, &desk, draws(length, &[])), (19, 0));
    }
    assert_eq!(end(&[(4, 7500)]), (0, 0));
    assert_eq!(end(&[(4, 7501)]), (20, 4));
    assert_eq!(end(&[(4, u32::MAX)]), (20, 4));
    for other in [1, 2, 3, 5, 15] {
        assert_eq!(end(&[(other, 1)]), (20, other as u64));
    }
    assert_eq!(end(&[(3, 1), (4, 7501)]), (20, 3));
    assert_eq!(end(&[(0, 1)]), (0, 0));
    assert_eq!(end(&[(0, 2)]), (21, 0));
    // 20 over all slots goes before 21.
    assert_eq!(end(&[(0, 2), (15, 1)]), (20, 15));
    assert_eq!(end(&[(0, 7501)]), (20, 0));
}

// Rules of begin.

#[test]
fn empty_begin() {
    let bench = bench();
    let answer = begun(&bench, &desk_with(&bench, &[]));
    assert_eq!((answer.count, answer.bound, answer.entries.len()), (0, 15_000, 0));
    assert_eq!(answer.desk, sweeping(&bench, &[]));
}

/// The floor of the second grant has the first granted slot in it.
#[test]
fn grants_count_the_granted() {
    let bench = bench();
    for (held, kinds) in [
        (BLOCK + 1637, [ASKED, ASKED]),
        (BLOCK + 1638, [FILLING, ASKED]),
        (BLOCK + 3274, [FILLING, ASKED]),
        (BLOCK + 3275, [FILLING, FILLING]),
    ] {
        let slots = [(PLAYING, 1, held), (ASKED, 0, 0), (ASKED, 0, 0)];
        let answer = begun(&bench, &desk_with(&bench, &slots));
        assert_eq!(answer.desk.kinds[1..3], kinds, "held {held}");
        assert!(sound(&bench, &answer.desk));
    }
}

/// With no playing slot every asked slot is granted, and no granted one plays.
#[test]
fn all_granted_where_none_plays() {
    let bench = bench();
    let slots = [(FILLING, 0, 0), (ASKED, 0, 0), (TAIL, 6, 1), (ASKED, 0, 0)];
    let answer = begun(&bench, &desk_with(&bench, &slots));
    assert_eq!(answer.desk.kinds[..4], [FILLING, FILLING, TAIL, FILLING]);
    assert_eq!(answer.count, 3);
}

/// A slot that starts to play counts in the grants of the same begin: it holds the floor with the
/// first request's lead of 0, and not with the second's.
#[test]
fn new_players_count() {
    let bench = bench();
    let slots = [(ASKED, 3, 0), (FILLING, 1, BLOCK), (ASKED, 0, 0)];
    let answer = begun(&bench, &desk_with(&bench, &slots));
    assert_eq!(answer.desk.kinds[..3], [FILLING, PLAYING, ASKED]);
    let slots = [(ASKED, 3, 0), (FILLING, 1, BLOCK - 1), (ASKED, 0, 0)];
    let answer = begun(&bench, &desk_with(&bench, &slots));
    assert_eq!(answer.desk.kinds[..3], [FILLING, FILLING, FILLING]);
}

/// A filling slot's own lead is part of the floor that it has to hold.
#[test]
fn play_starts_at_the_floor() {
    let bench = bench();
    for (held, kind) in [(BLOCK + 777, FILLING), (BLOCK + 778, PLAYING)] {
        let answer = begun(&bench, &desk_with(&bench, &[(FILLING, 2, held)]));
        assert_eq!(answer.desk.kinds[0], kind, "lead(2) is 3110: 777.5 bytes");
    }
}

/// A block is fetched where held + B is at most the buffer.
#[test]
fn fetched_while_it_fits() {
    let bench = bench();
    let room = bench.plan.buffer - BLOCK;
    let slots = [(FILLING, 1, room), (FILLING, 1, room + 1), (PLAYING, 3, room), (TAIL, 6, 1)];
    let answer = begun(&bench, &desk_with(&bench, &slots));
    let entry = |position, slot, block| Entry { position, slot, block };
    assert_eq!(answer.entries, [entry(4, 2, 3), entry(5, 0, 1)]);
    assert_eq!(answer.bound, 16_700 + 15_720 + 2 * 12_670 + 15_000);
}

/// Entries go by rising position, then slot.
#[test]
fn order_of_entries() {
    let bench = bench();
    let nexts = [1, 0, 5, 0, 3, 1];
    let slots = nexts.map(|next| (FILLING, next, 0));
    let entries = begun(&bench, &desk_with(&bench, &slots)).entries;
    let order: Vec<(u32, u32)> = entries.iter().map(|e| (e.position, e.slot)).collect();
    assert_eq!(order, [(0, 1), (0, 3), (3, 2), (4, 4), (5, 0), (5, 5)]);
}

// Rules of end.

/// Each held loses its draw; each fetched slot gains B and its next block rises by one.
#[test]
fn ends_of_slots() {
    let bench = bench();
    let full = bench.plan.buffer;
    let slots = [
        (PLAYING, 1, BLOCK + 100),
        (FILLING, 1, 5),
        (FILLING, 5, 0),
        (PLAYING, 5, BLOCK),
        (PLAYING, 1, full),
        (TAIL, 6, 30),
        (TAIL, 6, 40),
        (ASKED, 0, 0),
    ];
    let desk = sweeping(&bench, &slots);
    assert!(sound(&bench, &desk));
    let drawn = [(0, 100), (3, 7), (4, 9), (5, 30), (6, 39)];
    let answer = call(&bench, &desk, draws(16, &drawn));
    let after = [
        (PLAYING, 2, 2 * BLOCK),
        (FILLING, 2, 5 + BLOCK),
        (TAIL, 6, BLOCK),
        (TAIL, 6, 2 * BLOCK - 7),
        (PLAYING, 1, full - 9),
        (FREE, 0, 0),
        (TAIL, 6, 1),
        (ASKED, 0, 0),
    ];
    assert_eq!((answer.number, answer.desk), (0, desk_with(&bench, &after)));
}

/// A film of two blocks from its last one: filling, tail without playing, drawn empty, free.
#[test]
fn tail_without_playing() {
    let figures = figures_of(&[(2, 1)], 2, 15_003, 1_000_000).with_moves(1, 15_000);
    let planned = plan_record(&figures, 2, 2).unwrap();
    assert_eq!(planned.plan.streams, 1);
    let mut desk = call(&planned, &desk_with(&planned, &[]), Call::Join { slot: 0, block: 1 }).desk;
    desk = call(&planned, &desk, Call::Begin { fetch_list: 1 }).desk;
    assert_eq!(refusal(&planned, &desk, draws(1, &[(0, 1)])), (20, 0));
    desk = call(&planned, &desk, draws(1, &[])).desk;
    assert_eq!(desk, desk_with(&planned, &[(TAIL, 2, 15_003)]));
    // The bound of an empty sweep is the return: 15000 bytes of 15003, then the rest.
    desk = call(&planned, &desk, Call::Begin { fetch_list: 1 }).desk;
    assert_eq!(refusal(&planned, &desk, draws(1, &[(0, 15_001)])), (20, 0));
    desk = call(&planned, &desk, draws(1, &[(0, 15_000)])).desk;
    desk = call(&planned, &desk, Call::Begin { fetch_list: 1 }).desk;
    assert_eq!(refusal(&planned, &desk, draws(1, &[(0, 4)])), (21, 0));
    desk = call(&planned, &desk, draws(1, &[(0, 3)])).desk;
    assert_eq!(desk, desk_with(&planned, &[]));
}

// Any desk and any call.

/// What holds of an accepted begin on a sound desk. An altered desk may have a plan of its own.
fn check_begin(planned: &Planned, before: &Desk, answer: &Answer) {
    let figures = &before.plan.figures;
    let desk = &answer.desk;
    assert_eq!((&desk.plan, desk.phase), (&before.plan, SWEEPING));
    assert_eq!((desk.next, desk.held), (before.next, before.held));
    assert_eq!(answer.count as usize, answer.entries.len());
    assert!(answer.entries.windows(2).all(|two| two[0] < two[1]));
    let mut bound = figures.table[answer.entries.len()];
    for entry in &answer.entries {
        let slot = entry.slot as usize;
        assert!(is_fetched(desk, slot));
        assert_eq!(entry.block, desk.next[slot]);
        assert_eq!(entry.position, planned.positions[entry.block as usize]);
        bound += time(figures, desk.showing(), entry.block);
    }
    assert_eq!(answer.bound, bound);
    let fetched = (0..SLOTS).filter(|&slot| is_fetched(desk, slot)).count();
    assert_eq!(fetched, answer.entries.len());
    let low = floor(desk, &planned.leads);
    assert!(TWO_MILLION * drawn_in(figures.rate, bound) <= low);
    for slot in 0..SLOTS {
        check_kind_after_begin(before, desk, slot);
    }
}

/// Only asked to filling and filling to playing.
fn check_kind_after_begin(before: &Desk, after: &Desk, slot: usize) {
    let kinds = (before.kinds[slot], after.kinds[slot]);
    let changed = kinds == (ASKED, FILLING) || kinds == (FILLING, PLAYING);
    assert!(changed || kinds.0 == kinds.1, "{kinds:?}");
}

/// A refused call leaves the desk; an accepted one leaves it sound. All refusals are met.
#[test]
fn any_call_on_any_desk() {
    let mut rng = Rng::new(22);
    let mut met = [0; 22];
    for case in 0..3000 {
        let planned = desk_plan_for(&mut rng, Showing::ALL[case % 2]);
        for _ in 0..20 {
            let (desk, step) = any_step(&mut rng, &planned);
            let Step { positions, leads, call } = step;
            let answer = answer(&desk, &positions, &leads, &call);
            met[answer.number as usize] += 1;
            if !answer.accepted() {
                assert_eq!(answer.desk, desk);
                assert_eq!((answer.count, answer.bound), (0, 0));
                assert_eq!(answer.number == 14, !is_sound(&desk, &positions, &leads));
                continue;
            }
            assert!(sound(&planned, &answer.desk), "{desk:?} {call:?}");
            if let Call::Begin { .. } = call {
                check_begin(&planned, &desk, &answer);
            }
        }
    }
    for number in [0].into_iter().chain(13..=21) {
        assert!(met[number] > 50, "refusal {number}: {met:?}");
    }
}

/// A playing slot holds all that it may draw, so a draw above held is met at tails only, and in a
/// loop not at all.
#[test]
fn only_tails_run_dry() {
    let mut rng = Rng::new(23);
    let mut dry = 0;
    for case in 0..40_000 {
        let planned = desk_plan_for(&mut rng, Showing::ALL[case % 2]);
        let desk = Desk { phase: SWEEPING, ..sound_desk(&mut rng, &planned) };
        assert!(sound(&planned, &desk));
        let limit = drawn_in(planned.plan.figures.rate, sweep_bound(&desk)) as u32;
        let n = planned.plan.streams as usize;
        let slot = rng.below(n);
        let answer = call(&planned, &desk, draws(n, &[(slot, limit)]));
        if answer.number == 21 {
            dry += 1;
            assert_eq!(desk.showing(), Showing::Once);
            assert_eq!((desk.kinds[slot], answer.place), (TAIL, slot as u64));
        }
    }
    assert!(dry > 50, "{dry}");
}

/// Any record may be judged, corrupted ones too; some altered ones stay sound.
#[test]
fn any_record_is_judged() {
    let mut rng = Rng::new(24);
    let mut counts = [0, 0];
    for case in 0..4000 {
        let planned = desk_plan_for(&mut rng, Showing::ALL[case % 2]);
        for _ in 0..10 {
            let desk = any_desk(&mut rng, &planned);
            counts[sound(&planned, &desk) as usize] += 1;
        }
    }
    assert!(counts[0] > 1000 && counts[1] > 1000, "{counts:?}");
}
