//! Films shown round and round: request 7 of 02. What holds of both showings is tried with the
//! plans, desks and books.

use film_disk_model::bench::{
    bench_blocks, bench_film, bench_zero_time, figures_of, film_of, three_alike, two_alike,
};
use film_disk_model::desk::{drawn_in, ASKED, FILLING, FREE, PLAYING, SWEEPING, TAIL};
use film_disk_model::plan::{is_laying, leads_by_runs, plan_of, positions, time_at, times};
use film_disk_model::rng::cards::any_card;
use film_disk_model::rng::figures::{large_figures, small_figures};
use film_disk_model::shelf::one_film_card;
use film_disk_model::*;
use std::collections::VecDeque;

/// B of the bench film.
const BLOCK: u32 = 262_144;

fn looped(figures: &Figures) -> Planned {
    let entries = figures.blocks as usize;
    plan_loop_record(figures, entries, entries).expect("an accepted record")
}

// Plans.

/// 01's one-zone case has the same worst2 and leads as a loop.
#[test]
fn one_zone_of_three() {
    let planned = looped(&three_alike());
    assert_eq!(planned.positions, [0, 2, 1]);
    assert_eq!(planned.plan.worst2, 40_000);
    assert_eq!(planned.leads, [0, 0, 0]);
}

#[test]
fn bench_listing_of_a_loop() {
    let text = "\
streams 15
buffer 807320
worst2 38970
worstat 5
margin 5570
block position time lead
0 0 22270 5570
1 5 15720 0
2 1 20550 2130
3 3 17810 0
4 2 19090 0
5 4 16700 0
";
    let card = card_bytes(&bench_film());
    assert_eq!(loop_listing(&one_film_card(&bench_film())), text);
    assert_eq!(plan_loop_card(&card, 6, 6), Ok(looped(&bench_film())));
    assert_eq!(loop_listing(&one_film_card(&bench_zero_time())), "refused 6 at 7\n");
}

/// Three zones of times 30, 20 and 10: positions, worst2, margin and leads for each N.
#[test]
fn every_film_on_three_zones() {
    let cases: [(&[u32], u32, u32, &[u32]); 6] = [
        (&[5, 6], 20, 0, &[0, 0]),
        (&[4, 6, 5], 30, 10, &[10, 0, 0]),
        (&[3, 6, 4, 5], 30, 10, &[10, 0, 10, 0]),
        (&[2, 6, 3, 4, 5], 40, 0, &[0, 0, 0, 0, 0]),
        (&[1, 6, 2, 4, 3, 5], 40, 20, &[20, 0, 0, 0, 0, 0]),
        (&[0, 6, 1, 4, 3, 2, 5], 50, 10, &[10, 0, 10, 0, 0, 0, 0]),
    ];
    for (positions, worst2, margin, leads) in cases {
        let zones = [(2, 30), (3, 20), (2, 10)];
        let planned = looped(&figures_of(&zones, positions.len() as u32, BLOCK, 500_000));
        assert_eq!((&planned.positions[..], &planned.leads[..]), (positions, leads));
        assert_eq!((planned.plan.worst2, planned.plan.margin), (worst2, margin));
    }
}

/// The loop's laying as ranks are dealt out: from rank 0 in turn after the last and before the
/// first, two of the quickest left, then two of the slowest left.
fn dealt_ranks(blocks: u32) -> Vec<u32> {
    let mut left: VecDeque<u32> = (1..blocks).collect();
    let mut circle = VecDeque::from([0]);
    for turn in 0..blocks - 1 {
        let rank = if turn % 4 < 2 { left.pop_back() } else { left.pop_front() };
        match turn % 2 {
            0 => circle.push_back(rank.unwrap()),
            _ => circle.push_front(rank.unwrap()),
        }
    }
    let first = circle.iter().position(|&rank| rank == 0).unwrap();
    circle.rotate_left(first);
    circle.into()
}

#[test]
fn ranks_of_the_laying() {
    assert_eq!(dealt_ranks(6), [0, 5, 1, 3, 2, 4]);
    for blocks in (2..300).chain(16_380..=16_384) {
        let figures = figures_of(&[(blocks, 1)], blocks, 1, 1);
        assert_eq!(positions(&figures, Showing::Loop), dealt_ranks(blocks));
        let figures = figures_of(&[(blocks + 7, 1)], blocks, 1, 1);
        let raised: Vec<u32> = dealt_ranks(blocks).iter().map(|rank| rank + 7).collect();
        assert_eq!(positions(&figures, Showing::Loop), raised);
    }
}

/// The best worst time over a circle: for N 2 the sum of both, else the greatest sum of two whose
/// ranks add up to N - 2.
fn best_over_the_circle(figures: &Figures) -> u32 {
    let blocks = figures.blocks;
    let lowest = figures.total_positions() as u32 - blocks;
    let ranked = |rank| time_at(figures, lowest + rank);
    match blocks {
        2 => ranked(0) + ranked(1),
        _ => (0..(blocks - 1) / 2).map(|i| ranked(i) + ranked(blocks - 2 - i)).max().unwrap(),
    }
}

/// A lead by runs is what the block itself is above worst2, if it is.
fn check_closed_forms(figures: &Figures) {
    let times = times(figures, Showing::Loop);
    let worst2 = best_over_the_circle(figures);
    assert_eq!(plan::worst2(figures, Showing::Loop), worst2, "{figures:?}");
    let leads: Vec<u32> = times.iter().map(|time| (2 * time).saturating_sub(worst2)).collect();
    assert_eq!(leads_by_runs(&times, Showing::Loop, worst2), leads, "{figures:?}");
    if let Some(planned) = plan_of(figures, Showing::Loop) {
        assert!(is_laying(figures, &planned.positions));
        assert_eq!((planned.plan.worst2, &planned.leads), (worst2, &leads));
        assert_eq!(leads.iter().max(), Some(&planned.plan.margin));
    }
}

#[test]
fn closed_forms() {
    let mut rng = Rng::new(41);
    for _ in 0..3000 {
        check_closed_forms(&small_figures(&mut rng, 60));
    }
    for _ in 0..30 {
        let figures = large_figures(&mut rng);
        check_closed_forms(&Figures { blocks: figures.blocks.min(1000), ..figures });
    }
    // The longest film over 64 zones, and one block less.
    let zones: Vec<(u32, u32)> = (0..64).map(|zone| (256, 40_000 - 300 * zone)).collect();
    for blocks in [16_383, 16_384] {
        check_closed_forms(&figures_of(&zones, blocks, 4_194_304, 500_000));
    }
}

/// The refusals and their order are those of one showing; only 12 may come for a loop alone, whose
/// worst2 may be the greater one.
#[test]
fn refusals_of_cards() {
    let mut rng = Rng::new(42);
    let mut met = [0; 27];
    for _ in 0..20_000 {
        let card = any_card(&mut rng);
        let blocks = read_card(&card).map_or(2, |figures| figures.blocks as usize);
        let short = [blocks, blocks, blocks, blocks - 1, 0];
        let (positions, leads) = (rng.pick(&short), rng.pick(&short));
        let round = plan_loop_card(&card, positions, leads);
        match plan_card(&card, positions, leads) {
            Err(refusal) => assert_eq!(round, Err(refusal)),
            Ok(_) => assert!(matches!(round, Ok(_) | Err(Refusal { number: 12, place: 0 }))),
        }
        met[round.map_or_else(|refusal| refusal.number as usize, |_| 0)] += 1;
        if let Ok(figures) = read_card(&card) {
            let record = plan_loop_record(&figures, positions, leads);
            assert_eq!(record, plan_loop_card(&card, positions, leads));
        }
    }
    assert!(met[..14].iter().chain([&met[26]]).all(|&count| count > 20), "{met:?}");
}

#[test]
fn refusals_of_records() {
    let refused = |figures: &Figures, positions, leads| {
        plan_loop_record(figures, positions, leads).expect_err("a refusal")
    };
    let at_zero = |number| Refusal { number, place: 0 };
    assert_eq!(refused(&Figures::zero(), 0, 0), at_zero(3));
    assert_eq!(refused(&bench_zero_time(), 0, 0), at_zero(6));
    assert_eq!(refused(&bench_blocks(1), 0, 0), at_zero(8));
    assert_eq!(refused(&bench_blocks(7), 0, 0), at_zero(9));
    assert_eq!(refused(&two_alike(23_834).with_moves(12_670, 0), 0, 0), at_zero(10));
    assert_eq!(refused(&two_alike(23_834), 1, 2), at_zero(13));
    assert_eq!(refused(&two_alike(23_834), 2, 1), at_zero(13));
    assert_eq!(refused(&two_alike(23_834), 2, 2), at_zero(12));
    assert_eq!(looped(&two_alike(23_835)).plan.streams, 1);
}

// The word of the showing.

/// The plan with the word turned over.
fn turned(planned: &Planned) -> Planned {
    let plan = Plan { showing: 1 - planned.plan.showing, ..planned.plan.clone() };
    Planned { plan, ..planned.clone() }
}

/// Each list of so many times from 1 to 3 that never rises.
fn falling_times(count: u32) -> Vec<Vec<u32>> {
    let digits = |code: u32| (0..count).map(|place| code / 3_u32.pow(place) % 3 + 1).collect();
    let lists = (0..3_u32.pow(count)).map(digits);
    lists.filter(|times: &Vec<u32>| times.windows(2).all(|two| two[0] >= two[1])).collect()
}

/// Are the plan and the loop of a film on these positions the same but for the word?
fn differ_in_the_word_alone(times: &[u32]) -> bool {
    match times {
        [_, _] => true,
        [_, one, two] => one == two,
        [zero, one, two, three] => zero == one || two == three,
        _ => false,
    }
}

/// Every call on a desk: is it turned down with 14?
fn all_unsound(desk: &Desk, planned: &Planned) -> bool {
    let n = planned.plan.streams as usize;
    let calls = [
        Call::Join { slot: 0, block: 0 },
        Call::Leave { slot: 0 },
        Call::Begin { fetch_list: n },
        Call::End { draws: vec![0; n] },
    ];
    let numbers = calls.map(|call| answer(desk, &planned.positions, &planned.leads, &call).number);
    let is = numbers.contains(&14);
    assert_eq!(is, numbers == [14; 4]);
    assert_eq!(is, !is_sound(desk, &planned.positions, &planned.leads));
    is
}

/// A plan with the other showing's word is that showing's plan too, or 14 in every call.
#[test]
fn words_turned_over() {
    for times in (2..=7).flat_map(falling_times) {
        let figures = film_of(&times);
        let same = differ_in_the_word_alone(&times);
        let plans = Showing::ALL.map(|showing| plan_of(&figures, showing).unwrap());
        assert_eq!(turned(&plans[0]) == plans[1], same, "{times:?}");
        for planned in plans {
            let other = turned(&planned);
            let opened = open(&other.plan, &other.positions, &other.leads);
            assert_eq!(opened.is_ok(), same);
            assert!(same || opened == Err(Refusal { number: 14, place: 0 }));
            assert_eq!(all_unsound(&Desk::all_free(&other.plan), &other), !same);
        }
    }
}

#[test]
fn other_words() {
    for figures in [two_alike(BLOCK), three_alike(), bench_film()] {
        for planned in Showing::ALL.map(|showing| plan_of(&figures, showing).unwrap()) {
            for showing in [2, 3, 4, 256, 65_536, u32::MAX] {
                let plan = Plan { showing, ..planned.plan.clone() };
                let opened = open(&plan, &planned.positions, &planned.leads);
                assert_eq!(opened, Err(Refusal { number: 14, place: 0 }));
                assert!(all_unsound(&Desk::all_free(&plan), &planned));
            }
        }
    }
}

// The desk.

/// A desk on the plan with these slots: kind, next, held. Those that ask did so in slot order.
fn desk_with(planned: &Planned, phase: u32, slots: &[(u32, u32, u32)]) -> Desk {
    let mut desk = Desk { phase, ..Desk::all_free(&planned.plan) };
    for (slot, &(kind, next, held)) in slots.iter().enumerate() {
        (desk.kinds[slot], desk.next[slot], desk.held[slot]) = (kind, next, held);
        desk.places[slot] = if kind == ASKED { desk.waiting() } else { 0 };
    }
    desk
}

/// In a looped record kind 4 is unsound, and next is below N. A plan that is a loop's too but for
/// the word may have a tail only under the word of one showing.
#[test]
fn no_tail_is_sound() {
    let planned = looped(&bench_film());
    for slot in [(TAIL, 6, 1), (TAIL, 6, BLOCK), (TAIL, 5, BLOCK), (TAIL, 0, 1), (TAIL, 0, 0)] {
        for phase in [0, 1] {
            assert!(all_unsound(&desk_with(&planned, phase, &[slot]), &planned), "{slot:?}");
        }
    }
    for kind in [ASKED, FILLING, PLAYING] {
        let held = if kind == PLAYING { BLOCK } else { 0 };
        assert!(all_unsound(&desk_with(&planned, 0, &[(kind, 6, held)]), &planned));
        assert!(!all_unsound(&desk_with(&planned, 0, &[(kind, 5, held)]), &planned));
    }
    let planned = looped(&two_alike(BLOCK));
    let once = turned(&planned);
    for (tail, is_loop) in [((TAIL, 2, 1), false), ((FILLING, 1, 1), true)] {
        assert!(!all_unsound(&desk_with(&once, 0, &[tail]), &once));
        assert_eq!(!all_unsound(&desk_with(&planned, 0, &[tail]), &planned), is_loop);
    }
}

/// The next block after the last is 0, and the slot goes on as it was.
#[test]
fn first_block_after_the_last() {
    let planned = looped(&bench_film());
    let full = planned.plan.buffer;
    let before = [
        (PLAYING, 5, BLOCK),
        (FILLING, 5, 0),
        (PLAYING, 4, BLOCK + 9),
        (PLAYING, 5, full),
        (ASKED, 5, 0),
    ];
    let after = [
        (PLAYING, 0, 2 * BLOCK - 7),
        (FILLING, 0, BLOCK),
        (PLAYING, 5, 2 * BLOCK),
        (PLAYING, 5, full - 11),
        (ASKED, 5, 0),
    ];
    let mut draws = [0; 15];
    (draws[0], draws[2], draws[3]) = (7, 9, 11);
    let desk = desk_with(&planned, SWEEPING, &before);
    let ended = end(&desk, &planned.positions, &planned.leads, &draws);
    assert_eq!(ended, Ok(desk_with(&planned, 0, &after)));
}

/// Screens of a loop.
const SCREENS: usize = 5;

struct Lobby {
    planned: Planned,
    run: Run,
}

impl Lobby {
    /// Each screen starts so many blocks on as its slot says.
    fn open(figures: &Figures) -> Lobby {
        let planned = looped(figures);
        let desk = open(&planned.plan, &planned.positions, &planned.leads).unwrap();
        let mut lobby = Lobby { run: Run::new(desk), planned };
        for slot in 0..SCREENS as u32 {
            lobby.call(Call::Join { slot, block: slot % figures.blocks });
        }
        lobby
    }

    /// An accepted call, after which the book's claim holds.
    fn call(&mut self, call: Call) -> Answer {
        let (positions, leads) = (self.planned.positions.clone(), self.planned.leads.clone());
        let answer = self.run.call(&Step { positions, leads, call }).unwrap();
        assert_eq!((answer.number, answer.place), (0, 0));
        answer
    }

    /// A sweep in which every playing screen draws all it may. A screen's fetches go block by block,
    /// the first after the last.
    fn sweep(&mut self) {
        let n = self.planned.plan.streams as usize;
        let begun = self.call(Call::Begin { fetch_list: n });
        for entry in &begun.entries {
            let slot = entry.slot as usize;
            let gone = slot + self.run.book.rows[slot].fetched as usize;
            let block = gone % self.planned.positions.len();
            assert_eq!(entry.block as usize, block);
            assert_eq!(entry.position, self.planned.positions[block]);
        }
        let limit = drawn_in(self.planned.plan.figures.rate, begun.bound) as u32;
        let kinds = &begun.desk.kinds[..n];
        assert!(!kinds.contains(&TAIL));
        let draws = kinds.iter().map(|&kind| if kind == PLAYING { limit } else { 0 }).collect();
        self.call(Call::End { draws });
    }
}

/// Screens of the bench film play four times round and more. Only a leave ends one.
#[test]
fn lobby_screens_go_round() {
    for figures in (2..=6).map(bench_blocks).chain([three_alike()]) {
        let mut lobby = Lobby::open(&figures);
        let rounds = 4 * figures.blocks as u128 * figures.block_bytes as u128;
        let mut sweeps = 0;
        while lobby.run.book.rows[..SCREENS].iter().any(|row| row.drawn < rounds) {
            lobby.sweep();
            sweeps += 1;
            assert!(sweeps < 1000);
        }
        assert_eq!(lobby.run.desk.kinds[..SCREENS], [PLAYING; SCREENS]);
        lobby.call(Call::Leave { slot: 0 });
        assert_eq!(lobby.run.desk.kinds[0], FREE);
        assert!(!lobby.run.book.rows[0].open);
    }
}
