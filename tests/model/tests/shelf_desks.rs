//! The sweep desk on a shelf of films: request 14 of 02. Slots and joins with a film, lists of calls
//! with the book, the order of the requests, and the scratch in place of the leads.

use film_disk_model::bench::{bench_film, film_of};
use film_disk_model::desk::{ASKED, FILLING, FREE, PLAYING, SWEEPING, TAIL};
use film_disk_model::plan::time_at;
use film_disk_model::queue::Queue;
use film_disk_model::rng::desks::{full_house, temper, Draw, Temper};
use film_disk_model::rng::shelf::cards::any_shelf_card;
use film_disk_model::rng::shelf::desks::{any_step, fair_draws, next_step, sound_desk};
use film_disk_model::rng::shelf::{large_shelf_plan, shelf_plan, shelf_plan_of};
use film_disk_model::scratch::SCRATCH;
use film_disk_model::shelf::book::most_sweeps;
use film_disk_model::shelf::desk::{is_fetched, most_fetches};
use film_disk_model::shelf::plan::plan_of;
use film_disk_model::shelf::scratch::full_leads;
use film_disk_model::shelf::{
    answer, answer_scratch, is_plan_with_positions, is_sound, open, open_scratch, plan_card,
    plan_card_scratch, plan_record, plan_record_scratch, Answer, Call, Desk, Figures, Planned,
    Rule, Run, Step,
};
use film_disk_model::{desk, plan, Entry, Refusal, Rng, SLOTS};

/// B of the bench film.
const BLOCK: u32 = 262_144;
const TOO_SHORT: Refusal = Refusal { number: 13, place: 0 };
const NOT_SOUND: Refusal = Refusal { number: 14, place: 0 };

/// The bench disk with films of 2 and 3 blocks: positions 4, 5 and 1, 3, 2.
fn bench(rule: Rule) -> Planned {
    plan_of(&Figures::of(&bench_film(), &[2, 3]), rule).unwrap()
}

/// Pairs of films of 2 and 3 blocks on ten positions: 6 9, 7 8 and 0 5, 1 4, 2 3.
fn bench_pairs() -> Planned {
    let times = [22, 21, 20, 19, 18, 17, 16, 15, 14, 13].map(|time| 1000 * time);
    plan_of(&Figures::of(&film_of(&times), &[2, 3]), Rule::Pairs).unwrap()
}

/// The same films by each rule.
fn benches() -> [Planned; 3] {
    [bench(Rule::Once), bench(Rule::Loop), bench_pairs()]
}

/// A desk with these first slots, each kind, film, next block and held bytes; asked ones in order.
fn desk_with(planned: &Planned, phase: u32, slots: &[(u32, u32, u32, u32)]) -> Desk {
    let mut desk = Desk { phase, ..Desk::all_free(&planned.plan) };
    for (slot, &(kind, film, next, held)) in slots.iter().enumerate() {
        (desk.kinds[slot], desk.films[slot]) = (kind, film);
        (desk.next[slot], desk.held[slot]) = (next, held);
        if kind == ASKED {
            desk.places[slot] = desk.waiting();
        }
    }
    desk
}

fn sound(planned: &Planned, desk: &Desk) -> bool {
    is_sound(desk, &planned.positions, &planned.leads)
}

fn made(planned: &Planned, desk: &Desk, call: Call) -> Answer {
    answer(desk, &planned.positions, &planned.leads, &call)
}

fn entries(rows: &[(u32, u32, u32)]) -> Vec<Entry> {
    rows.iter().map(|&(position, slot, block)| Entry { position, slot, block }).collect()
}

// By hand.

/// Two rooms on each film: entries by rising position with blocks within the films, tails at each
/// film's own N.
#[test]
fn rooms_of_two_films() {
    let planned = bench(Rule::Once);
    let Planned { plan, positions, leads } = &planned;
    let n = plan.streams as usize;
    let mut run = Run::new(open(plan, positions, leads).unwrap());
    let mut call = |call| {
        let step = Step { positions: positions.clone(), leads: leads.clone(), call };
        run.call(&step).unwrap()
    };
    for (slot, block, film) in [(0, 0, 1), (1, 0, 0), (2, 1, 0), (3, 1, 1)] {
        let joined = call(Call::Join { slot, block, film }).desk;
        let slot = slot as usize;
        assert_eq!((joined.kinds[slot], joined.next[slot]), (ASKED, block));
        assert_eq!((joined.films[slot], joined.places[slot]), (film, slot as u32 + 1));
    }
    let begun = call(Call::Begin { fetch_list: n });
    assert_eq!(begun.entries, entries(&[(1, 0, 0), (3, 3, 1), (4, 1, 0), (5, 2, 1)]));
    let times = 20_550 + 17_810 + 16_700 + 15_720;
    assert_eq!((begun.count, begun.bound), (4, times + 4 * 12_670 + 15_000));
    let ended = call(Call::End { draws: vec![0; n] }).desk;
    assert_eq!(ended.kinds[..4], [FILLING, FILLING, TAIL, FILLING]);
    assert_eq!(ended.next[..4], [1, 1, 2, 2]);
    assert_eq!(ended.films[..4], [1, 0, 0, 1]);
    let begun = call(Call::Begin { fetch_list: n });
    assert_eq!(begun.entries, entries(&[(2, 3, 2), (3, 0, 1), (5, 1, 1)]));
    let ended = call(Call::End { draws: vec![0; n] }).desk;
    assert_eq!(ended.kinds[..4], [PLAYING, TAIL, TAIL, TAIL]);
    assert_eq!(ended.next[..4], [2, 2, 2, 3]);
    // Leaving and running dry set the film to 0.
    let left = call(Call::Leave { slot: 0 }).desk;
    assert_eq!((left.kinds[0], left.films[0], left.next[0]), (FREE, 0, 0));
}

/// In a loop each film goes round by itself.
#[test]
fn rounds_within_a_film() {
    let planned = bench(Rule::Loop);
    let n = planned.plan.streams as usize;
    let before = [(PLAYING, 0, 1, BLOCK + 2000), (FILLING, 1, 2, 0), (PLAYING, 1, 1, BLOCK + 2000)];
    let desk = desk_with(&planned, SWEEPING, &before);
    assert!(sound(&planned, &desk));
    let ended = made(&planned, &desk, Call::End { draws: vec![0; n] });
    let after = [
        (PLAYING, 0, 0, 2 * BLOCK + 2000),
        (FILLING, 1, 0, BLOCK),
        (PLAYING, 1, 2, 2 * BLOCK + 2000),
    ];
    assert_eq!((ended.number, ended.desk), (0, desk_with(&planned, 0, &after)));
    let tail = desk_with(&planned, 0, &[(TAIL, 1, 3, 5)]);
    assert!(!sound(&planned, &tail));
}

/// The floor adds the leads of slots on all films: 685 bytes for one on the slow film's first block.
#[test]
fn one_floor_for_all_films() {
    let planned = bench(Rule::Once);
    // 500000 × 2740 / 2,000,000 is 685.
    for held in [BLOCK + 684, BLOCK + 685] {
        let slots = [(PLAYING, 0, 1, held), (FILLING, 1, 0, 0)];
        assert_eq!(sound(&planned, &desk_with(&planned, 0, &slots)), held == BLOCK + 685);
    }
    // A room that asks for the slow film waits for a player of the other; one for that film's block 1
    // does not.
    for (block, kind) in [(0, ASKED), (1, FILLING)] {
        let slots = [(PLAYING, 0, 1, BLOCK + 684), (ASKED, 1, block, 0)];
        let desk = desk_with(&planned, 0, &slots);
        assert!(sound(&planned, &desk));
        let begun = made(&planned, &desk, Call::Begin { fetch_list: SLOTS });
        assert_eq!(begun.desk.kinds[1], kind);
    }
    // A filling slot of one film holds the floor with the eldest's lead, of another film, added.
    for (held, kind) in [(BLOCK + 684, FILLING), (BLOCK + 685, PLAYING)] {
        let slots = [(FILLING, 0, 1, held), (ASKED, 1, 0, 0), (ASKED, 0, 0, 0)];
        let begun =
            made(&planned, &desk_with(&planned, 0, &slots), Call::Begin { fetch_list: SLOTS });
        assert_eq!(begun.desk.kinds[..3], [kind, FILLING, FILLING]);
    }
}

/// Joins to every film and to none: 15, 16, 17, then 31, then 18 by that film's N.
#[test]
fn order_of_a_join() {
    for planned in benches() {
        let n = planned.plan.streams;
        let desk = desk_with(&planned, 0, &[(ASKED, 1, 2, 0)]);
        let join = |desk: &Desk, slot, block, film| {
            let answer = made(&planned, desk, Call::Join { slot, block, film });
            assert!(answer.accepted() || answer.desk == *desk);
            (answer.number, answer.place)
        };
        for film in [2, 3, 15, 16, 255, 65_536, u32::MAX] {
            for block in [0, 1, 2, 5, 65_536, u32::MAX] {
                assert_eq!(join(&desk, 1, block, film), (31, 1));
                assert_eq!(join(&desk, 0, block, film), (17, 0));
                assert_eq!(join(&desk, n, block, film), (16, n as u64));
                let sweeping = Desk { phase: SWEEPING, ..desk.clone() };
                assert_eq!(join(&sweeping, n, block, film), (15, 0));
                let other = Desk { phase: 2, ..desk.clone() };
                assert_eq!(join(&other, n, block, film), (14, 0));
            }
        }
        for (film, blocks) in [(0, 2), (1, 3)] {
            for block in 0..blocks {
                assert_eq!(join(&desk, 1, block, film), (0, 0));
            }
            // 65,536 and more never stand for a later film's blocks.
            for block in [blocks, 4, 5, 65_535, 65_536, 65_537, 131_072, u32::MAX] {
                assert_eq!(join(&desk, 1, block, film), (18, 1));
            }
        }
    }
}

/// A slot that names no film of the shelf is 14 for every kind but free, whose film is 0, as is that
/// of slots from n on; next is judged by the slot's own film.
#[test]
fn films_of_slots() {
    for planned in benches() {
        let goes_round = planned.plan.showing == 1;
        let held = |kind| match kind {
            ASKED => 0,
            _ => 2 * BLOCK,
        };
        for kind in 1..=4 {
            for film in [0, 1, 2, 3, 16, u32::MAX] {
                for next in 0..=4 {
                    let desk = desk_with(&planned, 0, &[(kind, film, next, held(kind))]);
                    let is = match [2, 3].get(film as usize) {
                        Some(&blocks) if kind == TAIL => !goes_round && next == blocks,
                        Some(&blocks) => next < blocks,
                        None => false,
                    };
                    assert_eq!(sound(&planned, &desk), is, "kind {kind}, {film}, {next}");
                    let left = made(&planned, &desk, Call::Leave { slot: 0 });
                    assert_eq!(left.number, if is { 0 } else { 14 });
                }
            }
        }
        let right = desk_with(&planned, 0, &[(FILLING, 1, 2, 0)]);
        assert!(sound(&planned, &right));
        for slot in 1..SLOTS {
            for film in [1, 2, u32::MAX] {
                let mut desk = right.clone();
                desk.films[slot] = film;
                assert!(!sound(&planned, &desk), "slot {slot}, film {film}");
            }
        }
    }
}

/// Pairs of two films: two entries a block, from the film's own part of the list.
#[test]
fn pairs_of_two_films() {
    let planned = bench_pairs();
    assert_eq!(planned.positions, [6, 9, 7, 8, 0, 5, 1, 4, 2, 3]);
    let n = planned.plan.streams as usize;
    let desk = desk_with(&planned, 0, &[(ASKED, 1, 2, 0), (ASKED, 0, 0, 0), (ASKED, 1, 2, 0)]);
    assert_eq!(made(&planned, &desk, Call::Begin { fetch_list: 2 * n - 1 }).number, 13);
    let begun = made(&planned, &desk, Call::Begin { fetch_list: 2 * n });
    let expected = [(2, 0, 2), (2, 2, 2), (3, 0, 2), (3, 2, 2), (6, 1, 0), (9, 1, 0)];
    assert_eq!(begun.entries, entries(&expected));
    let times = 2 * (20_000 + 19_000) + 16_000 + 13_000;
    assert_eq!((begun.count, begun.bound), (6, times + 6 * 12_670 + 15_000));
}

// Lists of calls.

/// What lists met.
#[derive(Debug, Default)]
struct Met {
    numbers: [usize; 32],
    grants: usize,
    waits: usize,
    tails: usize,
    rounds: usize,
    full: usize,
    /// Begins with fetches of several films.
    mixed: usize,
    longest: u64,
}

impl Met {
    fn note(&mut self, before: &Desk, call: &Call, answer: &Answer) {
        self.numbers[answer.number as usize] += 1;
        let after = &answer.desk;
        let count = |wanted: (u32, u32)| {
            (0..SLOTS).filter(|&slot| (before.kinds[slot], after.kinds[slot]) == wanted).count()
        };
        match call {
            Call::Begin { .. } if answer.accepted() => {
                self.grants += count((ASKED, FILLING));
                self.waits += count((ASKED, ASKED));
                self.full += (answer.count as usize == most_fetches(before)) as usize;
                let films = answer.entries.iter().map(|entry| after.films[entry.slot as usize]);
                self.mixed += (films.clone().min() != films.max()) as usize;
            }
            Call::End { .. } => {
                self.tails += count((PLAYING, TAIL)) + count((FILLING, TAIL));
                let goes_round = |&slot: &usize| after.next[slot] < before.next[slot];
                let occupied = (0..SLOTS).filter(|&slot| after.kinds[slot] != FREE);
                self.rounds += occupied.filter(goes_round).count();
            }
            _ => {}
        }
    }
}

/// The entries of a begin by the words: for each slot fetched for its film's block, sorted; the bound
/// is their positions' times and the overhead for their number.
fn check_begun(positions: &[u32], answer: &Answer) {
    let Answer { desk, count, bound, entries, .. } = answer;
    let figures = &desk.plan.figures;
    let visits = desk.rule().visits();
    let mut expected = Vec::new();
    for slot in desk.used_slots().filter(|&slot| is_fetched(desk, slot)) {
        let before: u32 = figures.blocks[..desk.films[slot] as usize].iter().sum();
        let block = desk.next[slot];
        let first = visits * (before + block) as usize;
        for &position in &positions[first..first + visits] {
            expected.push(Entry { position, slot: slot as u32, block });
        }
    }
    expected.sort();
    assert_eq!(*entries, expected);
    assert_eq!(*count as usize, entries.len());
    let disk = figures.of_one(0);
    let times: u32 = entries.iter().map(|entry| time_at(&disk, entry.position)).sum();
    assert_eq!(*bound, times + figures.table[entries.len()]);
}

/// Runs a list; each call is checked by the book and by the order of the requests.
fn run_list(rng: &mut Rng, planned: &Planned, temper: &Temper, calls: usize, met: &mut Met) {
    let Planned { plan, positions, leads } = planned;
    let mut run = Run::new(open(plan, positions, leads).unwrap());
    for _ in 0..calls {
        let before = run.desk.clone();
        let step = next_step(rng, planned, &before, temper);
        let answer = match run.call(&step) {
            Ok(answer) => answer,
            Err(fault) => panic!("{fault}: {before:?} {:?}", step.call),
        };
        met.note(&before, &step.call, &answer);
        assert!(sound(planned, &run.desk));
        if answer.accepted() && matches!(step.call, Call::Begin { .. }) {
            check_begun(positions, &answer);
        }
    }
    met.longest = met.longest.max(run.queue.longest);
}

/// Shelves of 1, 2, 3, 16 and other numbers of films, each rule: the book's claim, all slots together,
/// and no request waits longer than G sweeps as the eldest.
#[test]
fn claims_on_random_lists() {
    for rule in Rule::ALL {
        let mut rng = Rng::new(171);
        let mut met = Met::default();
        for case in 0..700 {
            let planned = match case % 140 {
                0 => large_shelf_plan(&mut rng, rule),
                _ => shelf_plan(&mut rng, rule),
            };
            let temper = temper(&mut rng);
            let calls = if case % 140 == 0 { 12 } else { rng.pick(&[5, 20, 60, 150]) };
            run_list(&mut rng, &planned, &temper, calls, &mut met);
        }
        let sort = match rule {
            Rule::Loop => [met.rounds, met.full],
            _ => [met.tails, met.numbers[21]],
        };
        assert!(sort.iter().all(|&count| count > 20), "{rule:?} {met:?}");
        assert!(met.mixed > 500 && met.grants > 1000 && met.full > 20, "{rule:?} {met:?}");
        for number in [0].into_iter().chain(13..=20).chain([31]) {
            assert!(met.numbers[number] > 20, "{rule:?} {number}: {met:?}");
        }
    }
}

/// Full houses, in which rooms leave and ask in the same gap.
#[test]
fn waits_of_full_houses() {
    for rule in Rule::ALL {
        let mut rng = Rng::new(172);
        let mut met = Met::default();
        for case in 0..240 {
            let planned = shelf_plan_of(&mut rng, rule, [1, 2, 3, 16][case % 4]);
            let temper = full_house(&mut rng);
            run_list(&mut rng, &planned, &temper, 150, &mut met);
        }
        assert!(met.grants > 5000 && met.mixed > 500, "{rule:?} {met:?}");
        assert!(met.longest <= 1 && (rule == Rule::Pairs) == (met.waits == 0), "{rule:?} {met:?}");
    }
}

/// From any sound desk between sweeps, most of which no list reaches, requests wait no longer, and a
/// playing slot holds what it may draw.
#[test]
fn waits_from_any_desk() {
    for rule in Rule::ALL {
        let mut rng = Rng::new(173);
        let mut met = Met::default();
        for _ in 0..1000 {
            let planned = shelf_plan(&mut rng, rule);
            let temper = full_house(&mut rng);
            let mut desk = Desk { phase: 0, ..sound_desk(&mut rng, &planned) };
            assert!(sound(&planned, &desk));
            let mut queue = Queue::with_most(most_sweeps(&planned.plan)).waiting_on(&desk);
            for _ in 0..12 {
                let step = next_step(&mut rng, &planned, &desk, &temper);
                let answer = answer(&desk, &step.positions, &step.leads, &step.call);
                met.note(&desk, &step.call, &answer);
                let fed = step.call.without_film();
                queue.feed(&fed, answer.accepted(), &answer.desk).unwrap();
                if answer.accepted() && matches!(step.call, Call::Begin { .. }) {
                    check_begun(&planned.positions, &answer);
                    let most = desk::drawn_in(planned.plan.figures.rate, answer.bound);
                    let kinds = answer.desk.kinds.iter().zip(&answer.desk.held);
                    assert!(kinds.into_iter().all(|(&k, &h)| k != PLAYING || h as u128 >= most));
                }
                desk = answer.desk;
            }
            met.longest = met.longest.max(queue.longest);
        }
        assert!(met.grants > 2000 && met.mixed > 500, "{rule:?} {met:?}");
        assert!((rule == Rule::Pairs) == (met.waits == 0), "{rule:?} {met:?}");
    }
}

// One film.

/// The desk as before there were shelves.
fn one_film_desk(desk: &Desk) -> desk::Desk {
    let plan = &desk.plan;
    let figures = plan.figures.of_one(plan.figures.blocks[0]);
    desk::Desk {
        plan: plan::Plan {
            figures,
            showing: plan.showing,
            streams: plan.streams,
            buffer: plan.buffer,
            worst2: plan.worst2,
            margin: plan.margin,
            worstat: plan.worstat,
        },
        phase: desk.phase,
        kinds: desk.kinds,
        next: desk.next,
        held: desk.held,
        places: desk.places,
    }
}

/// Any call on any desk of one film answers as before; a film other than 0 is 31, or on a slot 14.
#[test]
fn one_film() {
    let mut rng = Rng::new(174);
    let mut met = [0; 32];
    for case in 0..6000 {
        let rule = Rule::ALL[case % 3];
        let planned = shelf_plan_of(&mut rng, rule, 1);
        let (desk, step) = any_step(&mut rng, &planned);
        let Step { positions, leads, call } = &step;
        let answer = answer(&desk, positions, leads, call);
        met[answer.number as usize] += 1;
        let other_film = matches!(call, Call::Join { film, .. } if *film != 0);
        let other_slot = desk.films.iter().any(|&film| film != 0);
        let figures = &desk.plan.figures;
        if figures.films != 1 || figures.blocks[1..].iter().any(|&n| n != 0) || other_slot {
            assert_eq!(answer.number, 14);
            continue;
        }
        let plain = one_film_desk(&desk);
        let fed = call.without_film();
        let expected = film_disk_model::answer(&plain, positions, leads, &fed);
        if other_film && [0, 18].contains(&expected.number) {
            let Call::Join { slot, .. } = call else { panic!() };
            assert_eq!((answer.number, answer.place), (31, *slot as u64));
            continue;
        }
        assert_eq!((answer.number, answer.place), (expected.number, expected.place));
        assert_eq!((answer.count, answer.bound), (expected.count, expected.bound));
        assert_eq!(answer.entries, expected.entries);
        assert_eq!(one_film_desk(&answer.desk), expected.desk);
        assert_eq!(answer.desk.films, [0; SLOTS]);
    }
    for number in [0].into_iter().chain(13..=20).chain([31]) {
        assert!(met[number] > 10, "{number}: {met:?}");
    }
}

// The scratch.

/// Numbers of no meaning, 512 or more.
fn long(rng: &mut Rng) -> Vec<u32> {
    let spare = rng.pick(&[0, 0, 1, 600]);
    (0..SCRATCH + spare).map(|_| rng.any()).collect()
}

/// The planner by a scratch: as by the lists, 13 for a short one at its usual place.
#[test]
fn plans_by_a_scratch() {
    let mut rng = Rng::new(175);
    let mut met = [0; 32];
    for case in 0..3000 {
        let rule = Rule::ALL[case % 3];
        let card = any_shelf_card(&mut rng, rule);
        let positions = rng.pick(&[0, 5, 32_768, 32_768, 32_768]);
        let by_list = plan_card(&card, rule, positions, 16_384);
        met[by_list.as_ref().map_or_else(|refusal| refusal.number, |_| 0) as usize] += 1;
        assert_eq!(plan_card_scratch(&card, rule, positions, 512), by_list);
        let short = plan_card_scratch(&card, rule, positions, 511);
        assert_eq!(short, plan_card(&card, rule, positions, 0));
        if let Ok(planned) = by_list {
            assert_eq!(full_leads(&planned.plan), planned.leads);
            let figures = &planned.plan.figures;
            assert_eq!(plan_record_scratch(figures, rule, positions, 512), Ok(planned.clone()));
            assert_eq!(plan_record_scratch(figures, rule, positions, 511), Err(TOO_SHORT));
            assert_eq!(plan_record(figures, rule, positions, 16_384), Ok(planned));
        }
    }
    assert!([0, 12, 13, 30].iter().all(|&number| met[number] > 20), "{met:?}");
}

/// Any call on any desk: a long scratch answers as the full list does, whatever it holds; a short one
/// is 13 ahead of 14, and the desk stays.
#[test]
fn calls_by_a_scratch() {
    let mut rng = Rng::new(176);
    let mut met = [0; 32];
    for case in 0..6000 {
        let planned = shelf_plan(&mut rng, Rule::ALL[case % 3]);
        let (desk, step) = any_step(&mut rng, &planned);
        let Step { positions, call, .. } = &step;
        let listed = answer(&desk, positions, &full_leads(&desk.plan), call);
        let scratch = long(&mut rng);
        assert_eq!(answer_scratch(&desk, positions, &scratch, call), listed);
        met[listed.number as usize] += 1;
        let short = answer_scratch(&desk, positions, &scratch[..rng.below(SCRATCH)], call);
        assert_eq!((short.number, short.place, short.count, short.bound), (13, 0, 0, 0));
        assert_eq!((&short.desk, short.entries), (&desk, Vec::new()));
        let opened = open_scratch(&desk.plan, positions, &scratch);
        let expected = match is_plan_with_positions(&desk.plan, positions) {
            true => Ok(Desk::all_free(&desk.plan)),
            false => Err(NOT_SOUND),
        };
        assert_eq!(opened, expected);
        assert_eq!(open_scratch(&desk.plan, positions, &scratch[..511]), Err(TOO_SHORT));
    }
    for number in [0].into_iter().chain(13..=21).chain([31]) {
        assert!(met[number] > 5, "{number}: {met:?}");
    }
}

/// A list of calls by lists and by a scratch: the same answers and desks.
#[test]
fn lists_by_a_scratch() {
    let mut rng = Rng::new(177);
    let mut accepted = 0;
    for case in 0..240 {
        let planned = shelf_plan(&mut rng, Rule::ALL[case % 3]);
        let temper = temper(&mut rng);
        let desk = open(&planned.plan, &planned.positions, &planned.leads).unwrap();
        let (mut listed, mut other) = (Run::new(desk.clone()), Run::new(desk));
        for _ in 0..60 {
            let mut step = next_step(&mut rng, &planned, &listed.desk, &temper);
            step.leads = planned.leads.clone();
            let answer = listed.call(&step).unwrap();
            accepted += answer.accepted() as usize;
            let scratch = long(&mut rng);
            assert_eq!(other.call_scratch(&step, &scratch[..511]).unwrap().number, 13);
            assert_eq!(other.call_scratch(&step, &scratch), Ok(answer));
        }
    }
    assert!(accepted > 5000, "{accepted}");
}

// Draws.

/// Fair draws of a desk on several films are accepted, and one byte more of a player is 20 or 21.
#[test]
fn draws_at_the_limit() {
    let mut rng = Rng::new(178);
    let mut met = [0; 2];
    for case in 0..1500 {
        let planned = shelf_plan(&mut rng, Rule::ALL[case % 3]);
        let desk = Desk { phase: SWEEPING, ..sound_desk(&mut rng, &planned) };
        let draws = fair_draws(&mut rng, &desk, Draw::Full);
        assert_eq!(made(&planned, &desk, Call::End { draws: draws.clone() }).number, 0);
        let slot = rng.below(draws.len());
        let mut more = draws;
        more[slot] += 1;
        let refused = made(&planned, &desk, Call::End { draws: more });
        assert_eq!((refused.place, &refused.desk), (slot as u64, &desk));
        met[(refused.number - 20) as usize] += 1;
    }
    assert!(met[0] > 500 && met[1] > 10, "{met:?}");
}
