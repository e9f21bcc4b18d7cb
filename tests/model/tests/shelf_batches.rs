//! Batches on a shelf of films: requests 6 and 14 of 02. An item has number, slot, block and film.

use film_disk_model::bench::film_of;
use film_disk_model::desk::{ASKED, PLAYING, SWEEPING};
use film_disk_model::rng::batches::old_answers;
use film_disk_model::rng::desks::temper;
use film_disk_model::rng::shelf::batches::{any_batch, some_items, Lent};
use film_disk_model::rng::shelf::desks::{next_step, sound_desk};
use film_disk_model::rng::shelf::{large_shelf_plan, shelf_plan, shelf_plan_of};
use film_disk_model::scratch::SCRATCH;
use film_disk_model::shelf::plan::plan_of;
use film_disk_model::shelf::scratch::full_leads;
use film_disk_model::shelf::{
    batch, batch_scratch, is_sound, open, singly, Call, Desk, Figures, Item, Planned, Rule, Run,
    Step,
};
use film_disk_model::{ItemAnswer, Refusal, Rng};

const TOO_SHORT: Refusal = Refusal { number: 13, place: 0 };
const NOT_SOUND: Refusal = Refusal { number: 14, place: 0 };
const ACCEPTED: ItemAnswer = ItemAnswer { number: 0, place: 0 };
const OLD: ItemAnswer = ItemAnswer { number: 777, place: 7 };

/// Films of 2 and 3 blocks, by each rule.
fn plans() -> [Planned; 3] {
    let times = [22, 21, 20, 19, 18, 17, 16, 15, 14, 13].map(|time| 1000 * time);
    let figures = Figures::of(&film_of(&times), &[2, 3]);
    Rule::ALL.map(|rule| plan_of(&figures, rule).unwrap())
}

fn join(slot: u32, block: u32, film: u32) -> Item {
    Item { number: 0, slot, block, film }
}

fn refused(number: u32, place: u64) -> ItemAnswer {
    ItemAnswer { number, place }
}

/// An accepted batch with two answers more than items; those stay.
fn made(planned: &Planned, desk: &Desk, items: &[Item]) -> (Desk, Vec<ItemAnswer>) {
    let mut after = desk.clone();
    let mut answers = vec![OLD; items.len() + 2];
    let verdict = batch(&mut after, &planned.positions, &planned.leads, items, &mut answers);
    assert_eq!(verdict, Ok(()));
    assert_eq!(answers.split_off(items.len()), [OLD; 2]);
    (after, answers)
}

/// Rooms on both films and on none; each item meets the desk that those before it left.
#[test]
fn rooms_of_two_films() {
    for planned in plans() {
        let items = [
            join(3, 2, 1),
            join(2, 1, 0),
            join(1, 0, 2),
            join(1, 2, 0),
            join(1, 65_536, 0),
            join(3, 9, 9),
            join(99, 9, 9),
            Item { number: 5, slot: 3, block: 9, film: 9 },
            join(3, 0, 0),
            Item { number: u32::MAX, slot: 0, block: 0, film: 0 },
        ];
        let (desk, answers) = made(&planned, &Desk::all_free(&planned.plan), &items);
        let expected = [
            ACCEPTED,
            ACCEPTED,
            refused(31, 1),
            refused(18, 1),
            refused(18, 1),
            refused(17, 3),
            refused(16, 99),
            ACCEPTED,
            ACCEPTED,
            refused(17, 0),
        ];
        assert_eq!(answers, expected);
        let mut left = Desk::all_free(&planned.plan);
        for (slot, next, place, film) in [(2, 1, 1, 0), (3, 0, 2, 0)] {
            (left.kinds[slot], left.films[slot]) = (ASKED, film);
            (left.next[slot], left.places[slot]) = (next, place);
        }
        assert_eq!(desk, left);
        assert_eq!(items[0].call(), Call::Join { slot: 3, block: 2, film: 1 });
        assert_eq!(items[7].call(), Call::Leave { slot: 3 });
    }
}

/// In a sweep the batch is accepted, and each item answers 15 with 0.
#[test]
fn in_a_sweep() {
    let mut rng = Rng::new(181);
    for planned in plans() {
        let desk = Desk { phase: SWEEPING, ..sound_desk(&mut rng, &planned) };
        let items = some_items(&mut rng, &desk, 40, 3);
        assert_eq!(made(&planned, &desk, &items), (desk, vec![refused(15, 0); 40]));
    }
}

/// 512 items at most, as many answers at least; 14 ahead, and with a scratch its own 13 ahead of that.
#[test]
fn lengths() {
    for planned in plans() {
        let Planned { plan, positions, leads } = &planned;
        let sound = Desk::all_free(plan);
        let mut bad = sound.clone();
        bad.films[0] = 1;
        for (items, room) in [(0, 0), (1, 1), (1, 0), (512, 511), (512, 512), (513, 513)] {
            let items = vec![join(1, 0, 1); items];
            let fits = items.len() <= 512 && room >= items.len();
            for (desk, is) in [(&sound, true), (&bad, false)] {
                let expected = match (is, fits) {
                    (false, _) => Err(NOT_SOUND),
                    (true, false) => Err(TOO_SHORT),
                    (true, true) => Ok(()),
                };
                let lent = || (desk.clone(), vec![OLD; room]);
                let mut listed = lent();
                let verdict = batch(&mut listed.0, positions, leads, &items, &mut listed.1);
                assert_eq!(verdict, expected);
                assert!(verdict.is_ok() || listed == lent());
                let by_scratch = |length| {
                    let mut other = lent();
                    let scratch = vec![7; length];
                    let (desk, answers) = (&mut other.0, &mut other.1);
                    (batch_scratch(desk, positions, &scratch, &items, answers), other)
                };
                assert_eq!(by_scratch(512), (expected, listed));
                assert_eq!(by_scratch(511), (Err(TOO_SHORT), lent()));
            }
        }
    }
}

/// Compares a batch with its single calls, by the lists and by a scratch.
fn compare(rng: &mut Rng, lent: &Lent) -> u32 {
    let Lent { desk, positions, leads, items, answers } = lent;
    let is_short = items.len() > 512 || answers.len() < items.len();
    let (mut single, mut after, mut told) = (desk.clone(), desk.clone(), answers.clone());
    let verdict = batch(&mut after, positions, leads, items, &mut told);
    let expected = match (is_sound(desk, positions, leads), is_short) {
        (false, _) => Err(NOT_SOUND),
        (true, true) => Err(TOO_SHORT),
        (true, false) => Ok(()),
    };
    assert_eq!(verdict, expected);
    if verdict != Err(TOO_SHORT) {
        let singles = singly(&mut single, positions, leads, items);
        match verdict {
            Ok(()) => assert_eq!(told[..items.len()], singles),
            _ => assert!(singles.iter().all(|told| *told == refused(14, 0))),
        }
    }
    assert_eq!(after, single);
    let written = if verdict.is_ok() { items.len() } else { 0 };
    assert_eq!(told[written..], answers[written..]);
    by_scratch(rng, lent);
    verdict.err().map_or(0, |refusal| refusal.number)
}

/// A long scratch answers as the full list of the record does, whatever it holds.
fn by_scratch(rng: &mut Rng, lent: &Lent) {
    let Lent { desk, positions, items, answers, .. } = lent;
    let scratch: Vec<u32> = (0..SCRATCH).map(|_| rng.any()).collect();
    let full = full_leads(&desk.plan);
    let [mut listed, mut other] = [(); 2].map(|_| (desk.clone(), answers.clone()));
    let verdict = batch(&mut listed.0, positions, &full, items, &mut listed.1);
    assert_eq!(batch_scratch(&mut other.0, positions, &scratch, items, &mut other.1), verdict);
    assert_eq!(other, listed);
}

/// Any batch on any desk, sound or damaged, in both phases, of every rule and number of films.
#[test]
fn batches_as_single_calls() {
    let mut rng = Rng::new(182);
    let mut met = [0; 15];
    let mut items = [0; 32];
    for case in 0..1500 {
        let rule = Rule::ALL[case % 3];
        let planned = match case % 150 {
            0..=2 => large_shelf_plan(&mut rng, rule),
            _ => shelf_plan(&mut rng, rule),
        };
        let count = match case % 50 {
            0 | 1 => 12,
            20..=22 => 512,
            30..=32 => 513,
            _ => rng.pick(&[0, 1, 2, 7, 40]),
        };
        let lent = any_batch(&mut rng, &planned, count);
        let number = compare(&mut rng, &lent);
        met[number as usize] += 1;
        if number == 0 {
            let (_, told) = made(&planned, &lent.desk, &lent.items);
            told.iter().for_each(|told| items[told.number as usize] += 1);
        }
    }
    assert!([0, 13, 14].iter().all(|&number| met[number] > 100), "{met:?}");
    assert!([0, 15, 16, 17, 18, 31].iter().all(|&number| items[number] > 100), "{items:?}");
}

/// The inputs tell other rules apart: a join's film not read, 31 behind 18, a leave that is turned
/// down for its film or block.
#[test]
fn other_rules_are_found() {
    let mut rng = Rng::new(183);
    let mut found = [0; 3];
    for case in 0..300 {
        let planned = shelf_plan_of(&mut rng, Rule::ALL[case % 3], [2, 3, 16][case / 3 % 3]);
        let desk = Desk { phase: 0, ..sound_desk(&mut rng, &planned) };
        let items = some_items(&mut rng, &desk, 20, 4);
        let right = made(&planned, &desk, &items);
        let films = planned.plan.figures.films;
        let first: Vec<Item> = items.iter().map(|item| Item { film: 0, ..*item }).collect();
        found[0] += (made(&planned, &desk, &first) != right) as usize;
        let told = items.iter().zip(&right.1);
        let is_late = |(item, told): (&Item, &ItemAnswer)| {
            told.number == 31 && item.block >= planned.plan.figures.longest()
        };
        found[1] += told.clone().any(is_late) as usize;
        let is_leave = |(item, told): (&Item, &ItemAnswer)| {
            item.number != 0 && item.film >= films && *told == ACCEPTED
        };
        found[2] += told.clone().any(is_leave) as usize;
    }
    assert!(found.iter().all(|&count| count > 30), "{found:?}");
}

/// Lists that mix batches with single calls: book, queue and desk are those of the same calls made
/// singly, and the claims hold after each call.
#[test]
fn lists_with_batches() {
    let mut rng = Rng::new(184);
    let mut met = [0; 15];
    let (mut items_accepted, mut played) = (0, 0);
    for case in 0..240 {
        let planned = shelf_plan(&mut rng, Rule::ALL[case % 3]);
        let Planned { plan, positions, leads } = &planned;
        let temper = temper(&mut rng);
        let mut run = Run::new(open(plan, positions, leads).unwrap());
        let mut single = run.clone();
        for _ in 0..40 {
            let step = next_step(&mut rng, &planned, &run.desk, &temper);
            if !rng.once_in(3) {
                assert_eq!(run.call(&step), single.call(&step));
                continue;
            }
            let count = rng.pick(&[0, 1, 3, 12]);
            let items = some_items(&mut rng, &run.desk, count, 6);
            let room = rng.pick(&[count, count, count + 2, count.saturating_sub(1)]);
            let mut told = old_answers(&mut rng, room);
            let verdict = match rng.below(3) {
                0 => {
                    let scratch = vec![rng.any(); rng.pick(&[SCRATCH, SCRATCH, 511])];
                    run.batch_scratch(positions, &scratch, &items, &mut told).unwrap()
                }
                _ => run.batch(&step.positions, &step.leads, &items, &mut told).unwrap(),
            };
            met[verdict.err().map_or(0, |refusal| refusal.number) as usize] += 1;
            if verdict.is_ok() {
                for (item, told) in items.iter().zip(&told) {
                    let (positions, leads) = (positions.clone(), leads.clone());
                    let step = Step { positions, leads, call: item.call() };
                    let answer = single.call(&step).unwrap();
                    assert_eq!((answer.number, answer.place), (told.number, told.place));
                    items_accepted += answer.accepted() as usize;
                }
            }
            assert_eq!((&run.desk, &run.book), (&single.desk, &single.book));
            assert_eq!(run.queue, single.queue);
            played += run.desk.kinds.contains(&PLAYING) as usize;
        }
    }
    assert!(met[0] > 1000 && met[13] > 100 && met[14] > 10, "{met:?}");
    assert!(items_accepted > 1000 && played > 100, "{items_accepted} {played}");
}
