//! Forty rooms press play: request 6 of 02. A batch of joins and leaves answers and leaves the desk as
//! its calls one by one do, and where 14 and 13 stand.

use film_disk_model::batch::ITEMS;
use film_disk_model::bench::bench_film;
use film_disk_model::card::MEASURED;
use film_disk_model::desk::{ASKED, FREE, PLAYING, SWEEPING};
use film_disk_model::plan::plan_of;
use film_disk_model::rng::batches::{any_batch, old_answers, some_items, Lent};
use film_disk_model::rng::borders::greatest_rate;
use film_disk_model::rng::desks::{next_step, sound_desk, temper};
use film_disk_model::rng::figures::{desk_plan_for, large_desk_plan_for};
use film_disk_model::scratch::{full_leads, SCRATCH};
use film_disk_model::*;

const TOO_SHORT: Refusal = Refusal { number: 13, place: 0 };
const NOT_SOUND: Refusal = Refusal { number: 14, place: 0 };
const ACCEPTED: ItemAnswer = ItemAnswer { number: 0, place: 0 };
const OLD: ItemAnswer = ItemAnswer { number: 777, place: 7 };

fn bench(showing: Showing) -> Planned {
    plan_of(&bench_film(), showing).unwrap()
}

/// 256 streams of two blocks, with a straight table and with a measured one.
fn full_plans() -> Vec<Planned> {
    let fast = greatest_rate();
    let mut measured = fast.clone().with_table(std::array::from_fn(|entry| 1 + entry as u32 / 2));
    measured.kind = MEASURED;
    let all = [&fast, &measured].map(|figures| Showing::ALL.map(|how| plan_of(figures, how)));
    let plans: Vec<Planned> = all.into_iter().flatten().map(Option::unwrap).collect();
    assert!(plans.iter().all(|planned| planned.plan.streams == 256));
    plans
}

fn join(slot: u32, block: u32) -> Item {
    Item { number: 0, slot, block }
}

fn leave(slot: u32) -> Item {
    Item { number: 1, slot, block: 0 }
}

fn refused(number: u32, place: u64) -> ItemAnswer {
    ItemAnswer { number, place }
}

/// An accepted batch with two answers more than items; those stay.
fn made(planned: &Planned, desk: &Desk, items: &[Item]) -> (Desk, Vec<ItemAnswer>) {
    let mut after = desk.clone();
    let mut answers = vec![OLD; items.len() + 2];
    let verdict = batch(&mut after, &planned.positions, &planned.leads, items, &mut answers);
    assert_eq!(verdict, Ok(()));
    assert_eq!(answers.split_off(items.len()), [OLD; 2]);
    (after, answers)
}

/// A refused batch writes nothing.
fn turned_down(lent: &Lent) -> Refusal {
    let Lent { mut desk, positions, leads, items, mut answers } = lent.clone();
    let refusal = batch(&mut desk, &positions, &leads, &items, &mut answers).unwrap_err();
    assert_eq!((&desk, &answers), (&lent.desk, &lent.answers));
    refusal
}

// Items.

/// Forty rooms at once, then some leave: places by list order, not by slot.
#[test]
fn forty_rooms() {
    for planned in full_plans() {
        let items: Vec<Item> = (0..40).map(|room| join(250 - 3 * room, room % 2)).collect();
        let (desk, answers) = made(&planned, &Desk::all_free(&planned.plan), &items);
        assert_eq!(answers, [ACCEPTED; 40]);
        for (index, item) in items.iter().enumerate() {
            let slot = item.slot as usize;
            assert_eq!((desk.kinds[slot], desk.next[slot]), (ASKED, index as u32 % 2));
            assert_eq!(desk.places[slot], index as u32 + 1);
        }
        assert_eq!(desk.waiting(), 40);
        // The eldest leaves and asks again: it is the last; a new one behind it, then one goes.
        let (desk, answers) =
            made(&planned, &desk, &[leave(250), join(250, 1), join(0, 0), leave(244)]);
        assert_eq!(answers, [ACCEPTED; 4]);
        assert_eq!([250, 247, 244, 241, 0].map(|slot| desk.places[slot]), [39, 1, 0, 2, 40]);
    }
}

/// Each item meets the desk that those before it left, and a refusal stops nothing.
#[test]
fn one_after_another() {
    for showing in Showing::ALL {
        let bench = bench(showing);
        let items = [
            leave(3),
            join(3, 6),
            join(3, 5),
            join(3, 0),
            join(16, 9),
            leave(16),
            leave(3),
            leave(3),
            join(3, 1),
            join(2, u32::MAX),
            join(u32::MAX, 0),
            join(14, 5),
        ];
        let (desk, answers) = made(&bench, &Desk::all_free(&bench.plan), &items);
        let expected = [
            refused(17, 3),
            refused(18, 3),
            ACCEPTED,
            refused(17, 3),
            refused(16, 16),
            refused(16, 16),
            ACCEPTED,
            refused(17, 3),
            ACCEPTED,
            refused(18, 2),
            refused(16, u32::MAX as u64),
            ACCEPTED,
        ];
        assert_eq!(answers, expected);
        let mut left = Desk::all_free(&bench.plan);
        for (slot, next, place) in [(3, 1, 1), (14, 5, 2)] {
            (left.kinds[slot], left.next[slot], left.places[slot]) = (ASKED, next, place);
        }
        assert_eq!(desk, left);
    }
}

/// 0 is a join, every other number a leave, whose block is not read.
#[test]
fn numbers_of_items() {
    let bench = bench(Showing::Once);
    let (asked, _) = made(&bench, &Desk::all_free(&bench.plan), &[join(4, 2)]);
    for number in [1, 2, 3, 255, 256, 65_536, 1 << 31, u32::MAX] {
        for block in [0, 5, 6, u32::MAX] {
            let item = Item { number, slot: 4, block };
            assert_eq!(item.call(), Call::Leave { slot: 4 });
            let (desk, answers) = made(&bench, &asked, &[item, item]);
            assert_eq!(answers, [ACCEPTED, refused(17, 4)]);
            assert_eq!(desk, Desk::all_free(&bench.plan));
        }
    }
    assert_eq!(join(4, 9).call(), Call::Join { slot: 4, block: 9 });
}

/// In a sweep the batch is accepted, and each item answers 15 with 0.
#[test]
fn in_a_sweep() {
    let mut rng = Rng::new(61);
    for showing in Showing::ALL {
        let bench = bench(showing);
        for _ in 0..200 {
            let desk = Desk { phase: SWEEPING, ..sound_desk(&mut rng, &bench) };
            let count = rng.pick(&[1, 2, 40, 512]);
            let items = some_items(&mut rng, &desk, count, 3);
            let (after, answers) = made(&bench, &desk, &items);
            assert_eq!((after, answers), (desk, vec![refused(15, 0); count]));
        }
    }
}

/// All slots of a full desk joined and left in one batch, in different orders, and once by turns.
#[test]
fn all_slots() {
    for planned in full_plans() {
        let free = Desk::all_free(&planned.plan);
        let joins: Vec<Item> = (0..256).map(|index| join(index * 77 % 256, index % 2)).collect();
        let leaves: Vec<Item> = (0..256).map(|index| leave(index * 45 % 256)).collect();
        let (full, answers) = made(&planned, &free, &joins);
        assert_eq!(answers, [ACCEPTED; 256]);
        for (index, item) in joins.iter().enumerate() {
            assert_eq!(full.places[item.slot as usize], index as u32 + 1);
        }
        let items = [&joins[..], &leaves[..]].concat();
        let (after, answers) = made(&planned, &free, &items);
        assert_eq!((after, answers), (free.clone(), vec![ACCEPTED; ITEMS]));
        let (after, answers) = made(&planned, &full, &[&leaves[..], &joins[..]].concat());
        assert_eq!((after, answers), (full, vec![ACCEPTED; ITEMS]));
        let by_turns: Vec<Item> = (0..256).flat_map(|slot| [join(slot, 0), leave(slot)]).collect();
        let (after, answers) = made(&planned, &free, &by_turns);
        assert_eq!((after, answers), (free, vec![ACCEPTED; ITEMS]));
    }
}

/// Rooms that ask in a batch are behind all that wait, in list order; leaves close the gaps.
#[test]
fn places_by_list_order() {
    let mut rng = Rng::new(62);
    let mut waited = 0;
    for case in 0..600 {
        let planned = desk_plan_for(&mut rng, Showing::ALL[case % 2]);
        let desk = Desk { phase: 0, ..sound_desk(&mut rng, &planned) };
        let mut order: Vec<usize> = (0..SLOTS).filter(|&slot| desk.places[slot] > 0).collect();
        order.sort_by_key(|&slot| desk.places[slot]);
        waited += order.len();
        let items = some_items(&mut rng, &desk, 30, 8);
        let (after, answers) = made(&planned, &desk, &items);
        for (item, _) in items.iter().zip(&answers).filter(|(_, told)| **told == ACCEPTED) {
            order.retain(|&slot| slot != item.slot as usize);
            if item.number == 0 {
                order.push(item.slot as usize);
            }
        }
        let mut places = [0; SLOTS];
        for (index, &slot) in order.iter().enumerate() {
            places[slot] = index as u32 + 1;
        }
        assert_eq!(after.places, places);
    }
    assert!(waited > 1000, "{waited}");
}

// 14 and 13.

/// No items are accepted in both phases, with any answer list; an unsound desk is 14 all the same.
#[test]
fn no_items() {
    let mut rng = Rng::new(63);
    let bench = bench(Showing::Once);
    for phase in [0, 1] {
        let desk = Desk { phase, ..sound_desk(&mut rng, &bench) };
        assert_eq!(made(&bench, &desk, &[]), (desk.clone(), Vec::new()));
        let mut after = desk.clone();
        assert_eq!(batch(&mut after, &bench.positions, &bench.leads, &[], &mut []), Ok(()));
        assert_eq!(after, desk);
        let mut bad = Desk { phase: 2, ..desk };
        let verdict = batch(&mut bad, &bench.positions, &bench.leads, &[], &mut []);
        assert_eq!(verdict, Err(NOT_SOUND));
    }
}

/// 512 items at most, as many answers at least; 14 is ahead, 15 to 18 are the items' own.
#[test]
fn fourteen_then_thirteen() {
    let Planned { plan, positions, leads } = bench(Showing::Once);
    let lent = |items: usize, answers: usize| Lent {
        desk: Desk::all_free(&plan),
        positions: positions.clone(),
        leads: leads.clone(),
        items: vec![join(99, 99); items],
        answers: vec![OLD; answers],
    };
    for (items, answers) in [(513, 513), (513, 600), (513, 0), (600, 512), (512, 511), (1, 0)] {
        let right = lent(items, answers);
        assert_eq!(turned_down(&right), TOO_SHORT);
        let in_sweep = Desk { phase: SWEEPING, ..right.desk.clone() };
        assert_eq!(turned_down(&Lent { desk: in_sweep, ..right.clone() }), TOO_SHORT);
        let other_phase = Desk { phase: 2, ..right.desk.clone() };
        assert_eq!(turned_down(&Lent { desk: other_phase, ..right.clone() }), NOT_SOUND);
        let short = positions[..5].to_vec();
        assert_eq!(turned_down(&Lent { positions: short, ..right.clone() }), NOT_SOUND);
        assert_eq!(turned_down(&Lent { leads: vec![0; 6], ..right }), NOT_SOUND);
    }
    for (items, answers) in [(512, 512), (512, 513), (40, 40), (1, 1), (0, 0)] {
        let Lent { mut desk, items, mut answers, .. } = lent(items, answers);
        assert_eq!(batch(&mut desk, &positions, &leads, &items, &mut answers), Ok(()));
        assert!(answers[..items.len()].iter().all(|told| *told == refused(16, 99)));
    }
}

/// A short scratch is 13 ahead of 14, the other 13 behind it.
#[test]
fn both_thirteens() {
    let planned = bench(Showing::Loop);
    let sound = Desk::all_free(&planned.plan);
    let bad = Desk { phase: 2, ..sound.clone() };
    let verdict = |desk: &Desk, scratch: usize, items: usize, room: usize| {
        let (mut after, mut answers) = (desk.clone(), vec![OLD; room]);
        let (scratch, items) = (vec![7; scratch], vec![join(1, 0); items]);
        let positions = &planned.positions;
        let verdict = batch_scratch(&mut after, positions, &scratch, &items, &mut answers);
        if verdict.is_err() {
            assert_eq!((after, answers), (desk.clone(), vec![OLD; room]));
        }
        verdict
    };
    for (items, room) in [(0, 0), (1, 1), (1, 0), (513, 513)] {
        assert_eq!(verdict(&sound, 511, items, room), Err(TOO_SHORT));
        assert_eq!(verdict(&bad, 511, items, room), Err(TOO_SHORT));
        assert_eq!(verdict(&bad, 512, items, room), Err(NOT_SOUND));
        let expected = if room < items || items > 512 { Err(TOO_SHORT) } else { Ok(()) };
        assert_eq!(verdict(&sound, 512, items, room), expected);
    }
}

// A batch and its calls one by one.

/// Compares a batch with its single calls. Refused by 14, the single calls are 14 each; refused by
/// 13, nothing is compared but that nothing is written. With a scratch it is the same.
fn compare(rng: &mut Rng, lent: &Lent) -> u32 {
    let Lent { desk, positions, leads, items, answers } = lent;
    let is_short = items.len() > 512 || answers.len() < items.len();
    let (mut single, mut after, mut told) = (desk.clone(), desk.clone(), answers.clone());
    let verdict = batch(&mut after, positions, leads, items, &mut told);
    let expected = match (is_sound(desk, positions, leads), is_short) {
        (false, _) => Err(NOT_SOUND),
        (true, true) => Err(TOO_SHORT),
        (true, false) => Ok(()),
    };
    assert_eq!(verdict, expected);
    if verdict != Err(TOO_SHORT) {
        let singles = singly(&mut single, positions, leads, items);
        match verdict {
            Ok(()) => assert_eq!(told[..items.len()], singles),
            _ => assert!(singles.iter().all(|told| *told == refused(14, 0))),
        }
    }
    assert_eq!(after, single);
    let written = if verdict.is_ok() { items.len() } else { 0 };
    assert_eq!(told[written..], answers[written..]);
    by_scratch(rng, lent);
    verdict.err().map_or(0, |refusal| refusal.number)
}

/// A long scratch answers as the full list of the record does, whatever it holds.
fn by_scratch(rng: &mut Rng, lent: &Lent) {
    let Lent { desk, positions, items, answers, .. } = lent;
    let scratch: Vec<u32> = (0..SCRATCH).map(|_| rng.any()).collect();
    let full = full_leads(&desk.plan);
    let [mut listed, mut other, mut short] = [(); 3].map(|_| (desk.clone(), answers.clone()));
    let verdict = batch(&mut listed.0, positions, &full, items, &mut listed.1);
    assert_eq!(batch_scratch(&mut other.0, positions, &scratch, items, &mut other.1), verdict);
    assert_eq!(other, listed);
    let few = &scratch[..rng.below(SCRATCH)];
    let verdict = batch_scratch(&mut short.0, positions, few, items, &mut short.1);
    assert_eq!(verdict, Err(TOO_SHORT));
    assert_eq!(short, (desk.clone(), answers.clone()));
}

/// Any batch on any desk, sound or damaged, in both phases, of either kind and showing.
#[test]
fn batches_as_single_calls() {
    let mut rng = Rng::new(64);
    let mut met = [0; 15];
    let (mut sweeps, mut waiting, mut measured) = (0, 0, 0);
    for case in 0..2400 {
        let planned = desk_plan_for(&mut rng, Showing::ALL[case % 2]);
        let count = match case % 40 {
            0 | 1 => 512,
            2 | 3 => 513,
            _ => rng.pick(&[0, 1, 2, 7, 40]),
        };
        let lent = any_batch(&mut rng, &planned, count);
        let number = compare(&mut rng, &lent);
        met[number as usize] += 1;
        if number == 0 {
            sweeps += (lent.desk.phase == SWEEPING) as usize;
            waiting += (lent.desk.waiting() > 1) as usize;
            measured += (planned.plan.figures.kind == MEASURED) as usize;
        }
    }
    assert!([0, 13, 14].iter().all(|&number| met[number] > 200), "{met:?}");
    assert!([sweeps, waiting, measured].iter().all(|&count| count > 100), "{met:?} {measured}");
}

/// Full desks, with batches of 40 and 512 items; and long films.
#[test]
fn full_desks_and_long_films() {
    let mut rng = Rng::new(65);
    for planned in full_plans() {
        for count in [0, 1, 40, 40, 512, 512, 513] {
            let lent = any_batch(&mut rng, &planned, count);
            compare(&mut rng, &lent);
        }
    }
    for case in 0..10 {
        let planned = large_desk_plan_for(&mut rng, Showing::ALL[case % 2]);
        let lent = any_batch(&mut rng, &planned, 12);
        compare(&mut rng, &lent);
    }
}

/// The inputs tell other rules apart: items in reverse, a stop at the first refusal, each item on the
/// first desk, a leave that is turned down for its block.
#[test]
fn other_rules_are_found() {
    let mut rng = Rng::new(66);
    let mut found = [0; 4];
    for _ in 0..200 {
        let planned = desk_plan_for(&mut rng, Showing::Once);
        let Planned { positions, leads, .. } = &planned;
        let desk = Desk { phase: 0, ..sound_desk(&mut rng, &planned) };
        let items = some_items(&mut rng, &desk, 20, 4);
        let right = made(&planned, &desk, &items);
        let blocks = planned.plan.figures.blocks;

        let mut reverse: Vec<Item> = items.clone();
        reverse.reverse();
        let (after, mut answers) = made(&planned, &desk, &reverse);
        answers.reverse();
        found[0] += ((after, answers) != right) as usize;
        let accepted = right.1.iter().take_while(|told| **told == ACCEPTED).count();
        found[1] += (made(&planned, &desk, &items[..accepted]).0 != right.0) as usize;
        let on_first = |item| singly(&mut desk.clone(), positions, leads, &[item])[0];
        let firsts: Vec<ItemAnswer> = items.iter().copied().map(on_first).collect();
        found[2] += (firsts != right.1) as usize;
        let is_turned = |(item, told): (&Item, &ItemAnswer)| {
            item.number != 0 && item.block >= blocks && *told == ACCEPTED
        };
        found[3] += items.iter().zip(&right.1).any(is_turned) as usize;
    }
    assert!(found.iter().all(|&count| count > 50), "{found:?}");
}

// Lists of calls.

/// Lists that mix batches with single calls: book, queue and desk are those of the same calls made
/// singly, and the claims hold after each call.
#[test]
fn lists_with_batches() {
    let mut rng = Rng::new(67);
    let mut met = [0; 15];
    let (mut items_accepted, mut played) = (0, 0);
    for case in 0..300 {
        let planned = desk_plan_for(&mut rng, Showing::ALL[case % 2]);
        let Planned { plan, positions, leads } = &planned;
        let temper = temper(&mut rng);
        let mut run = Run::new(open(plan, positions, leads).unwrap());
        let mut single = run.clone();
        for _ in 0..40 {
            let step = next_step(&mut rng, &planned, &run.desk, &temper);
            if !rng.once_in(3) {
                assert_eq!(run.call(&step), single.call(&step));
                continue;
            }
            let count = rng.pick(&[0, 1, 3, 12]);
            let items = some_items(&mut rng, &run.desk, count, 6);
            let room = rng.pick(&[count, count, count + 2, count.saturating_sub(1)]);
            let mut told = old_answers(&mut rng, room);
            let verdict = match rng.below(2) {
                0 => run.batch(&step.positions, &step.leads, &items, &mut told).unwrap(),
                _ => {
                    let scratch = vec![rng.any(); SCRATCH];
                    run.batch_scratch(positions, &scratch, &items, &mut told).unwrap()
                }
            };
            met[verdict.err().map_or(0, |refusal| refusal.number) as usize] += 1;
            if verdict.is_ok() {
                for (item, told) in items.iter().zip(&told) {
                    let (positions, leads) = (positions.clone(), leads.clone());
                    let step = Step { positions, leads, call: item.call() };
                    let answer = single.call(&step).unwrap();
                    assert_eq!((answer.number, answer.place), (told.number, told.place));
                    items_accepted += answer.accepted() as usize;
                }
            }
            assert_eq!((&run.desk, &run.book), (&single.desk, &single.book));
            assert_eq!(run.queue, single.queue);
            played += run.desk.kinds.contains(&PLAYING) as usize;
        }
    }
    assert!(met[0] > 1000 && met[13] > 100 && met[14] > 10, "{met:?}");
    assert!(items_accepted > 1000 && played > 100, "{items_accepted} {played}");
}

/// A refused batch feeds nothing to the book.
#[test]
fn refused_batches_in_the_book() {
    let Planned { plan, positions, leads } = bench(Showing::Once);
    let mut run = Run::new(open(&plan, &positions, &leads).unwrap());
    let start = run.clone();
    let items = [join(0, 0), join(1, 0)];
    let short = run.batch(&positions, &leads, &items, &mut [OLD]).unwrap();
    assert_eq!(short, Err(TOO_SHORT));
    let unsound = run.batch(&positions[..1], &leads, &items, &mut [OLD; 2]).unwrap();
    assert_eq!(unsound, Err(NOT_SOUND));
    assert_eq!((&run.desk, &run.book, &run.queue), (&start.desk, &start.book, &start.queue));
    assert_eq!(run.batch(&positions, &leads, &items, &mut [OLD; 2]), Ok(Ok(())));
    assert_eq!([0, 1, 2].map(|slot| run.book.rows[slot].open), [true, true, false]);
    assert_eq!(run.desk.kinds[..3], [ASKED, ASKED, FREE]);
}
