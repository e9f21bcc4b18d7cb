//! A scratch in place of the lead list: request 10 of 02. What the planner and the desk answer by it,
//! and where its 13 stands.

use film_disk_model::bench::{bench_blocks, bench_bytes, bench_film, bench_times, figures_of};
use film_disk_model::plan::{plan_card_for, plan_of, plan_record_for, time};
use film_disk_model::rng::cards::any_card;
use film_disk_model::rng::desks::{alter_plan, any_step, next_step, spoiled_list, temper};
use film_disk_model::rng::figures::{desk_plan_for, large_desk_plan_for};
use film_disk_model::scratch::{full_leads, SCRATCH};
use film_disk_model::window::is_plan_with_positions;
use film_disk_model::*;

const TOO_SHORT: Refusal = Refusal { number: 13, place: 0 };
const NOT_SOUND: Refusal = Refusal { number: 14, place: 0 };

/// Numbers of no meaning, so many.
fn numbers(rng: &mut Rng, count: usize) -> Vec<u32> {
    (0..count).map(|_| rng.any()).collect()
}

/// A scratch that is long enough.
fn long(rng: &mut Rng) -> Vec<u32> {
    let spare = rng.pick(&[0, 0, 1, 600]);
    numbers(rng, SCRATCH + spare)
}

fn bench(showing: Showing) -> Planned {
    plan_of(&bench_film(), showing).unwrap()
}

// The planner.

/// 512 numbers are enough for every film; 511 for none.
#[test]
fn lengths_of_a_scratch() {
    for showing in Showing::ALL {
        for figures in (2..=6).map(bench_blocks) {
            let blocks = figures.blocks as usize;
            let card = card_bytes(&figures);
            for scratch in [0, blocks, 511, 512, 513, 16_384] {
                let made = plan_record_scratch(&figures, showing, blocks, scratch);
                let planned = plan_of(&figures, showing).filter(|_| scratch >= 512);
                assert_eq!(made, planned.ok_or(TOO_SHORT));
                assert_eq!(plan_card_scratch(&card, showing, blocks, scratch), made);
            }
            assert_eq!(plan_record_scratch(&figures, showing, blocks - 1, 512), Err(TOO_SHORT));
        }
        let long = figures_of(&[(16_384, 20_000)], 16_384, 262_144, 500_000);
        let made = plan_record_scratch(&long, showing, 16_384, 512).unwrap();
        assert_eq!(made, plan_record_for(&long, showing, 16_384, 16_384).unwrap());
        assert_eq!(plan_record_scratch(&long, showing, 16_384, 511), Err(TOO_SHORT));
    }
}

/// After the card's own refusals, before 12.
#[test]
fn thirteen_in_its_place() {
    for showing in Showing::ALL {
        let poor = bench_bytes(9);
        for scratch in [0, 511] {
            assert_eq!(plan_record_scratch(&poor, showing, 6, scratch), Err(TOO_SHORT));
            let refused =
                [(bench_blocks(1), 8), (bench_blocks(7), 9), (bench_times(22_270, 3), 26)];
            for (figures, number) in refused {
                let made = plan_record_scratch(&figures, showing, 0, scratch);
                assert_eq!(made, Err(Refusal { number, place: 0 }));
            }
            let card = card_bytes(&bench_film());
            let cut = plan_card_scratch(&card[..card.len() - 1], showing, 0, scratch);
            assert_eq!(cut.unwrap_err().number, 1);
            let more = plan_card_scratch(&[&card[..], b"\n"].concat(), showing, 0, scratch);
            assert_eq!(more, Err(Refusal { number: 11, place: card.len() as u64 }));
        }
        let made = plan_record_scratch(&poor, showing, 6, 512);
        assert_eq!(made, Err(Refusal { number: 12, place: 0 }));
    }
}

/// Any card is planned or refused as with the full list.
#[test]
fn cards_as_with_the_list() {
    let mut rng = Rng::new(101);
    let mut planned = 0;
    for case in 0..4000 {
        let showing = Showing::ALL[case % 2];
        let card = any_card(&mut rng);
        let positions = rng.pick(&[0, 5, 16_384, 16_384, 16_384]);
        let made = plan_card_scratch(&card, showing, positions, SCRATCH);
        assert_eq!(made, plan_card_for(&card, showing, positions, 16_384));
        planned += made.is_ok() as usize;
    }
    assert!(planned > 500, "{planned}");
}

// The full list.

/// It is the planner's, and each lead is twice the time less worst2, or 0.
#[test]
fn leads_of_a_record() {
    let mut rng = Rng::new(102);
    for case in 0..1500 {
        let showing = Showing::ALL[case % 2];
        let planned = match case % 300 {
            0 | 1 => large_desk_plan_for(&mut rng, showing),
            _ => desk_plan_for(&mut rng, showing),
        };
        let leads = full_leads(&planned.plan);
        assert_eq!(leads, planned.leads);
        for (block, &lead) in leads.iter().enumerate() {
            let twice = 2 * time(&planned.plan.figures, showing, block as u32);
            assert_eq!(lead, twice.saturating_sub(planned.plan.worst2));
        }
    }
}

/// A word of no showing, or figures that are refused, have none.
#[test]
fn no_leads() {
    let plan = bench(Showing::Once).plan;
    assert_eq!(full_leads(&Plan { showing: 2, ..plan.clone() }), []);
    assert_eq!(full_leads(&Plan { figures: bench_blocks(7), ..plan }), []);
    assert_eq!(full_leads(&Plan::zero()), []);
}

// The desk.

/// A record asks nothing of the scratch: it opens exactly where it is the plan of its figures with
/// these positions.
#[test]
fn openings() {
    let mut rng = Rng::new(103);
    let mut opened = [0; 2];
    for case in 0..3000 {
        let planned = desk_plan_for(&mut rng, Showing::ALL[case % 2]);
        let mut plan = planned.plan.clone();
        if rng.once_in(3) {
            alter_plan(&mut rng, &mut plan);
        }
        let positions = match rng.below(5) {
            0 => spoiled_list(&mut rng, &planned.positions),
            _ => planned.positions.clone(),
        };
        let is = is_plan_with_positions(&plan, &positions);
        let scratch = long(&mut rng);
        let expected = if is { Ok(Desk::all_free(&plan)) } else { Err(NOT_SOUND) };
        assert_eq!(open_scratch(&plan, &positions, &scratch), expected);
        assert_eq!(open_scratch(&plan, &positions, &scratch[..SCRATCH - 1]), Err(TOO_SHORT));
        opened[is as usize] += 1;
    }
    assert!(opened.iter().all(|&count| count > 500), "{opened:?}");
}

/// Any call on any desk: a long scratch answers as the full list does, whatever it holds; a short one
/// is 13 ahead of 14, and the desk stays.
#[test]
fn calls_as_with_the_list() {
    let mut rng = Rng::new(104);
    let mut met = [0; 22];
    for case in 0..8000 {
        let planned = desk_plan_for(&mut rng, Showing::ALL[case % 2]);
        let (desk, step) = any_step(&mut rng, &planned);
        let full = full_leads(&desk.plan);
        let listed = answer(&desk, &step.positions, &full, &step.call);
        let scratch = long(&mut rng);
        assert_eq!(answer_scratch(&desk, &step.positions, &scratch, &step.call), listed);
        met[listed.number as usize] += 1;
        let count = rng.pick(&[0, 1, full.len(), 511]).min(SCRATCH - 1);
        let short = answer_scratch(&desk, &step.positions, &scratch[..count], &step.call);
        assert_eq!((short.number, short.place, short.count, short.bound), (13, 0, 0, 0));
        assert_eq!((short.desk, short.entries), (desk, Vec::new()));
    }
    for number in [0].into_iter().chain(13..=21) {
        assert!(met[number] > 0, "{met:?}");
    }
}

/// 13 for a short scratch and 13 for a short fetch list are on either side of 14 and 15.
#[test]
fn both_thirteens_of_a_begin() {
    let planned = bench(Showing::Once);
    let mut desk = Desk::all_free(&planned.plan);
    let begin = |desk: &Desk, scratch, fetch_list| {
        let scratch = vec![7; scratch];
        answer_scratch(desk, &planned.positions, &scratch, &Call::Begin { fetch_list }).number
    };
    assert_eq!([begin(&desk, 511, 16), begin(&desk, 512, 15), begin(&desk, 512, 16)], [13, 13, 0]);
    desk.phase = 1;
    assert_eq!([begin(&desk, 511, 15), begin(&desk, 512, 15)], [13, 15]);
    desk.phase = 2;
    assert_eq!([begin(&desk, 511, 15), begin(&desk, 512, 15)], [13, 14]);
}

/// A list of calls twice, by lists and by a scratch, and once more by both in turn: the same answers
/// and desks, and the book's claim after each call.
#[test]
fn lists_of_calls_twice() {
    let mut rng = Rng::new(105);
    let mut accepted = 0;
    for case in 0..400 {
        let showing = Showing::ALL[case % 2];
        let planned = match case % 50 {
            0 | 1 => large_desk_plan_for(&mut rng, showing),
            _ => desk_plan_for(&mut rng, showing),
        };
        let temper = temper(&mut rng);
        let desk = open_scratch(&planned.plan, &planned.positions, &long(&mut rng)).unwrap();
        let [mut listed, mut alone, mut mixed] = [desk.clone(), desk.clone(), desk].map(Run::new);
        for _ in 0..if case % 50 < 2 { 10 } else { 60 } {
            let mut step = next_step(&mut rng, &planned, &listed.desk, &temper);
            step.leads = planned.leads.clone();
            let answer = listed.call(&step).unwrap();
            let scratch = long(&mut rng);
            assert_eq!(alone.call_scratch(&step, &scratch), Ok(answer.clone()));
            let in_turn = match rng.below(3) {
                0 => mixed.call(&step),
                1 => mixed.call_scratch(&step, &scratch),
                _ => {
                    // A short scratch between them changes nothing.
                    assert_eq!(mixed.call_scratch(&step, &scratch[..511]).unwrap().number, 13);
                    mixed.call_scratch(&step, &scratch)
                }
            };
            accepted += answer.accepted() as usize;
            assert_eq!(in_turn, Ok(answer));
        }
    }
    assert!(accepted > 10_000, "{accepted}");
}
