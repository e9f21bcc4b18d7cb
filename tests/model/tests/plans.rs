//! Laying, streams, leads and buffers, for one showing and for loops.

use film_disk_model::bench::{bench_film, figures_of};
use film_disk_model::plan::{
    fits, is_laying, lead, leads_backward, leads_by_runs, plan_of, plan_record_for, streams, times,
    worst2, worst_time,
};
use film_disk_model::rng::desks::{alter_plan, longer_list, spoiled_list};
use film_disk_model::rng::figures::{
    any_figures, desk_plan_for, large_figures, small_figures, tight_figures,
};
use film_disk_model::*;

/// 2 × time - worst2 added up over the run of so many blocks from b, round the circle.
fn run_sum(times: &[u32], worst2: u32, b: usize, length: usize) -> i64 {
    (b..b + length).map(|k| 2 * times[k % times.len()] as i64 - worst2 as i64).sum()
}

/// The greatest sum over all runs from b, each added up by itself.
fn lead_of_all_runs(times: &[u32], showing: Showing, worst2: u32, b: usize) -> i64 {
    let longest = match showing {
        Showing::Once => times.len() - b,
        Showing::Loop => times.len(),
    };
    (0..=longest).map(|length| run_sum(times, worst2, b, length)).max().unwrap()
}

/// For the worst2 of films, and for any: with a lower one a second round would add up to more.
#[test]
fn leads_are_greatest_run_sums() {
    let mut rng = Rng::new(11);
    for case in 0..4000 {
        let showing = Showing::ALL[case % 2];
        let figures = small_figures(&mut rng, 30);
        let times = times(&figures, showing);
        for worst2 in [worst2(&figures, showing), rng.spread(2, 8_000_000)] {
            for b in 0..times.len() {
                let greatest = lead_of_all_runs(&times, showing, worst2, b);
                assert_eq!(lead(&times, showing, worst2, b) as i64, greatest);
            }
            assert_eq!(lead(&times, Showing::Once, worst2, times.len()), 0);
        }
    }
}

fn check_one_pass(times: &[u32], showing: Showing, worst2: u32) {
    let by_runs = leads_by_runs(times, showing, worst2);
    assert_eq!(by_runs, leads_backward(times, showing, worst2));
}

/// The one pass is the same as all runs, for the times of films and for any times; for any worst2
/// too, but in a loop for one that no pair is above.
#[test]
fn one_pass_gives_the_same_leads() {
    let mut rng = Rng::new(12);
    for _ in 0..2000 {
        let times: Vec<u32> = (0..rng.below(40)).map(|_| rng.spread(1, 4_000_000)).collect();
        check_one_pass(&times, Showing::Once, rng.spread(2, 8_000_000));
        let next = times.iter().cycle().skip(1);
        let greatest = times.iter().zip(next).map(|(one, next)| one + next).max().unwrap_or(2);
        check_one_pass(&times, Showing::Loop, greatest);
        check_one_pass(&times, Showing::Loop, greatest + rng.spread(1, 4_000_000));
    }
    let mut films = vec![figures_of(&[(9000, 4_000_000), (7384, 123_457)], 16_384, 1, 1)];
    films.extend((0..40).map(|_| Figures { blocks: 1000, ..large_figures(&mut rng) }));
    for figures in films.iter().filter(|figures| judge_record(figures).is_ok()) {
        for showing in Showing::ALL {
            check_one_pass(&times(figures, showing), showing, worst2(figures, showing));
        }
    }
}

/// Calls `look` with each laying of the blocks on the disk.
fn each_laying(figures: &Figures, laying: &mut Vec<u32>, look: &mut impl FnMut(&[u32])) {
    if laying.len() == figures.blocks as usize {
        return look(laying);
    }
    for position in 0..figures.total_positions() as u32 {
        if !laying.contains(&position) {
            laying.push(position);
            each_laying(figures, laying, look);
            laying.pop();
        }
    }
}

/// No laying's worst time is below worst2, and with none does a number above n meet the formula.
fn check_all_layings(figures: &Figures, showing: Showing) {
    let worst2 = worst2(figures, showing);
    let n = streams(figures, worst2).unwrap_or(0);
    each_laying(figures, &mut Vec::new(), &mut |laying| {
        assert!(is_laying(figures, laying));
        let worst = worst_time(figures, showing, laying);
        assert!(worst >= worst2, "{figures:?} {laying:?}");
        assert!((n + 1..=256).all(|more| !fits(figures, worst, more)), "{figures:?} {laying:?}");
    });
}

/// Fifty small disks for each N up to 7.
#[test]
fn no_laying_is_better() {
    let mut rng = Rng::new(13);
    for showing in Showing::ALL {
        for blocks in 2..=7 {
            let mut tried = 0;
            while tried < 50 {
                let figures = tight_figures(&mut rng, showing, 7);
                if figures.total_positions() <= 7 && figures.blocks == blocks {
                    check_all_layings(&figures, showing);
                    tried += 1;
                }
            }
        }
    }
}

/// The plan's own list is a laying with worst time worst2, on the N highest positions.
#[test]
fn own_laying() {
    let mut rng = Rng::new(14);
    for case in 0..1000 {
        let showing = Showing::ALL[case % 2];
        let figures = any_figures(&mut rng);
        let made = plan_record_for(&figures, showing, 16_384, 16_384);
        let Ok(planned) = made else { continue };
        assert!(is_laying(&figures, &planned.positions));
        assert_eq!(worst_time(&figures, showing, &planned.positions), planned.plan.worst2);
        let lowest = figures.total_positions() - figures.blocks as u64;
        assert_eq!(planned.positions.iter().min().copied(), Some(lowest as u32));
    }
}

/// Streams of hop and return by division in place of trying them all; those of a table by the first
/// entry that no longer fits.
fn streams_by_room(figures: &Figures, worst2: u32) -> i128 {
    let room = 2_000_000 * figures.block_bytes as i128 / figures.rate as i128;
    if figures.kind == 1 {
        let each = worst2 as i128 + 2 * figures.hop() as i128;
        return ((room - 2 * figures.ret() as i128).div_euclid(each)).min(256);
    }
    let needs = (1..=256).map(|n| n * worst2 as i128 + 2 * figures.table[n as usize] as i128);
    needs.take_while(|&need| need <= room).count() as i128
}

/// The number of streams is right, and 0, 1, 255 and 256 are all met.
#[test]
fn streams_at_the_edges() {
    let mut rng = Rng::new(15);
    let mut met = [0; 257];
    for _ in 0..20_000 {
        let figures = tight_figures(&mut rng, Showing::Once, 20);
        let worst2 = worst2(&figures, Showing::Once);
        let n = streams(&figures, worst2).unwrap_or(0);
        assert_eq!(n as i128, streams_by_room(&figures, worst2).max(0));
        met[n as usize] += 1;
    }
    for n in [0, 1, 254, 255, 256] {
        assert!(met[n] > 100, "{n} streams: {met:?}");
    }
}

/// Both sides of the formula equal: the stream fits.
#[test]
fn equality_fits() {
    let figures = figures_of(&[(2, 1)], 2, 6, 2_000_000).with_moves(1, 1);
    let at = |block_bytes| {
        let figures = Figures { block_bytes, ..figures.clone() };
        plan_of(&figures, Showing::Once).map(|planned| planned.plan.streams)
    };
    assert_eq!(at(6), Some(1));
    assert_eq!(at(5), None);
    let most = 256 * (2 + 2) + 2;
    assert_eq!(at(most - 1), Some(255));
    assert_eq!(at(most), Some(256));
    assert_eq!(at(most + 1000), Some(256));
}

/// The greatest buffer, and the round bounds of accepted plans. The greatest of document 01 alone is
/// of a card that document 02 refuses by 26.
#[test]
fn greatest_figures() {
    let zones = [(1, 3_999_012), (1, 1_333_004)];
    let figures = figures_of(&zones, 2, 4_194_304, 8692).with_moves(1, 1);
    let plan = plan_record(&figures, 2, 2).unwrap().plan;
    assert_eq!((plan.streams, plan.margin, plan.buffer), (181, 2_666_008, 14_680_064));
    let figures = figures_of(&[(1, 3_998_506), (1, 1)], 2, 4_194_304, 9242);
    assert_eq!(plan_record(&figures, 2, 2), Err(Refusal { number: 26, place: 0 }));
    let mut rng = Rng::new(16);
    for case in 0..10_000 {
        let showing = Showing::ALL[case % 2];
        let figures = tight_figures(&mut rng, showing, 20);
        if let Some(Planned { plan, leads, .. }) = plan_of(&figures, showing) {
            assert!(plan.buffer <= 4 * plan.figures.block_bytes);
            assert!(2 * plan.margin <= plan.worst2);
            assert_eq!(leads.iter().max(), Some(&plan.margin));
        }
    }
}

/// The margin's rounding is up, and only up to the next whole byte.
#[test]
fn buffer_is_rounded_up() {
    let plan = plan_of(&bench_film(), Showing::Once).unwrap().plan;
    let spare = 500_000 * 16 * 6550_u64;
    assert_eq!(plan.buffer as u64, 3 * 262_144 + spare / 2_000_000);
    let figures = Figures { rate: 500_001, ..bench_film() };
    let plan = plan_of(&figures, Showing::Once).unwrap().plan;
    assert_eq!((plan.streams, plan.buffer), (16, 812_633));
}

#[test]
fn which_records_are_plans() {
    let mut rng = Rng::new(17);
    for case in 0..6000 {
        let Planned { plan, positions, leads } = desk_plan_for(&mut rng, Showing::ALL[case % 2]);
        assert!(is_plan(&plan, &positions, &leads));
        let longer = (longer_list(&mut rng, &positions), longer_list(&mut rng, &leads));
        assert!(is_plan(&plan, &longer.0, &longer.1));
        assert!(!is_plan(&plan, &spoiled_list(&mut rng, &positions), &leads));
        assert!(!is_plan(&plan, &positions, &spoiled_list(&mut rng, &leads)));
        let mut altered = plan.clone();
        alter_plan(&mut rng, &mut altered);
        let is = is_plan(&altered, &positions, &leads);
        let made = Showing::of(altered.showing).map(|showing| {
            plan_record_for(&altered.figures, showing, positions.len(), leads.len())
        });
        assert_eq!(is, made == Some(Ok(Planned { plan: altered, positions, leads })));
    }
    assert!(!is_plan(&Plan::zero(), &[], &[]));
}

#[test]
fn lent_entries_past_the_answer_stay() {
    let planned = plan_record(&bench_film(), 8, 8).unwrap();
    let mut lent = [77; 8];
    fill_lent(&mut lent, &planned.positions);
    assert_eq!(lent, [0, 5, 1, 4, 2, 3, 77, 77]);
}
