//! Windows of several blocks: request 9 of 02, for one showing and for loops.

use film_disk_model::bench::{
    barracuda, bench_film, bench_zero_time, deskstar, figures_of, film_of, three_alike, two_alike,
};
use film_disk_model::plan::{plan_of, time_at};
use film_disk_model::rng::desks::{alter_plan, longer_list, spoiled_list};
use film_disk_model::rng::figures::{desk_plan_for, large_desk_plan_for, uneven_plan_for};
use film_disk_model::shelf::one_film_card;
use film_disk_model::window::{worst_window, MAX_WINDOW};
use film_disk_model::*;

/// The plan of a film that feeds a stream.
fn planned(figures: &Figures, showing: Showing) -> Planned {
    plan_of(figures, showing).expect("a stream that fits")
}

/// The numbers of blocks that a window may have.
fn all_k(planned: &Planned) -> std::ops::RangeInclusive<u32> {
    1..=planned.plan.figures.blocks.min(MAX_WINDOW)
}

fn window_of(planned: &Planned, k: u32) -> Window {
    window(&planned.plan, &planned.positions, k).expect("a window of the plan")
}

fn refused(plan: &Plan, positions: &[u32], k: u32) -> (u32, u64) {
    let Refusal { number, place } = window(plan, positions, k).unwrap_err();
    (number, place)
}

/// Time and place of every window.
fn times_and_places(planned: &Planned) -> Vec<(u32, u32)> {
    all_k(planned).map(|k| window_of(planned, k)).map(|one| (one.time, one.first)).collect()
}

/// The bench film: 22270, 15720, 20550, 16700, 19090, 17810 in the order of one showing, 22270,
/// 15720, 20550, 17810, 19090, 16700 in that of a loop.
#[test]
fn bench_windows() {
    let [once, looped] = Showing::ALL.map(|showing| planned(&bench_film(), showing));
    let expected = [(22270, 0), (37990, 0), (58540, 0), (75240, 0), (94330, 0), (112140, 0)];
    assert_eq!(times_and_places(&once), expected);
    let expected = [(22270, 0), (38970, 5), (58540, 0), (76350, 0), (96420, 2), (112140, 0)];
    assert_eq!(times_and_places(&looped), expected);
    for k in 1..=6 {
        assert_eq!(window_of(&once, k).bytes, k * 262_144);
        assert_eq!(window_of(&looped, k).bytes, k * 262_144);
    }
}

/// A film whose slow blocks meet in its middle: one showing ends there, a loop goes round.
#[test]
fn worst_in_mid_film() {
    let times = [9, 9, 9, 9, 9, 3, 3, 3];
    let [once, looped] = Showing::ALL.map(|showing| planned(&film_of(&times), showing));
    // 9 3 9 3 9 3 9 9
    let expected = [(9, 0), (18, 6), (21, 0), (30, 4), (33, 0), (42, 2), (45, 0), (54, 0)];
    assert_eq!(times_and_places(&once), expected);
    // 9 3 9 3 9 9 9 3
    let expected = [(9, 0), (18, 4), (27, 4), (30, 2), (39, 2), (42, 0), (51, 0), (54, 0)];
    assert_eq!(times_and_places(&looped), expected);
}

/// On one zone every window is as bad as the first.
#[test]
fn one_zone() {
    let films = [two_alike(23_835), three_alike(), deskstar()];
    for planned in films.iter().flat_map(|film| Showing::ALL.map(|showing| planned(film, showing)))
    {
        let time = planned.plan.figures.times[0];
        let expected: Vec<(u32, u32)> = all_k(&planned).map(|k| (k * time, 0)).collect();
        assert_eq!(times_and_places(&planned), expected);
    }
}

/// The greatest figures: 64 blocks of 4,194,304 bytes in 256 seconds.
#[test]
fn greatest_window() {
    let figures = figures_of(&[(64, 4_000_000)], 64, 4_194_304, 1);
    for showing in Showing::ALL {
        let expected = Window { time: 256_000_000, first: 0, bytes: 268_435_456 };
        assert_eq!(window_of(&planned(&figures, showing), 64), expected);
    }
}

/// Plans of every sort, once and loop in turn.
fn each_plan(seed: u64, count: usize, mut check: impl FnMut(&mut Rng, Planned)) {
    let mut rng = Rng::new(seed);
    for case in 0..count {
        let showing = Showing::ALL[case % 2];
        let planned = match case % 200 {
            0 | 1 => large_desk_plan_for(&mut rng, showing),
            2..=99 => desk_plan_for(&mut rng, showing),
            _ => uneven_plan_for(&mut rng, showing),
        };
        check(&mut rng, planned);
    }
}

/// The window of two blocks is worst2 at worstat, that of one the slowest block.
#[test]
fn windows_of_one_and_two() {
    each_plan(91, 3000, |_, planned| {
        let Plan { worst2, worstat, margin, .. } = planned.plan;
        let two = window_of(&planned, 2);
        assert_eq!((two.time, two.first), (worst2, worstat));
        assert_eq!(2 * window_of(&planned, 1).time, worst2 + margin);
    });
}

/// An even k never takes more than k / 2 × worst2.
#[test]
fn even_windows() {
    each_plan(92, 1500, |_, planned| {
        for k in all_k(&planned).filter(|k| k % 2 == 0) {
            assert!(window_of(&planned, k).time <= k / 2 * planned.plan.worst2);
        }
    });
}

/// All blocks together take the same from every place of a loop, and there is one place of one
/// showing.
#[test]
fn window_of_the_whole_film() {
    each_plan(93, 1500, |_, planned| {
        let Plan { figures, .. } = &planned.plan;
        if figures.blocks <= MAX_WINDOW {
            let all: u32 = planned.positions.iter().map(|&at| time_at(figures, at)).sum();
            let expected =
                Window { time: all, first: 0, bytes: figures.blocks * figures.block_bytes };
            assert_eq!(window_of(&planned, figures.blocks), expected);
        }
    });
}

/// Sums of times from the start, by which a window is a difference.
fn by_sums(times: &[u32], showing: Showing, k: usize) -> (u32, usize) {
    let mut sums = vec![0];
    for time in times.iter().chain(times) {
        sums.push(sums[sums.len() - 1] + *time as u64);
    }
    let last = if showing == Showing::Once { times.len() - k } else { times.len() - 1 };
    let mut worst = (0, 0);
    for first in 0..=last {
        let time = (sums[first + k] - sums[first]) as u32;
        if time > worst.0 {
            worst = (time, first);
        }
    }
    worst
}

#[test]
fn windows_by_sums() {
    each_plan(94, 1000, |rng, planned| {
        let Plan { figures, showing, .. } = &planned.plan;
        let showing = Showing::of(*showing).unwrap();
        let times: Vec<u32> = planned.positions.iter().map(|&at| time_at(figures, at)).collect();
        let most = figures.blocks.min(MAX_WINDOW);
        for k in [1, 2, rng.between(1, most), rng.between(1, most), most] {
            let k = k as usize;
            assert_eq!(worst_window(&times, showing, k), by_sums(&times, showing, k));
        }
    });
}

/// 27 for no block, for more than 64 and for more than N; 14 goes before it.
#[test]
fn refusals_in_order() {
    let films = [two_alike(262_144), bench_film(), barracuda(3600)];
    let sizes = [63, 64, 65].map(|blocks| figures_of(&[(70, 900)], blocks, 262_144, 500_000));
    for figures in films.into_iter().chain(sizes) {
        for planned in Showing::ALL.map(|showing| planned(&figures, showing)) {
            let Planned { plan, positions, .. } = &planned;
            let most = figures.blocks.min(64);
            let shorter = &positions[..positions.len() - 1];
            let other = Plan { worstat: plan.worstat + 1, ..plan.clone() };
            for k in [0, most + 1, 65, 66, figures.blocks + 1, 65_536, 1 << 31, u32::MAX] {
                assert_eq!(refused(plan, positions, k), (27, 0), "k {k}");
                assert_eq!(refused(plan, shorter, k), (14, 0));
                assert_eq!(refused(&other, positions, k), (14, 0));
            }
            for k in [1, most] {
                assert!(window(plan, positions, k).is_ok());
                assert_eq!(refused(plan, shorter, k), (14, 0));
                assert_eq!(refused(&other, positions, k), (14, 0));
            }
        }
    }
}

/// Spare entries of the list change nothing; fewer or other ones make it no list of the plan.
#[test]
fn lists_of_other_lengths() {
    each_plan(95, 1000, |rng, planned| {
        let Planned { plan, positions, .. } = &planned;
        let k = rng.between(1, plan.figures.blocks.min(64));
        let longer = longer_list(rng, positions);
        assert_eq!(window(plan, &longer, k), Ok(window_of(&planned, k)));
        assert_eq!(refused(plan, &spoiled_list(rng, positions), k), (14, 0));
    });
}

/// Any other plan record is 14, but for a plan that is its own.
#[test]
fn other_plans() {
    let mut met = [0; 2];
    each_plan(96, 1000, |rng, planned| {
        let mut plan = planned.plan.clone();
        alter_plan(rng, &mut plan);
        let is_own = is_plan(&plan, &planned.positions, &planned.leads);
        let answer = window(&plan, &planned.positions, 1);
        met[answer.is_ok() as usize] += 1;
        // Without the leads a plan may be its own where they are another's.
        assert!(!is_own || answer.is_ok(), "{plan:?}");
        if let Err(refusal) = answer {
            assert_eq!(refusal, Refusal { number: 14, place: 0 });
        }
    });
    assert!(met[0] > 500 && met[1] > 5, "{met:?}");
}

/// The lines of the program, and its refusals.
#[test]
fn texts() {
    let card = one_film_card(&bench_film());
    let text = "\
blocks time first bytes rate
1 22270 0 262144 11771171
2 37990 0 524288 13800684
3 58540 0 786432 13434096
4 75240 0 1048576 13936416
5 94330 0 1310720 13895049
6 112140 0 1572864 14025896
";
    assert_eq!(windows_with(&[], &card), text);
    let looped = windows_with(&["loop".to_string()], &card);
    assert!(looped.contains("\n2 38970 5 524288 13453630\n"), "{looped}");
    assert_eq!(windows_with(&[], &one_film_card(&bench_zero_time())), "refused 6 at 7\n");
    assert_eq!(windows_with(&[], &[]), "refused 1 at 0\n");
    assert_eq!(windows_with(&["once".to_string()], &card), "usage: windows [loop|pairs]\n");
    let long = windows_with(&[], &one_film_card(&barracuda(8871)));
    assert_eq!(long.lines().count(), 65);
    assert_eq!(long.lines().nth(2), Some("2 222551 0 2097152 9423242"));
}
