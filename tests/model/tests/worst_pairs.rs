//! The worst pair by its first block: request 2 of 02, for one showing and for loops.

use film_disk_model::bench::{
    barracuda, bench_blocks, bench_film, deskstar, figures_of, film_of, three_alike, two_alike,
};
use film_disk_model::plan::{plan_of, time_at};
use film_disk_model::rng::figures::{desk_plan_for, large_desk_plan_for, uneven_plan_for};
use film_disk_model::rng::shelf::cards::any_shelf_card;
use film_disk_model::shelf::Rule;
use film_disk_model::*;

/// The plan of a film that feeds a stream.
fn planned(figures: &Figures, showing: Showing) -> Planned {
    plan_of(figures, showing).expect("a stream that fits")
}

/// worstat of one showing and of the loop.
fn both(figures: &Figures) -> [u32; 2] {
    Showing::ALL.map(|showing| planned(figures, showing).plan.worstat)
}

/// The bench film's worst pair is its first; in a loop it is the last block with the first.
#[test]
fn bench_films() {
    assert_eq!(both(&bench_film()), [0, 5]);
    assert_eq!((2..=5).map(|blocks| both(&bench_blocks(blocks))[0]).max(), Some(0));
    let loops: Vec<u32> = (2..=5).map(|blocks| both(&bench_blocks(blocks))[1]).collect();
    assert_eq!(loops, [0, 2, 3, 4]);
}

/// On one zone all pairs are equal.
#[test]
fn one_zone() {
    for figures in [two_alike(23_835), three_alike(), deskstar()] {
        assert_eq!(both(&figures), [0, 0]);
    }
    for blocks in [2, 3, 4, 5, 8, 300, 16_383, 16_384] {
        assert_eq!(both(&figures_of(&[(16_400, 7)], blocks, 262_144, 500_000)), [0, 0]);
    }
}

/// The outermost zone has two positions or more, so that the innermost block meets its time first.
#[test]
fn barracuda_9() {
    assert_eq!([barracuda(8871), barracuda(3600)].map(|figures| both(&figures)), [[0, 0]; 2]);
}

/// Times of the positions, then the worst pair of one showing and of the loop.
#[test]
fn earliest_of_equal_pairs() {
    let films: [(&[u32], [u32; 2]); 14] = [
        // Two blocks are one pair; as a loop they are two equal ones.
        (&[3, 1], [0, 0]),
        (&[3, 2, 2], [0, 0]),
        (&[2, 2, 1], [0, 2]),
        (&[3, 2, 1], [0, 2]),
        (&[5, 4, 3, 2], [0, 3]),
        // The pair before the last is as bad as the last block with the first.
        (&[3, 3, 2, 1], [2, 2]),
        (&[9, 9, 9, 3], [2, 2]),
        (&[5, 5, 5, 5, 2, 2], [4, 2]),
        (&[6, 3, 3, 3, 3, 2], [0, 5]),
        (&[3, 1, 1, 1, 1, 1], [0, 0]),
        (&[12, 11, 10, 9, 8, 7, 6, 5], [0, 2]),
        (&[9, 9, 9, 5, 5, 3, 3, 3], [0, 5]),
        (&[9, 9, 9, 9, 3, 3, 3], [0, 4]),
        // Half way round two pairs side by side.
        (&[9, 9, 9, 9, 9, 3, 3, 3], [6, 4]),
    ];
    for (times, worst) in films {
        assert_eq!(both(&film_of(times)), worst, "{times:?}");
    }
}

/// Time of a block and the one after it, by the positions list; past the last comes the first.
fn pair_time(planned: &Planned, block: u32) -> u32 {
    let blocks = planned.plan.figures.blocks;
    let time = |block: u32| time_at(&planned.plan.figures, planned.positions[block as usize]);
    time(block) + time((block + 1) % blocks)
}

/// The pair at worstat takes worst2, none before it does, and none after it takes more. One
/// showing has no pair at N - 1.
fn check_worst_pair(planned: &Planned) {
    let Plan { worst2, worstat, .. } = planned.plan;
    let pairs = planned.plan.figures.blocks - (planned.plan.showing == 0) as u32;
    assert!(worstat < pairs, "{:?}", planned.plan);
    for block in 0..pairs {
        let time = pair_time(planned, block);
        let is_due = match block {
            _ if block < worstat => time < worst2,
            _ if block == worstat => time == worst2,
            _ => time <= worst2,
        };
        assert!(is_due, "block {block}: {time}, {:?}", planned.plan);
    }
}

/// Every place is met: the first pair, the one of the last block and the first, and others.
#[test]
fn worst_pairs_of_random_films() {
    let mut rng = Rng::new(51);
    let mut met = [[0; 3]; 2];
    for case in 0..6000 {
        let showing = Showing::ALL[case % 2];
        let planned = match case % 400 {
            0 | 1 => large_desk_plan_for(&mut rng, showing),
            2..=99 => desk_plan_for(&mut rng, showing),
            _ => uneven_plan_for(&mut rng, showing),
        };
        check_worst_pair(&planned);
        let place = match planned.plan.worstat {
            0 => 0,
            block if block == planned.plan.figures.blocks - 1 => 1,
            _ => 2,
        };
        met[case % 2][place] += 1;
    }
    assert!(met[0][0] > 200 && met[0][1] == 0 && met[0][2] > 200, "{met:?}");
    assert!(met[1].iter().all(|&count| count > 100), "{met:?}");
}

/// Shown once, the first block of the worst pair is an even one.
#[test]
fn even_block_of_one_showing() {
    let mut rng = Rng::new(52);
    for _ in 0..2000 {
        assert_eq!(uneven_plan_for(&mut rng, Showing::Once).plan.worstat % 2, 0);
    }
}

/// The numbers of an opening and of every call on a desk.
fn numbers(plan: &Plan, planned: &Planned) -> [u32; 5] {
    let (positions, leads) = (&planned.positions, &planned.leads);
    let n = planned.plan.streams as usize;
    let desk = Desk::all_free(plan);
    let opened = open(plan, positions, leads).map_or_else(|refusal| refusal.number, |_| 0);
    let of = |call| answer(&desk, positions, leads, &call).number;
    [
        opened,
        of(Call::Join { slot: 0, block: 0 }),
        of(Call::Leave { slot: 0 }),
        of(Call::Begin { fetch_list: n }),
        of(Call::End { draws: vec![0; n] }),
    ]
}

/// Of several worst pairs only the earliest makes a plan; so no other block does, and no other word.
#[test]
fn other_blocks_make_no_plan() {
    let films =
        [two_alike(262_144), three_alike(), bench_film(), film_of(&[9, 9, 9, 5, 5, 3, 3, 3])];
    for figures in films {
        for planned in Showing::ALL.map(|showing| planned(&figures, showing)) {
            let words = (0..=figures.blocks).chain([256, 65_536, 1 << 24, u32::MAX]);
            for worstat in words {
                let plan = Plan { worstat, ..planned.plan.clone() };
                let is = worstat == planned.plan.worstat;
                // A free slot cannot leave, and no sweep can end that has not begun.
                let expected = if is { [0, 0, 17, 0, 15] } else { [14; 5] };
                assert_eq!(numbers(&plan, &planned), expected, "{plan:?}");
                assert_eq!(is_plan(&plan, &planned.positions, &planned.leads), is);
            }
        }
    }
}

/// The listing's line stands after worst2's, for both showings.
#[test]
fn line_of_the_listing() {
    let mut rng = Rng::new(53);
    let mut listed = 0;
    for case in 0..4000 {
        let rule = [Rule::Once, Rule::Loop][case % 2];
        let card = any_shelf_card(&mut rng, rule);
        let answer = shelf::plan_card(&card, rule, 16_384, 16_384);
        let text = if rule == Rule::Once { listing(&card) } else { loop_listing(&card) };
        let lines: Vec<&str> = text.lines().take(5).collect();
        match answer {
            Ok(shelf::Planned { plan, .. }) => {
                assert_eq!(lines[2], format!("worst2 {}", plan.worst2));
                assert_eq!(lines[3], format!("worstat {}", plan.worstat));
                assert_eq!(lines[4], format!("margin {}", plan.margin));
                listed += 1;
            }
            Err(_) => assert!(!text.contains("worstat")),
        }
    }
    assert!(listed > 500, "{listed}");
}
