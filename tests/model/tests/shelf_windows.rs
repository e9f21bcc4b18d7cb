//! Windows, listed blocks and the second planner of a shelf of films: request 14 of 02.

use film_disk_model::bench::{bench_blocks, bench_film, figures_of, film_of};
use film_disk_model::plan::{time_at, Showing};
use film_disk_model::rng::desks::{longer_list, spoiled_list};
use film_disk_model::rng::figures::{desk_plan_for, large_desk_plan_for};
use film_disk_model::rng::pairs::{large_pairs_plan, pairs_plan};
use film_disk_model::rng::shelf::{large_shelf_plan, shelf_plan};
use film_disk_model::shelf::plan::{block_time, film_and_block, worst_pair};
use film_disk_model::shelf::{
    self, card_bytes, plan_card, plan_record, try_card, try_record, Figures, Planned, Rule,
};
use film_disk_model::try_all::{self, small_cards};
use film_disk_model::{window, window_pairs, Refusal, Rng, Window};

/// B of the bench film.
const BLOCK: u32 = 262_144;

fn planned(figures: &Figures, rule: Rule) -> Planned {
    let blocks = figures.all_blocks() as usize;
    plan_record(figures, rule, rule.visits() * blocks, blocks).expect("an accepted record")
}

fn refused<T>(answer: Result<T, Refusal>) -> Option<(u32, u64)> {
    answer.err().map(|Refusal { number, place }| (number, place))
}

/// The disk of positions with these times, and films of these N.
fn shelf_of(times: &[u32], lengths: &[u32]) -> Figures {
    Figures::of(&film_of(times), lengths)
}

/// Block times of each film, by the positions list and the whole disk.
fn listed_times(planned: &Planned) -> Vec<Vec<u32>> {
    let Planned { plan, positions, .. } = planned;
    let disk = plan.figures.of_one(0);
    let visits = Rule::of(plan.showing).unwrap().visits();
    let time = |at: &[u32]| at.iter().map(|&position| time_at(&disk, position)).sum();
    let mut times = positions.chunks(visits).map(time);
    let lengths = plan.figures.lengths().iter();
    lengths.map(|&blocks| times.by_ref().take(blocks as usize).collect()).collect()
}

/// Plans of every sort, the rules in turn.
fn each_plan(seed: u64, count: usize, mut check: impl FnMut(&mut Rng, Rule, Planned)) {
    let mut rng = Rng::new(seed);
    for case in 0..count {
        let rule = Rule::ALL[case % 3];
        let planned = match case % 150 {
            0..=2 => large_shelf_plan(&mut rng, rule),
            _ => shelf_plan(&mut rng, rule),
        };
        check(&mut rng, rule, planned);
    }
}

// Windows.

/// Windows of one film are those of that film.
#[test]
fn windows_of_one_film() {
    let mut rng = Rng::new(158);
    for case in 0..900 {
        let rule = Rule::ALL[case % 3];
        let film = match (rule, case % 90 < 3) {
            (Rule::Pairs, false) => pairs_plan(&mut rng),
            (Rule::Pairs, true) => large_pairs_plan(&mut rng),
            (_, false) => desk_plan_for(&mut rng, rule.showing()),
            (_, true) => large_desk_plan_for(&mut rng, rule.showing()),
        };
        let blocks = film.plan.figures.blocks;
        let made = planned(&Figures::of(&film.plan.figures, &[blocks]), rule);
        for k in [0, 1, 2, blocks.min(64), blocks.min(64) + 1, rng.between(1, blocks.min(64))] {
            let expected = match rule {
                Rule::Pairs => window_pairs(&film.plan, &film.positions, k),
                _ => window(&film.plan, &film.positions, k),
            };
            assert_eq!(shelf::window(&made.plan, &made.positions, k), expected);
        }
    }
}

/// Every window of k blocks within a film: the greatest time and its earliest place in the list.
fn by_places(made: &Planned, rule: Rule, k: usize) -> (u32, u32) {
    let mut worst = (0, 0);
    let mut start = 0;
    for film in listed_times(made) {
        let places = match rule {
            Rule::Loop if film.len() >= k => film.len(),
            _ => (film.len() + 1).saturating_sub(k),
        };
        for first in 0..places {
            let time = (first..first + k).map(|b| film[b % film.len()]).sum();
            if time > worst.0 {
                worst = (time, start + first as u32);
            }
        }
        start += film.len() as u32;
    }
    worst
}

#[test]
fn windows_by_places() {
    let mut short = 0;
    each_plan(159, 900, |rng, rule, made| {
        let Planned { plan, positions, .. } = &made;
        let most = plan.figures.longest().min(64);
        let window = |k| shelf::window(plan, positions, k);
        for k in [1, 2, rng.between(1, most), rng.between(1, most), most] {
            let (time, first) = by_places(&made, rule, k as usize);
            let bytes = k * plan.figures.block_bytes;
            assert_eq!(window(k), Ok(Window { time, first, bytes }));
            assert!(k % 2 == 1 || time <= k / 2 * plan.worst2);
            let (film, block) = film_and_block(&plan.figures, first);
            assert!(rule == Rule::Loop || block + k <= plan.figures.blocks[film]);
            short += plan.figures.lengths().iter().filter(|&&blocks| blocks < k).count();
        }
        for k in [0, most + 1, 65, plan.figures.all_blocks() as u32 + 1, u32::MAX] {
            assert_eq!(refused(window(k)), Some((27, 0)));
            let spoiled = spoiled_list(rng, positions);
            assert_eq!(refused(shelf::window(plan, &spoiled, k)), Some((14, 0)));
        }
        assert_eq!(shelf::window(plan, &longer_list(rng, positions), most), window(most));
        let at_worst = match rule {
            Rule::Pairs => window(1).map(|one| (2 * one.time, one.first)),
            _ => window(2).map(|two| (two.time, two.first)),
        };
        assert_eq!(at_worst, Ok((plan.worst2, plan.worstat)));
    });
    assert!(short > 1000, "{short}");
}

/// Films of 2 and 4 blocks: a window of 3 lies in the second, one of 5 in none, though six blocks are
/// listed; a loop of 2 is not gone round twice.
#[test]
fn windows_by_hand() {
    // 3 3 | 9 4 8 7
    let figures = shelf_of(&[9, 8, 7, 4, 3, 3], &[2, 4]);
    let Planned { plan, positions, .. } = planned(&figures, Rule::Once);
    let all: Vec<_> = (1..=4).map(|k| shelf::window(&plan, &positions, k).unwrap()).collect();
    let expected = [(9, 2), (15, 4), (21, 2), (28, 2)];
    assert!(all.iter().map(|one| (one.time, one.first)).eq(expected));
    assert_eq!(all[2].bytes, 3 * BLOCK);
    assert_eq!(refused(shelf::window(&plan, &positions, 5)), Some((27, 0)));
    // 9 8 first: as a loop of 2 blocks three of them would take 26.
    let figures = shelf_of(&[9, 8, 3, 3, 3], &[3, 2]);
    let Planned { plan, positions, .. } = planned(&figures, Rule::Loop);
    let window = shelf::window(&plan, &positions, 3);
    assert_eq!(window.map(|one| (one.time, one.first)), Ok((9, 0)));
}

// Blocks as the lists count.

#[test]
fn listed_blocks() {
    each_plan(160, 600, |_, rule, made| {
        let figures = &made.plan.figures;
        let mut listed = 0;
        for (film, times) in listed_times(&made).iter().enumerate() {
            assert_eq!(figures.start(film), listed as u64);
            for (block, &time) in times.iter().enumerate() {
                assert_eq!(film_and_block(figures, listed), (film, block as u32));
                if block < 9 || block + 9 > times.len() {
                    assert_eq!(block_time(figures, rule, film, block as u32), time);
                }
                listed += 1;
            }
        }
        if rule != Rule::Pairs {
            let pair = worst_pair(&made.plan).map(|listed| film_and_block(figures, listed));
            assert_eq!(pair[0].0, pair[1].0);
            let times = pair.map(|(film, block)| block_time(figures, rule, film, block));
            assert_eq!(times[0] + times[1], made.plan.worst2);
        }
    });
}

// The second planner.

/// One film as before; more films are 29, with 8 blocks together too, behind the card's refusals and
/// before 12.
#[test]
fn second_planner() {
    for showing in Showing::ALL {
        for blocks in 2..=6 {
            let figures = bench_blocks(blocks);
            let expected = try_all::try_record(&figures, showing);
            assert_eq!(try_record(&Figures::of(&figures, &[blocks]), showing), expected);
        }
        let poor = film_disk_model::Figures { block_bytes: 1, ..bench_film() };
        for disk in [bench_film(), poor] {
            let two = Figures::of(&disk, &[2, 2]);
            assert_eq!(refused(try_record(&two, showing)), Some((29, 0)));
            assert_eq!(refused(try_card(&card_bytes(&two), showing)), Some((29, 0)));
            assert_eq!(refused(try_record(&Figures::of(&disk, &[2, 5]), showing)), Some((9, 0)));
            assert_eq!(refused(try_record(&Figures::of(&disk, &[]), showing)), Some((30, 0)));
        }
        let long = Figures::of(&figures_of(&[(9, 9)], 0, 1, 1), &[9]);
        assert_eq!(refused(try_record(&long, showing)), Some((29, 0)));
    }
}

/// The small cards keep one film; as shelves they are 1511, and no worst2 is unequal.
#[test]
fn small_cards_of_one_film() {
    let (mut cards, mut unequal) = (0, 0);
    for figures in small_cards() {
        let card = card_bytes(&Figures::of(&figures, &[figures.blocks]));
        cards += 1;
        for (showing, rule) in [(Showing::Once, Rule::Once), (Showing::Loop, Rule::Loop)] {
            let tried = try_card(&card, showing).expect("at most 8 blocks");
            let made = plan_card(&card, rule, 8, 8).expect("256 streams");
            unequal += (tried.worst2 != made.plan.worst2) as usize;
        }
    }
    assert_eq!((cards, unequal), (1511, 0));
}
