//! The second planner and all small cards: requests 12 and 13 of 02.

use film_disk_model::bench::{
    bench_blocks, bench_film, bench_zero_time, figures_of, film_of, three_alike, two_alike,
};
use film_disk_model::card::straight;
use film_disk_model::plan::{is_laying, plan_of, worst_time};
use film_disk_model::rng::cards::any_card;
use film_disk_model::rng::figures::{any_figures, small_figures};
use film_disk_model::try_all::{
    each_laying, small_cards, try_card, try_layings, try_record, Tried, MOST_BLOCKS,
};
use film_disk_model::*;
use std::collections::HashSet;

// The second planner.

fn factorial(count: u32) -> usize {
    (1..=count as usize).product()
}

/// N! layings, each once, each on the N highest positions.
#[test]
fn every_laying_once() {
    for blocks in 2..=MOST_BLOCKS {
        let figures = figures_of(&[(3, 9), (blocks, 8)], blocks, 262_144, 500_000);
        let mut all: Vec<Vec<u32>> = Vec::new();
        each_laying(&figures, &mut |laying| all.push(laying.to_vec()));
        let different: HashSet<&Vec<u32>> = all.iter().collect();
        assert_eq!(all.len(), factorial(blocks));
        assert_eq!(different.len(), all.len());
        assert!(all.iter().all(|laying| is_laying(&figures, laying)));
        assert!(all.iter().flatten().all(|&position| position >= 3));
    }
}

/// Equal times and reversals count apart, and a loop's rotations too.
#[test]
fn counts_of_layings() {
    let tried = |times: &[u32], showing| {
        let Tried { worst2, count } = try_layings(&film_of(times), showing);
        (worst2, count)
    };
    assert_eq!(tried(&[5, 5], Showing::Once), (10, 2));
    assert_eq!(tried(&[5, 4], Showing::Loop), (9, 2));
    assert_eq!(tried(&[7, 7, 7], Showing::Once), (14, 6));
    assert_eq!(tried(&[7, 7, 7], Showing::Loop), (14, 6));
    // The quickest in the middle.
    assert_eq!(tried(&[3, 2, 1], Showing::Once), (4, 2));
    // On the circle the two slowest always meet.
    assert_eq!(tried(&[3, 2, 1], Showing::Loop), (5, 6));
    // 4 with 1, and 1 with 3, and 3 with 2, or the other way; 4 1 2 3 and its reverse too.
    assert_eq!(tried(&[4, 3, 2, 1], Showing::Once), (5, 4));
    assert_eq!(tried(&[9; 8], Showing::Once), (18, 40_320));
    assert_eq!(tried(&[9; 8], Showing::Loop), (18, 40_320));
}

#[test]
fn bench_films() {
    let tried = Showing::ALL.map(|showing| try_record(&bench_film(), showing).unwrap());
    assert_eq!(tried.map(|one| one.worst2), [37_990, 38_970]);
    assert_eq!(try_record(&three_alike(), Showing::Once), Ok(Tried { worst2: 40_000, count: 6 }));
}

/// Films of up to 8 blocks on disks with more positions: the planner's laying is one of the best.
#[test]
fn as_good_as_the_planner() {
    let mut rng = Rng::new(121);
    for case in 0..600 {
        let figures = small_figures(&mut rng, if case % 20 == 0 { 8 } else { 6 });
        for showing in Showing::ALL {
            let tried = try_layings(&figures, showing);
            let laying = plan::positions(&figures, showing);
            assert_eq!(worst_time(&figures, showing, &laying), tried.worst2, "{figures:?}");
            assert!(tried.count >= 1);
        }
    }
}

/// 29 stands where the planner has 13: after 11, before 12.
#[test]
fn refusals_in_order() {
    let refused = |figures: &Figures, showing| {
        let Refusal { number, place } = try_record(figures, showing).unwrap_err();
        let card = try_card(&card_bytes(figures), showing);
        assert_eq!(card.unwrap_err().number, number);
        (number, place)
    };
    let film = |blocks, bytes| figures_of(&[(9, 20_000)], blocks, bytes, 500_000);
    for showing in Showing::ALL {
        assert!(try_record(&film(8, 262_144), showing).is_ok());
        assert_eq!(refused(&film(9, 262_144), showing), (29, 0));
        assert_eq!(refused(&film(9, 1), showing), (29, 0));
        assert_eq!(refused(&film(8, 1), showing), (12, 0));
        assert_eq!(refused(&film(10, 1), showing), (9, 0));
        assert_eq!(refused(&bench_zero_time(), showing), (6, 0));
        assert_eq!(refused(&bench_blocks(7), showing), (9, 0));
        assert_eq!(refused(&bench_blocks(1), showing), (8, 0));
        assert!(try_record(&two_alike(23_835), showing).is_ok());
        assert_eq!(refused(&two_alike(23_834), showing), (12, 0));
        let extra = [card_bytes(&film(9, 1)), vec![0]].concat();
        assert_eq!(try_card(&extra, showing).unwrap_err().number, 11);
        let zero_time = Refusal { number: 6, place: 7 };
        assert_eq!(try_card(&card_bytes(&bench_zero_time()), showing), Err(zero_time));
    }
}

/// The second planner turns down what the planner does, with 29 for 13; else it has its worst2.
fn check_against_planner(tried: Result<Tried, Refusal>, planned: Result<Planned, Refusal>, n: u32) {
    match (tried, planned) {
        (Ok(tried), Ok(planned)) => assert_eq!(tried.worst2, planned.plan.worst2),
        (Err(refusal), _) if refusal.number == 29 => {
            assert_eq!(refusal.place, 0);
            assert!(n > MOST_BLOCKS);
        }
        (tried, planned) => assert_eq!(tried.err(), planned.err()),
    }
}

#[test]
fn random_cards_and_records() {
    let mut rng = Rng::new(122);
    let mut met = HashSet::new();
    for case in 0..4000 {
        let showing = Showing::ALL[case % 2];
        let card = any_card(&mut rng);
        let n = read_card(&card).map_or(0, |figures| figures.blocks);
        let tried = try_card(&card, showing);
        met.insert(tried.map_or_else(|refusal| refusal.number, |_| 0));
        check_against_planner(tried, plan::plan_card_for(&card, showing, 16_384, 16_384), n);
        let figures = any_figures(&mut rng);
        let planned = plan::plan_record_for(&figures, showing, 16_384, 16_384);
        check_against_planner(try_record(&figures, showing), planned, figures.blocks);
    }
    assert!([0, 1, 2, 12, 29].iter().all(|number| met.contains(number)), "{met:?}");
}

// Small cards.

/// Zones, positions, times and N: what the order goes by.
fn key(figures: &Figures) -> (u32, Vec<u32>, Vec<u32>, u32) {
    let zones = figures.zones as usize;
    let positions = figures.positions[..zones].to_vec();
    (figures.zones, positions, figures.times[..zones].to_vec(), figures.blocks)
}

/// Each card once, in order, and each of them legal.
#[test]
fn small_cards_in_order() {
    let cards = small_cards();
    assert_eq!(cards.len(), 1511);
    assert!(cards.windows(2).all(|two| key(&two[0]) < key(&two[1])));
    for figures in &cards {
        assert_eq!(read_card(&card_bytes(figures)).as_ref(), Ok(figures));
        let others = (figures.kind, figures.block_bytes, figures.rate);
        assert_eq!(others, (1, 1000, 1000));
        assert_eq!(figures.table, straight(1, 1));
        assert!(figures.zones <= 3 && figures.blocks <= 8);
        assert!(figures.positions.iter().chain(&figures.times).all(|&number| number <= 3));
    }
    assert_eq!(key(&cards[0]), (1, vec![2], vec![1], 2));
    assert_eq!(key(&cards[1510]), (3, vec![3, 3, 3], vec![3, 3, 3], 8));
}

/// None is missing: every figure of a card with three zones or fewer, tried from 0 to one more than
/// it may be, makes a card of the list or no legal one.
#[test]
fn no_small_card_is_missing() {
    let listed: HashSet<Vec<u8>> = small_cards().iter().map(card_bytes).collect();
    let mut legal = 0;
    for zones in 0..=3_u32 {
        for code in 0..4_u32.pow(2 * zones) {
            let digit = |place: u32| code / 4_u32.pow(place) % 4;
            let zone = |zone: u32| (digit(2 * zone), digit(2 * zone + 1));
            for blocks in 0..=8 {
                let zones: Vec<(u32, u32)> = (0..zones).map(zone).collect();
                let figures = figures_of(&zones, blocks, 1000, 1000).with_moves(1, 1);
                let card = card_bytes(&figures);
                assert_eq!(read_card(&card).is_ok(), listed.contains(&card), "{figures:?}");
                legal += listed.contains(&card) as usize;
            }
        }
    }
    assert_eq!(legal, 1511);
}

/// Both planners have one worst2 for every small card, and every one feeds 256 streams.
#[test]
fn both_planners_agree() {
    let mut unequal = 0;
    for figures in small_cards() {
        for showing in Showing::ALL {
            let planned = plan_of(&figures, showing).expect("a stream fits");
            let tried = try_record(&figures, showing).expect("a small card");
            assert_eq!(planned.plan.streams, 256);
            unequal += (planned.plan.worst2 != tried.worst2) as usize;
        }
    }
    assert_eq!(unequal, 0);
}
