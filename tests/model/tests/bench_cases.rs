//! Every bench case of 01, with the listing line of request 2 of 02.

use film_disk_model::bench::{
    bench_blocks, bench_bytes, bench_film, bench_zero_time, three_alike, two_alike,
};
use film_disk_model::card::{number_bytes, read_number};
use film_disk_model::desk::{floor, ASKED, FILLING, PLAYING};
use film_disk_model::plan::{fits, plan_of, streams, times};
use film_disk_model::shelf::one_film_card;
use film_disk_model::*;

fn planned(figures: &Figures) -> Planned {
    plan_record(figures, 6, 6).expect("an accepted record")
}

fn refused<T: std::fmt::Debug>(result: Result<T, Refusal>) -> (u32, u64) {
    let refusal = result.expect_err("a refusal");
    (refusal.number, refusal.place)
}

fn refused_card(figures: &Figures) -> (u32, u64) {
    refused(plan_card(&card_bytes(figures), 99, 99))
}

#[test]
fn numbers() {
    assert_eq!(number_bytes(300), [0xAC, 0x02]);
    assert_eq!(number_bytes(22270), [0xFE, 0xAD, 0x01]);
    assert_eq!(read_number(&[0xAC, 0x02], 0), Ok((300, 2)));
    assert_eq!(read_number(&[0xFE, 0xAD, 0x01], 0), Ok((22270, 3)));
}

#[test]
fn bench_listing() {
    let text = "\
streams 16
buffer 812632
worst2 37990
worstat 0
margin 6550
block position time lead
0 0 22270 6550
1 5 15720 0
2 1 20550 3110
3 4 16700 0
4 2 19090 190
5 3 17810 0
";
    assert_eq!(listing(&one_film_card(&bench_film())), text);
}

#[test]
fn zero_time_is_refused_6_at_7() {
    assert_eq!(listing(&one_film_card(&bench_zero_time())), "refused 6 at 7\n");
    assert_eq!(refused(plan_record(&bench_zero_time(), 6, 6)), (6, 0));
}

#[test]
fn other_block_bytes() {
    let above = planned(&bench_bytes(260_820)).plan;
    assert_eq!((above.streams, above.buffer), (16, 808_660));
    let below = planned(&bench_bytes(260_819)).plan;
    assert_eq!((below.streams, below.buffer), (15, 807_020));
}

#[test]
fn other_blocks() {
    let five = planned(&bench_blocks(5));
    assert_eq!(five.positions, [1, 5, 2, 4, 3]);
    assert_eq!((five.plan.worst2, five.plan.margin), (36_270, 4830));
    // The number N stands at offset 25 of the card.
    assert_eq!(refused_card(&bench_blocks(1)), (8, 25));
    assert_eq!(refused_card(&bench_blocks(7)), (9, 25));
    assert_eq!(judge_record(&bench_blocks(1)), Err(8));
    assert_eq!(judge_record(&bench_blocks(7)), Err(9));
}

#[test]
fn one_zone_of_three() {
    let planned = planned(&three_alike());
    assert_eq!(planned.positions, [0, 2, 1]);
    assert_eq!(planned.plan.worst2, 40_000);
    assert_eq!(planned.leads, [0, 0, 0]);
}

#[test]
fn one_zone_of_two() {
    assert_eq!(planned(&two_alike(23_835)).plan.streams, 1);
    assert_eq!(refused_card(&two_alike(23_834)), (12, 0));
    assert_eq!(refused(plan_record(&two_alike(23_834), 2, 2)), (12, 0));
}

#[test]
fn first_number() {
    assert_eq!(listing(&[]), "refused 1 at 0\n");
    assert_eq!(listing(&[0x81, 0x00]), "refused 2 at 0\n");
}

/// The desk story as request 5 of 02 has it: slot 0 stays filling at the second begin and slot 1 is
/// granted there.
#[test]
fn desk_story() {
    let Planned { plan, positions, leads } = planned(&bench_film());
    let desk = open(&plan, &positions, &leads).unwrap();

    let desk = join(&desk, &positions, &leads, 0, 0).unwrap();
    let begun = begin(&desk, &positions, &leads, 16).unwrap();
    assert_eq!(begun.entries, [Entry { position: 0, slot: 0, block: 0 }]);
    assert_eq!((begun.count, begun.bound), (1, 49_940));

    let desk = end(&begun.desk, &positions, &leads, &[0; 16]).unwrap();
    assert_eq!(desk.held[0], 262_144);
    let desk = join(&desk, &positions, &leads, 1, 0).unwrap();
    let asked_lead = leads[0] as u128 * 500_000;
    assert_eq!(floor(&desk, &leads) + asked_lead, 2_637_815 * 200_000);

    let begun = begin(&desk, &positions, &leads, 16).unwrap();
    assert_eq!((begun.count, begun.bound), (2, 78_330));
    assert_eq!(begun.desk.kinds[..2], [FILLING, FILLING]);
}

/// 01's draws of slot 0, had it played alone: 20 and then the rest of 502593.
#[test]
fn draws_of_the_story() {
    let Planned { plan, positions, leads } = planned(&bench_film());
    let desk = open(&plan, &positions, &leads).unwrap();
    let desk = join(&desk, &positions, &leads, 0, 0).unwrap();
    let desk = begin(&desk, &positions, &leads, 16).unwrap().desk;
    let desk = end(&desk, &positions, &leads, &[0; 16]).unwrap();
    let begun = begin(&desk, &positions, &leads, 16).unwrap();
    assert_eq!((begun.desk.kinds[0], begun.bound), (PLAYING, 43_390));

    let mut draws = [0; 16];
    draws[0] = 21_696;
    assert_eq!(refused(end(&begun.desk, &positions, &leads, &draws)), (20, 0));
    draws[0] = 21_695;
    let desk = end(&begun.desk, &positions, &leads, &draws).unwrap();
    assert_eq!(desk.held[0], 502_593);

    let desk = join(&desk, &positions, &leads, 1, 0).unwrap();
    assert_eq!(floor(&desk, &leads) + leads[0] as u128 * 500_000, 264_559 * 2_000_000);
    let begun = begin(&desk, &positions, &leads, 16).unwrap();
    assert_eq!(begun.desk.kinds[..2], [PLAYING, FILLING]);
}

/// A slot that holds just less than the floor of 263781.5 and just more.
#[test]
fn floor_is_not_rounded() {
    let Planned { plan, positions, leads } = planned(&bench_film());
    for (held, kind) in [(263_781, ASKED), (263_782, FILLING)] {
        let mut desk = open(&plan, &positions, &leads).unwrap();
        (desk.kinds[0], desk.next[0], desk.held[0]) = (PLAYING, 1, held);
        (desk.kinds[1], desk.places[1]) = (ASKED, 1);
        let begun = begin(&desk, &positions, &leads, 16).unwrap();
        assert_eq!(begun.desk.kinds[1], kind, "slot 0 holds {held}");
    }
}

#[test]
fn plausible_and_wrong() {
    let figures = bench_film();
    assert_eq!(streams(&figures, 2 * 22_270), Some(14));
    assert!(!fits(&figures, 2 * 22_270, 15));
    let times = times(&figures, Showing::Once);
    assert_eq!(times[5] + times[0], 40_080);
    assert_eq!(plan_of(&figures, Showing::Once).unwrap().plan.worst2, 37_990);
}
