//! Cards of real drives and of the papers' examples.

use film_disk_model::bench::{barracuda, deskstar, figures_of};
use film_disk_model::plan::{plan_of, times, worst2};
use film_disk_model::{judge_record, Figures, Showing};

/// The rates of example 1's six zones, in Mbit a second.
const EXAMPLE_1: [u64; 6] = [60, 65, 70, 75, 80, 85];

/// Streams, worst2, margin and buffer.
fn summary(figures: &Figures) -> (u32, u32, u32, u32) {
    let plan = plan_of(figures, Showing::Once).expect("a stream that fits").plan;
    (plan.streams, plan.worst2, plan.margin, plan.buffer)
}

/// Each keeps to the ranges: no outer zone is over three times as fast as the innermost.
#[test]
fn real_cards_are_legal() {
    for figures in [
        barracuda(8871),
        barracuda(3600),
        deskstar(),
        disk(286_921, 2, &[60]),
        disk(180_659, 1, &EXAMPLE_1),
        figures_of(&[(2, 2), (1, 1)], 3, 262_144, 500_000),
    ] {
        assert_eq!(judge_record(&figures), Ok(()));
    }
}

#[test]
fn barracuda_9() {
    assert_eq!(summary(&barracuda(8871)), (16, 222_551, 48_637, 3_349_727));
    assert_eq!(summary(&barracuda(3600)), (19, 183_343, 9429, 3_192_692));
}

#[test]
fn deskstar_120gxp() {
    assert_eq!(summary(&deskstar()).0, 150);
}

/// Time to read B bytes at so many Mbit a second, rounded up.
fn read_time(bytes: u32, megabits: u64) -> u32 {
    (bytes as u64 * 8_000_000).div_ceil(megabits << 20) as u32
}

/// A disk with one position in each zone of these rates, with blocks of so many bytes. Its hop is for comparing with paper 001 only.
fn disk(bytes: u32, positions: u32, rates: &[u64]) -> Figures {
    let zones: Vec<(u32, u32)> =
        rates.iter().map(|&rate| (positions, read_time(bytes, rate))).collect();
    let blocks = positions * rates.len() as u32;
    figures_of(&zones, blocks, bytes, 524_288).with_moves(8280, 10_090)
}

/// The least B that feeds 12 streams, and the buffer with it.
fn least_for_twelve(positions: u32, rates: &[u64]) -> (u32, u32) {
    let planned = |bytes: u32| plan_of(&disk(bytes, positions, rates), Showing::Once);
    let feeds = |bytes: u32| match planned(bytes) {
        Some(planned) => planned.plan.streams >= 12,
        None => false,
    };
    let bytes = (150_000..300_000).find(|&bytes| feeds(bytes)).expect("a block size");
    (bytes, planned(bytes).unwrap().plan.buffer)
}

#[test]
fn triple_buffering_of_one_zone() {
    let (bytes, buffer) = least_for_twelve(2, &[60]);
    assert_eq!(bytes, 286_921);
    assert_eq!((buffer as f64 / 10.24).round(), 84_059.0); // 840.59 kB
}

#[test]
fn six_zones_of_example_1() {
    let (bytes, buffer) = least_for_twelve(1, &EXAMPLE_1);
    assert_eq!(bytes, 180_659);
    assert_eq!((buffer as f64 / 102.4).round(), 5500.0); // 550.0 kB
}

#[test]
fn times_two_two_one() {
    let figures = figures_of(&[(2, 2), (1, 1)], 3, 262_144, 500_000);
    let planned = plan_of(&figures, Showing::Once).unwrap();
    assert_eq!(planned.positions, [0, 2, 1]);
    assert_eq!(times(&figures, Showing::Once), [2, 1, 2]);
    assert_eq!(worst2(&figures, Showing::Once), 3);
}
