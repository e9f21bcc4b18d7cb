//! The cards of the greatest values reach them.

use film_disk_model::plan::{plan_of, worst2, Showing};
use film_disk_model::rng::borders::{
    greatest_bound, greatest_buffer, greatest_leads, greatest_load, greatest_rate, greatest_table,
};
use film_disk_model::{Figures, Planned};

fn planned(figures: Figures) -> Planned {
    plan_of(&figures, Showing::Once).expect("a stream fits")
}

#[test]
fn load() {
    let figures = greatest_load();
    let pair = worst2(&figures, Showing::Once) as u64;
    let time = 256 * pair + 2 * figures.table[256] as u64;
    assert_eq!(figures.rate as u64 * time, 25_620_000_000_000_000);
    assert_eq!(plan_of(&figures, Showing::Once), None);
}

#[test]
fn bound() {
    for plan in [greatest_bound(), greatest_table()].map(|figures| planned(figures).plan) {
        assert_eq!(plan.streams * plan.figures.times[0] + plan.figures.table[256], 1_281_000_000);
    }
}

#[test]
fn buffer() {
    assert_eq!(planned(greatest_buffer()).plan.buffer, 14_680_064);
}

#[test]
fn leads() {
    let planned = planned(greatest_leads());
    assert_eq!((planned.plan.streams, planned.leads[0]), (256, 2_666_666));
}

#[test]
fn rate() {
    let plan = planned(greatest_rate()).plan;
    assert_eq!((plan.figures.rate, plan.streams), (10_000_000, 256));
}
