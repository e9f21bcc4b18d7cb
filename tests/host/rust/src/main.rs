//! Compares the static library with the model, call by call: the answer, and every byte of every lent string. Each call that takes the
//! lead list is made twice, with it and with a scratch in its place.
//!
//! Built with the feature `earlier` it compares the library with an earlier one instead (`tests/alike`).
//!
//! Arguments: seed, count of random cases. Each case has a seed of its own, the first one the given, so that a failing case runs
//! alone with its seed and count 1. Any other count has the films at the borders before them, count 0 these alone. Exit status 0
//! only if all passed.

mod call;
mod cases;
mod entries;
mod expected;
mod films;
mod layout;
mod library;
mod lists;
mod trial;
mod windows;

use call::Way;
use cases::{
    desk_case, edge_case, join_case, limit_case, open_case, overhead_case, place_case, plan_case,
    request_case, shelf_case, showing_case, slot_film_case, worst_pair_case,
};
use film_disk_model::Rng;
use films::{all_films, film_case};
use library::set_scene;
use lists::{house_case, list_case};
use std::process::ExitCode;
use trial::Trial;
use windows::window_case;

/// A run of so many cases or more must meet every number of every call, worst pairs everywhere, loops gone round, requests that wait, and
/// shelves.
const MANY_CASES: u64 = 5000;
/// As many failures are shown.
const SHOWN: u64 = 10;

fn run_case(trial: &mut Trial, seed: u64) -> Result<(), String> {
    let mut rng = Rng::new(seed);
    let (call, strings) = match rng.below(28) {
        0..=2 => plan_case(&mut rng),
        3 => open_case(&mut rng),
        4 | 5 => desk_case(&mut rng),
        6..=8 => edge_case(&mut rng),
        9 => showing_case(&mut rng),
        10 => worst_pair_case(&mut rng),
        11 | 12 => window_case(&mut rng),
        13 | 14 => overhead_case(&mut rng),
        15 => limit_case(&mut rng),
        16 | 17 => request_case(&mut rng),
        18 | 19 => place_case(&mut rng),
        20 | 21 => plan_case(&mut rng),
        22 => shelf_case(&mut rng),
        23 | 24 => slot_film_case(&mut rng),
        25 => join_case(&mut rng),
        26 => return house_case(&mut rng, trial),
        _ => return list_case(&mut rng, trial),
    };
    trial.both(&mut rng, call, Way::List, &strings).map(|_| ())
}

/// How many cases passed and how many failed.
#[derive(Default)]
struct Count {
    passed: u64,
    failed: u64,
}

impl Count {
    fn note(&mut self, name: &str, result: Result<(), String>) {
        match result {
            Ok(()) => self.passed += 1,
            Err(words) => {
                self.failed += 1;
                if self.failed <= SHOWN {
                    println!("{name}: {words}");
                }
            }
        }
    }
}

fn run_films(trial: &mut Trial, count: &mut Count) {
    for (name, shelf) in all_films() {
        set_scene(&name);
        count.note(&name, film_case(trial, shelf));
    }
}

fn run_cases(trial: &mut Trial, count: &mut Count, first: u64, cases: u64) {
    for seed in (0..cases).map(|case| first.wrapping_add(case)) {
        let name = format!("seed {seed}, alone: library_cases {seed} 1");
        set_scene(&name);
        count.note(&name, run_case(trial, seed));
    }
}

/// Seed and count.
fn arguments() -> Option<(u64, u64)> {
    let mut arguments = std::env::args().skip(1);
    let seed = arguments.next()?.parse().ok()?;
    let count = arguments.next()?.parse().ok()?;
    if arguments.next().is_some() {
        return None;
    }
    Some((seed, count))
}

fn main() -> ExitCode {
    let Some((seed, cases)) = arguments() else {
        eprintln!("usage: library_cases SEED COUNT");
        return ExitCode::from(2);
    };
    let (mut trial, mut count) = (Trial::new(), Count::default());
    if cases != 1 {
        run_films(&mut trial, &mut count);
    }
    if cases > 0 {
        println!("seeds {seed} to {}", seed.wrapping_add(cases - 1));
    }
    run_cases(&mut trial, &mut count, seed, cases);
    trial.report();
    let missing = trial.missing();
    if cases >= MANY_CASES && !missing.is_empty() {
        println!("not met: {}", missing.join(", "));
        count.failed += 1;
    }
    let Count { passed, failed } = count;
    println!("{passed} passed, {failed} failed");
    ExitCode::from((failed > 0) as u8)
}
