//! Windows of a shelf (02, tickets 9 and 14): each lies within one film.

use super::plan::{all_times, is_plan_with_positions, Plan};
use super::Rule;
use crate::refusal::{cause, refuse, Refusal};
use crate::window::{worst_window, Window, MAX_WINDOW};

/// The worst of the windows of k blocks of all films, the earliest where several are equal. A film
/// shorter than k has none; k is up to the longest.
fn worst_of_films(times: &[Vec<u32>], rule: Rule, k: usize) -> (u32, usize) {
    let mut worst = None;
    let mut start = 0;
    for film in times {
        if film.len() >= k {
            let (time, first) = worst_window(film, rule.showing(), k);
            if worst.is_none_or(|(worst_time, _)| time > worst_time) {
                worst = Some((time, start + first));
            }
        }
        start += film.len();
    }
    worst.expect("a film of k blocks or more")
}

/// The window of k blocks of a plan; k is from 1 to 64 and to the longest film's N. Its place counts
/// blocks as the lists do.
pub fn window_of_plan(plan: &Plan, k: u32) -> Window {
    let rule = Rule::of(plan.showing).expect("the word of a plan");
    let times = all_times(&plan.figures, rule);
    let (time, first) = worst_of_films(&times, rule, k as usize);
    Window { time, first: first as u32, bytes: k * plan.figures.block_bytes }
}

/// The window of k blocks of a plan with its positions list: 14, then 27 for 0, above 64 or above the
/// longest film's N, each with place 0.
pub fn window(plan: &Plan, positions: &[u32], k: u32) -> Result<Window, Refusal> {
    if !is_plan_with_positions(plan, positions) {
        return refuse(cause::NOT_SOUND, 0);
    }
    if k == 0 || k > MAX_WINDOW || k > plan.figures.longest() {
        return refuse(cause::WINDOW, 0);
    }
    Ok(window_of_plan(plan, k))
}
