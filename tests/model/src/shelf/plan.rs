//! The plan of a shelf: each film laid by itself on the positions still free, then the streams, the
//! buffer and the leads of all films together.
//!
//! The definitions take figures that `judge_record` accepts for the rule.

use super::card::{judge_record, read_card, Figures};
use super::Rule;
use crate::card;
use crate::pairs;
use crate::plan;
use crate::refusal::{cause, refuse, Refusal};

/// The plan record.
#[derive(Clone, Debug, PartialEq, Eq)]
pub struct Plan {
    pub figures: Figures,
    /// The word of the rule.
    pub showing: u32,
    /// n, the screens that may be fed.
    pub streams: u32,
    /// Bytes of each screen's buffer.
    pub buffer: u32,
    /// Greatest time of two successive blocks of any film; for pairs twice the greatest pair time.
    pub worst2: u32,
    /// Twice the time of the slowest position in use, less worst2; for pairs 0.
    pub margin: u32,
    /// First block of the worst pair as the lists count; for pairs the first block taking p.
    pub worstat: u32,
}

impl Plan {
    /// The plan in a refused answer.
    pub fn zero() -> Plan {
        Plan {
            figures: Figures::zero(),
            showing: 0,
            streams: 0,
            buffer: 0,
            worst2: 0,
            margin: 0,
            worstat: 0,
        }
    }
}

/// A plan and the entries of its two lists, film after film.
#[derive(Clone, Debug, PartialEq, Eq)]
pub struct Planned {
    pub plan: Plan,
    pub positions: Vec<u32>,
    pub leads: Vec<u32>,
}

// One film.

/// A disk cut down to its first positions, so many.
fn cut_disk(disk: card::Figures, positions: u64) -> card::Figures {
    let mut cut = card::Figures { zones: 0, positions: [0; 64], times: [0; 64], ..disk };
    let mut left = positions;
    for zone in 0..disk.zones as usize {
        if left == 0 {
            break;
        }
        let count = left.min(disk.positions[zone] as u64);
        cut.positions[zone] = count as u32;
        cut.times[zone] = disk.times[zone];
        cut.zones += 1;
        left -= count;
    }
    cut
}

/// The record of one film alone on the positions that are free when it is laid. Each film takes the
/// highest ones, so these are the first of the disk.
pub fn film_alone(figures: &Figures, rule: Rule, film: usize) -> card::Figures {
    let taken = rule.visits() as u64 * figures.start(film);
    let free = figures.total_positions() - taken;
    cut_disk(figures.of_one(figures.blocks[film]), free)
}

/// A film's positions, block by block.
pub fn film_positions(figures: &Figures, rule: Rule, film: usize) -> Vec<u32> {
    let alone = film_alone(figures, rule, film);
    match rule {
        Rule::Pairs => pairs::positions(&alone),
        _ => plan::positions(&alone, rule.showing()),
    }
}

/// The time of each of a film's blocks: for pairs that of both halves.
pub fn film_times(figures: &Figures, rule: Rule, film: usize) -> Vec<u32> {
    let alone = film_alone(figures, rule, film);
    match rule {
        Rule::Pairs => pairs::pair_times(&alone, &pairs::positions(&alone)),
        _ => plan::times(&alone, rule.showing()),
    }
}

/// The time of one block of a film.
pub fn block_time(figures: &Figures, rule: Rule, film: usize, block: u32) -> u32 {
    let alone = film_alone(figures, rule, film);
    match rule {
        Rule::Pairs => pairs::pair_time(&alone, block),
        _ => plan::time(&alone, rule.showing(), block),
    }
}

/// A film's own worst2, by the times of its blocks.
pub fn own_worst2(times: &[u32], rule: Rule) -> u32 {
    match rule {
        Rule::Pairs => 2 * pairs::greatest_pair_time(times),
        _ => plan::greatest_pair(times, rule.showing()),
    }
}

/// The first block of a film's own worst pair; for pairs the first block taking its greatest time.
fn own_worstat(times: &[u32], rule: Rule) -> u32 {
    match rule {
        Rule::Pairs => pairs::worstat(times),
        _ => plan::worstat(times, rule.showing()),
    }
}

// All films.

/// The positions list: the films in list order.
pub fn positions(figures: &Figures, rule: Rule) -> Vec<u32> {
    let films = 0..figures.lengths().len();
    films.flat_map(|film| film_positions(figures, rule, film)).collect()
}

/// The block times of each film in list order.
pub fn all_times(figures: &Figures, rule: Rule) -> Vec<Vec<u32>> {
    (0..figures.lengths().len()).map(|film| film_times(figures, rule, film)).collect()
}

/// worst2: the greatest of the films' own.
pub fn worst2(times: &[Vec<u32>], rule: Rule) -> u32 {
    times.iter().map(|film| own_worst2(film, rule)).max().expect("a film")
}

/// worstat: the first block of the worst pair as the lists count, the earliest where several are
/// equal.
pub fn worstat(times: &[Vec<u32>], rule: Rule) -> u32 {
    let worst2 = worst2(times, rule);
    let film = times.iter().position(|film| own_worst2(film, rule) == worst2);
    let film = film.expect("a film takes worst2");
    let start: usize = times[..film].iter().map(Vec::len).sum();
    start as u32 + own_worstat(&times[film], rule)
}

/// The formula of streams: with worst2 for one showing and loops, with half of it, p, for pairs.
pub fn fits(figures: &Figures, rule: Rule, worst2: u32, n: u32) -> bool {
    let common = figures.of_one(0);
    match rule {
        Rule::Pairs => pairs::fits(&common, worst2 / 2, n),
        _ => plan::fits(&common, worst2, n),
    }
}

/// The greatest number of streams that a rule allows.
pub fn most_streams(rule: Rule) -> u32 {
    match rule {
        Rule::Pairs => pairs::MAX_PAIRS_STREAMS,
        _ => plan::MAX_STREAMS,
    }
}

/// streams: the greatest n that fits. All are tried.
pub fn streams(figures: &Figures, rule: Rule, worst2: u32) -> Option<u32> {
    (1..=most_streams(rule)).filter(|&n| fits(figures, rule, worst2, n)).max()
}

/// margin: twice the time of the slowest position in use, less worst2; for pairs 0.
pub fn margin(times: &[Vec<u32>], rule: Rule, worst2: u32) -> u32 {
    match rule {
        Rule::Pairs => 0,
        _ => plan::margin(&times.concat(), worst2),
    }
}

/// The leads list: the films in list order, each run within its film, all by the common worst2; for
/// pairs 0.
pub fn leads(times: &[Vec<u32>], rule: Rule, worst2: u32) -> Vec<u32> {
    let of_film = |film: &Vec<u32>| match rule {
        Rule::Pairs => vec![0; film.len()],
        _ => plan::leads(film, rule.showing(), worst2),
    };
    times.iter().flat_map(of_film).collect()
}

/// The plan of judged figures, or nothing where not even one stream fits.
pub fn plan_of(figures: &Figures, rule: Rule) -> Option<Planned> {
    let times = all_times(figures, rule);
    let worst2 = worst2(&times, rule);
    let streams = streams(figures, rule, worst2)?;
    let margin = margin(&times, rule, worst2);
    let plan = Plan {
        figures: figures.clone(),
        showing: rule.word(),
        streams,
        buffer: plan::buffer(&figures.of_one(0), streams, margin),
        worst2,
        margin,
        worstat: worstat(&times, rule),
    };
    let leads = leads(&times, rule, worst2);
    Some(Planned { plan, positions: positions(figures, rule), leads })
}

// The planner, with the lengths of the two lent lists.

/// 13, for positions below the visits of all blocks or leads below all blocks, then 12, of judged
/// figures.
fn plan_judged(
    figures: &Figures,
    rule: Rule,
    positions: usize,
    leads: usize,
) -> Result<Planned, Refusal> {
    let blocks = figures.all_blocks() as usize;
    if positions < rule.visits() * blocks || leads < blocks {
        return refuse(cause::TOO_SHORT, 0);
    }
    match plan_of(figures, rule) {
        Some(planned) => Ok(planned),
        None => refuse(cause::NO_STREAM, 0),
    }
}

/// The plan of a record: 3 to 10, 25, 26, 28 and 30, 13, 12, each at 0.
pub fn plan_record(
    figures: &Figures,
    rule: Rule,
    positions: usize,
    leads: usize,
) -> Result<Planned, Refusal> {
    if let Err(number) = judge_record(figures, rule) {
        return refuse(number, 0);
    }
    plan_judged(figures, rule, positions, leads)
}

/// The plan of a card: 1 to 11, 25, 26, 28 and 30 with offset, 13, 12.
pub fn plan_card(
    card: &[u8],
    rule: Rule,
    positions: usize,
    leads: usize,
) -> Result<Planned, Refusal> {
    plan_judged(&read_card(card, rule)?, rule, positions, leads)
}

/// The plan that a record has to be, made anew from its figures for the rule that it says.
fn remade(plan: &Plan) -> Option<Planned> {
    let rule = Rule::of(plan.showing)?;
    let made = plan_record(&plan.figures, rule, usize::MAX, usize::MAX).ok();
    made.filter(|planned| planned.plan == *plan)
}

/// Is this the plan of its figures for the rule that it says, and does the positions list begin with
/// its entries? There is no list of leads.
pub fn is_plan_with_positions(plan: &Plan, positions: &[u32]) -> bool {
    remade(plan).is_some_and(|planned| positions.starts_with(&planned.positions))
}

/// Is this the plan of its figures for the rule that it says, and do both lists begin with its
/// entries?
pub fn is_plan(plan: &Plan, positions: &[u32], leads: &[u32]) -> bool {
    remade(plan).is_some_and(|planned| {
        positions.starts_with(&planned.positions) && leads.starts_with(&planned.leads)
    })
}

// Blocks as the lists count.

/// Film and block within it of a listed block.
pub fn film_and_block(figures: &Figures, listed: u32) -> (usize, u32) {
    let mut block = listed;
    let mut film = 0;
    while block >= figures.lengths()[film] {
        block -= figures.lengths()[film];
        film += 1;
    }
    (film, block)
}

/// The two blocks of the worst pair as the lists count: the second is the next of the same film, in a
/// loop after the film's last block its first. Not for pairs, whose worstat names one block.
pub fn worst_pair(plan: &Plan) -> [u32; 2] {
    let (film, block) = film_and_block(&plan.figures, plan.worstat);
    let next = (block + 1) % plan.figures.blocks[film];
    [plan.worstat, plan.figures.start(film) as u32 + next]
}
