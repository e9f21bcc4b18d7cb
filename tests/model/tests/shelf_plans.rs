//! Plans of a shelf of films: request 14 of 02. Layings, streams and leads.

use film_disk_model::bench::{bench_film, figures_of, film_of};
use film_disk_model::plan::{self, time_at};
use film_disk_model::rng::desks::{longer_list, spoiled_list};
use film_disk_model::rng::figures::any_figures;
use film_disk_model::rng::shelf::desks::alter_plan;
use film_disk_model::rng::shelf::{
    large_shelf, large_shelf_of, large_shelf_plan, legal_shelf, shelf_plan, small_shelf_of,
    tight_shelf, tighten,
};
use film_disk_model::shelf::plan::{
    all_times, fits, most_streams, own_worst2, plan_of, worst2, worst_pair,
};
use film_disk_model::shelf::{
    card_bytes, is_plan, judge_record, plan_card, plan_record, Figures, Plan, Planned, Rule,
};
use film_disk_model::{plan_pairs_record, Refusal, Rng};
use std::collections::{BTreeSet, VecDeque};

/// B of the bench film.
const BLOCK: u32 = 262_144;

fn planned(figures: &Figures, rule: Rule) -> Planned {
    let blocks = figures.all_blocks() as usize;
    plan_record(figures, rule, rule.visits() * blocks, blocks).expect("an accepted record")
}

fn refused<T>(answer: Result<T, Refusal>) -> Option<(u32, u64)> {
    answer.err().map(|Refusal { number, place }| (number, place))
}

/// The disk of positions with these times, and films of these N.
fn shelf_of(times: &[u32], lengths: &[u32]) -> Figures {
    Figures::of(&film_of(times), lengths)
}

/// Time of the zone at a position of the whole disk.
fn zone_time(figures: &Figures, position: u32) -> u32 {
    time_at(&figures.of_one(0), position)
}

/// The positions list film by film, each block's positions together.
fn by_film(planned: &Planned) -> Vec<Vec<Vec<u32>>> {
    let Planned { plan, positions, .. } = planned;
    let mut blocks = positions.chunks(Rule::of(plan.showing).unwrap().visits());
    let lengths = plan.figures.lengths().iter();
    lengths.map(|&n| blocks.by_ref().take(n as usize).map(<[u32]>::to_vec).collect()).collect()
}

/// Block times of each film, by the list and the whole disk.
fn listed_times(planned: &Planned) -> Vec<Vec<u32>> {
    let figures = &planned.plan.figures;
    let block = |at: &Vec<u32>| at.iter().map(|&position| zone_time(figures, position)).sum();
    by_film(planned).iter().map(|film| film.iter().map(block).collect()).collect()
}

/// Plans of every sort, the rules in turn.
fn each_plan(seed: u64, count: usize, mut check: impl FnMut(&mut Rng, Rule, Planned)) {
    let mut rng = Rng::new(seed);
    for case in 0..count {
        let rule = Rule::ALL[case % 3];
        let planned = match case % 150 {
            0..=2 => large_shelf_plan(&mut rng, rule),
            _ => shelf_plan(&mut rng, rule),
        };
        check(&mut rng, rule, planned);
    }
}

// Plans by hand.

/// The bench disk with films of 2 and 3 blocks: positions 4 and 5, then 1 to 3.
#[test]
fn bench_shelf() {
    let figures = Figures::of(&bench_film(), &[2, 3]);
    let Planned { plan, positions, leads } = planned(&figures, Rule::Once);
    assert_eq!(positions, [4, 5, 1, 3, 2]);
    assert_eq!((plan.worst2, plan.worstat, plan.margin), (38_360, 2, 2740));
    assert_eq!((plan.streams, plan.buffer, plan.showing), (15, 786_432 + 10_275, 0));
    assert_eq!(leads, [0, 0, 2740, 0, 0]);
    // As loops: the second film's worst pair is its last block with its first.
    let Planned { plan, positions, leads } = planned(&figures, Rule::Loop);
    assert_eq!(positions, [4, 5, 1, 3, 2]);
    assert_eq!((plan.worst2, plan.worstat, plan.margin), (39_640, 4, 1460));
    assert_eq!((plan.streams, plan.showing), (15, 1));
    assert_eq!(leads, [0, 0, 1460, 0, 0]);
    assert_eq!(worst_pair(&plan), [4, 2]);
    // In the other order the film of 3 blocks is outside: 17810, 15720, 16700, then 20550, 19090.
    let Planned { plan, positions, .. } = planned(&Figures::of(&bench_film(), &[3, 2]), Rule::Once);
    assert_eq!(positions, [3, 5, 4, 1, 2]);
    assert_eq!((plan.worst2, plan.worstat, plan.margin), (39_640, 3, 1460));
    assert_eq!(worst_pair(&plan), [3, 4]);
}

/// Pairs of two films of 2 blocks.
#[test]
fn pairs_by_hand() {
    let figures = shelf_of(&[9, 8, 7, 6, 5, 4, 3, 3], &[2, 2]);
    let Planned { plan, positions, leads } = planned(&figures, Rule::Pairs);
    assert_eq!(positions, [4, 7, 5, 6, 0, 3, 1, 2]);
    assert_eq!((plan.worst2, plan.worstat, plan.margin), (30, 2, 0));
    assert_eq!((plan.buffer, plan.showing), (3 * BLOCK, 2));
    assert_eq!(leads, [0; 4]);
}

/// A pair across two films does not count: the last block of the first film with the first block of
/// the second takes 17 too, and would be met one block earlier.
#[test]
fn no_pair_across_films() {
    // 8 3 8 8 | 9 8
    let figures = shelf_of(&[9, 8, 8, 8, 8, 3], &[4, 2]);
    let Planned { plan, positions, leads } = planned(&figures, Rule::Once);
    assert_eq!(positions, [2, 5, 3, 4, 0, 1]);
    assert_eq!((plan.worst2, plan.worstat, plan.margin), (17, 4, 1));
    assert_eq!(leads, [0, 0, 0, 0, 1, 0]);
}

/// Equal worst pairs: the earliest film's.
#[test]
fn earliest_of_equal_films() {
    for rule in Rule::ALL {
        let figures = Figures::of(&figures_of(&[(64, 9)], 0, BLOCK, 500_000), &[4, 3, 2]);
        let plan = planned(&figures, rule).plan;
        assert_eq!((plan.worst2, plan.worstat), (if rule == Rule::Pairs { 36 } else { 18 }, 0));
    }
    // 2 2 | 5 5 | 5 5
    let figures = shelf_of(&[5, 5, 5, 5, 2, 2], &[2, 2, 2]);
    assert_eq!(planned(&figures, Rule::Once).plan.worstat, 2);
    assert_eq!(planned(&figures, Rule::Loop).plan.worstat, 2);
}

// Layings.

/// The loop's laying as ranks are dealt out: from rank 0 in turn after the last and before the first,
/// two of the quickest left, then two of the slowest left.
fn dealt_ranks(blocks: u32) -> Vec<u32> {
    let mut left: VecDeque<u32> = (1..blocks).collect();
    let mut circle = VecDeque::from([0]);
    for turn in 0..blocks - 1 {
        let rank = if turn % 4 < 2 { left.pop_back() } else { left.pop_front() };
        match turn % 2 {
            0 => circle.push_back(rank.unwrap()),
            _ => circle.push_front(rank.unwrap()),
        }
    }
    let first = circle.iter().position(|&rank| rank == 0).unwrap();
    circle.rotate_left(first);
    circle.into()
}

/// A film's positions by its rule, on the lowest to the highest of those that it takes.
fn laid(taken: &[u32], rule: Rule, blocks: u32) -> Vec<Vec<u32>> {
    let last = taken.len() - 1;
    match rule {
        Rule::Once => (0..blocks as usize)
            .map(|b| vec![if b % 2 == 0 { taken[b / 2] } else { taken[last - b / 2] }])
            .collect(),
        Rule::Loop => {
            dealt_ranks(blocks).into_iter().map(|rank| vec![taken[rank as usize]]).collect()
        }
        Rule::Pairs => (0..blocks as usize).map(|b| vec![taken[b], taken[last - b]]).collect(),
    }
}

/// Films in list order, each on the highest positions still free, by its rule.
#[test]
fn highest_positions_still_free() {
    each_plan(151, 900, |_, rule, planned| {
        let figures = &planned.plan.figures;
        let mut free: BTreeSet<u32> = (0..figures.total_positions() as u32).collect();
        for (film, &blocks) in by_film(&planned).iter().zip(figures.lengths()) {
            let count = rule.visits() * blocks as usize;
            let mut taken: Vec<u32> = free.iter().rev().take(count).copied().collect();
            taken.reverse();
            assert_eq!(*film, laid(&taken, rule, blocks));
            taken.iter().for_each(|position| assert!(free.remove(position)));
        }
        assert_eq!(planned.positions.len(), rule.visits() * figures.all_blocks() as usize);
    });
}

/// Calls `look` with each row of so many different positions of the free ones.
fn each_row(free: &[u32], count: usize, row: &mut Vec<u32>, look: &mut impl FnMut(&[u32])) {
    if row.len() == count {
        return look(row);
    }
    for &position in free {
        if !row.contains(&position) {
            row.push(position);
            each_row(free, count, row, look);
            row.pop();
        }
    }
}

/// A row's own worst2 where it lies: entry b is block b, for pairs entries 2b and 2b + 1 are.
fn worst_of_row(figures: &Figures, rule: Rule, row: &[u32]) -> u32 {
    let times: Vec<u32> = row
        .chunks(rule.visits())
        .map(|at| at.iter().map(|&position| zone_time(figures, position)).sum())
        .collect();
    let circle = times.iter().cycle().skip(1);
    let after = times.len() - (rule == Rule::Once) as usize;
    match rule {
        Rule::Pairs => 2 * times.iter().max().unwrap(),
        _ => times.iter().zip(circle).take(after).map(|(one, next)| one + next).max().unwrap(),
    }
}

/// The worst times of all layings of so many blocks on the free positions, and how many there are.
fn all_worst_times(
    figures: &Figures,
    rule: Rule,
    free: &[u32],
    blocks: usize,
) -> (BTreeSet<u32>, usize) {
    let mut times = BTreeSet::new();
    let mut count = 0;
    each_row(free, rule.visits() * blocks, &mut Vec::new(), &mut |row| {
        times.insert(worst_of_row(figures, rule, row));
        count += 1;
    });
    (times, count)
}

/// For each film: no laying on the positions that were free has a smaller worst time of its own, and
/// with the other films' worst times as they are none lets more streams fit.
fn check_all_layings(figures: &Figures, rule: Rule) -> usize {
    let made = planned_or_poor(figures, rule);
    let films = by_film(&made);
    let own: Vec<u32> =
        films.iter().map(|film| worst_of_row(figures, rule, &film.concat())).collect();
    let mut free: Vec<u32> = (0..figures.total_positions() as u32).collect();
    let mut tried = 0;
    for (film, laid) in films.iter().enumerate() {
        let (times, count) = all_worst_times(figures, rule, &free, laid.len());
        assert_eq!(times.first(), Some(&own[film]), "{figures:?} film {film}");
        let others = [&own[..film], &own[film + 1..]].concat().into_iter().max().unwrap_or(0);
        for worst in times {
            let more = made.plan.streams + 1..=most_streams(rule);
            let fit = more.filter(|&n| fits(figures, rule, worst.max(others), n)).count();
            assert_eq!(fit, 0, "{figures:?} film {film}");
        }
        free.retain(|position| !laid.concat().contains(position));
        tried += count;
    }
    tried
}

/// The plan, or where no stream fits one with 0 streams.
fn planned_or_poor(figures: &Figures, rule: Rule) -> Planned {
    plan_of(figures, rule).unwrap_or_else(|| {
        let rich = Figures { rate: 1, block_bytes: 4_194_304, ..figures.clone() };
        let mut made = plan_of(&rich, rule).expect("a stream at one byte a second");
        (made.plan.figures, made.plan.streams) = (figures.clone(), 0);
        made
    })
}

/// Every choice of up to three times on up to 8 positions, with every shelf of one to three films.
#[test]
fn no_laying_is_better() {
    let mut tried = [0; 3];
    for total in 2..=8u32 {
        for slow in 0..=total {
            for middle in 0..=total - slow {
                let time = |at| if at < slow { 3 } else { 2 - (at >= slow + middle) as u32 };
                let times: Vec<u32> = (0..total).map(time).collect();
                for (case, rule) in Rule::ALL.into_iter().enumerate() {
                    for lengths in all_lengths(total / rule.visits() as u32) {
                        tried[case] += check_all_layings(&shelf_of(&times, &lengths), rule);
                    }
                }
            }
        }
    }
    assert!(tried.iter().all(|&count| count > 100_000), "{tried:?}");
}

/// N of one to three films with at most so many blocks.
fn all_lengths(most: u32) -> Vec<Vec<u32>> {
    let mut all: Vec<Vec<u32>> = Vec::new();
    for one in 2..=most {
        all.push(vec![one]);
        for two in 2..=most.saturating_sub(one) {
            all.push(vec![one, two]);
            for three in 2..=most.saturating_sub(one + two) {
                all.push(vec![one, two, three]);
            }
        }
    }
    all
}

/// Random times on up to 8 positions, a number of streams just fitting or just not.
#[test]
fn no_laying_is_better_on_random_disks() {
    let mut rng = Rng::new(152);
    for rule in Rule::ALL {
        for films in 1..=if rule == Rule::Pairs { 2 } else { 3 } {
            let mut tried = 0;
            while tried < 25 {
                let mut figures = small_shelf_of(&mut rng, rule, films, 3);
                if figures.total_positions() > 8 || figures.all_blocks() > 7 {
                    continue;
                }
                let n = rng.between(1, most_streams(rule));
                tighten(&mut rng, &mut figures, rule, n);
                figures.block_bytes -= rng.between(0, 1).min(figures.block_bytes - 1);
                check_all_layings(&figures, rule);
                tried += 1;
            }
        }
    }
}

// Figures of the plan.

/// The greatest sum over all runs from b within its film, each added up by itself; in a loop a run
/// goes round its film at most once.
fn lead_of_all_runs(times: &[u32], rule: Rule, worst2: u32, b: usize) -> i64 {
    let longest = if rule == Rule::Loop { times.len() } else { times.len() - b };
    let mut sum = 0;
    let mut greatest = 0;
    for k in b..b + longest {
        sum += 2 * times[k % times.len()] as i64 - worst2 as i64;
        greatest = greatest.max(sum);
    }
    greatest
}

/// worst2 and its place, margin, leads and buffer by the list and the whole disk.
#[test]
fn figures_by_the_list() {
    each_plan(153, 900, |_, rule, made| {
        let Planned { plan, leads, .. } = &made;
        let figures = &plan.figures;
        let times = listed_times(&made);
        assert_eq!(times, all_times(figures, rule));
        let mut worst = (0, 0);
        let mut listed = 0;
        for film in &times {
            let ends = if rule == Rule::Loop { film.len() } else { film.len() - 1 };
            for b in 0..film.len() {
                let time = match rule {
                    Rule::Pairs => 2 * film[b],
                    _ if b < ends => film[b] + film[(b + 1) % film.len()],
                    _ => 0,
                };
                if time > worst.0 {
                    worst = (time, listed);
                }
                listed += 1;
            }
        }
        assert_eq!((plan.worst2, plan.worstat), worst);
        if rule == Rule::Pairs {
            assert_eq!((plan.margin, plan.buffer), (0, 3 * figures.block_bytes));
            assert!(leads.iter().all(|&lead| lead == 0));
        } else {
            let lowest = *made.positions.iter().min().unwrap();
            assert_eq!(lowest as u64, figures.total_positions() - figures.all_blocks());
            assert_eq!(plan.margin, 2 * zone_time(figures, lowest) - plan.worst2);
            let spare = figures.rate as u64 * plan.streams as u64 * plan.margin as u64;
            let buffer = 3 * figures.block_bytes as u64 + spare.div_ceil(2_000_000);
            assert_eq!(plan.buffer as u64, buffer);
            let of_film = |film: &Vec<u32>| -> Vec<u32> {
                film.iter().map(|time| (2 * time).saturating_sub(plan.worst2)).collect()
            };
            assert_eq!(*leads, times.iter().flat_map(of_film).collect::<Vec<u32>>());
            assert_eq!(leads.iter().max(), Some(&plan.margin));
            assert!(2 * plan.margin <= plan.worst2);
        }
        assert_eq!(leads.len() as u64, figures.all_blocks());
    });
}

/// Leads are greatest sums of runs within a film.
#[test]
fn leads_by_runs() {
    let mut below = 0;
    let mut rng = Rng::new(154);
    for case in 0..1200 {
        let rule = [Rule::Once, Rule::Loop][case % 2];
        let made = shelf_plan(&mut rng, rule);
        let worst2 = made.plan.worst2;
        let mut leads = made.leads.iter();
        for film in listed_times(&made) {
            for b in 0..film.len() {
                let greatest = lead_of_all_runs(&film, rule, worst2, b);
                assert_eq!(*leads.next().unwrap() as i64, greatest);
            }
            below += (own_worst2(&film, rule) < worst2) as usize;
        }
    }
    assert!(below > 1000, "{below}");
}

/// Streams by the first number that no longer fits.
fn streams_by_room(figures: &Figures, rule: Rule, worst2: u32) -> usize {
    let room = 2_000_000 * figures.block_bytes as u64 / figures.rate as u64;
    let overhead = |n: u64| figures.table[rule.visits() * n as usize] as u64;
    let needs = (1..=most_streams(rule) as u64).map(|n| n * worst2 as u64 + 2 * overhead(n));
    needs.take_while(|&need| need <= room).count()
}

/// The number of streams is right for each rule, and its ends are met.
#[test]
fn streams_at_the_edges() {
    let mut rng = Rng::new(155);
    for rule in Rule::ALL {
        let mut met = [0; 257];
        for _ in 0..5000 {
            let figures = tight_shelf(&mut rng, rule, 20);
            let worst2 = worst2(&all_times(&figures, rule), rule);
            let n = plan_of(&figures, rule).map_or(0, |made| made.plan.streams) as usize;
            assert_eq!(n, streams_by_room(&figures, rule, worst2));
            met[n] += 1;
        }
        let most = most_streams(rule) as usize;
        for n in [0, 1, most - 2, most - 1, most] {
            assert!(met[n] > 30, "{rule:?}, {n} streams: {met:?}");
        }
    }
}

/// 16 films of 16,384 blocks together, on as many positions as they take and on more.
#[test]
fn greatest_shelves() {
    for rule in Rule::ALL {
        let most = 16_384 * rule.visits() as u32;
        for spare in [0, 7, 1000] {
            let zones = [(spare + most / 2, 30_000), (most / 2, 20_000)];
            let disk = figures_of(&zones, 0, BLOCK, 500_000);
            let lengths = [[1024; 16], std::array::from_fn(|film| 16 + 128 * film as u32 + 48)];
            for lengths in lengths {
                let figures = Figures::of(&disk, &lengths);
                let blocks = figures.all_blocks() as usize;
                assert_eq!(blocks, 16_384);
                let visits = rule.visits();
                for (positions, leads) in
                    [(visits * blocks - 1, blocks), (visits * blocks, blocks - 1)]
                {
                    let short = plan_record(&figures, rule, positions, leads);
                    assert_eq!(refused(short), Some((13, 0)));
                }
                let made = planned(&figures, rule);
                let mut used = made.positions.clone();
                used.sort_unstable();
                assert!(used.into_iter().eq(spare..spare + most));
                assert_eq!(plan_card(&card_bytes(&figures), rule, 32_768, 16_384), Ok(made));
            }
        }
    }
}

/// 13 for positions below those of all films or leads below all blocks, and that before 12.
#[test]
fn short_lists() {
    for rule in Rule::ALL {
        for block_bytes in [1, BLOCK] {
            let disk = film_of(&[9, 9, 9, 8, 8, 8, 7, 7, 7, 6, 6, 6]);
            let disk = film_disk_model::Figures { block_bytes, ..disk };
            let figures = Figures::of(&disk, &[2, 4]);
            let needed = 6 * rule.visits();
            for positions in [0, 2 * rule.visits(), 6, needed - 1, needed, needed + 1] {
                for leads in [0, 4, 5, 6, 7] {
                    let number = match (positions < needed || leads < 6, block_bytes) {
                        (true, _) => Some((13, 0)),
                        (false, 1) => Some((12, 0)),
                        _ => None,
                    };
                    assert_eq!(refused(plan_record(&figures, rule, positions, leads)), number);
                    let made = plan_card(&card_bytes(&figures), rule, positions, leads);
                    assert_eq!(refused(made), number);
                }
            }
        }
    }
}

/// Spare entries change nothing; other figures, words or lists make no plan.
#[test]
fn which_records_are_plans() {
    each_plan(156, 1500, |rng, rule, Planned { plan, positions, leads }| {
        assert!(is_plan(&plan, &positions, &leads));
        let (longer, more) = (longer_list(rng, &positions), longer_list(rng, &leads));
        assert!(is_plan(&plan, &longer, &more));
        assert!(!is_plan(&plan, &spoiled_list(rng, &positions), &leads));
        assert!(!is_plan(&plan, &positions, &spoiled_list(rng, &leads)));
        let mut other = plan.clone();
        alter_plan(rng, &mut other);
        let made = Rule::of(other.showing)
            .map(|rule| plan_record(&other.figures, rule, positions.len(), leads.len()));
        let is = is_plan(&other, &positions, &leads);
        let remade = Planned { plan: other, positions: positions.clone(), leads: leads.clone() };
        assert_eq!(is, made.is_some_and(|made| made == Ok(remade)));
        for showing in [3, 4, u32::MAX] {
            assert!(!is_plan(&Plan { showing, ..plan.clone() }, &positions, &leads));
        }
        let swapped = Plan { showing: [2, 2, 0][rule.word() as usize], ..plan };
        assert!(!is_plan(&swapped, &positions, &leads));
    });
    assert!(!is_plan(&Plan::zero(), &[], &[]));
}

/// A list in another order of films is another plan, but for films alike.
#[test]
fn order_of_the_list() {
    let times = [22, 21, 19, 17, 16, 15, 14, 13, 12];
    for rule in [Rule::Once, Rule::Loop] {
        let one = planned(&shelf_of(&times, &[4, 5]), rule);
        let other = planned(&shelf_of(&times, &[5, 4]), rule);
        assert_ne!(one.positions, other.positions);
        assert!(!is_plan(&one.plan, &other.positions, &other.leads));
    }
}

/// Films further in are slower block by block, so the last film's own worst time is worst2 and the films
/// before it have no leads. The words do not say this; docs/GUIDE.md does.
#[test]
fn the_last_film_sets_the_pace() {
    each_plan(1414, 1500, |_, rule, made| {
        let times = listed_times(&made);
        let last = times.len() - 1;
        assert_eq!(own_worst2(&times[last], rule), made.plan.worst2);
        let start = made.plan.figures.start(last) as usize;
        assert!(made.leads[..start].iter().all(|&lead| lead == 0));
        let slowest = times[last].iter().max().expect("a block");
        assert!(times.concat().iter().all(|time| time <= slowest));
    });
}

// One film.

/// The shelf's plan of one film is the plan of that film.
fn check_one(made: &Planned, of: &film_disk_model::Planned) {
    let (plan, one) = (&made.plan, &of.plan);
    assert_eq!((&made.positions, &made.leads), (&of.positions, &of.leads));
    assert_eq!(plan.figures, Figures::of(&one.figures, &[one.figures.blocks]));
    assert_eq!((plan.showing, plan.streams, plan.buffer), (one.showing, one.streams, one.buffer));
    assert_eq!((plan.worst2, plan.margin, plan.worstat), (one.worst2, one.margin, one.worstat));
}

#[test]
fn one_film() {
    let mut rng = Rng::new(157);
    let mut made = 0;
    for case in 0..6000 {
        let figures = any_figures(&mut rng);
        let one = Figures::of(&figures, &[figures.blocks]);
        let rule = Rule::ALL[case % 3];
        let lists = rng.pick(&[(32_768, 16_384), (32_768, 16_384), (9, 9), (40, 20)]);
        let expected = match rule {
            Rule::Pairs => plan_pairs_record(&figures, lists.0, lists.1),
            _ => plan::plan_record_for(&figures, rule.showing(), lists.0, lists.1),
        };
        match (plan_record(&one, rule, lists.0, lists.1), expected) {
            (Ok(shelf), Ok(film)) => {
                check_one(&shelf, &film);
                made += 1;
            }
            (shelf, film) => assert_eq!(refused(shelf), refused(film)),
        }
    }
    assert!(made > 500, "{made}");
}

// Random shelves.

/// Legal shelves of all sizes, each rule: at most 16 films and 16,384 blocks on the disk.
#[test]
fn sizes_of_random_shelves() {
    let mut rng = Rng::new(161);
    let mut met = [0; 4];
    for case in 0..1500 {
        let rule = Rule::ALL[case % 3];
        let figures = match case % 10 {
            0 => large_shelf(&mut rng, rule),
            1 => large_shelf_of(&mut rng, rule, 16),
            _ => legal_shelf(&mut rng, rule),
        };
        let taken = rule.visits() as u64 * figures.all_blocks();
        let free = figures.total_positions() - taken;
        met[0] += (free < rule.visits() as u64) as usize;
        met[1] += (figures.all_blocks() == 16_384) as usize;
        met[2] += (figures.films == 16) as usize;
        met[3] += (figures.films == 1) as usize;
        assert_eq!(judge_record(&figures, rule), Ok(()));
    }
    assert!(met.iter().all(|&count| count > 50), "{met:?}");
}
