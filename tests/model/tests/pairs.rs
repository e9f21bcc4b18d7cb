//! Half blocks on paired tracks: request 11 of 02.

use film_disk_model::bench::{bench_blocks, bench_film, bench_rising, figures_of, film_of};
use film_disk_model::card::number_bytes;
use film_disk_model::desk::{FILLING, FREE, PLAYING, SWEEPING, TAIL};
use film_disk_model::pairs::{
    greatest_pair_time, halves, is_matching, is_pairs_plan_with_positions, pair_time, pair_times,
    plan_of, positions, read_pairs_card, streams, PAIRS,
};
use film_disk_model::plan::{time_at, worst2};
use film_disk_model::queue::most_sweeps;
use film_disk_model::rng::cards::any_card;
use film_disk_model::rng::desks::{
    alter_plan, any_step, longer_list, next_step, sound_desk, spoiled_list, temper,
};
use film_disk_model::rng::figures::any_figures;
use film_disk_model::rng::pairs::{
    large_pairs, large_pairs_plan, pairs_plan, small_pairs, tight_pairs,
};
use film_disk_model::scratch::{
    full_leads, plan_pairs_card_scratch, plan_pairs_record_scratch, SCRATCH,
};
use film_disk_model::shelf::one_film_card;
use film_disk_model::*;

/// B of the bench film.
const BLOCK: u32 = 262_144;

fn planned(figures: &Figures) -> Planned {
    let blocks = figures.blocks as usize;
    plan_pairs_record(figures, 2 * blocks, blocks).expect("an accepted record")
}

fn refused<T>(answer: Result<T, Refusal>) -> Option<(u32, u64)> {
    answer.err().map(|Refusal { number, place }| (number, place))
}

/// p of judged figures.
fn p_of(figures: &Figures) -> u32 {
    greatest_pair_time(&pair_times(figures, &positions(figures)))
}

// Plans.

/// The bench film with N 3: pairs of 37990, 37250 and 36900.
#[test]
fn bench_film_as_pairs() {
    let figures = bench_blocks(3);
    let Planned { plan, positions, leads } = planned(&figures);
    assert_eq!(positions, [0, 5, 1, 4, 2, 3]);
    assert_eq!(leads, [0, 0, 0]);
    assert_eq!(pair_times(&figures, &positions), [37_990, 37_250, 36_900]);
    let Plan { streams, buffer, worst2, margin, worstat, showing, .. } = plan;
    assert_eq!((streams, buffer, worst2), (8, 786_432, 75_980));
    assert_eq!((margin, worstat, showing), (0, 0, 2));
    // 500000 × (8 × 37990 + 16 × 12670 + 15000) is 1,000,000 × 260820.
    let at = |block_bytes| planned(&Figures { block_bytes, ..figures.clone() }).plan.streams;
    assert_eq!((at(260_820), at(260_819)), (8, 7));
    let two = planned(&bench_blocks(2));
    assert_eq!(two.positions, [2, 5, 3, 4]);
    assert_eq!((two.plan.worst2, two.plan.worstat), (2 * 34_810, 0));
}

/// A later block is the worst where times fall late.
#[test]
fn worst_block_in_mid_film() {
    let cases: [(&[u32], u32, u32); 5] = [
        (&[9, 9, 9, 9, 3, 3], 18, 2),
        (&[9, 9, 9, 3, 3, 3], 12, 0),
        (&[9, 8, 8, 7, 4, 3], 15, 2),
        (&[9, 8, 7, 6, 6, 3], 14, 1),
        (&[7, 7, 7, 7, 7, 7], 14, 0),
    ];
    for (times, p, worstat) in cases {
        let plan = planned(&Figures { blocks: 3, ..film_of(times) }).plan;
        assert_eq!((plan.worst2, plan.worstat), (2 * p, worstat), "{times:?}");
    }
}

/// Calls `look` with each matching of `pairs` pairs of the positions left, each pair's lower
/// position first and pairs by rising lower position: each choice of positions, each way to match
/// it, once.
fn each_matching(left: &[u32], pairs: u32, matching: &mut Vec<u32>, look: &mut impl FnMut(&[u32])) {
    if pairs == 0 {
        return look(matching);
    }
    let Some((&lowest, rest)) = left.split_first() else {
        return;
    };
    each_matching(rest, pairs, matching, look);
    for &other in rest {
        let others: Vec<u32> = rest.iter().copied().filter(|&at| at != other).collect();
        matching.extend([lowest, other]);
        each_matching(&others, pairs - 1, matching, look);
        matching.truncate(matching.len() - 2);
    }
}

/// The least greatest pair time of all matchings on any 2 × N different positions, and their number.
fn best_matching(figures: &Figures) -> (u32, u32) {
    let all: Vec<u32> = (0..figures.total_positions() as u32).collect();
    let (mut best, mut count) = (u32::MAX, 0);
    each_matching(&all, figures.blocks, &mut Vec::new(), &mut |matching| {
        assert!(is_matching(figures, matching));
        best = best.min(greatest_pair_time(&pair_times(figures, matching)));
        count += 1;
    });
    (best, count)
}

/// So many matchings: choices of 2 × N of P, times 1 × 3 × .. × (2N - 1).
fn matchings(total: u64, pairs: u64) -> u64 {
    let choices = (0..2 * pairs).fold(1, |product, at| product * (total - at) / (at + 1));
    choices * (1..=pairs).map(|pair| 2 * pair - 1).product::<u64>()
}

fn check_best(figures: &Figures) {
    let (best, count) = best_matching(figures);
    assert_eq!(p_of(figures), best, "{figures:?}");
    assert_eq!(count as u64, matchings(figures.total_positions(), figures.blocks as u64));
}

/// Each falling row of times of 1 to 3 on up to 7 positions, with every N: none below a third of the
/// first.
#[test]
fn no_matching_is_better() {
    for total in 4..=7u32 {
        for slow in 0..=total {
            for middle in 0..=total - slow {
                let time = |at| if at < slow { 3 } else { 2 - (at >= slow + middle) as u32 };
                let times: Vec<u32> = (0..total).map(time).collect();
                for blocks in 2..=total / 2 {
                    let figures = Figures { blocks, ..film_of(&times) };
                    assert_eq!(refused(plan_pairs_record(&figures, 14, 7)), None);
                    check_best(&figures);
                }
            }
        }
    }
}

/// Random falling times, positions up to 8.
#[test]
fn no_matching_is_better_on_random_disks() {
    let mut rng = Rng::new(111);
    let mut met = [0; 5];
    while met[2..].iter().any(|&count| count < 150) {
        let figures = small_pairs(&mut rng, 4);
        if figures.total_positions() <= 8 {
            check_best(&figures);
            met[figures.blocks as usize] += 1;
        }
    }
}

fn each_figures(seed: u64, count: usize, mut check: impl FnMut(&mut Rng, Figures)) {
    let mut rng = Rng::new(seed);
    for case in 0..count {
        let figures = match case % 100 {
            0 => large_pairs(&mut rng),
            1..=49 => small_pairs(&mut rng, 16_384),
            _ => tight_pairs(&mut rng, 40),
        };
        check(&mut rng, figures);
    }
}

/// The list is that of 01's laying of 2 × N blocks: b and 2N - 1 - b among the 2N highest, the
/// lower first. p is that laying's worst2, first met at an even block, and worstat is half of it.
#[test]
fn laying_of_twice_the_blocks() {
    let mut met = [0; 3];
    each_figures(112, 3000, |_, figures| {
        let (blocks, total) = (figures.blocks, figures.total_positions() as u32);
        let pairs = (0..blocks).flat_map(|b| [total - 2 * blocks + b, total - 1 - b]);
        let list = positions(&figures);
        assert!(list.iter().copied().eq(pairs));
        assert!(list.chunks(2).all(|pair| pair[0] < pair[1]));
        assert!(is_matching(&figures, &list));
        let halves = halves(&figures);
        let p = p_of(&figures);
        assert_eq!(p, worst2(&halves, Showing::Once));
        let times = plan::times(&halves, Showing::Once);
        let at = plan::worstat(&times, Showing::Once);
        assert_eq!(pairs::worstat(&pair_times(&figures, &list)) * 2, at);
        let by_block: Vec<u32> = times.chunks(2).map(|pair| pair[0] + pair[1]).collect();
        assert_eq!(pair_times(&figures, &list), by_block);
        for block in [0, blocks / 2, blocks - 1] {
            assert_eq!(pair_time(&figures, block), by_block[block as usize]);
        }
        met[(at / 2).min(2) as usize] += 1;
    });
    assert!(met[0] > 500 && met[2] > 20, "{met:?}");
}

/// What a plan for pairs says beside its streams.
#[test]
fn figures_of_the_plan() {
    let mut plans = 0;
    each_figures(113, 3000, |_, figures| {
        let Some(Planned { plan, leads, .. }) = plan_of(&figures) else {
            return;
        };
        assert_eq!(plan.buffer, 3 * figures.block_bytes);
        assert_eq!((plan.margin, plan.showing), (0, PAIRS));
        assert_eq!(leads, vec![0; figures.blocks as usize]);
        assert_eq!(plan.worst2, 2 * p_of(&figures));
        assert_eq!(plan.figures, figures);
        plans += 1;
    });
    assert!(plans > 1000, "{plans}");
}

/// Streams of hop and return by division; those of a table by the first entry that no longer fits.
fn streams_by_room(figures: &Figures, p: u32) -> i128 {
    let room = 1_000_000 * figures.block_bytes as i128 / figures.rate as i128;
    if figures.kind == 1 {
        let each = p as i128 + 2 * figures.hop() as i128;
        return (room - figures.ret() as i128).div_euclid(each).min(128);
    }
    let needs = (1..=128).map(|n| n * p as i128 + figures.table[2 * n as usize] as i128);
    needs.take_while(|&need| need <= room).count() as i128
}

/// The number of streams is right with both kinds of table, and 0, 1, 127 and 128 are all met.
#[test]
fn streams_at_the_edges() {
    let mut rng = Rng::new(114);
    let mut met = [[0; 129]; 2];
    for _ in 0..20_000 {
        let figures = tight_pairs(&mut rng, 20);
        let p = p_of(&figures);
        let n = streams(&figures, p).unwrap_or(0);
        assert_eq!(n as i128, streams_by_room(&figures, p).max(0));
        met[figures.kind as usize - 1][n as usize] += 1;
    }
    for kind in met {
        for n in [0, 1, 126, 127, 128] {
            assert!(kind[n] > 30, "{n} streams: {kind:?}");
        }
    }
}

/// Both sides of the formula equal: the stream fits. Past 128 nothing is gained.
#[test]
fn equality_fits() {
    let figures = figures_of(&[(4, 1)], 2, 6, 1_000_000).with_moves(1, 1);
    let at = |block_bytes| {
        plan_of(&Figures { block_bytes, ..figures.clone() }).map(|planned| planned.plan.streams)
    };
    assert_eq!((at(4), at(5), at(8), at(9)), (None, Some(1), Some(1), Some(2)));
    let most = 128 * (2 + 2) + 1;
    assert_eq!((at(most - 1), at(most), at(most + 9999)), (Some(127), Some(128), Some(128)));
    let figures = Figures { block_bytes: 4, ..figures };
    assert_eq!(refused(plan_pairs_record(&figures, 4, 2)), Some((12, 0)));
}

/// The table's entry for 2 × n visits decides, no odd one and none past it.
#[test]
fn even_entries_decide() {
    let of = |figures: Figures| planned(&Figures { blocks: 3, ..figures }).plan.streams;
    assert_eq!(of(bench_rising(257, 0)), 8);
    assert_eq!(of(bench_rising(17, 900_000)), 8);
    assert_eq!(of(bench_rising(16, 2649)), 7);
    assert_eq!(of(bench_rising(16, 2648)), 8);
    assert_eq!(of(bench_rising(15, 900_000)), 7);
    assert_eq!(of(bench_rising(3, 900_000)), 1);
}

// What is turned down.

/// Offset of N on a card of these figures.
fn offset_of_blocks(figures: &Figures) -> u64 {
    let before = card::card_numbers(figures).into_iter().take(2 + 2 * figures.zones as usize);
    before.map(|number| number_bytes(number).len() as u64).sum()
}

/// Card and record of the bench film with each N, and with a later fault.
#[test]
fn twice_the_blocks_above_the_positions() {
    let cases = [(0, 8), (1, 8), (4, 28), (5, 28), (6, 28), (7, 28), (16_384, 28), (16_385, 8)];
    let at = offset_of_blocks(&bench_film());
    for (blocks, number) in cases {
        let figures = bench_blocks(blocks);
        for later in [figures.clone(), Figures { block_bytes: 0, ..figures.clone() }] {
            let card = [card_bytes(&later), vec![0]].concat();
            assert_eq!(refused(plan_pairs_card(&card, 0, 0)), Some((number, at)), "N {blocks}");
            assert_eq!(refused(plan_pairs_record(&later, 0, 0)), Some((number, 0)), "N {blocks}");
        }
    }
    assert_eq!(refused(plan_card(&card_bytes(&bench_blocks(7)), 0, 0)), Some((9, at)));
    assert_eq!(refused(plan_card(&card_bytes(&bench_blocks(4)), 4, 4)), None);
    for blocks in [2, 3] {
        let card = card_bytes(&bench_blocks(blocks));
        assert_eq!(plan_pairs_card(&card, 6, 3), Ok(planned(&bench_blocks(blocks))));
        let short = &card[..card.len() - 1];
        assert_eq!(refused(plan_pairs_card(short, 6, 3)), Some((1, short.len() as u64)));
        let longer = [card.clone(), vec![0]].concat();
        assert_eq!(refused(plan_pairs_card(&longer, 6, 3)), Some((11, card.len() as u64)));
    }
}

/// The plain reader's answer to a card tells that for pairs: 9 is 28, and so is an accepted card with
/// 2N above P; any other refusal stays, or 28 stands before it.
#[test]
fn random_cards() {
    let mut rng = Rng::new(115);
    let mut met = [0; 30];
    for _ in 0..20_000 {
        let card = any_card(&mut rng);
        let as_pairs = read_pairs_card(&card);
        let above = |figures: &Figures| 2 * figures.blocks as u64 > figures.total_positions();
        match read_card(&card) {
            Ok(figures) if above(&figures) => {
                assert_eq!(refused(as_pairs.clone()), Some((28, offset_of_blocks(&figures))));
            }
            Ok(figures) => assert_eq!(as_pairs, Ok(figures)),
            Err(Refusal { number: 9, place }) => {
                assert_eq!(refused(as_pairs.clone()), Some((28, place)));
            }
            Err(refusal) => {
                let refusal_as_pairs = as_pairs.clone().unwrap_err();
                let stands_before =
                    refusal_as_pairs.number == 28 && refusal_as_pairs.place < refusal.place;
                assert!(refusal_as_pairs == refusal || stands_before);
            }
        }
        met[as_pairs.map_or_else(|refusal| refusal.number, |_| 0) as usize] += 1;
    }
    for number in [0, 1, 2, 3, 4, 5, 6, 7, 8, 10, 11, 25, 26, 28] {
        assert!(met[number] > 20, "{number}: {met:?}");
    }
    assert_eq!(met[9], 0);
}

/// A record is judged as its card is, but at 0; every record legal for pairs is legal without.
#[test]
fn random_records() {
    let mut rng = Rng::new(116);
    let mut met = [0; 30];
    for _ in 0..20_000 {
        let figures = any_figures(&mut rng);
        let plain = card::judge_record(&figures).err().unwrap_or(0);
        let number = pairs::judge_pairs_record(&figures).err().unwrap_or(0);
        match (plain, number) {
            (9, 28) => {}
            (0, 28) | (10, 28) | (25, 28) => {
                assert!(2 * figures.blocks as u64 > figures.total_positions());
            }
            _ => assert_eq!(plain, number),
        }
        if number > 0 {
            assert_eq!(refused(plan_pairs_record(&figures, 0, 0)), Some((number, 0)));
        }
        met[number as usize] += 1;
    }
    assert!(met[0] > 100 && met[28] > 100 && met[9] == 0, "{met:?}");
}

/// Positions below 2N or leads below N are 13, and that before 12.
#[test]
fn short_lists() {
    for figures in [bench_blocks(2), bench_blocks(3), Figures { block_bytes: 1, ..bench_blocks(3) }]
    {
        let blocks = figures.blocks as usize;
        let card = card_bytes(&figures);
        for positions in [0, blocks, 2 * blocks - 1, 2 * blocks, 2 * blocks + 1] {
            for leads in [0, blocks - 1, blocks, blocks + 1, 2 * blocks] {
                let fits = positions >= 2 * blocks && leads >= blocks;
                let number = match (fits, figures.block_bytes) {
                    (false, _) => Some((13, 0)),
                    (true, 1) => Some((12, 0)),
                    (true, _) => None,
                };
                assert_eq!(refused(plan_pairs_record(&figures, positions, leads)), number);
                assert_eq!(refused(plan_pairs_card(&card, positions, leads)), number);
            }
        }
    }
}

/// Spare entries change nothing; other figures, words or lists make no plan for pairs.
#[test]
fn which_records_are_plans() {
    let mut rng = Rng::new(117);
    for _ in 0..2000 {
        let Planned { plan, positions, leads } = pairs_plan(&mut rng);
        assert!(is_pairs_plan(&plan, &positions, &leads));
        let (longer, more) = (longer_list(&mut rng, &positions), longer_list(&mut rng, &leads));
        assert!(is_pairs_plan(&plan, &longer, &more));
        assert!(!is_pairs_plan(&plan, &spoiled_list(&mut rng, &positions), &leads));
        assert!(!is_pairs_plan(&plan, &positions, &spoiled_list(&mut rng, &leads)));
        let mut other = plan.clone();
        alter_plan(&mut rng, &mut other);
        let remade = plan_pairs_record(&other.figures, positions.len(), leads.len());
        let is = remade.is_ok_and(|made| made.plan == other && positions == made.positions);
        assert_eq!(is_pairs_plan(&other, &positions, &leads), is);
        for showing in [0, 1, 3, u32::MAX] {
            assert!(!is_pairs_plan(&Plan { showing, ..plan.clone() }, &positions, &leads));
        }
    }
    assert!(!is_pairs_plan_with_positions(&Plan::zero(), &[]));
}

// Windows.

/// Every window by its halves: 2k of them from an even place.
fn by_halves(planned: &Planned, k: usize) -> (u32, u32) {
    let figures = &planned.plan.figures;
    let times: Vec<u32> = planned.positions.iter().map(|&at| time_at(figures, at)).collect();
    let mut worst = (0, 0);
    for first in 0..=figures.blocks as usize - k {
        let time = times[2 * first..2 * (first + k)].iter().sum();
        if time > worst.0 {
            worst = (time, first as u32);
        }
    }
    worst
}

/// The window of one block is p at worstat; an even one takes at most k / 2 × worst2, that of two
/// often less.
#[test]
fn windows_by_halves() {
    let mut rng = Rng::new(118);
    let mut less = 0;
    for case in 0..1500 {
        let planned =
            if case % 150 == 0 { large_pairs_plan(&mut rng) } else { pairs_plan(&mut rng) };
        let Planned { plan, positions, .. } = &planned;
        let most = plan.figures.blocks.min(64);
        let window = |k| window_pairs(plan, positions, k).expect("a window of the plan");
        for k in [1, 2, rng.between(1, most), rng.between(1, most), most] {
            let (time, first) = by_halves(&planned, k as usize);
            let expected = Window { time, first, bytes: k * plan.figures.block_bytes };
            assert_eq!(window(k), expected);
            assert!(k % 2 == 1 || time <= k / 2 * plan.worst2);
        }
        assert_eq!((2 * window(1).time, window(1).first), (plan.worst2, plan.worstat));
        less += (window(2).time < plan.worst2) as usize;
    }
    assert!(less > 100, "{less}");
}

#[test]
fn bench_windows() {
    let Planned { plan, positions, .. } = planned(&bench_blocks(3));
    let window = |k| window_pairs(&plan, &positions, k);
    let expected = |time, k| Ok(Window { time, first: 0, bytes: k * BLOCK });
    assert_eq!(window(1), expected(37_990, 1));
    assert_eq!(window(2), expected(75_240, 2));
    assert_eq!(window(3), expected(112_140, 3));
    let longer = [positions.clone(), vec![9]].concat();
    assert_eq!(window_pairs(&plan, &longer, 3), window(3));
    let other = Plan { showing: 0, ..plan.clone() };
    for k in [0, 1, 3, 4, 65, u32::MAX] {
        let number = if k == 1 || k == 3 { None } else { Some((27, 0)) };
        assert_eq!(refused(window(k)), number);
        assert_eq!(refused(window_pairs(&plan, &positions[..5], k)), Some((14, 0)));
        assert_eq!(refused(window_pairs(&plan, &positions[..3], k)), Some((14, 0)));
        assert_eq!(refused(window_pairs(&other, &positions, k)), Some((14, 0)));
    }
    let figures = figures_of(&[(140, 4_000_000)], 66, 4_194_304, 1);
    let Planned { plan, positions, .. } = planned(&figures);
    let window = window_pairs(&plan, &positions, 64);
    assert_eq!(window, Ok(Window { time: 512_000_000, first: 0, bytes: 268_435_456 }));
    assert_eq!(refused(window_pairs(&plan, &positions, 65)), Some((27, 0)));
}

// The programs.

/// The bench film with N 3 and with the N that it has, which is too many.
#[test]
fn bench_texts() {
    let text = pairs_listing(&one_film_card(&bench_blocks(3)));
    let expected = "streams 8\nbuffer 786432\nworst2 75980\nworstat 0\nmargin 0\n\
        block position position time lead\n0 0 5 37990 0\n1 1 4 37250 0\n2 2 3 36900 0\n";
    assert_eq!(text, expected);
    let windows = |card: &[u8]| windows_with(&["pairs".to_string()], card);
    let text = windows(&one_film_card(&bench_blocks(3)));
    let expected = "blocks time first bytes rate\n1 37990 0 262144 6900342\n\
        2 75240 0 524288 6968208\n3 112140 0 786432 7012948\n";
    assert_eq!(text, expected);
    let too_many = one_film_card(&bench_film());
    let at = offset_of_blocks(&bench_film()) + 1;
    for text in [pairs_listing(&too_many), windows(&too_many)] {
        assert_eq!(text, format!("refused 28 at {at}\n"));
    }
}

// By scratch.

/// With a scratch of 512 all is as with the list; a shorter one is 13, in the planner in its place, on
/// a desk first of all.
#[test]
fn scratch_in_place_of_the_list() {
    let mut rng = Rng::new(121);
    let scratch = vec![7; SCRATCH];
    for case in 0..1000 {
        let figures = tight_pairs(&mut rng, 40);
        let (blocks, card) = (figures.blocks as usize, card_bytes(&figures));
        for positions in [2 * blocks - 1, 2 * blocks] {
            let by_list = plan_pairs_card(&card, positions, blocks);
            assert_eq!(plan_pairs_card_scratch(&card, positions, SCRATCH), by_list);
            assert_eq!(plan_pairs_record_scratch(&figures, positions, SCRATCH), by_list);
            let short = plan_pairs_card_scratch(&card, positions, SCRATCH - 1);
            assert_eq!(refused(short), Some((13, 0)), "case {case}");
        }
        let planned = pairs_plan(&mut rng);
        let Planned { plan, positions, leads } = &planned;
        assert_eq!(full_leads(plan), *leads);
        assert_eq!(open_scratch(plan, positions, &scratch), open(plan, positions, leads));
        let short = &scratch[..SCRATCH - 1];
        assert_eq!(refused(open_scratch(plan, &[], short)), Some((13, 0)));
        let (desk, step) = any_step(&mut rng, &planned);
        let made = answer_scratch(&desk, &step.positions, &scratch, &step.call);
        assert_eq!(made, answer(&desk, &step.positions, &full_leads(&desk.plan), &step.call));
        assert_eq!(answer_scratch(&desk, &[], short, &step.call).number, 13);
    }
}

// The desk.

/// Two rooms of the bench film: four entries by rising position, each block's two visits counted.
#[test]
fn bench_desk() {
    let planned = planned(&bench_blocks(3));
    let Planned { plan, positions, leads } = &planned;
    let mut run = Run::new(open(plan, positions, leads).unwrap());
    let mut call = |call| {
        let step = Step { positions: positions.clone(), leads: leads.clone(), call };
        run.call(&step).unwrap()
    };
    let of = |entries: &[(u32, u32, u32)]| -> Vec<Entry> {
        entries.iter().map(|&(position, slot, block)| Entry { position, slot, block }).collect()
    };
    assert_eq!(call(Call::Join { slot: 8, block: 0 }).number, 16);
    assert_eq!(call(Call::Join { slot: 0, block: 3 }).number, 18);
    assert_eq!(call(Call::Join { slot: 0, block: 0 }).number, 0);
    assert_eq!(call(Call::Begin { fetch_list: 15 }).number, 13);
    let begun = call(Call::Begin { fetch_list: 16 });
    assert_eq!(begun.entries, of(&[(0, 0, 0), (5, 0, 0)]));
    assert_eq!((begun.count, begun.bound), (2, 37_990 + 2 * 12_670 + 15_000));
    let ended = call(Call::End { draws: vec![0; 8] });
    assert_eq!((ended.desk.held[0], ended.desk.next[0]), (BLOCK, 1));
    assert_eq!(call(Call::Join { slot: 1, block: 1 }).number, 0);
    let begun = call(Call::Begin { fetch_list: 16 });
    assert_eq!(begun.desk.kinds[..2], [PLAYING, FILLING]);
    assert_eq!(begun.entries, of(&[(1, 0, 1), (1, 1, 1), (4, 0, 1), (4, 1, 1)]));
    assert_eq!((begun.count, begun.bound), (4, 2 * 37_250 + 4 * 12_670 + 15_000));
    // 500000 × 140180 / 1,000,000.
    let draws = |draw| Call::End { draws: [vec![draw], vec![0; 7]].concat() };
    assert_eq!(call(draws(70_091)).number, 20);
    let ended = call(draws(70_090));
    assert_eq!(ended.desk.held[..2], [2 * BLOCK - 70_090, BLOCK]);
    let begun = call(Call::Begin { fetch_list: 16 });
    assert_eq!(begun.entries, of(&[(2, 0, 2), (2, 1, 2), (3, 0, 2), (3, 1, 2)]));
    let ended = call(Call::End { draws: vec![0; 8] });
    assert_eq!(ended.desk.kinds[..2], [TAIL, TAIL]);
    let begun = call(Call::Begin { fetch_list: 16 });
    assert_eq!((begun.count, begun.bound, begun.entries.len()), (0, 15_000, 0));
}

/// The entries of a begin: for each slot fetched for both positions of its block, sorted; the bound
/// is their times and the overhead for their number.
fn check_begun(positions: &[u32], answer: &Answer) {
    let Answer { desk, count, bound, entries, .. } = answer;
    let figures = &desk.plan.figures;
    let mut expected = Vec::new();
    for slot in desk.used_slots().filter(|&slot| desk::is_fetched(desk, slot)) {
        let block = desk.next[slot];
        for half in [2 * block, 2 * block + 1] {
            let position = positions[half as usize];
            expected.push(Entry { position, slot: slot as u32, block });
        }
    }
    expected.sort();
    assert_eq!(*entries, expected);
    assert_eq!(*count as usize, entries.len());
    let times: u32 = entries.iter().map(|entry| time_at(figures, entry.position)).sum();
    assert_eq!(*bound, times + figures.table[entries.len()]);
    assert!(desk.places.iter().all(|&place| place == 0), "a request waits");
}

/// The book's claim over random lists: all requests are granted at the next begin, G being 0.
#[test]
fn lists_of_calls() {
    let mut rng = Rng::new(119);
    let mut met = [0; 22];
    let (mut full, mut tails) = (0, 0);
    for case in 0..500 {
        let planned =
            if case % 100 == 0 { large_pairs_plan(&mut rng) } else { pairs_plan(&mut rng) };
        let Planned { plan, positions, leads } = &planned;
        assert_eq!(most_sweeps(plan), 0);
        let temper = temper(&mut rng);
        let mut run = Run::new(open(plan, positions, leads).unwrap());
        for _ in 0..if case % 100 == 0 { 20 } else { 150 } {
            let step = next_step(&mut rng, &planned, &run.desk, &temper);
            let answer = run.call(&step).unwrap();
            assert!(is_sound(&run.desk, positions, leads));
            met[answer.number as usize] += 1;
            if answer.accepted() && matches!(step.call, Call::Begin { .. }) {
                check_begun(positions, &answer);
                full += (answer.count == 2 * plan.streams) as usize;
            }
            tails += run.desk.kinds.iter().filter(|&&kind| kind == TAIL).count();
        }
    }
    for number in [0].into_iter().chain(13..=21) {
        assert!(met[number] > 20, "{number}: {met:?}");
    }
    assert!(full > 100 && tails > 100, "{full} {tails}");
}

/// Begins on sound desks that no list reaches: each fetch list below 2n is 13, and a playing slot
/// holds what it may draw.
#[test]
fn begins_on_sound_desks() {
    let mut rng = Rng::new(120);
    let mut begins = 0;
    for _ in 0..3000 {
        let planned = pairs_plan(&mut rng);
        let Planned { plan, positions, leads } = &planned;
        let desk = sound_desk(&mut rng, &planned);
        assert!(is_sound(&desk, positions, leads));
        let most = 2 * plan.streams as usize;
        let of = |fetch_list| answer(&desk, positions, leads, &Call::Begin { fetch_list });
        if desk.phase == SWEEPING {
            assert_eq!(of(0).number, 15);
            continue;
        }
        for fetch_list in [0, plan.streams as usize, most - 1] {
            let answer = of(fetch_list);
            assert_eq!((answer.number, answer.place, answer.desk), (13, 0, desk.clone()));
        }
        let answer = of(most);
        check_begun(positions, &answer);
        let may_draw = desk::drawn_in(plan.figures.rate, answer.bound);
        assert!(may_draw <= plan.figures.block_bytes as u128);
        for slot in answer.desk.used_slots() {
            let playing = answer.desk.kinds[slot] == PLAYING;
            assert!(!playing || answer.desk.held[slot] as u128 >= may_draw);
        }
        begins += 1;
    }
    assert!(begins > 1000, "{begins}");
}

/// 14 for the record and lists of another showing, and for lists too short.
#[test]
fn records_that_are_not_sound() {
    let planned = planned(&bench_blocks(3));
    let Planned { plan, positions, leads } = &planned;
    let once = plan_record(&bench_blocks(3), 3, 3).unwrap();
    let turned = Plan { showing: PAIRS, ..once.plan.clone() };
    assert_eq!(refused(open(&turned, &once.positions, &once.leads)), Some((14, 0)));
    assert_eq!(refused(open(&turned, positions, leads)), Some((14, 0)));
    assert_eq!(refused(open(plan, &once.positions, &once.leads)), Some((14, 0)));
    assert_eq!(refused(open(plan, &positions[..5], leads)), Some((14, 0)));
    assert_eq!(refused(open(plan, positions, &leads[..2])), Some((14, 0)));
    assert_eq!(refused(open(plan, positions, &[0, 0, 1])), Some((14, 0)));
    let desk = Desk::all_free(plan);
    let begin = Call::Begin { fetch_list: 0 };
    assert_eq!(answer(&desk, positions, leads, &begin).number, 13);
    let mut playing = desk.clone();
    (playing.kinds[0], playing.held[0]) = (PLAYING, BLOCK);
    assert!(is_sound(&playing, positions, leads));
    playing.held[0] = BLOCK - 1;
    assert!(!is_sound(&playing, positions, leads));
    let mut unused = desk.clone();
    unused.kinds[8] = TAIL;
    assert_eq!(answer(&unused, positions, leads, &begin).number, 14);
    assert_eq!(desk.kinds[8], FREE);
}
