//! Measured overheads of a sweep: request 3 of 02.

use film_disk_model::bench::{bench_film, bench_rising, figures_of, two_alike};
use film_disk_model::card::{card_numbers, number_bytes, straight, ENTRIES};
use film_disk_model::desk::{sweep_bound, FILLING, PLAYING, SWEEPING};
use film_disk_model::plan::{plan_of, worst2};
use film_disk_model::rng::cards::any_card;
use film_disk_model::rng::figures::tight_figures;
use film_disk_model::rng::tables::any_table;
use film_disk_model::*;

const MOST: u32 = 257_000_000;

fn planned(figures: &Figures, showing: Showing) -> Planned {
    plan_of(figures, showing).expect("a stream that fits")
}

fn streams(figures: &Figures) -> u32 {
    plan_of(figures, Showing::Once).map_or(0, |planned| planned.plan.streams)
}

/// The number by which a card and its record are refused, and the card's offset.
fn refused(figures: &Figures) -> (u32, u64) {
    let Refusal { number, place } = read_card(&card_bytes(figures)).unwrap_err();
    assert_eq!(judge_record(figures), Err(number));
    (number, place)
}

/// Where an entry of the table begins in the card.
fn offset_of(figures: &Figures, entry: usize) -> u64 {
    let numbers = card_numbers(figures);
    let before = numbers.len() - ENTRIES + entry;
    numbers[..before].iter().map(|&number| number_bytes(number).len() as u64).sum()
}

// Cards.

/// A card of kind 1 has hop and return, one of kind 2 the whole table, straight or not.
#[test]
fn numbers_of_the_kinds() {
    let one = bench_film();
    assert_eq!(card_numbers(&one)[17..], [12_670, 15_000]);
    let two = bench_film().with_table(one.table);
    let numbers = card_numbers(&two);
    assert_eq!(numbers.len(), 17 + 257);
    assert_eq!(numbers[0], 2);
    assert_eq!(numbers[17..20], [15_000, 27_670, 40_340]);
    assert_eq!(numbers[17 + 256], 15_000 + 256 * 12_670);
    assert_eq!(read_card(&card_bytes(&one)).unwrap(), one);
    assert_eq!(read_card(&card_bytes(&two)).unwrap(), two);
    assert_ne!(one, two);
}

/// Each entry at both ends of its range, one past them, and one below the entry before.
#[test]
fn entries_out_of_range() {
    for entry in [0, 1, 2, 128, 255, 256] {
        let with = |value: u32, rest: u32| {
            let mut figures = bench_film().with_table([rest; ENTRIES]);
            figures.table[entry] = value;
            figures.table[entry + 1..].fill(value.max(rest));
            figures
        };
        for legal in [with(1, 1), with(MOST, 1), with(MOST, MOST), with(7, 7)] {
            assert_eq!(read_card(&card_bytes(&legal)), Ok(legal.clone()));
            assert_eq!(judge_record(&legal), Ok(()));
        }
        for bad in [with(0, 1), with(MOST + 1, 1), with(u32::MAX, MOST), with(0, 0)] {
            let first = bad.table.iter().position(|&value| value == 0 || value > MOST).unwrap();
            assert_eq!(refused(&bad), (25, offset_of(&bad, first)), "entry {entry}");
        }
        let lower = with(8, 9);
        match entry {
            0 => assert_eq!(judge_record(&lower), Ok(())),
            _ => assert_eq!(refused(&lower), (25, offset_of(&lower, entry))),
        }
    }
}

/// The form of an entry goes before its range; a card that ends in its table is 1.
#[test]
fn form_of_entries() {
    let figures = bench_film().with_table([9; ENTRIES]);
    let card = card_bytes(&figures);
    let refusal = |card: &[u8]| {
        let Refusal { number, place } = read_card(card).unwrap_err();
        (number, place)
    };
    for entry in [0, 1, 200, 256] {
        let at = offset_of(&figures, entry) as usize;
        assert_eq!(card[at], 9);
        assert_eq!(refusal(&card[..at]), (1, at as u64));
        let mut other = card.clone();
        other.splice(at..at + 1, [0x80, 0x00]);
        assert_eq!(refusal(&other), (2, at as u64));
        other.splice(at..at + 2, [0x80, 0x80, 0x80, 0x80, 0x10]);
        assert_eq!(refusal(&other), (2, at as u64));
        // The entry before is 9.
        other.splice(at..at + 5, [8]);
        let expected = if entry == 0 { None } else { Some(25) };
        assert_eq!(read_card(&other).err().map(|refusal| refusal.number), expected);
    }
    let extra = [card.clone(), vec![9]].concat();
    assert_eq!(refusal(&extra), (11, card.len() as u64));
}

/// B and c are judged before the table, kinds before all else.
#[test]
fn order_of_the_faults() {
    let mut figures = bench_film().with_table([0; ENTRIES]);
    assert_eq!(refused(&figures), (25, offset_of(&figures, 0)));
    figures.rate = 0;
    assert_eq!(refused(&figures).0, 10);
    figures.block_bytes = 4_194_305;
    assert_eq!(refused(&figures).0, 10);
    figures.blocks = 7;
    assert_eq!(refused(&figures).0, 9);
    figures.times[0] = 0;
    assert_eq!(refused(&figures).0, 6);
    figures.zones = 65;
    assert_eq!(refused(&figures).0, 4);
    for kind in [0, 3, 4, 255, 256, 257, u32::MAX] {
        figures.kind = kind;
        assert_eq!(refused(&figures), (3, 0));
    }
}

/// A record of kind 1 whose table does not come from a hop and a return in range is 10, never 25.
#[test]
fn tables_of_kind_one() {
    let judge = |table| judge_record(&Figures { table, ..bench_film() });
    for (hop, ret, expected) in [
        (1, 1, Ok(())),
        (1_000_000, 1_000_000, Ok(())),
        (0, 15_000, Err(10)),
        (1_000_001, 15_000, Err(10)),
        (12_670, 0, Err(10)),
        (12_670, 1_000_001, Err(10)),
        (0, 0, Err(10)),
    ] {
        assert_eq!(judge(straight(hop, ret)), expected);
    }
    let right = straight(12_670, 15_000);
    for entry in 0..ENTRIES {
        for value in [0, 1, right[entry] - 1, right[entry] + 1, MOST, MOST + 1, u32::MAX] {
            let mut table = right;
            table[entry] = value;
            assert_eq!(judge(table), Err(10), "entry {entry}, {value}");
        }
    }
    // A falling table too.
    let mut falling = right;
    falling.reverse();
    assert_eq!(judge(falling), Err(10));
    assert_eq!(judge([15_000; ENTRIES]), Err(10));
}

/// Of kind 2 a table never gives 10.
#[test]
fn tables_of_kind_two() {
    let judge = |table| judge_record(&bench_film().with_table(table));
    assert_eq!(judge([15_000; ENTRIES]), Ok(()));
    assert_eq!(judge(straight(1_000_001, 900_000)), Ok(()));
    assert_eq!(judge(straight(1_000_001, 1_000_000)), Err(25));
    assert_eq!(judge(straight(0, 0)), Err(25));
    let mut falling = straight(12_670, 15_000);
    falling.reverse();
    assert_eq!(judge(falling), Err(25));
}

// Plans.

/// The bench film as kind 2 with the straight table has the plan of kind 1 in all but the kind.
#[test]
fn straight_tables_plan_alike() {
    let mut rng = Rng::new(31);
    for case in 0..2000 {
        let showing = Showing::ALL[case % 2];
        let one = match case {
            0 | 1 => bench_film(),
            _ => tight_figures(&mut rng, showing, 20),
        };
        let two = one.clone().with_table(one.table);
        match (plan_of(&one, showing), plan_of(&two, showing)) {
            (Some(one), Some(two)) => {
                assert_eq!((one.positions, one.leads), (two.positions, two.leads));
                let plan = Plan { figures: one.plan.figures.clone(), ..two.plan.clone() };
                assert_eq!(plan, one.plan);
                assert_eq!(two.plan.figures.kind, 2);
            }
            (one, two) => assert!(one.is_none() && two.is_none()),
        }
    }
}

/// The overhead of n blocks decides, not the first two entries: the bench film feeds 16 streams,
/// and fewer if many blocks cost more.
#[test]
fn late_risers() {
    assert_eq!(streams(&bench_film()), 16);
    assert_eq!(streams(&bench_rising(17, 900_000)), 16);
    // Sixteen streams leave 5296 half microseconds of room.
    assert_eq!(streams(&bench_rising(16, 2648)), 16);
    assert_eq!(streams(&bench_rising(16, 2649)), 15);
    assert_eq!(streams(&bench_rising(9, 900_000)), 8);
    assert_eq!(streams(&bench_rising(2, 900_000)), 1);
    assert_eq!(streams(&bench_rising(1, 900_000)), 0);
    let riser = bench_rising(9, 900_000);
    let by_first_two = riser.clone().with_moves(riser.hop(), riser.ret());
    assert_eq!(streams(&by_first_two), 16);
}

/// n streams fit as long as twice the overhead for n blocks leaves room: n at 1, 256 and between.
#[test]
fn streams_by_the_table() {
    let film = figures_of(&[(2, 1000)], 2, 4_000_000, 1_000_000);
    // Room for 8,000,000 half microseconds; n streams take 2000 n and twice the overhead.
    for n in [1_u32, 2, 3, 100, 255, 256] {
        let room = 4_000_000 - 1000 * n;
        let mut table = [room; ENTRIES];
        table[..n as usize].fill(1);
        let at = streams(&film.clone().with_table(table));
        assert_eq!(at, n);
        table[n as usize..].fill(room + 1);
        assert_eq!(streams(&film.clone().with_table(table)), n - 1);
    }
    assert_eq!(streams(&film.clone().with_table([1; ENTRIES])), 256);
}

/// Entries above n may change and the plan is still that of its figures; not so if one more fits.
#[test]
fn entries_above_the_streams() {
    let planned = planned(&bench_rising(17, 900_000), Showing::Once);
    let mut plan = planned.plan.clone();
    plan.figures.table[200..].fill(MOST);
    assert!(is_plan(&plan, &planned.positions, &planned.leads));
    plan.figures.table[..18].fill(1);
    assert!(!is_plan(&plan, &planned.positions, &planned.leads));
}

/// Kinds, and tables that another kind would not have.
#[test]
fn records_of_plans() {
    let planned = planned(&bench_film(), Showing::Once);
    let opened = |figures: Figures| {
        let plan = Plan { figures, ..planned.plan.clone() };
        open(&plan, &planned.positions, &planned.leads).is_ok()
    };
    assert!(opened(bench_film()));
    assert!(opened(bench_film().with_table(bench_film().table)));
    for kind in [0, 3, 256, u32::MAX] {
        assert!(!opened(Figures { kind, ..bench_film() }));
    }
    for entry in 0..ENTRIES {
        let mut table = bench_film().table;
        table[entry] += 1;
        assert!(!opened(Figures { table, ..bench_film() }));
        // Entries 16 and 17 decide on the streams, and both leave room for one more.
        assert!(opened(bench_film().with_table(table)));
    }
}

// Sweeps.

/// The bound of a sweep is its times and the overhead for its count.
#[test]
fn bounds_by_the_table() {
    let table = std::array::from_fn(|count| 1000 + (count * count) as u32);
    let figures = two_alike(262_144).with_table(table);
    for planned in Showing::ALL.map(|showing| planned(&figures, showing)) {
        let n = planned.plan.streams as usize;
        for count in 0..=n {
            let mut desk = Desk { phase: SWEEPING, ..Desk::all_free(&planned.plan) };
            for slot in 0..count {
                desk.kinds[slot] = FILLING;
                desk.next[slot] = slot as u32 % 2;
            }
            let expected = 20_000 * count as u32 + 1000 + (count * count) as u32;
            assert_eq!(sweep_bound(&desk), expected);
        }
        // A full buffer is not fetched for.
        let mut desk = Desk { phase: SWEEPING, ..Desk::all_free(&planned.plan) };
        (desk.kinds[0], desk.held[0]) = (PLAYING, planned.plan.buffer);
        assert_eq!(sweep_bound(&desk), 1000);
    }
}

/// What a begin answers, and what may be drawn in its sweep.
#[test]
fn sweep_of_a_measured_film() {
    let mut figures = bench_film().with_table(bench_film().table);
    figures.table[0] = 9000;
    figures.table[1] = 20_000;
    let planned = planned(&figures, Showing::Once);
    let lists = (&planned.positions[..], &planned.leads[..]);
    let call = |desk: &Desk, call| answer(desk, lists.0, lists.1, &call);
    let desk = open(&planned.plan, lists.0, lists.1).unwrap();
    assert_eq!(call(&desk, Call::Begin { fetch_list: 16 }).bound, 9000);
    let desk = call(&desk, Call::Join { slot: 3, block: 0 }).desk;
    let begun = call(&desk, Call::Begin { fetch_list: 16 });
    assert_eq!((begun.count, begun.bound), (1, 22_270 + 20_000));
    let desk = call(&begun.desk, Call::End { draws: vec![0; 16] }).desk;
    let begun = call(&desk, Call::Begin { fetch_list: 16 });
    assert_eq!((begun.count, begun.bound), (1, 15_720 + 20_000));
    // Half a byte a microsecond.
    let mut draws = vec![0; 16];
    draws[3] = 17_861;
    assert_eq!(call(&begun.desk, Call::End { draws: draws.clone() }).number, 20);
    draws[3] = 17_860;
    assert_eq!(call(&begun.desk, Call::End { draws }).number, 0);
}

// Random ones.

/// Tables of every shape are legal, and most cards of kind 2 are met.
#[test]
fn random_tables() {
    let mut rng = Rng::new(32);
    for _ in 0..3000 {
        let table = any_table(&mut rng);
        assert!(table.windows(2).all(|two| two[0] <= two[1]));
        assert!(table[0] >= 1 && table[256] <= MOST);
    }
    let mut met = [0; 27];
    let mut late = 0;
    for _ in 0..20_000 {
        let card = any_card(&mut rng);
        if card.first() == Some(&2) {
            let answer = read_card(&card);
            met[answer.as_ref().map_or_else(|refusal| refusal.number, |_| 0) as usize] += 1;
            if let Ok(figures) = answer {
                let by_two = figures.clone().with_moves(figures.hop(), figures.ret());
                let pair = worst2(&figures, Showing::Once);
                let more = |figures: &Figures| plan::streams(figures, pair);
                late += (more(&figures) < more(&by_two)) as usize;
            }
        }
    }
    let expected = [0, 1, 2, 4, 5, 6, 7, 8, 9, 10, 11, 25, 26];
    assert!(expected.iter().all(|&number: &usize| met[number] > 10), "{met:?}");
    assert!(late > 100, "{late}");
}
