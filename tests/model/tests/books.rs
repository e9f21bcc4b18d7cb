//! The book's claim over random lists of calls, and that the checker finds wrong desks.

use film_disk_model::bench::bench_film;
use film_disk_model::desk::{ASKED, FILLING, FREE, PLAYING, TAIL};
use film_disk_model::rng::desks::{next_step, temper};
use film_disk_model::rng::figures::{desk_plan_for, large_desk_plan_for};
use film_disk_model::*;

/// What the lists of a test met.
#[derive(Debug, Default)]
struct Met {
    calls: usize,
    refused: [usize; 22],
    begins: usize,
    ends: usize,
    waits: usize,
    grants: usize,
    plays: usize,
    unfetched: usize,
    tails: usize,
    emptied: usize,
    /// Slots that fetched the last block and go on with the first.
    rounds: usize,
    full_desks: usize,
}

impl Met {
    fn note(&mut self, before: &Desk, call: &Call, answer: &Answer) {
        self.calls += 1;
        self.refused[answer.number as usize] += 1;
        if !answer.accepted() {
            return;
        }
        let kinds = |slot: usize| (before.kinds[slot], answer.desk.kinds[slot]);
        let count = |wanted| (0..SLOTS).filter(|&slot| kinds(slot) == wanted).count();
        match call {
            Call::Begin { .. } => {
                self.begins += 1;
                self.waits += count((ASKED, ASKED));
                self.grants += count((ASKED, FILLING));
                self.plays += count((FILLING, PLAYING));
                let active = count((PLAYING, PLAYING)) + count((FILLING, FILLING));
                self.unfetched += (active > answer.entries.len()) as usize;
                self.full_desks += (answer.count == before.plan.streams) as usize;
            }
            Call::End { .. } => {
                self.ends += 1;
                self.tails += count((PLAYING, TAIL)) + count((FILLING, TAIL));
                self.emptied += count((TAIL, FREE));
                let goes_round = |slot: &usize| before.next[*slot] > answer.desk.next[*slot];
                let occupied = (0..SLOTS).filter(|&slot| answer.desk.kinds[slot] != FREE);
                self.rounds += occupied.filter(goes_round).count();
            }
            _ => {}
        }
    }

    /// Every turn of the rules is met at least so often: tails, which alone run dry, in one showing
    /// only, rounds in a loop only. Waits are rare; full houses have them.
    fn check(&self, showing: Showing, least: usize) {
        assert!(self.waits > 0, "{self:?}");
        for turn in
            [self.begins, self.ends, self.grants, self.plays, self.unfetched, self.full_desks]
        {
            assert!(turn >= least, "{self:?}");
        }
        for number in [0].into_iter().chain(13..=20) {
            assert!(self.refused[number] >= least, "{self:?}");
        }
        let ends_of_films = [self.tails, self.emptied, self.refused[21]];
        let (met, unmet) = match showing {
            Showing::Once => (&ends_of_films[..], &[self.rounds][..]),
            Showing::Loop => (&[self.rounds][..], &ends_of_films[..]),
        };
        assert!(met.iter().all(|&turn| turn >= least), "{self:?}");
        assert!(unmet.iter().all(|&turn| turn == 0), "{self:?}");
    }
}

/// Runs one list and checks the claim and soundness after each call.
fn run_list(rng: &mut Rng, planned: &Planned, calls: usize, met: &mut Met) {
    let temper = temper(rng);
    let desk = open(&planned.plan, &planned.positions, &planned.leads).unwrap();
    let mut run = Run::new(desk);
    for _ in 0..calls {
        let before = run.desk.clone();
        let step = next_step(rng, planned, &before, &temper);
        let answer = match run.call(&step) {
            Ok(answer) => answer,
            Err(fault) => panic!("{fault}: {before:?} {:?}", step.call),
        };
        met.note(&before, &step.call, &answer);
        assert!(is_sound(&run.desk, &planned.positions, &planned.leads));
    }
}

#[test]
fn claim_on_random_lists() {
    for showing in Showing::ALL {
        let mut rng = Rng::new(31);
        let mut met = Met::default();
        for _ in 0..4000 {
            let planned = desk_plan_for(&mut rng, showing);
            let calls = rng.pick(&[5, 20, 60, 150]);
            run_list(&mut rng, &planned, calls, &mut met);
        }
        met.check(showing, 100);
    }
}

#[test]
fn claim_on_long_films() {
    let mut rng = Rng::new(33);
    let mut met = Met::default();
    for case in 0..120 {
        let planned = large_desk_plan_for(&mut rng, Showing::ALL[case % 2]);
        run_list(&mut rng, &planned, 20, &mut met);
    }
    assert!(met.grants > 100, "{met:?}");
}

#[test]
fn claim_on_the_bench_film() {
    for made in [plan_record(&bench_film(), 6, 6), plan_loop_record(&bench_film(), 6, 6)] {
        let planned = made.unwrap();
        let mut rng = Rng::new(32);
        let mut met = Met::default();
        for _ in 0..300 {
            run_list(&mut rng, &planned, 400, &mut met);
        }
        assert!(met.grants > 1000 && met.waits > 100, "{met:?}");
    }
}

/// The bench film with slot 0 played up to its second begin.
fn played() -> Run {
    let planned = plan_record(&bench_film(), 6, 6).unwrap();
    let Planned { plan, positions, leads } = planned;
    let mut run = Run::new(open(&plan, &positions, &leads).unwrap());
    for call in [
        Call::Join { slot: 0, block: 0 },
        Call::Begin { fetch_list: 16 },
        Call::End { draws: vec![0; 16] },
        Call::Begin { fetch_list: 16 },
    ] {
        let step = Step { positions: positions.clone(), leads: leads.clone(), call };
        assert!(run.call(&step).unwrap().accepted());
    }
    run
}

/// The checker turns down desks that are not the list's.
#[test]
fn wrong_desks_are_found() {
    let Run { desk, book, .. } = played();
    let check = |other: &Desk| check_claim(&book, other, &desk, Some(43_390));
    assert_eq!(check(&desk), Ok(()));
    let wrong = |alter: fn(&mut Desk)| {
        let mut other = desk.clone();
        alter(&mut other);
        check(&other).is_err()
    };
    assert!(wrong(|desk| desk.held[0] += 1));
    assert!(wrong(|desk| desk.held[0] = 0));
    assert!(wrong(|desk| desk.kinds[0] = FILLING));
    assert!(wrong(|desk| desk.kinds[0] = FREE));
    assert!(wrong(|desk| desk.kinds[0] = 5));
    assert!(wrong(|desk| desk.kinds[9] = ASKED));
    assert!(wrong(|desk| desk.plan.buffer = 262_143));
    // The most that slot 0 can be asked to have: 262144 bytes at 500000 a second.
    assert!(check_claim(&book, &desk, &desk, Some(524_289)).is_ok());
    assert!(check_claim(&book, &desk, &desk, Some(524_290)).is_err());
}

/// The book by itself: rows after each sort of call, and no change by refused ones.
#[test]
fn rows_of_the_book() {
    let mut book = Book::new(10);
    let entry = Entry { position: 0, slot: 3, block: 0 };
    let join = Call::Join { slot: 3, block: 0 };
    let begin = Call::Begin { fetch_list: 4 };
    let end = |draw| Call::End { draws: vec![0, 0, 0, draw] };
    let row = |open, fetched, drawn, marked| Row { open, fetched, drawn, marked };

    book.feed(&join, false, &[]).unwrap();
    assert_eq!(book, Book::new(10));
    book.feed(&join, true, &[]).unwrap();
    assert_eq!(book.rows[3], row(true, 0, 0, false));
    // Nothing fetched and nothing drawn: still open.
    book.feed(&begin, true, &[]).unwrap();
    book.feed(&end(0), true, &[]).unwrap();
    assert_eq!(book.rows[3], row(true, 0, 0, false));
    book.feed(&begin, true, &[entry]).unwrap();
    assert_eq!(book.rows[3], row(true, 0, 0, true));
    book.feed(&end(9), false, &[]).unwrap();
    book.feed(&end(0), true, &[]).unwrap();
    assert_eq!(book.rows[3], row(true, 1, 0, false));
    book.feed(&end(4), true, &[]).unwrap();
    assert_eq!(book.rows[3], row(true, 1, 4, false));
    book.feed(&end(6), true, &[]).unwrap();
    assert_eq!(book.rows[3], row(false, 1, 10, false));
    // A closed slot's draws do not count; a join sets its row to 0.
    book.feed(&end(6), true, &[]).unwrap();
    assert_eq!(book.rows[3], row(false, 1, 10, false));
    book.feed(&join, true, &[]).unwrap();
    assert_eq!(book.rows[3], row(true, 0, 0, false));
    book.feed(&Call::Leave { slot: 3 }, true, &[]).unwrap();
    assert!(!book.rows[3].open);
    assert!(book.feed(&Call::Leave { slot: 256 }, true, &[]).is_err());
}
