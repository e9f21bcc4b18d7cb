//! Batches on shelves: items on a sound desk, and all that is lent to the call.

use super::desks::{any_desk, fair_join, fair_leave, sound_desk, wild_join, wild_slot};
use crate::batch::{ItemAnswer, JOIN};
use crate::desk::{BETWEEN, FREE};
use crate::rng::batches::old_answers;
use crate::rng::desks::lent_lists;
use crate::rng::Rng;
use crate::shelf::{Call, Desk, Item, Planned};

/// All that is lent to a batch.
#[derive(Clone, Debug)]
pub struct Lent {
    pub desk: Desk,
    pub positions: Vec<u32>,
    pub leads: Vec<u32>,
    pub items: Vec<Item>,
    pub answers: Vec<ItemAnswer>,
}

/// The item of a call: a leave with any other number than a join's, and any block and film.
pub fn item_of(rng: &mut Rng, call: Call) -> Item {
    match call {
        Call::Join { slot, block, film } => Item { number: JOIN, slot, block, film },
        Call::Leave { slot } => {
            let any = rng.other_than(JOIN);
            let number = rng.pick(&[1, 1, 2, 256, 65_536, u32::MAX, any]);
            Item { number, slot, block: rng.any(), film: rng.any() }
        }
        other => panic!("no item: {other:?}"),
    }
}

/// A join or a leave of any slot, often one of the last items' again.
fn wild_item(rng: &mut Rng, desk: &Desk, items: &[Item]) -> Item {
    let call = match rng.below(2) {
        0 => wild_join(rng, desk),
        _ => Call::Leave { slot: wild_slot(rng, desk, |kind| kind != FREE) },
    };
    let mut item = item_of(rng, call);
    if !items.is_empty() && rng.once_in(3) {
        item.slot = items[items.len() - 1 - rng.below(items.len().min(4))].slot;
    }
    item
}

/// Items on a sound desk. One in `wild` is anything; the others would be accepted one after another.
pub fn some_items(rng: &mut Rng, desk: &Desk, count: usize, wild: usize) -> Vec<Item> {
    let mut desk = Desk { phase: BETWEEN, ..desk.clone() };
    let leaves = rng.pick(&[2, 3, 10]);
    let mut items = Vec::new();
    for _ in 0..count {
        let fair = match (rng.once_in(wild), rng.once_in(leaves)) {
            (true, _) => None,
            (_, true) => fair_leave(rng, &desk),
            _ => fair_join(rng, &desk),
        };
        let item = match fair {
            Some(call) => item_of(rng, call),
            None => wild_item(rng, &desk, &items),
        };
        desk = item.after(&desk);
        items.push(item);
    }
    items
}

/// A batch of so many items on a desk of the plan, once in three times damaged, with lists that are at
/// times bad and answers that are at times too short.
pub fn any_batch(rng: &mut Rng, planned: &Planned, count: usize) -> Lent {
    let sound = sound_desk(rng, planned);
    let wild = rng.pick(&[2, 5, 20]);
    let items = some_items(rng, &sound, count, wild);
    let desk = if rng.once_in(3) { any_desk(rng, planned) } else { sound };
    let lists = (&planned.positions[..], &planned.leads[..]);
    let (positions, leads) = lent_lists(rng, lists, 12);
    let room = match rng.below(8) {
        0 => rng.below(count + 1),
        1 => count.saturating_sub(1),
        2 | 3 => count + 1 + rng.below(600),
        _ => count,
    };
    Lent { desk, positions, leads, items, answers: old_answers(rng, room) }
}
