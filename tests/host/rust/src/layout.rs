//! docs/LAYOUT.md: the model's records as byte strings, and back.

use film_disk_model::shelf::{Desk, Figures, Plan, MAX_FILMS};
use film_disk_model::{Entry, SLOTS};

pub const PLAN_BYTES: usize = 1648;
pub const DESK_BYTES: usize = 5748;
pub const ENTRY_BYTES: usize = 4;
pub const FETCH_BYTES: usize = 12;
pub const SCRATCH_BYTES: usize = 2048;

/// Words of 32 bits, lowest byte first.
pub fn bytes_of(words: &[u32]) -> Vec<u8> {
    words.iter().flat_map(|word| word.to_le_bytes()).collect()
}

/// The whole words of a string; spare bytes at its end are no word.
pub fn words_of(bytes: &[u8]) -> Vec<u32> {
    bytes.chunks_exact(4).map(|b| u32::from_le_bytes([b[0], b[1], b[2], b[3]])).collect()
}

fn plan_words(plan: &Plan) -> Vec<u32> {
    let figures = &plan.figures;
    let mut words = vec![figures.kind, figures.zones];
    words.extend(figures.positions);
    words.extend(figures.times);
    words.push(figures.films);
    words.extend(figures.blocks);
    words.extend([figures.block_bytes, figures.rate]);
    words.extend(figures.table);
    words.extend([plan.streams, plan.buffer, plan.worst2, plan.margin, plan.showing, plan.worstat]);
    words
}

/// A part of the words as an array.
fn array<const COUNT: usize>(words: &[u32], first: usize) -> [u32; COUNT] {
    words[first..first + COUNT].try_into().expect("the part has that many words")
}

fn plan_in(words: &[u32]) -> Plan {
    let figures = Figures {
        kind: words[0],
        zones: words[1],
        positions: array(words, 2),
        times: array(words, 66),
        films: words[130],
        blocks: array::<MAX_FILMS>(words, 131),
        block_bytes: words[147],
        rate: words[148],
        table: array(words, 149),
    };
    Plan {
        figures,
        streams: words[406],
        buffer: words[407],
        worst2: words[408],
        margin: words[409],
        showing: words[410],
        worstat: words[411],
    }
}

pub fn plan_bytes(plan: &Plan) -> Vec<u8> {
    bytes_of(&plan_words(plan))
}

/// The plan in a string of 1,648 bytes.
pub fn read_plan(bytes: &[u8]) -> Plan {
    plan_in(&words_of(bytes))
}

/// A slot's film and next block are one word, 65,536 × film + block. Those of the model that have no such word get any.
const FILM: u32 = 65_536;

pub fn desk_bytes(desk: &Desk) -> Vec<u8> {
    let mut words = plan_words(&desk.plan);
    words.push(desk.phase);
    words.extend(desk.kinds);
    let names = desk.films.iter().zip(&desk.next);
    words.extend(names.map(|(film, block)| film.wrapping_mul(FILM).wrapping_add(*block)));
    words.extend(desk.held);
    words.extend(desk.places);
    bytes_of(&words)
}

/// The desk in a string of 5,748 bytes.
pub fn read_desk(bytes: &[u8]) -> Desk {
    let words = words_of(bytes);
    let names: [u32; SLOTS] = array(&words, 413 + SLOTS);
    Desk {
        plan: plan_in(&words),
        phase: words[412],
        kinds: array(&words, 413),
        next: names.map(|name| name % FILM),
        held: array(&words, 413 + 2 * SLOTS),
        places: array(&words, 413 + 3 * SLOTS),
        films: names.map(|name| name / FILM),
    }
}

pub fn fetch_bytes(entries: &[Entry]) -> Vec<u8> {
    let words: Vec<u32> =
        entries.iter().flat_map(|entry| [entry.position, entry.slot, entry.block]).collect();
    bytes_of(&words)
}

/// The first `count` entries of a fetch list.
pub fn read_fetches(bytes: &[u8], count: u32) -> Vec<Entry> {
    let words = words_of(bytes);
    let entries = words.chunks_exact(3).take(count as usize);
    entries.map(|e| Entry { position: e[0], slot: e[1], block: e[2] }).collect()
}
