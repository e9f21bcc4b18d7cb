//! A small seeded generator of numbers; the inputs made from it are in the modules below.

pub mod batches;
pub mod borders;
pub mod cards;
pub mod desks;
pub mod figures;
pub mod makers;
pub mod pairs;
pub mod shelf;
pub mod tables;
pub mod texts;

/// Splitmix64.
#[derive(Clone, Debug)]
pub struct Rng {
    state: u64,
}

impl Rng {
    pub fn new(seed: u64) -> Rng {
        Rng { state: seed }
    }

    /// The next 64 bits.
    pub fn bits(&mut self) -> u64 {
        self.state = self.state.wrapping_add(0x9E37_79B9_7F4A_7C15);
        let mut z = self.state;
        z = (z ^ (z >> 30)).wrapping_mul(0xBF58_476D_1CE4_E5B9);
        z = (z ^ (z >> 27)).wrapping_mul(0x94D0_49BB_1331_11EB);
        z ^ (z >> 31)
    }

    /// A number below `end`, which is 1 or more.
    pub fn below(&mut self, end: usize) -> usize {
        (self.bits() % end as u64) as usize
    }

    /// A number from `least` to `greatest`.
    pub fn between(&mut self, least: u32, greatest: u32) -> u32 {
        let choices = (greatest - least) as u64 + 1;
        least + (self.bits() % choices) as u32
    }

    /// True once in `choices` times.
    pub fn once_in(&mut self, choices: usize) -> bool {
        self.below(choices) == 0
    }

    pub fn pick<T: Copy>(&mut self, choices: &[T]) -> T {
        choices[self.below(choices.len())]
    }

    /// A number from `least` to `greatest`, of any size with like chance, the ends often.
    pub fn spread(&mut self, least: u32, greatest: u32) -> u32 {
        match self.below(10) {
            0 => least,
            1 => greatest,
            2 => self.between(least, greatest),
            _ => {
                let width = greatest - least;
                let bits = self.between(0, 32 - width.leading_zeros());
                let reach = ((1u64 << bits) - 1).min(width as u64) as u32;
                least + self.between(0, reach)
            }
        }
    }

    /// Any 32 bits, small and extreme ones often.
    pub fn any(&mut self) -> u32 {
        match self.below(5) {
            0 => self.between(0, 300),
            1 => u32::MAX - self.between(0, 300),
            2 => 1 << self.between(0, 31),
            3 => self.spread(0, u32::MAX),
            _ => self.bits() as u32,
        }
    }

    /// A value other than the one given, often next to it.
    pub fn other_than(&mut self, value: u32) -> u32 {
        loop {
            let other = match self.below(6) {
                0 => value.wrapping_add(1),
                1 => value.wrapping_sub(1),
                2 => 0,
                3 => value ^ (1 << self.between(0, 31)),
                _ => self.any(),
            };
            if other != value {
                return other;
            }
        }
    }
}
