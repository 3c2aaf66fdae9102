//! A small source of numbers that only look like chance (splitmix64): the
//! same seed gives the same numbers.

/// The source.
#[derive(Clone)]
pub struct Rng(u64);

/// One round of splitmix64's mixing.
fn mix(mut z: u64) -> u64 {
    z = (z ^ (z >> 30)).wrapping_mul(0xBF58_476D_1CE4_E5B9);
    z = (z ^ (z >> 27)).wrapping_mul(0x94D0_49BB_1331_11EB);
    z ^ (z >> 31)
}

impl Rng {
    /// The source of one case: its own for each seed, sort and index, so that
    /// a case can be made again without those before it.
    pub fn of_case(seed: u64, sort: u64, index: u64) -> Rng {
        Rng(mix(seed ^ mix(sort.wrapping_add(0x51ED)) ^ mix(index.wrapping_mul(0x9E37_79B9).wrapping_add(77))))
    }

    /// The next 64 bits.
    pub fn word(&mut self) -> u64 {
        self.0 = self.0.wrapping_add(0x9E37_79B9_7F4A_7C15);
        mix(self.0)
    }

    /// A number below a limit; 0 if the limit is 0.
    pub fn below(&mut self, limit: usize) -> usize {
        if limit == 0 {
            return 0;
        }
        (self.word() % limit as u64) as usize
    }

    /// A number from `least` to `most`, both included.
    pub fn within(&mut self, least: i64, most: i64) -> i64 {
        let span = (most - least) as u64 + 1;
        least + (self.word() % span) as i64
    }

    /// True once in `many`.
    pub fn once_in(&mut self, many: usize) -> bool {
        self.below(many) == 0
    }

    /// One of a list that is not empty.
    pub fn pick<T: Copy>(&mut self, list: &[T]) -> T {
        list[self.below(list.len())]
    }
}
