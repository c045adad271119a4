//! Numbers that look random and are the same in every run with one seed; sessions and tables made of them.
pub mod hours;
pub mod session;
pub mod tables;

pub struct Random(pub u64);

impl Random {
    // Other numbers for each part of a run, so that one part can be had again by itself.
    pub fn of_part(seed: u64, part: u64) -> Random {
        let mut mixed = seed.wrapping_add((part + 1).wrapping_mul(0x9E37_79B9_7F4A_7C15));
        mixed = (mixed ^ (mixed >> 30)).wrapping_mul(0xBF58_476D_1CE4_E5B9);
        mixed = (mixed ^ (mixed >> 27)).wrapping_mul(0x94D0_49BB_1331_11EB);
        // zero would stay zero
        Random((mixed ^ (mixed >> 31)) | 1)
    }

    pub fn next(&mut self) -> u64 {
        self.0 ^= self.0 << 13;
        self.0 ^= self.0 >> 7;
        self.0 ^= self.0 << 17;
        self.0
    }

    pub fn below(&mut self, n: usize) -> usize {
        (self.next() >> 16) as usize % n
    }

    pub fn between(&mut self, least: u64, most: u64) -> u64 {
        least + self.next() % (most - least + 1)
    }

    pub fn one_of<T: Copy>(&mut self, of: &[T]) -> T {
        of[self.below(of.len())]
    }

    pub fn mostly<T>(&mut self, often: T, seldom: T) -> T {
        if self.below(12) > 0 {
            often
        } else {
            seldom
        }
    }
}
