//! What the tree's tests use of the crates `rand` and `rand_xorshift`. The numbers are others.

/// A generator of Marsaglia's kind: three shifts.
pub struct XorShiftRng(u64);

pub mod prelude {
    use super::XorShiftRng;
    use core::ops::Range;

    pub trait SeedableRng {
        fn seed_from_u64(seed: u64) -> Self;
    }

    pub trait Rng {
        fn gen_range(&mut self, range: Range<usize>) -> usize;
    }

    pub trait SliceRandom {
        fn shuffle<R: Rng>(&mut self, random: &mut R);
    }

    impl SeedableRng for XorShiftRng {
        fn seed_from_u64(seed: u64) -> XorShiftRng {
            XorShiftRng(seed ^ 0x9E37_79B9_7F4A_7C15)
        }
    }

    impl Rng for XorShiftRng {
        fn gen_range(&mut self, range: Range<usize>) -> usize {
            self.0 ^= self.0 << 13;
            self.0 ^= self.0 >> 7;
            self.0 ^= self.0 << 17;
            range.start + self.0 as usize % range.len()
        }
    }

    impl<T> SliceRandom for [T] {
        fn shuffle<R: Rng>(&mut self, random: &mut R) {
            for end in (1..self.len()).rev() {
                self.swap(end, random.gen_range(0..end + 1));
            }
        }
    }
}
