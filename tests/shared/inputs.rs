//! What all comparisons share: random numbers from a fixed seed, and harm to an input.

/// Random numbers (splitmix64), the same in every run.
pub struct Random(u64);

impl Random {
    pub fn seeded() -> Random { Random(2021) }
    pub fn next(&mut self) -> u64 {
        self.0 = self.0.wrapping_add(0x9e37_79b9_7f4a_7c15);
        let mut z = self.0;
        z = (z ^ (z >> 30)).wrapping_mul(0xbf58_476d_1ce4_e5b9);
        z = (z ^ (z >> 27)).wrapping_mul(0x94d0_49bb_1331_11eb);
        z ^ (z >> 31)
    }
    pub fn below(&mut self, n: usize) -> usize { (self.next() % n as u64) as usize }
    /// From low to high, both included.
    pub fn between(&mut self, low: usize, high: usize) -> usize { low + self.below(high - low + 1) }
    pub fn percent(&mut self, p: usize) -> bool { self.below(100) < p }
    pub fn pick<T: Copy>(&mut self, from: &[T]) -> T { from[self.below(from.len())] }
    pub fn byte(&mut self) -> u8 { self.next() as u8 }
}

/// An input as it is, or with harm done to it once or a few times.
pub fn damaged<I>(random: &mut Random, mut input: I, damage: impl Fn(&mut Random, &mut I)) -> I {
    if random.percent(45) {
        for _ in 0..random.pick(&[1, 1, 1, 1, 2, 2, 3]) {
            damage(random, &mut input);
        }
    }
    input
}

/// Puts something else into one place.
pub fn change<T: Copy>(at: usize, items: &mut [T], to: impl FnOnce(T) -> T) { items[at] = to(items[at]); }

/// How much room there is more than is needed: none, or some.
pub fn spare(random: &mut Random) -> usize { if random.percent(50) { 0 } else { random.between(1, 100) } }
