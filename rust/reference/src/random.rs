//! A small generator of pseudo-random numbers (SplitMix64), so that a seed gives the same cases on every machine.

pub struct Random(u64);

/// Runs a random test with its fixed seed, and once more with the one in `FQL_SEED` if it is set. A failing run prints
/// its seed.
pub fn for_each_seed(run: impl Fn(&mut Random)) {
    let added = std::env::var("FQL_SEED").ok().map(|seed| seed.parse().expect("FQL_SEED is a number"));
    for seed in [20_260_101].into_iter().chain(added) {
        println!("seed {seed}");
        run(&mut Random::new(seed));
    }
}

impl Random {
    pub fn new(seed: u64) -> Self {
        Random(seed)
    }

    pub fn word(&mut self) -> u64 {
        self.0 = self.0.wrapping_add(0x9e37_79b9_7f4a_7c15);
        let mut z = self.0;
        z = (z ^ (z >> 30)).wrapping_mul(0xbf58_476d_1ce4_e5b9);
        z = (z ^ (z >> 27)).wrapping_mul(0x94d0_49bb_1331_11eb);
        z ^ (z >> 31)
    }

    /// A number below `n`.
    pub fn below(&mut self, n: usize) -> usize {
        (self.word() % n as u64) as usize
    }

    pub fn chance(&mut self, one_in: usize) -> bool {
        self.below(one_in) == 0
    }

    pub fn pick<T: Copy>(&mut self, from: &[T]) -> T {
        from[self.below(from.len())]
    }

    pub fn byte(&mut self) -> u8 {
        self.word() as u8
    }

    /// The same bytes with one to three small changes: a byte changed, removed, added, or the end cut off.
    pub fn damage(&mut self, bytes: &[u8]) -> Vec<u8> {
        let mut out = bytes.to_vec();
        for _ in 0..1 + self.below(3) {
            let at = self.below(out.len() + 1);
            match self.below(5) {
                0 if at < out.len() => out[at] = self.byte(),
                1 if at < out.len() => out[at] = out[at].wrapping_add(if self.chance(2) { 1 } else { 255 }),
                2 if at < out.len() => {
                    out.remove(at);
                }
                3 => out.truncate(at),
                _ => {
                    let b = self.byte();
                    out.insert(at, b)
                }
            }
        }
        out
    }
}
