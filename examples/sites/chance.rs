//! A seeded generator (splitmix64): the same seed gives the same day on the same link.

pub struct Chance {
    state: u64,
}

impl Chance {
    pub fn from_state(state: u64) -> Chance {
        Chance { state }
    }

    /// Sites and calls have streams of their own, so that a longer exchange on the link does not change who calls.
    pub fn stream(seed: u64, stream: u64) -> Chance {
        let mut chance = Chance::from_state(seed);
        let first = chance.next();
        Chance::from_state(first ^ stream.wrapping_mul(0xd1b5_4a32_d192_ed03))
    }

    pub fn state(&self) -> u64 {
        self.state
    }

    fn next(&mut self) -> u64 {
        self.state = self.state.wrapping_add(0x9e37_79b9_7f4a_7c15);
        let mut z = self.state;
        z = (z ^ (z >> 30)).wrapping_mul(0xbf58_476d_1ce4_e5b9);
        z = (z ^ (z >> 27)).wrapping_mul(0x94d0_49bb_1331_11eb);
        z ^ (z >> 31)
    }

    /// A number from `low` to `high`, ends included.
    pub fn between(&mut self, low: u64, high: u64) -> u64 {
        low + self.next() % (high - low + 1)
    }

    /// True in so many of a hundred cases.
    pub fn percent(&mut self, percent: f64) -> bool {
        (self.next() >> 11) as f64 / ((1u64 << 53) as f64) < percent / 100.0
    }
}
