/// Random numbers by splitmix64.
pub struct Dice {
    state: u64,
    case: u64,
}

/// How many of a set's possible members are in it.
#[derive(Clone, Copy)]
pub enum Density {
    Empty,
    /// One of 32.
    Sparse,
    /// One of 4.
    Thin,
    Half,
    /// Seven of 8.
    Dense,
    Full,
}

impl Dice {
    /// Each case of a seed has dice of its own, so that it can be made again without those before it.
    pub fn new(seed: u64, case: u64) -> Self {
        Dice { state: mix(mix(seed) ^ case), case }
    }

    /// Which case of the seed it is, for what is gone through one after the other.
    pub fn case(&self) -> u64 {
        self.case
    }

    pub fn word(&mut self) -> u64 {
        self.state = self.state.wrapping_add(0x9e37_79b9_7f4a_7c15);
        mix(self.state)
    }

    pub fn below(&mut self, bound: usize) -> usize {
        ((u128::from(self.word()) * bound as u128) >> 64) as usize
    }

    pub fn one_in(&mut self, bound: usize) -> bool {
        self.below(bound) == 0
    }

    /// A number from `low` to just below `high`, the two ends more often than the others: faults like boundaries.
    pub fn between(&mut self, low: usize, high: usize) -> usize {
        match self.below(4) {
            0 => low,
            1 => high - 1,
            _ => low + self.below(high - low),
        }
    }

    /// A number of any size, small ones as often as large ones.
    pub fn any_size(&mut self) -> u64 {
        self.word() >> self.below(64)
    }

    /// One that is `number` again where only its lowest 8, 16 or 32 bits are looked at.
    pub fn come_round(&mut self, number: u64) -> u64 {
        number.wrapping_add(self.pick(&[1 << 8, 1 << 16, 1 << 32]))
    }

    pub fn pick<T: Copy>(&mut self, from: &[T]) -> T {
        from[self.below(from.len())]
    }

    /// Some member of the set, if it has one, the lowest and the highest more often.
    pub fn member(&mut self, set: u64) -> Option<u8> {
        let members: Vec<u8> = (0..64).filter(|s| set >> s & 1 == 1).collect();
        (!members.is_empty()).then(|| members[self.between(0, members.len())])
    }

    pub fn density(&mut self) -> Density {
        use Density::*;
        self.pick(&[Empty, Sparse, Sparse, Thin, Half, Dense, Full])
    }

    pub fn set(&mut self, density: Density) -> u64 {
        match density {
            Density::Empty => 0,
            Density::Sparse => (0..5).fold(u64::MAX, |set, _| set & self.word()),
            Density::Thin => self.word() & self.word(),
            Density::Half => self.word(),
            Density::Dense => self.word() | self.word() | self.word(),
            Density::Full => u64::MAX,
        }
    }
}

fn mix(mut z: u64) -> u64 {
    z = (z ^ (z >> 30)).wrapping_mul(0xbf58_476d_1ce4_e5b9);
    z = (z ^ (z >> 27)).wrapping_mul(0x94d0_49bb_1331_11eb);
    z ^ (z >> 31)
}
