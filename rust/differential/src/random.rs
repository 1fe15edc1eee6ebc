//! A small generator of random numbers (splitmix64), the same for the same seed on every machine.

pub struct Random {
    state: u64,
}

impl Random {
    /// The generator of a seed and a stream; distinct streams of a seed are independent.
    pub fn new(seed: u64, stream: u64) -> Random {
        let mut random = Random { state: seed };
        random.state = random.bits() ^ stream.wrapping_mul(0xD6E8_FEB8_6659_FD93);
        random.bits();
        random
    }

    pub fn bits(&mut self) -> u64 {
        self.state = self.state.wrapping_add(0x9E37_79B9_7F4A_7C15);
        let z = (self.state ^ (self.state >> 30)).wrapping_mul(0xBF58_476D_1CE4_E5B9);
        let z = (z ^ (z >> 27)).wrapping_mul(0x94D0_49BB_1331_11EB);
        z ^ (z >> 31)
    }

    /// A number below the bound, which is not 0.
    pub fn below(&mut self, bound: usize) -> usize {
        ((u128::from(self.bits()) * bound as u128) >> 64) as usize
    }

    /// A number from low to high, both included.
    pub fn between(&mut self, low: u64, high: u64) -> u64 {
        low + ((u128::from(self.bits()) * (u128::from(high - low) + 1)) >> 64) as u64
    }

    /// Yes in so many of a hundred cases.
    pub fn percent(&mut self, yes: usize) -> bool {
        self.below(100) < yes
    }

    pub fn choose<T: Copy>(&mut self, choices: &[T]) -> T {
        choices[self.below(choices.len())]
    }

    /// The place of one of the weights, each as likely as it is heavy; one of them is not 0.
    pub fn weighted(&mut self, weights: &[usize]) -> usize {
        let mut rest = self.below(weights.iter().sum());
        weights.iter().position(|weight| rest < *weight || { rest -= weight; false }).expect("below the sum")
    }

    /// A number of up to 64 bits, every width as likely.
    pub fn any_width(&mut self) -> u64 {
        let width = self.below(65) as u32;
        self.bits().checked_shr(64 - width).unwrap_or(0)
    }

    /// A number near one of the edges, or the same in its low 8, 16 or 32 bits alone, or any number.
    pub fn near(&mut self, edges: &[u64]) -> u64 {
        let edge = self.choose(edges);
        match self.below(8) {
            0 => edge.wrapping_sub(1),
            1 | 2 => edge,
            3 => edge.wrapping_add(1),
            4 => edge.wrapping_add(self.between(0, 4)).wrapping_sub(2),
            5 => edge.wrapping_add(self.choose(&[1 << 8, 1 << 16, 1 << 32, 1 << 48, 1 << 63])),
            6 => self.choose(&[0, u64::MAX, 1 << 63, u32::MAX.into(), u16::MAX.into()]),
            _ => self.any_width(),
        }
    }

    /// A list of random numbers, as what stands in an output list before a call.
    pub fn list(&mut self, length: usize) -> Vec<u16> {
        (0..length).map(|_| self.bits() as u16).collect()
    }

    /// The numbers 0 to length - 1 in random order.
    pub fn order(&mut self, length: usize) -> Vec<usize> {
        let mut order: Vec<usize> = (0..length).collect();
        for place in (1..length).rev() {
            order.swap(place, self.below(place + 1));
        }
        order
    }
}
