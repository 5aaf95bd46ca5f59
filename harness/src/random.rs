//! A small generator of pseudo-random numbers (xorshift64*), so that every run can be repeated.

#[derive(Clone, Debug)]
pub struct Random {
    state: u64,
}

impl Random {
    /// Seeds are mixed first, so that neighbouring seeds give unrelated numbers.
    pub fn new(seed: u64) -> Random {
        let mut state = seed.wrapping_add(0x9e37_79b9_7f4a_7c15);
        state = (state ^ state >> 30).wrapping_mul(0xbf58_476d_1ce4_e5b9);
        state = (state ^ state >> 27).wrapping_mul(0x94d0_49bb_1331_11eb);
        state ^= state >> 31;
        Random {
            state: if state == 0 { 1 } else { state },
        }
    }

    pub fn draw(&mut self) -> u64 {
        self.state ^= self.state >> 12;
        self.state ^= self.state << 25;
        self.state ^= self.state >> 27;
        self.state.wrapping_mul(0x2545_f491_4f6c_dd1d)
    }

    pub fn octet(&mut self) -> u8 {
        (self.draw() >> 56) as u8
    }

    pub fn word(&mut self) -> u32 {
        (self.draw() >> 32) as u32
    }

    /// A number below `bound`, which must not be 0.
    pub fn below(&mut self, bound: usize) -> usize {
        ((u128::from(self.draw()) * bound as u128) >> 64) as usize
    }

    /// A number from `low` to `high`, both included.
    pub fn within(&mut self, low: usize, high: usize) -> usize {
        low + self.below(high - low + 1)
    }

    /// `low`, `high` or a number between them.
    pub fn edge_or_within(&mut self, low: usize, high: usize) -> usize {
        match self.below(3) {
            0 => low,
            1 => high,
            _ => self.within(low, high),
        }
    }

    /// True once in `times` on average.
    pub fn once_in(&mut self, times: usize) -> bool {
        self.below(times) == 0
    }

    pub fn pick<T: Copy>(&mut self, list: &[T]) -> T {
        list[self.below(list.len())]
    }

    pub fn shuffle<T>(&mut self, list: &mut [T]) {
        for last in (1..list.len()).rev() {
            list.swap(last, self.below(last + 1));
        }
    }

    pub fn fill(&mut self, octets: &mut [u8]) {
        for chunk in octets.chunks_mut(8) {
            let number = self.draw().to_be_bytes();
            chunk.copy_from_slice(&number[..chunk.len()]);
        }
    }

    pub fn array<const LENGTH: usize>(&mut self) -> [u8; LENGTH] {
        let mut octets = [0; LENGTH];
        self.fill(&mut octets);
        octets
    }

    pub fn octets(&mut self, length: usize) -> Vec<u8> {
        let mut octets = vec![0; length];
        self.fill(&mut octets);
        octets
    }
}

#[cfg(test)]
mod tests {
    use super::Random;

    #[test]
    fn repeatable_and_spread() {
        let mut one = Random::new(7);
        let mut two = Random::new(7);
        let mut counts = [0; 10];
        for _ in 0..10_000 {
            let number = one.below(10);
            assert_eq!(number, two.below(10));
            counts[number] += 1;
        }
        assert!(counts.iter().all(|&count| (800..1_200).contains(&count)));
        assert_ne!(Random::new(8).draw(), Random::new(9).draw());
        for _ in 0..100 {
            assert!((5..=7).contains(&one.within(5, 7)));
        }
    }

    #[test]
    fn shuffle_keeps_all() {
        let mut list: Vec<u32> = (0..50).collect();
        Random::new(1).shuffle(&mut list);
        assert!(list.iter().zip(0..).any(|(&entry, place)| entry != place));
        list.sort();
        assert!(list.iter().zip(0..).all(|(&entry, place)| entry == place));
    }
}
