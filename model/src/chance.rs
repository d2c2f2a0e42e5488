//! Draws by a seed, the same on every machine.

/// x := x × 6,364,136,223,846,793,005 + 1,442,695,040,888,963,407 in 64 bits; the upper 32 are drawn.
pub struct Chance(u64);

impl Chance {
    /// The seed is stirred, as the draws of two seeds would otherwise stay a fixed way apart.
    pub fn new(seed: u64) -> Chance {
        let mut chance = Chance(seed);
        for _ in 0..4 {
            chance.word();
            chance.0 ^= chance.0 >> 29;
        }
        chance
    }

    pub fn word(&mut self) -> u32 {
        self.0 = self.0.wrapping_mul(6_364_136_223_846_793_005);
        self.0 = self.0.wrapping_add(1_442_695_040_888_963_407);
        (self.0 >> 32) as u32
    }

    pub fn within(&mut self, least: u64, greatest: u64) -> u64 {
        least + u64::from(self.word()) % (greatest - least + 1)
    }

    pub fn one_in(&mut self, many: u64) -> bool {
        self.within(1, many) == 1
    }

    pub fn of<T: Copy>(&mut self, choices: &[T]) -> T {
        choices[self.within(1, choices.len() as u64) as usize - 1]
    }
}

#[cfg(test)]
mod tests {
    use super::*;

    #[test]
    fn every_number_of_a_range_is_drawn() {
        let mut chance = Chance::new(1);
        let mut seen = [0; 7];
        for _ in 0..7_000 {
            seen[chance.within(3, 9) as usize - 3] += 1;
        }
        assert!(seen.iter().all(|&times| (800..1_200).contains(&times)), "{seen:?}");
    }

    #[test]
    fn seeds_side_by_side_differ() {
        let first: Vec<u64> = (0..1_000).map(|seed| Chance::new(seed).within(0, 9)).collect();
        let alike = first.windows(2).filter(|pair| pair[0] == pair[1]).count();
        assert!((50..150).contains(&alike), "{alike} of 1,000");
    }
}
