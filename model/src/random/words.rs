//! The words of a random basin, each inside its range.

use crate::basin::{MOST_REACHES, MOST_SUB_BASINS};
use crate::chance::Chance;
use crate::curve::WHOLE;
use crate::file::IN_FILE;
use crate::record::{range, WORDS};

/// N and M.
pub struct Counts {
    pub n: u64,
    pub m: u64,
}

impl Counts {
    pub fn drawn(chance: &mut Chance) -> Counts {
        let count = |least, greatest: usize, chance: &mut Chance| match chance.within(0, 9) {
            0 => least,
            1 => greatest as u64,
            2..=5 => chance.within(least, 4),
            _ => chance.within(least, greatest as u64),
        };
        Counts { n: count(1, MOST_SUB_BASINS, chance), m: count(0, MOST_REACHES, chance) }
    }
}

/// How a basin's words are drawn from their ranges.
#[derive(Clone, Copy)]
enum Style {
    Anywhere,
    /// The least or the greatest.
    Ends,
    /// The least, the greatest, near the least or anywhere.
    Mixed,
    /// Away from the ends, with areas and lags as rivers have them.
    Ordinary,
}

impl Style {
    fn word(self, place: usize, least: u64, greatest: u64, chance: &mut Chance) -> u64 {
        match self {
            Style::Anywhere => chance.within(least, greatest),
            Style::Ends => chance.of(&[least, greatest]),
            Style::Mixed => match chance.within(0, 4) {
                0 => least,
                1 => greatest,
                2 => chance.within(least, greatest.min(least + 20)),
                _ => chance.within(least, greatest),
            },
            Style::Ordinary => match place {
                0 => chance.within(20, 900),
                15 => chance.within(0, 3),
                16 => chance.within(least, greatest),
                _ => {
                    chance.within(least + (greatest - least) / 4, greatest - (greatest - least) / 4)
                }
            },
        }
    }
}

pub fn basin(counts: &Counts, chance: &mut Chance) -> Vec<u32> {
    let style = chance.of(&[
        Style::Anywhere,
        Style::Ends,
        Style::Mixed,
        Style::Mixed,
        Style::Ordinary,
        Style::Ordinary,
    ]);
    let mut words = vec![counts.n, counts.m];
    for _ in 0..counts.n {
        // A range depends on words before its own alone.
        let mut sub = [0; WORDS];
        for place in 0..WORDS {
            let (least, greatest) = range(&sub, place, counts.m, IN_FILE);
            sub[place] = style.word(place, least, greatest, chance);
        }
        words.extend(sub);
    }
    for own in 1..=counts.m {
        words.extend(reach(own, counts.m, chance));
    }
    words.into_iter().map(|word| word as u32).collect()
}

fn reach(own: u64, m: u64, chance: &mut Chance) -> [u64; 3] {
    let c0 = match chance.within(0, 5) {
        0 => 0,
        1 => WHOLE,
        _ => chance.within(0, WHOLE),
    };
    let least = u64::from(c0 == 0);
    let c1 = match chance.within(0, 5) {
        0 => least,
        1 => WHOLE - c0,
        _ => chance.within(least, WHOLE - c0),
    };
    let next = match chance.within(0, 3) {
        0 => 0,
        1 if own < m => own + 1,
        _ if own < m => chance.within(own + 1, m),
        _ => 0,
    };
    [c0, c1, next]
}
