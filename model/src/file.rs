//! The basin file.

use crate::basin::{reach_word_inside, Basin, Reach, MOST_REACHES, MOST_SUB_BASINS};
use crate::record::{range, Most, Record, WORDS};

/// Greatest VI and VG that a file may start with, µm.
pub const GREATEST_START: u64 = 1_000_000;
/// Greatest SN that a file may start with, µm.
pub const GREATEST_SNOW_START: u64 = 3_000_000;

pub const IN_FILE: Most = Most { waiting: GREATEST_START, snow: GREATEST_SNOW_START };

/// A load's answer. Refused: 1 to 4, its place and the empty basin.
#[derive(Clone, Copy, Debug, PartialEq, Eq)]
pub struct Loaded {
    pub number: u64,
    pub place: u64,
    pub basin: Basin,
}

pub fn load(bytes: &[u8]) -> Loaded {
    match read(bytes) {
        Ok(basin) => Loaded { number: 0, place: 0, basin },
        Err((number, place)) => Loaded { number, place, basin: Basin::default() },
    }
}

fn read(bytes: &[u8]) -> Result<Basin, (u64, u64)> {
    if bytes.len() < 8 {
        return Err((1, 0));
    }
    let (n, m) = (word(bytes, 0), word(bytes, 1));
    if !(1..=MOST_SUB_BASINS as u64).contains(&n) {
        return Err((2, 0));
    }
    if m > MOST_REACHES as u64 {
        return Err((2, 1));
    }
    if bytes.len() as u64 != 4 * (2 + 26 * n + 3 * m) {
        return Err((3, 0));
    }
    let mut basin = Basin { n, m, ..Basin::default() };
    let mut at = 2;
    for record in &mut basin.subs[..n as usize] {
        *record = sub_basin(bytes, at, m)?;
        at += WORDS;
    }
    for (own, reach) in (1..).zip(&mut basin.reaches[..m as usize]) {
        *reach = reach_of(bytes, at, own, m)?;
        at += 3;
    }
    Ok(basin)
}

fn sub_basin(bytes: &[u8], at: usize, m: u64) -> Result<Record, (u64, u64)> {
    let words: [u64; WORDS] = std::array::from_fn(|place| word(bytes, at + place));
    for place in 0..WORDS {
        let (least, greatest) = range(&words, place, m, IN_FILE);
        if words[place] < least || words[place] > greatest {
            return Err((4, (at + place) as u64));
        }
    }
    Ok(Record::of_words(&words))
}

fn reach_of(bytes: &[u8], at: usize, own: u64, m: u64) -> Result<Reach, (u64, u64)> {
    let words: [u64; 3] = std::array::from_fn(|place| word(bytes, at + place));
    for place in 0..3 {
        if !reach_word_inside(&words, place, own, m) {
            return Err((4, (at + place) as u64));
        }
    }
    let [c0, c1, next] = words;
    Ok(Reach { c0, c1, next, content: 0 })
}

/// The little-endian word, counted from 0.
pub fn word(bytes: &[u8], at: usize) -> u64 {
    let four = bytes[4 * at..4 * at + 4].try_into().expect("four bytes");
    u64::from(u32::from_le_bytes(four))
}

#[cfg(test)]
mod tests {
    use super::*;
    use crate::record::CASE_A;

    fn bytes(words: &[u64]) -> Vec<u8> {
        words.iter().flat_map(|&word| (word as u32).to_le_bytes()).collect()
    }

    /// Two of case A's sub-basins, sent to two reaches.
    fn words() -> Vec<u64> {
        let mut words = vec![2, 2];
        words.extend(CASE_A);
        words.extend(CASE_A);
        words[2 + 16] = 2;
        words.extend([10_000, 20_000, 2, 65_536, 0, 0]);
        words
    }

    fn told(bytes: &[u8]) -> (u64, u64) {
        let given = load(bytes);
        assert!(given.number == 0 || given.basin == Basin::default());
        (given.number, given.place)
    }

    #[test]
    fn an_accepted_load_is_inside() {
        let given = load(&bytes(&words()));
        assert_eq!((given.number, given.place), (0, 0));
        assert!(given.basin.inside());
        assert_eq!(given.basin.subs[0].reach, 2);
        assert_eq!(given.basin.reaches[1], Reach { c0: 65_536, c1: 0, next: 0, content: 0 });
    }

    #[test]
    fn refusals_in_their_order() {
        assert_eq!(told(&[]), (1, 0));
        assert_eq!(told(&[255; 7]), (1, 0));
        assert_eq!(told(&bytes(&[0, 32])), (2, 0));
        assert_eq!(told(&bytes(&[33, 0])), (2, 0));
        assert_eq!(told(&bytes(&[32, 32])), (2, 1));
        assert_eq!(told(&bytes(&[1, 0])), (3, 0));
        // A sub-basin without its snow words.
        let bare: Vec<u64> = [1, 0].into_iter().chain(CASE_A[..23].iter().copied()).collect();
        assert_eq!(told(&bytes(&bare)), (3, 0));
        let mut long = bytes(&words());
        long.push(0);
        assert_eq!(told(&long), (3, 0));
    }

    #[test]
    fn the_first_word_outside_its_range() {
        let at = |place: usize, value: u64| {
            let mut words = words();
            words[place] = value;
            told(&bytes(&words))
        };
        // Area, KI with KG beside it, KG, L, REACH, WL, VG; then c0, c1 and next.
        for (place, value) in
            [(2, 0), (2, 5_001), (13, 49_153), (17, 16), (18, 3), (20, 60_001), (24, 1_000_001)]
        {
            assert_eq!(at(place, value), (4, place as u64));
        }
        assert_eq!(at(12, 65_536), (4, 13));
        assert_eq!(at(28, 0), (4, 28));
        for (place, value) in [(54, 65_537), (55, 55_537), (56, 1), (56, 3), (58, 1), (59, 2)] {
            assert_eq!(at(place, value), (4, place as u64));
        }
        assert_eq!(at(57, 0), (4, 58));
        assert_eq!(at(55, 4_294_967_295), (4, 55));
        // F, threshold and SN of both sub-basins.
        for (place, greatest) in [(25, 20_000), (26, 10_000), (27, 3_000_000)] {
            for place in [place, place + 26] {
                assert_eq!(at(place, greatest), (0, 0));
                assert_eq!(at(place, greatest + 1), (4, place as u64));
                assert_eq!(at(place, 4_294_967_295), (4, place as u64));
            }
        }
    }
}
