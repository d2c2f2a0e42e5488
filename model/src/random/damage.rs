//! Damage to a case's files, or no damage.

use super::words::Counts;
use super::Put;
use crate::chance::Chance;
use crate::file::IN_FILE;
use crate::files::bytes;
use crate::record::{range, WORDS};

pub fn basin(mut words: Vec<u32>, counts: &Counts, chance: &mut Chance) -> Put {
    if !chance.one_in(3) {
        return Put::File(bytes(words));
    }
    let last = words.len() as u64 - 1;
    let any = any_word(chance);
    match chance.within(0, 15) {
        0 => return Put::Nothing,
        1 => return Put::Folder,
        2 => return Put::File(Vec::new()),
        3 => words[0] = chance.of(&[0, 33, words[0] % 32 + 1, any]),
        4 => words[1] = chance.of(&[32, (words[1] + 1) % 32, any]),
        5 | 6 => return Put::File(cut(bytes(words), chance)),
        7 => return Put::File(grown(bytes(words), 8, chance)),
        8 => return Put::File(grown(bytes(words), 8_000, chance)),
        9 => words.truncate(chance.within(0, last) as usize),
        10 | 11 => {
            let at = chance.within(0, last) as usize;
            words[at] ^= 1 << chance.within(0, 31);
        }
        _ => outside(&mut words, counts, chance),
    }
    Put::File(bytes(words))
}

/// Of any size.
fn any_word(chance: &mut Chance) -> u32 {
    chance.word() >> chance.within(0, 31)
}

/// Puts some words past the end of their ranges, where they have one.
fn outside(words: &mut [u32], counts: &Counts, chance: &mut Chance) {
    for _ in 0..chance.within(1, 3) {
        let at = chance.within(2, words.len() as u64 - 1) as usize;
        let first = 2 + (at - 2) / WORDS * WORDS;
        if first + WORDS > 2 + WORDS * counts.n as usize {
            let any = any_word(chance);
            words[at] = chance.of(&[0, 65_537, counts.m as u32 + 1, any]);
            continue;
        }
        let sub: [u64; WORDS] = std::array::from_fn(|place| u64::from(words[first + place]));
        let (least, greatest) = range(&sub, at - first, counts.m, IN_FILE);
        let above = greatest as u32 + 1;
        words[at] = chance.of(&[above, above, (least as u32).saturating_sub(1), u32::MAX]);
    }
}

pub fn forcing(bytes: Vec<u8>, chance: &mut Chance) -> Put {
    match chance.within(0, 19) {
        0 => Put::Nothing,
        1 => Put::Folder,
        2..=5 => Put::File(cut(bytes, chance)),
        6 => Put::File(grown(bytes, 400, chance)),
        _ => Put::File(bytes),
    }
}

fn cut(mut bytes: Vec<u8>, chance: &mut Chance) -> Vec<u8> {
    let length = match chance.within(0, 2) {
        0 => chance.within(0, 8.min(bytes.len() as u64)),
        1 => bytes.len() as u64 - chance.within(0, 4.min(bytes.len() as u64)),
        _ => chance.within(0, bytes.len() as u64),
    };
    bytes.truncate(length as usize);
    bytes
}

fn grown(mut bytes: Vec<u8>, most: u64, chance: &mut Chance) -> Vec<u8> {
    let more = chance.within(1, most);
    bytes.extend((0..more).map(|_| chance.word() as u8));
    bytes
}
