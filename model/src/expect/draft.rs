//! Basin files, drawn word by word, and a basin as numbers.

use super::draw::Draw;
use crate::basin::{Basin, Reach};
use crate::file::{load, word, Loaded, IN_FILE};
use crate::record::{range, Record, WAITING, WORDS};

/// The longest file has a word less.
const BUFFER: usize = 4 * 928;

/// A file: the first bytes of a buffer.
#[derive(Clone, Copy)]
pub struct File {
    pub bytes: [u8; BUFFER],
    pub size: usize,
}

/// What a word stands in: N and M, a sub-basin or a reach, by its number from 1 and the place there.
pub enum Spot {
    Count,
    Sub(u64, usize),
    Reach(u64, usize),
}

pub fn words_of(n: u64, m: u64) -> usize {
    2 + WORDS * n as usize + 3 * m as usize
}

impl File {
    /// A file with every word chosen in order, by its number and two draws.
    pub fn drawn(
        n: u64,
        m: u64,
        draw: &mut Draw,
        chosen: impl Fn(&File, usize, u64, u64) -> u64,
    ) -> File {
        let words = words_of(n, m);
        let empty = File { bytes: [0; BUFFER], size: 4 * words };
        (2..words).fold(empty.with(0, n).with(1, m), |file, at| {
            let (x, y) = (draw.next(), draw.next());
            file.with(at, chosen(&file, at, x, y))
        })
    }

    pub fn spot(&self, at: usize) -> Spot {
        let subs = words_of(self.word(0), 0);
        match at {
            0 | 1 => Spot::Count,
            _ if at < subs => Spot::Sub(((at - 2) / WORDS) as u64 + 1, (at - 2) % WORDS),
            _ => Spot::Reach(((at - subs) / 3) as u64 + 1, (at - subs) % 3),
        }
    }

    pub fn word(&self, at: usize) -> u64 {
        word(&self.bytes, at)
    }

    /// The file with another word, of which the lower 32 bits count.
    pub fn with(mut self, at: usize, number: u64) -> File {
        self.bytes[4 * at..4 * at + 4].copy_from_slice(&(number as u32).to_le_bytes());
        self
    }

    pub fn sized(self, size: usize) -> File {
        File { size, ..self }
    }

    /// The least and the greatest of a word; between them a next may be outside all the same.
    pub fn range(&self, at: usize) -> (u64, u64) {
        let m = self.word(1);
        match self.spot(at) {
            Spot::Count => [(1, 32), (0, 31)][at],
            Spot::Sub(_, place) => {
                let words = std::array::from_fn(|i| self.word(at - place + i));
                range(&words, place, m, IN_FILE)
            }
            Spot::Reach(_, 2) => (0, m),
            Spot::Reach(_, place) => share_range(place, self.word(at - place)),
        }
    }

    pub fn load(&self) -> Loaded {
        load(&self.bytes[..self.size])
    }
}

/// The least and the greatest of c0 at place 0 and of c1 at place 1.
pub fn share_range(place: usize, c0: u64) -> (u64, u64) {
    match place {
        0 => (0, 65_536),
        _ => (u64::from(c0 == 0), 65_536u64.saturating_sub(c0)),
    }
}

/// A number from least to greatest: least, greatest, a small number or any.
pub fn any((least, greatest): (u64, u64), x: u64, y: u64) -> u64 {
    let number = match x % 8 {
        0 => least,
        1 => greatest,
        2 => y % 20,
        _ => y % (greatest + 1),
    };
    number.clamp(least, greatest)
}

/// How many numbers a record has.
pub const RECORD: usize = WORDS + WAITING + 1;

/// N and M, all records and all reaches.
pub fn numbers(basin: &Basin) -> Vec<u64> {
    let mut numbers = vec![basin.n, basin.m];
    for record in &basin.subs {
        numbers.extend(record.words());
        numbers.extend(record.waiting);
        numbers.push(record.channel);
    }
    for reach in &basin.reaches {
        numbers.extend([reach.c0, reach.c1, reach.next, reach.content]);
    }
    numbers
}

/// The basin of as many numbers.
pub fn basin_of(numbers: &[u64]) -> Basin {
    let mut basin = Basin { n: numbers[0], m: numbers[1], ..Basin::default() };
    let (records, reaches) = numbers[2..].split_at(RECORD * basin.subs.len());
    for (record, numbers) in basin.subs.iter_mut().zip(records.chunks(RECORD)) {
        let (words, rest) = numbers.split_at(WORDS);
        *record = Record::of_words(words.try_into().expect("a record's words"));
        record.waiting.copy_from_slice(&rest[..WAITING]);
        record.channel = rest[WAITING];
    }
    for (reach, numbers) in basin.reaches.iter_mut().zip(reaches.chunks(4)) {
        let &[c0, c1, next, content] = numbers else { unreachable!("a reach has 4 numbers") };
        *reach = Reach { c0, c1, next, content };
    }
    basin
}
