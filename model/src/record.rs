//! A sub-basin's record and the ranges of its words.

use crate::curve::WHOLE;

pub const WORDS: usize = 26;
/// The most amounts in waiting.
pub const WAITING: usize = 15;

/// Greatest VI and VG of a record, µm.
pub const GREATEST_WAITING_DEPTH: u64 = 1 << 33;
/// Greatest SN of a record, µm.
pub const GREATEST_SNOW: u64 = 1 << 40;
/// Greatest waiting amount and greatest CS store, m³.
pub const GREATEST_WAITING_AMOUNT: u64 = 1 << 50;
pub const GREATEST_CHANNEL: u64 = 1 << 56;

/// The greatest VI and VG and the greatest SN, µm.
#[derive(Clone, Copy, Debug)]
pub struct Most {
    pub waiting: u64,
    pub snow: u64,
}

/// Those of a basin handed in.
pub const HANDED_IN: Most = Most { waiting: GREATEST_WAITING_DEPTH, snow: GREATEST_SNOW };

/// A sub-basin's record: its 26 words, the lag line and the CS store.
#[derive(Clone, Copy, Debug, Default, PartialEq, Eq)]
pub struct Record {
    pub area: u64,
    pub k: u64,
    pub um: u64,
    pub lm: u64,
    pub dm: u64,
    pub c: u64,
    pub bn: u64,
    pub im: u64,
    pub sm: u64,
    pub xn: u64,
    pub ki: u64,
    pub kg: u64,
    pub ci: u64,
    pub cg: u64,
    pub cs: u64,
    pub l: u64,
    pub reach: u64,
    pub wu: u64,
    pub wl: u64,
    pub wd: u64,
    pub g: u64,
    pub vi: u64,
    pub vg: u64,
    /// Melt factor, µm a degree.
    pub f: u64,
    /// Snow threshold, thousandths of a degree.
    pub threshold: u64,
    /// Snow, µm of water.
    pub sn: u64,
    /// The last amount to enter stands first; the first L are in use.
    pub waiting: [u64; WAITING],
    /// Content of the CS store.
    pub channel: u64,
}

/// The place of REACH among the words.
const REACH: usize = 16;

impl Record {
    /// A record of the file's words, its lag line and CS store empty.
    #[rustfmt::skip]
    pub fn of_words(words: &[u64; WORDS]) -> Record {
        let [
            area, k, um, lm, dm, c, bn, im, sm, xn, ki, kg, ci, cg, cs, l, reach,
            wu, wl, wd, g, vi, vg, f, threshold, sn,
        ] = *words;
        Record {
            area, k, um, lm, dm, c, bn, im, sm, xn, ki, kg, ci, cg, cs, l, reach,
            wu, wl, wd, g, vi, vg, f, threshold, sn,
            waiting: [0; WAITING],
            channel: 0,
        }
    }

    #[rustfmt::skip]
    pub fn words(&self) -> [u64; WORDS] {
        let s = self;
        [
            s.area, s.k, s.um, s.lm, s.dm, s.c, s.bn, s.im, s.sm, s.xn, s.ki, s.kg, s.ci, s.cg,
            s.cs, s.l, s.reach, s.wu, s.wl, s.wd, s.g, s.vi, s.vg, s.f, s.threshold, s.sn,
        ]
    }

    /// Whether all but REACH is what a handed-in basin may hold.
    pub fn inside(&self) -> bool {
        let words = self.words();
        let word_inside = |place| {
            let (least, greatest) = range(&words, place, 0, HANDED_IN);
            least <= words[place] && words[place] <= greatest
        };
        (0..WORDS).all(|place| place == REACH || word_inside(place))
            && self.waiting_inside()
            && self.channel <= GREATEST_CHANNEL
    }

    /// Whether the L amounts in use are in their range and the others zero.
    fn waiting_inside(&self) -> bool {
        let (used, unused) = self.waiting.split_at(self.l as usize);
        used.iter().all(|&amount| amount <= GREATEST_WAITING_AMOUNT)
            && unused.iter().all(|&amount| amount == 0)
    }
}

/// The least and greatest of the word at a place of a sub-basin's words, with M reaches and the
/// greatest VI, VG and SN.
pub fn range(words: &[u64; WORDS], place: usize, m: u64, most: Most) -> (u64, u64) {
    let [_, _, um, lm, dm, _, _, _, sm, _, ki, ..] = *words;
    match place {
        0 => (1, 5_000),
        1 => (0, 131_072),
        2 => (0, 100_000),
        3 => (1, 200_000),
        4 => (0, 200_000),
        5 => (0, 65_535),
        6 => (16, 32),
        7 => (0, 32_768),
        8 => (1, 100_000),
        9 => (16, 48),
        10 => (0, WHOLE),
        11 => (0, WHOLE.saturating_sub(ki)),
        12..=14 => (0, 65_535),
        15 => (0, WAITING as u64),
        REACH => (0, m),
        17 => (0, um),
        18 => (0, lm),
        19 => (0, dm),
        20 => (0, sm),
        21 | 22 => (0, most.waiting),
        23 => (0, 20_000),
        24 => (0, 10_000),
        25 => (0, most.snow),
        _ => unreachable!("a sub-basin has 26 words"),
    }
}

/// Case A's sub-basin, as the file's words.
#[rustfmt::skip]
pub const CASE_A: [u64; WORDS] = [
    1, 65_536, 20_000, 60_000, 40_000, 8_192, 24, 0, 20_000, 24, 16_384, 16_384, 32_768, 32_768,
    0, 0, 0, 0, 0, 0, 0, 0, 0, 0, 0, 0,
];
