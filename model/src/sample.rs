//! The sample: three years of a wet-summer valley, day by day. sample/README.md says what is in it.

use crate::chance::Chance;
use crate::files::{line, Files, LineWords, ESTIMATED, MEASURED, MISSING};
use crate::record::WORDS;

const SUB_BASINS: usize = 5;
/// The second year is a leap year.
const YEARS: [usize; 3] = [365, 366, 365];

/// The Heights and Fern Brook above the gorge, Long Valley, the Lower Hills, and the town at the
/// outlet: the 17 parameters in the file's order, then the starts, then melt factor, threshold and snow.
#[rustfmt::skip]
const SUBS: [[u64; WORDS]; SUB_BASINS] = [
    [
        412, 62_259, 18_000, 65_000, 55_000, 9_830, 21, 655, 24_000, 40, 22_938, 22_938,
        39_322, 64_225, 13_107, 0, 1,
        9_000, 42_000, 50_000, 4_000, 600, 9_000, 4_500, 750, 40_000,
    ],
    [
        287, 62_259, 16_000, 60_000, 50_000, 9_830, 22, 655, 22_000, 40, 22_938, 22_938,
        39_322, 64_225, 13_107, 0, 1,
        8_000, 40_000, 45_000, 4_000, 600, 8_000, 4_000, 750, 5_000,
    ],
    [
        530, 64_225, 20_000, 75_000, 60_000, 9_175, 20, 1_311, 28_000, 36, 19_661, 26_214,
        42_598, 64_553, 22_938, 1, 2,
        9_000, 50_000, 55_000, 5_000, 700, 12_000, 3_500, 500, 0,
    ],
    [
        344, 65_536, 22_000, 80_000, 60_000, 8_520, 20, 1_966, 30_000, 32, 19_661, 26_214,
        42_598, 64_553, 22_938, 1, 3,
        10_000, 50_000, 55_000, 5_000, 500, 12_000, 3_500, 500, 0,
    ],
    [
        158, 68_813, 12_000, 50_000, 40_000, 8_520, 19, 11_796, 15_000, 24, 16_384, 16_384,
        32_768, 62_259, 6_554, 0, 0,
        5_000, 30_000, 30_000, 2_000, 300, 3_000, 5_000, 250, 0,
    ],
];

/// The gorge, the long valley's river, and the lower river that both flow into: c0, c1, next.
const REACHES: [[u64; 3]; 3] = [[19_661, 22_938, 3], [16_384, 19_661, 3], [26_214, 19_661, 0]];

/// A month: of 100 days after a dry one and after a wet one, how many are wet; the mean rain of a
/// wet day and the mean pan depth, in tenths of a millimetre; the mean temperature in the valley, in
/// tenths of a degree.
struct Month {
    wet_after_dry: u64,
    wet_after_wet: u64,
    rain: u64,
    pan: u64,
    mean: i64,
}

const fn month(wet_after_dry: u64, wet_after_wet: u64, rain: u64, pan: u64, mean: i64) -> Month {
    Month { wet_after_dry, wet_after_wet, rain, pan, mean }
}

const MONTHS: [Month; 12] = [
    month(25, 55, 50, 13, 0),
    month(30, 58, 60, 17, 10),
    month(35, 62, 80, 24, 45),
    month(36, 62, 95, 34, 90),
    month(34, 62, 110, 43, 135),
    month(38, 68, 150, 45, 165),
    month(28, 58, 130, 60, 190),
    month(27, 52, 100, 58, 180),
    month(20, 48, 75, 44, 150),
    month(17, 46, 60, 33, 100),
    month(18, 48, 50, 22, 50),
    month(16, 46, 45, 15, 15),
];

/// Rain over each sub-basin in percent of the valley's.
const HILLS: [u64; SUB_BASINS] = [118, 112, 100, 94, 88];
/// How much warmer than the valley, in tenths of a degree.
const WARMER: [i64; SUB_BASINS] = [-52, -16, 0, -8, 6];

/// Days, counted from 1, and their rain over the valley in tenths of a millimetre.
const STORMS: [(usize, &[u64]); 3] =
    [(218, &[420, 1_640, 710]), (540, &[810, 1_230, 960, 580]), (976, &[1_310, 2_140])];
/// The days without rain of the third summer.
const DROUGHT: std::ops::RangeInclusive<usize> = 915..=960;

/// What goes wrong in a line: no rain reading, or other bits for rain, pan or temperature.
#[derive(Clone, Copy)]
enum Fault {
    Missing,
    Rain(u32),
    Pan(u32),
    Temperature(u32),
}

const NOT_A_NUMBER: u32 = 0x7fc0_0000;

/// The day, the sub-basin counted from 0, and its fault.
const FAULTS: [(usize, usize, Fault); 16] = [
    (97, 3, Fault::Pan((-0.1f32).to_bits())),
    (219, 2, Fault::Missing),
    (220, 2, Fault::Missing),
    (221, 2, Fault::Missing),
    (301, 4, Fault::Pan(460f32.to_bits())),
    (388, 0, Fault::Temperature(NOT_A_NUMBER)),
    (402, 0, Fault::Rain(NOT_A_NUMBER)),
    (541, 1, Fault::Rain(1_230f32.to_bits())),
    (655, 1, Fault::Missing),
    (655, 3, Fault::Rain(NOT_A_NUMBER)),
    (689, 1, Fault::Temperature((-99.9f32).to_bits())),
    (733, 4, Fault::Rain((-0f32).to_bits())),
    (846, 2, Fault::Rain(f32::INFINITY.to_bits())),
    (977, 0, Fault::Missing),
    (1_064, 3, Fault::Pan((-99.9f32).to_bits())),
    (1_064, 3, Fault::Temperature((-99.9f32).to_bits())),
];

pub fn files() -> Files {
    let counts = [SUB_BASINS as u64, REACHES.len() as u64];
    let words = counts.into_iter().chain(SUBS.concat()).chain(REACHES.concat());
    Files::of(words.map(|word| word as u32), &lines())
}

fn lines() -> Vec<LineWords> {
    let mut chance = Chance::new(1992);
    let mut lines = Vec::new();
    let mut wet_days = Vec::new();
    let mut wet = false;
    for day in 1..=YEARS.iter().sum() {
        let month = &MONTHS[month_of(day)];
        let more = if wet { month.wet_after_wet } else { month.wet_after_dry };
        let storm = storm_of(day);
        wet = chance.within(1, 100) <= more && !DROUGHT.contains(&day) || storm.is_some();
        let valley = storm.unwrap_or_else(|| wet_day(month.rain, &mut chance));
        let today = Today { rain: if wet { valley } else { 0 }, wet, storm: storm.is_some() };
        lines.extend(HILLS.map(|hill| reading(&today, month.pan, hill, &mut chance)));
        wet_days.push(wet);
    }
    let temperatures = temperatures(&wet_days, &mut chance);
    for (line, temperature) in lines.iter_mut().zip(temperatures) {
        line[3] = temperature.to_bits();
    }
    for (day, sub, fault) in FAULTS {
        spoil(&mut lines[(day - 1) * SUB_BASINS + sub], fault);
    }
    lines
}

/// In the valley it goes a fifth of the way to the month's mean in a day, and up to 2.5 degrees more
/// or less; a wet day is nearer to 8 degrees by a sixth of the mean's distance. Gauges differ by up
/// to half a degree besides.
fn temperatures(wet_days: &[bool], chance: &mut Chance) -> Vec<f32> {
    let mut valley = MONTHS[0].mean;
    let mut temperatures = Vec::new();
    for (day, wet) in (1..).zip(wet_days) {
        let mean = MONTHS[month_of(day)].mean;
        valley += (mean - valley) / 5 + either(25, chance);
        let today = if *wet { valley + (80 - mean) / 6 } else { valley };
        temperatures.extend(WARMER.map(|warmer| degrees(today + warmer + either(5, chance))));
    }
    temperatures
}

/// Up to as much, more or less.
fn either(most: i64, chance: &mut Chance) -> i64 {
    chance.within(0, 2 * most as u64) as i64 - most
}

/// The nearest single to a number of tenths.
fn degrees(tenths: i64) -> f32 {
    tenths as f32 / 10.0
}

/// The valley's weather, rain in tenths of a millimetre.
struct Today {
    rain: u64,
    wet: bool,
    storm: bool,
}

/// The product of two even draws: small mostly, and up to four times the mean.
fn wet_day(mean: u64, chance: &mut Chance) -> u64 {
    4 * mean * chance.within(0, 1_000) * chance.within(0, 1_000) / 1_000_000
}

/// Rain differs by a third from gauge to gauge; a wet day takes a third of what a dry one does from
/// the pan. One gauge in forty is read by its neighbours, in a storm one in four.
fn reading(today: &Today, pan: u64, hill: u64, chance: &mut Chance) -> LineWords {
    let rain = today.rain * hill * chance.within(67, 133) / 10_000;
    let taken = if today.wet { pan / 3 } else { pan };
    let pan = taken * chance.within(60, 140) / 100;
    let kind = if chance.one_in(if today.storm { 4 } else { 40 }) { ESTIMATED } else { MEASURED };
    line(kind, tenths(rain), tenths(pan), 0.0)
}

/// Millimetres: the nearest single to a number of tenths.
fn tenths(many: u64) -> f32 {
    many as f32 / 10.0
}

/// The month, from 0, of a day counted from 1.
fn month_of(day: usize) -> usize {
    let mut left = day - 1;
    for year in YEARS {
        let february = if year == 366 { 29 } else { 28 };
        for (at, days) in [31, february, 31, 30, 31, 30, 31, 31, 30, 31, 30, 31].iter().enumerate()
        {
            if left < *days {
                return at;
            }
            left -= days;
        }
    }
    unreachable!("a day of the three years")
}

fn storm_of(day: usize) -> Option<u64> {
    let rain = |(first, days): (usize, &[u64])| days.get(day.wrapping_sub(first)).copied();
    STORMS.into_iter().find_map(rain)
}

fn spoil(line: &mut LineWords, fault: Fault) {
    match fault {
        Fault::Missing => *line = [MISSING, 0, line[2], line[3]],
        Fault::Rain(bits) => line[1] = bits,
        Fault::Pan(bits) => line[2] = bits,
        Fault::Temperature(bits) => line[3] = bits,
    }
}

#[cfg(test)]
mod tests {
    use super::*;
    use crate::file::load;
    use crate::program::{self, run, LINE};

    fn printed() -> Vec<String> {
        let files = files();
        let mut out = Vec::new();
        run(&files.basin, &files.forcing[..], &mut out).unwrap();
        String::from_utf8(out).unwrap().lines().map(String::from).collect()
    }

    #[test]
    fn months_begin() {
        assert_eq!(
            [1, 31, 32, 365, 366, 425, 426, 731, 732].map(month_of),
            [0, 0, 1, 11, 0, 1, 2, 11, 0]
        );
    }

    #[test]
    fn the_refused_days() {
        let lines = printed();
        let refused: Vec<&str> =
            lines.iter().filter(|line| line.contains("refused")).map(String::as_str).collect();
        let expected = [
            "97 refused 7 4",
            "219 refused 6 3",
            "220 refused 6 3",
            "221 refused 6 3",
            "301 refused 8 5",
            "388 refused 14 1",
            "402 refused 12 1",
            "541 refused 8 2",
            "655 refused 6 2",
            "689 refused 14 2",
            "846 refused 13 3",
            "977 refused 6 1",
            "1064 refused 7 4",
        ];
        assert_eq!((lines.len(), refused), (1_096, expected.to_vec()));
    }

    /// Rain and runoff of a year, in millimetres over the 1,731 km².
    #[test]
    fn a_likely_climate() {
        let mut years = [[0.0; 3]; 3];
        for printed in printed() {
            let words: Vec<&str> = printed.split(' ').collect();
            let day: usize = words[0].parse().unwrap();
            let year = usize::from(day > 365) + usize::from(day > 731);
            if words[1] == "ok" {
                for (sum, word) in years[year].iter_mut().zip(&words[2..5]) {
                    *sum += word.parse::<f64>().unwrap() / 1_731_000.0;
                }
            }
        }
        for [rain, evapotranspiration, outlet] in years {
            assert!((900.0..2_000.0).contains(&rain), "{years:?}");
            assert!((500.0..1_000.0).contains(&evapotranspiration), "{years:?}");
            assert!((0.25..0.65).contains(&(outlet / rain)), "{years:?}");
        }
    }

    /// The outlet volume of each day, of a refused one 0, and the snow of each sub-basin after it.
    fn days(files: &Files) -> Vec<(u64, [u64; SUB_BASINS])> {
        let mut basin = load(&files.basin).basin;
        let steps = files.forcing.chunks_exact(LINE * SUB_BASINS);
        let day = |step: &[u8]| {
            let report = basin.advance(step.as_chunks().0.iter().map(program::line));
            let snow = std::array::from_fn(|sub| basin.subs[sub].sn);
            (report.map_or(0, |report| report.outlet), snow)
        };
        steps.map(day).collect()
    }

    /// The same without snow: none at the start, and every good temperature 10 degrees.
    fn without_snow() -> Files {
        let mut files = files();
        for sub in files.basin[8..].chunks_exact_mut(4 * WORDS).take(SUB_BASINS) {
            sub[4 * (WORDS - 1)..].fill(0);
        }
        for line in files.forcing.chunks_exact_mut(LINE) {
            let (_, degrees) = line.split_at_mut(12);
            let good = f32::from_le_bytes(degrees.try_into().unwrap()).abs() < 80.0;
            if good {
                degrees.copy_from_slice(&10f32.to_le_bytes());
            }
        }
        files
    }

    /// Of the Heights, the spells of ten days and more with snow: the first day, the day with the
    /// most and that, the last day. Of each sub-basin the days with snow, and the most.
    #[test]
    fn snow_that_lies() {
        let days = days(&files());
        let snow = |sub: usize| days.iter().map(move |(_, snow)| snow[sub]);
        let heights: Vec<u64> = snow(0).collect();
        let spells: Vec<_> = heights
            .chunk_by(|a, b| (*a > 0) == (*b > 0))
            .scan(1, |first, spell| {
                let most = spell.iter().max().copied().unwrap();
                let at = spell.iter().position(|&sn| sn == most).unwrap();
                let told = (*first, *first + at, most, *first + spell.len() - 1);
                *first += spell.len();
                Some(told)
            })
            .filter(|(first, _, most, last)| *most > 0 && last - first >= 9)
            .collect();
        let expected = [
            (1, 100, 303_075, 129),
            (326, 467, 219_425, 486),
            (676, 824, 184_600, 841),
            (1_067, 1_077, 26_400, 1_079),
            (1_087, 1_095, 12_500, 1_096),
        ];
        assert_eq!(spells, expected);
        let told =
            [0, 1, 2, 3, 4].map(|sub| (snow(sub).filter(|&sn| sn > 0).count(), snow(sub).max()));
        let expected = [
            (483, Some(303_075)),
            (141, Some(73_400)),
            (68, Some(30_250)),
            (101, Some(40_400)),
            (39, Some(13_750)),
        ];
        assert_eq!(told, expected);
    }

    /// Outlet volumes of the first year's winter and spring, then from December to March and from
    /// April to May, in millions of m³, beside those without snow.
    #[test]
    fn water_that_winter_keeps_back() {
        let given = [files(), without_snow()].map(|files| {
            let days = days(&files);
            let sum = |first: usize, last: usize| {
                let outlet: u64 = days[first - 1..last].iter().map(|(outlet, _)| outlet).sum();
                (outlet + 500_000) / 1_000_000
            };
            [
                [sum(1, 90), sum(91, 151)],
                [sum(335, 456), sum(457, 517)],
                [sum(701, 821), sum(822, 882)],
            ]
        });
        let expected = [[[51, 212], [79, 290], [80, 391]], [[67, 166], [99, 251], [97, 349]]];
        assert_eq!(given, expected);
    }
}
