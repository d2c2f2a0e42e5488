//! Drawn weather, drawn lines, and bad ones.

use super::draw::Draw;
use crate::forcing::{Line, Reading, MOST_LINES};

/// Depths of a step in µm, and its temperature in thousandths of a degree.
#[derive(Clone, Copy)]
pub struct Weather {
    pub rain: u64,
    pub pan: u64,
    pub temperature: i64,
}

/// The weather of step i by three draws: for the rain, the pan and the temperature.
pub type Climate = fn(u64, [u64; 3]) -> Weather;

pub const CLIMATES: [(&str, Climate); 6] = [
    ("ordinary", ordinary),
    ("dry", dry),
    ("wet", wet),
    ("drizzle", drizzle),
    ("mixed", mixed),
    ("spells", spells),
];

/// In 32 steps from frost to thaw: 500 thousandths a step, and up to 4,000 beside it.
pub fn ordinary(i: u64, draws: [u64; 3]) -> Weather {
    let temperature = -8_000 + 500 * (i % 32) as i64 + (draws[2] % 4_001) as i64;
    Weather { temperature, ..wet_and_dry(draws) }
}

/// Of three days two are dry.
fn wet_and_dry([x, y, _]: [u64; 3]) -> Weather {
    Weather { rain: if x % 3 == 0 { x / 3 % 60_000 } else { 0 }, pan: y % 8_000, temperature: 0 }
}

fn dry(_: u64, [_, _, z]: [u64; 3]) -> Weather {
    Weather { rain: 0, pan: 100_000, temperature: 20_000 + (z % 20_001) as i64 }
}

fn wet(_: u64, [x, y, z]: [u64; 3]) -> Weather {
    let temperature = (z % 12_001) as i64 - 2_000;
    Weather { rain: 1_000_000 - x % 1_000, pan: y % 5_000, temperature }
}

/// At the least threshold, a middling one or the greatest, or 1 beside it.
fn drizzle(_: u64, [x, y, z]: [u64; 3]) -> Weather {
    let threshold = [0, 750, 10_000][(z % 3) as usize];
    let beside = [-1, 0, 1][(z / 3 % 3) as usize];
    Weather { rain: x % 8, pan: y % 8, temperature: threshold + beside }
}

/// Any depths, of every size, and any temperature.
fn mixed(_: u64, [x, y, z]: [u64; 3]) -> Weather {
    let sized = |x, end, sizes| (x % end) >> (x / end % sizes);
    let temperature = (z % 140_001) as i64 - 80_000;
    Weather { rain: sized(x, 1_000_001, 20), pan: sized(y, 100_001, 17), temperature }
}

/// 32 steps of each of the others, in turn.
pub fn spells(i: u64, draws: [u64; 3]) -> Weather {
    let (_, climate) = CLIMATES[(i / 32 % 5) as usize];
    climate(i, draws)
}

/// Ordinary, and below every snow threshold.
pub fn frost(_: u64, draws: [u64; 3]) -> Weather {
    Weather { temperature: -1 - (draws[2] % 80_000) as i64, ..wet_and_dry(draws) }
}

/// A line of step i in a climate.
pub fn line_in(climate: Climate, i: u64, draw: &mut Draw) -> Line {
    let draws = [draw.next(), draw.next(), draw.next()];
    let weather = climate(i, draws);
    let rain = millimetres(weather.rain);
    let rain = if draws[1] % 8 == 0 { Reading::Estimated(rain) } else { Reading::Measured(rain) };
    let temperature = weather.temperature as f32 / 1_000.0;
    Line { rain, pan: millimetres(weather.pan), temperature }
}

/// In the weather of its spell.
pub fn drawn_line(i: u64, draw: &mut Draw) -> Line {
    line_in(spells, i, draw)
}

/// The lines of step i.
pub fn drawn_lines(i: u64, draw: &mut Draw) -> [Line; MOST_LINES] {
    lines_in(spells, i, draw)
}

pub fn lines_in(climate: Climate, i: u64, draw: &mut Draw) -> [Line; MOST_LINES] {
    std::array::from_fn(|_| line_in(climate, i, draw))
}

/// Of whole µm.
fn millimetres(depth: u64) -> f32 {
    depth as u32 as f32 / 1_000.0
}

/// Of a line.
pub const FAULTS: u64 = 13;

/// The line with one of the faults; the last two temperatures are one bit beyond a limit.
pub fn bad(line: Line, fault: u64) -> Line {
    match fault {
        0 => Line { rain: Reading::Missing, ..line },
        1 => Line { rain: Reading::Measured(f32::NAN), ..line },
        2 => Line { rain: Reading::Estimated(f32::INFINITY), ..line },
        3 => Line { rain: Reading::Measured(-0.5), ..line },
        4 => Line { rain: Reading::Estimated(1_000.062_5), ..line },
        5 => Line { pan: f32::NAN, ..line },
        6 => Line { pan: f32::NEG_INFINITY, ..line },
        7 => Line { pan: -0.25, ..line },
        8 => Line { pan: 100.062_5, ..line },
        9 => Line { temperature: f32::NAN, ..line },
        10 => Line { temperature: f32::INFINITY, ..line },
        11 => Line { temperature: f32::from_bits(60f32.to_bits() + 1), ..line },
        12 => Line { temperature: f32::from_bits((-80f32).to_bits() + 1), ..line },
        _ => unreachable!("there are 13 faults"),
    }
}

#[cfg(test)]
mod tests {
    use super::*;
    use crate::forcing::judge;
    use crate::record::{Record, CASE_A};
    use crate::subbasin::step;

    fn drawn(climate: Climate, i: u64, draw: &mut Draw) -> Weather {
        climate(i, [draw.next(), draw.next(), draw.next()])
    }

    #[test]
    fn a_line_is_its_weather() {
        for climate in CLIMATES.map(|(_, climate)| climate).into_iter().chain([frost as Climate]) {
            let [mut draw, mut beside] = [Draw(1), Draw(1)];
            for i in 0..20_000 {
                let line = judge(&line_in(climate, i, &mut draw)).expect("a good line");
                let weather = drawn(climate, i, &mut beside);
                assert_eq!((line.rain, line.pan), (weather.rain, weather.pan));
                assert_eq!(line.temperature, weather.temperature);
            }
        }
    }

    #[test]
    fn faults() {
        let line = drawn_line(0, &mut Draw(1));
        let numbers: Vec<u64> =
            (0..FAULTS).map(|fault| judge(&bad(line, fault)).expect_err("a bad line")).collect();
        assert_eq!(numbers, [6, 12, 13, 7, 8, 12, 13, 7, 8, 14, 14, 14, 14]);
    }

    /// Steps of a middling sub-basin in a climate in which snow falls, melts in part and whole, waits where it could melt,
    /// and lies at the threshold in the rain.
    fn kinds(climate: Climate) -> [u32; 5] {
        let words = Record { f: 4_500, threshold: 750, ..Record::of_words(&CASE_A) };
        let mut record = words;
        let mut draw = Draw(1);
        let mut kinds = [0; 5];
        for i in 0..5_000 {
            let weather = drawn(climate, i, &mut draw);
            let given = step(record, weather.rain, weather.pan, weather.temperature);
            assert_eq!(given.number, 0);
            let [was, is] = [record.sn, given.record.sn];
            let degrees = weather.temperature - 750;
            let waits = is > 0 && degrees > 0 && was - is < 4_500 * degrees as u64 / 1_000;
            kinds[0] += u32::from(is > was);
            kinds[1] += u32::from(0 < is && is < was);
            kinds[2] += u32::from(is == 0 && is < was);
            kinds[3] += u32::from(waits);
            kinds[4] += u32::from(degrees == 0 && was > 0 && weather.rain > 0);
            record = given.record;
        }
        kinds
    }

    #[test]
    fn snow_of_every_kind() {
        let [ordinary, dry, wet, drizzle, mixed, spells] =
            CLIMATES.map(|(_, climate)| kinds(climate));
        assert!(ordinary[..3].iter().all(|&times| times > 100), "{ordinary:?}");
        assert_eq!(dry, [0; 5]);
        assert!(wet[0] > 500 && wet[3] > 500, "{wet:?}");
        assert!(drizzle[0] > 500 && drizzle[4] > 100, "{drizzle:?}");
        assert!(mixed[..3].iter().all(|&times| times > 100), "{mixed:?}");
        assert!(spells[0] > 500 && spells[1] > 500 && spells[3] > 100, "{spells:?}");
        assert!(kinds(frost)[0] > 1_000 && kinds(frost)[1..] == [0; 4]);
    }
}
