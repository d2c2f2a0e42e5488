//! Random readings, of every kind that a forcing file can hold.

use crate::chance::Chance;
use crate::files::{line, LineWords, ESTIMATED, MEASURED, MISSING};

#[derive(Clone, Copy)]
enum Weather {
    Ordinary,
    Dry,
    Wet,
    Drizzle,
    /// Of every size, up to the limits.
    Mixed,
    /// Any bits at all.
    Bits,
}

/// What temperatures are drawn from.
#[derive(Clone, Copy)]
enum Season {
    Frost,
    /// About the thresholds, and at their ends.
    Thaw,
    Summer,
    /// The ends of the range.
    Ends,
    Anything,
}

/// The lines of the steps.
pub fn forcing(n: u64, chance: &mut Chance) -> Vec<LineWords> {
    let spell = [Weather::Ordinary, Weather::Dry, Weather::Wet, Weather::Drizzle, Weather::Mixed];
    let wild = chance.one_in(12);
    let faults = chance.of(&[0, 4, 16, 64]);
    let mut weather = chance.of(&spell);
    let seasons =
        [Season::Frost, Season::Thaw, Season::Thaw, Season::Summer, Season::Ends, Season::Anything];
    let mut season = chance.of(&seasons);
    let mut lines = Vec::new();
    for _ in 0..steps(n, chance) {
        if chance.one_in(20) {
            weather = chance.of(&spell);
        }
        if chance.one_in(8) {
            season = chance.of(&seasons);
        }
        let first = lines.len();
        for _ in 0..n {
            lines.push(reading(if wild { Weather::Bits } else { weather }, season, chance));
        }
        if faults > 0 && chance.one_in(faults) {
            let at = first + chance.within(0, n - 1) as usize;
            spoil(&mut lines[at], chance);
        }
    }
    lines
}

/// Few steps, or so many that they fill a program's buffers more than once.
fn steps(n: u64, chance: &mut Chance) -> u64 {
    match chance.within(0, 9) {
        0 => 0,
        1 => chance.within(300, 1_200) / n.min(3),
        2 | 3 => chance.within(60, 200),
        _ => chance.within(1, 40),
    }
}

fn reading(weather: Weather, season: Season, chance: &mut Chance) -> LineWords {
    if let Weather::Bits = weather {
        let kind = chance.of(&[0, MEASURED, ESTIMATED, 3]);
        return [kind, pattern(chance), pattern(chance), degrees_pattern(chance)];
    }
    let kind = if chance.one_in(10) { ESTIMATED } else { MEASURED };
    let wet = chance.one_in(3);
    let halvings = chance.within(0, 20);
    // In millimetres, up to a number of tenths.
    let mut upto = |tenths| chance.within(0, tenths) as f32 / 10.0;
    let [rain, pan] = match weather {
        Weather::Ordinary if wet => [upto(600), upto(30)],
        Weather::Ordinary => [0.0, upto(80)],
        Weather::Dry => [0.0, 100.0],
        Weather::Wet => [990.0 + upto(100), upto(50)],
        Weather::Drizzle => [upto(40) / 1_000.0, upto(40) / 1_000.0],
        _ => [upto(10_000), upto(1_000)].map(|depth| depth / (1u64 << halvings) as f32),
    };
    line(kind, rain, pan, degrees(season, chance))
}

fn degrees(season: Season, chance: &mut Chance) -> f32 {
    let (least, tenths) = match season {
        Season::Frost => (-25.0, 250),
        Season::Thaw if chance.one_in(4) => return chance.of(&[0.0, 10.0]),
        Season::Thaw => (chance.of(&[-2.0, -1.9375, -1.999]), 140),
        Season::Summer => (8.0, 300),
        Season::Ends => return chance.of(&[-80.0, 60.0]),
        Season::Anything => (-80.0, 1_400),
    };
    least + chance.within(0, tenths) as f32 / 10.0
}

/// Any bits, or ones at which something changes.
fn pattern(chance: &mut Chance) -> u32 {
    let edges = [
        0,
        1,
        0x007f_ffff,
        0x0080_0000,
        0.0005f32.to_bits() - 1,
        0.0005f32.to_bits(),
        0.0625f32.to_bits(),
        100f32.to_bits(),
        100f32.to_bits() + 1,
        1_000f32.to_bits() - 1,
        1_000f32.to_bits(),
        1_000f32.to_bits() + 1,
        1_024f32.to_bits(),
        0x7f7f_ffff,
        0x7f80_0000,
        0x7f80_0001,
        0x7fbf_ffff,
        0x7fc0_0000,
        0x7fff_ffff,
    ];
    let bits = match chance.within(0, 3) {
        0 => chance.word(),
        1 => (chance.within(0, 1_100_000) as f32 / 1_000.0).to_bits(),
        _ => chance.of(&edges),
    };
    bits | u32::from(chance.one_in(8)) << 31
}

/// A temperature: any bits, some thousandths, or bits at which something changes.
fn degrees_pattern(chance: &mut Chance) -> u32 {
    let edges = [
        0,
        1,
        0x0080_0000,
        0.0005f32.to_bits() - 1,
        0.0005f32.to_bits(),
        0.0625f32.to_bits(),
        60f32.to_bits() - 1,
        60f32.to_bits(),
        60f32.to_bits() + 1,
        80f32.to_bits() - 1,
        80f32.to_bits(),
        80f32.to_bits() + 1,
        128f32.to_bits(),
        0x7f7f_ffff,
        0x7f80_0000,
        0x7f80_0001,
        0x7fc0_0000,
        0x7fff_ffff,
    ];
    let bits = match chance.within(0, 5) {
        0 => chance.word(),
        1 => chance.of(&edges),
        _ => (chance.within(0, 90_000) as f32 / 1_000.0).to_bits(),
    };
    bits ^ u32::from(chance.one_in(2)) << 31
}

/// A word of a line changed, most often so that the line is refused.
fn spoil(line: &mut LineWords, chance: &mut Chance) {
    match chance.within(0, 3) {
        0 => line[0] = chance.of(&[MISSING, 3, 0x0100_0000, 0x0001_0001, u32::MAX]),
        3 => line[3] = degrees_pattern(chance),
        place => line[place as usize] = pattern(chance),
    }
}
