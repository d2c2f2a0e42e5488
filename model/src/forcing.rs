//! The forcing list: readings, their depths in µm, temperatures, and the limits of a step's lines.

/// The most lines that a step takes.
pub const MOST_LINES: usize = 32;

/// A rain reading, in millimetres where there is one.
#[derive(Clone, Copy, Debug)]
pub enum Reading {
    Measured(f32),
    Estimated(f32),
    Missing,
}

/// A forcing line: the rain reading and the pan depth in millimetres, the air temperature in °C.
#[derive(Clone, Copy, Debug)]
pub struct Line {
    pub rain: Reading,
    pub pan: f32,
    pub temperature: f32,
}

/// What a number is said to be.
#[derive(Clone, Copy, Debug)]
pub enum Kind {
    Rain,
    Pan,
}

impl Kind {
    /// The limit in millimetres.
    fn limit(self) -> f32 {
        match self {
            Kind::Rain => 1_000.0,
            Kind::Pan => 100.0,
        }
    }
}

/// A depth call's answer, in µm. Refused: 7, 8, 12 or 13, place 0, depth 0.
#[derive(Clone, Copy, Debug, PartialEq, Eq)]
pub struct Depth {
    pub number: u64,
    pub place: u64,
    pub depth: u64,
}

pub fn depth(millimetres: f32, kind: Kind) -> Depth {
    match micrometres(millimetres, kind) {
        Ok(depth) => Depth { number: 0, place: 0, depth },
        Err(number) => Depth { number, place: 0, depth: 0 },
    }
}

/// The depth, or its fault. In double precision 1,000 times a single is exact, having 34 bits at
/// most; so is its sum with a half, but for numbers so small that the sum stays below 1 anyhow.
#[inline]
fn micrometres(millimetres: f32, kind: Kind) -> Result<u64, u64> {
    if millimetres >= 0.0 && millimetres <= kind.limit() {
        return Ok(u64::from((1_000.0 * f64::from(millimetres) + 0.5) as u32));
    }
    Err(fault(millimetres))
}

/// What a number is that is not from 0 to its limit: no number, infinite, below zero, or above.
fn fault(millimetres: f32) -> u64 {
    if millimetres.is_nan() {
        return 12;
    }
    if millimetres.is_infinite() {
        return 13;
    }
    if millimetres < 0.0 {
        7
    } else {
        8
    }
}

/// A temperature call's answer, in thousandths of a degree. Refused: 14, place 0, temperature 0.
#[derive(Clone, Copy, Debug, PartialEq, Eq)]
pub struct Temperature {
    pub number: u64,
    pub place: u64,
    pub temperature: i64,
}

pub fn temperature(degrees: f32) -> Temperature {
    match thousandths(degrees) {
        Ok(temperature) => Temperature { number: 0, place: 0, temperature },
        Err(number) => Temperature { number, place: 0, temperature: 0 },
    }
}

/// The temperature in thousandths, or 14. It is counted from the least, so that cutting rounds down.
/// The sum is exact but for numbers so near to zero that it stays near 80,000.5 anyhow.
#[inline]
fn thousandths(degrees: f32) -> Result<i64, u64> {
    if (-80.0..=60.0).contains(&degrees) {
        return Ok(i64::from((1_000.0 * f64::from(degrees) + 80_000.5) as u32) - 80_000);
    }
    Err(14)
}

/// A step's line: depths in µm, the temperature in thousandths of a degree.
#[derive(Clone, Copy, Debug, Default, PartialEq, Eq)]
pub struct Forcing {
    pub rain: u64,
    pub pan: u64,
    pub temperature: i64,
    pub estimated: bool,
}

/// The line's numbers, or its first fault, rain before pan before temperature: 6, or as of a depth
/// or temperature call.
#[inline]
pub fn judge(line: &Line) -> Result<Forcing, u64> {
    let (rain, estimated) = match line.rain {
        Reading::Measured(rain) => (rain, false),
        Reading::Estimated(rain) => (rain, true),
        Reading::Missing => return Err(6),
    };
    let rain = micrometres(rain, Kind::Rain)?;
    let pan = micrometres(line.pan, Kind::Pan)?;
    let temperature = thousandths(line.temperature)?;
    Ok(Forcing { rain, pan, temperature, estimated })
}

#[cfg(test)]
mod tests {
    use super::*;

    fn rain(millimetres: f32) -> (u64, u64) {
        let given = depth(millimetres, Kind::Rain);
        assert_eq!(given.place, 0);
        (given.number, given.depth)
    }

    #[test]
    fn depths() {
        assert_eq!(rain(0.0625), (0, 63));
        assert_eq!(rain(-0.0), (0, 0));
        assert_eq!(rain(0.0), (0, 0));
        assert_eq!(rain(135.0), (0, 135_000));
        assert_eq!(rain(1_000.0), (0, 1_000_000));
        assert_eq!(rain(f32::from_bits(1)), (0, 0));
        assert_eq!(depth(100.0, Kind::Pan), Depth { number: 0, place: 0, depth: 100_000 });
    }

    /// The depth as the text has it: sign, exponent and fraction from the bits. The number's exact
    /// value is digits / 2^down.
    fn depth_by_text(bits: u32, limit: u128) -> (u64, u64) {
        let negative = bits >> 31 == 1;
        let exponent = bits >> 23 & 0xff;
        let fraction = u128::from(bits & 0x7f_ffff);
        if exponent == 0xff {
            return (if fraction > 0 { 12 } else { 13 }, 0);
        }
        if negative && (exponent > 0 || fraction > 0) {
            return (7, 0);
        }
        if exponent >= 150 {
            // A whole number of at least 2^23.
            return (8, 0);
        }
        let (digits, down) = match exponent {
            0 => (fraction, 149),
            _ => (fraction | 1 << 23, 150 - exponent),
        };
        // 2,000 × digits is below 2^35, so at 2^100 and beyond the depth is 0 alike.
        let one = 1u128 << down.min(100);
        if digits > limit * one {
            return (8, 0);
        }
        (0, ((2_000 * digits + one) / (2 * one)) as u64)
    }

    fn beside(bits: u32) -> [u32; 3] {
        [bits.wrapping_sub(1), bits, bits.wrapping_add(1)]
    }

    #[test]
    fn depths_are_the_texts() {
        let halves = (0..=1_000_000).map(|k| ((f64::from(k) + 0.5) / 1_000.0) as f32);
        let near_halves = halves.flat_map(|half| beside(half.to_bits()));
        let spread = (0..1u32 << 20).map(|k| k.wrapping_mul(4_099));
        let near_exponents = (0..512u32).flat_map(|k| beside(k << 23));
        for bits in near_halves.chain(spread).chain(near_exponents) {
            for (kind, limit) in [(Kind::Rain, 1_000), (Kind::Pan, 100)] {
                let given = depth(f32::from_bits(bits), kind);
                let expected = depth_by_text(bits, limit);
                assert_eq!((given.number, given.depth), expected, "bits {bits:#x}");
            }
        }
    }

    #[test]
    fn halves_go_up() {
        // 1/16 and 3/16 have halves; the numbers next to 1/16 are on its two sides.
        assert_eq!(rain(0.1875), (0, 188));
        assert_eq!(rain(f32::from_bits(0.0625f32.to_bits() - 1)), (0, 62));
        assert_eq!(rain(f32::from_bits(0.0625f32.to_bits() + 1)), (0, 63));
        assert_eq!(rain(0.000_5), (0, 1));
        assert_eq!(rain(0.000_499), (0, 0));
    }

    #[test]
    fn refused_depths() {
        for number in [-1.0, f32::MIN, f32::from_bits(0x8000_0001)] {
            assert_eq!(rain(number), (7, 0));
        }
        // Above 1,000 though it would round to 1,000,000 µm.
        let above = f32::from_bits(1_000f32.to_bits() + 1);
        assert_eq!(rain(above), (8, 0));
        assert_eq!(rain(f32::MAX), (8, 0));
        assert_eq!(rain(8_388_608.0), (8, 0));
        assert_eq!(depth(100.000_01, Kind::Pan), Depth { number: 8, place: 0, depth: 0 });
    }

    /// No number, signalling and quiet, first and last, and infinity, with either sign.
    #[test]
    fn no_finite_numbers() {
        for sign in [0, 1 << 31] {
            for bits in [0x7f80_0001, 0x7fbf_ffff, 0x7fc0_0000, 0x7fff_ffff] {
                assert_eq!(rain(f32::from_bits(sign | bits)), (12, 0));
            }
            assert_eq!(rain(f32::from_bits(sign | 0x7f80_0000)), (13, 0));
        }
        let pan = |millimetres| depth(millimetres, Kind::Pan);
        assert_eq!(pan(f32::NAN), Depth { number: 12, place: 0, depth: 0 });
        assert_eq!(pan(f32::NEG_INFINITY), Depth { number: 13, place: 0, depth: 0 });
    }

    #[test]
    fn the_first_fault_of_a_line() {
        // A bad temperature never comes before what is wrong with rain or pan.
        let line = |rain, pan| {
            let [given, hot] =
                [20.0, 60.5].map(|temperature| judge(&Line { rain, pan, temperature }));
            assert_eq!(hot, if given.is_ok() { Err(14) } else { given });
            given
        };
        assert_eq!(line(Reading::Missing, f32::NAN), Err(6));
        assert_eq!(line(Reading::Measured(1_001.0), f32::NAN), Err(8));
        assert_eq!(line(Reading::Estimated(1.0), 101.0), Err(8));
        assert_eq!(line(Reading::Measured(1.0), -1.0), Err(7));
        assert_eq!(line(Reading::Measured(-1.0), f32::NAN), Err(7));
        assert_eq!(line(Reading::Estimated(f32::NAN), f32::INFINITY), Err(12));
        assert_eq!(line(Reading::Measured(f32::NEG_INFINITY), f32::NAN), Err(13));
        assert_eq!(line(Reading::Measured(1.0), f32::NAN), Err(12));
        assert_eq!(line(Reading::Estimated(1.0), f32::NEG_INFINITY), Err(13));
        let forcing = Forcing { rain: 1_000, pan: 2_000, temperature: 20_000, estimated: true };
        assert_eq!(line(Reading::Estimated(1.0), 2.0), Ok(forcing));
    }

    /// Number and temperature.
    fn degrees(degrees: f32) -> (u64, i64) {
        let given = temperature(degrees);
        assert_eq!(given.place, 0);
        (given.number, given.temperature)
    }

    /// The temperature as the text has it. The number's exact value is digits / 2^down, below zero
    /// or not; thousandths are the greatest whole number at most 1,000 times it and a half.
    fn temperature_by_text(bits: u32) -> (u64, i64) {
        let exponent = bits >> 23 & 0xff;
        let fraction = i128::from(bits & 0x7f_ffff);
        if exponent >= 150 {
            // No number, infinite, or whole and at least 2^23.
            return (14, 0);
        }
        let (digits, down) = match exponent {
            0 => (fraction, 149),
            _ => (fraction | 1 << 23, 150 - exponent),
        };
        let digits = if bits >> 31 == 1 { -digits } else { digits };
        // 2,000 × digits is below 2^35, so at 2^100 and beyond the temperature is 0 alike.
        let one = 1i128 << down.min(100);
        if digits < -80 * one || digits > 60 * one {
            return (14, 0);
        }
        (0, (2_000 * digits + one).div_euclid(2 * one) as i64)
    }

    #[test]
    fn temperatures_are_the_texts() {
        let halves = (-81_000..=61_000).map(|k| ((f64::from(k) + 0.5) / 1_000.0) as f32);
        let near_halves = halves.flat_map(|half| beside(half.to_bits()));
        let spread = (0..1u32 << 20).map(|k| k.wrapping_mul(4_099));
        let near_exponents = (0..512u32).flat_map(|k| beside(k << 23));
        for bits in near_halves.chain(spread).chain(near_exponents) {
            let given = degrees(f32::from_bits(bits));
            assert_eq!(given, temperature_by_text(bits), "bits {bits:#x}");
        }
    }

    /// Odd sixteenths have halves, and no other number in the range has.
    #[test]
    fn halves_of_temperatures_go_up() {
        let mut halves = 0;
        for k in -16 * 80..=16 * 60i32 {
            let [below, at, above] = beside((k as f32 / 16.0).to_bits()).map(f32::from_bits);
            // Below zero the bits fall where the number grows.
            let (below, above) = if k < 0 { (above, below) } else { (below, above) };
            // A sixteenth is 62.5 thousandths.
            let twice = 125 * k;
            let up = i64::from(twice.div_euclid(2) + twice.rem_euclid(2));
            assert_eq!(degrees(at), (0, up), "{k} sixteenths");
            halves += twice.rem_euclid(2);
            if k != 0 && at > -80.0 && at < 60.0 {
                assert_eq!(degrees(below), (0, up - i64::from(twice.rem_euclid(2))));
                assert_eq!(degrees(above), (0, up));
            }
        }
        assert_eq!(halves, 8 * 140);
    }

    #[test]
    fn temperatures() {
        assert_eq!(degrees(0.0625), (0, 63));
        assert_eq!(degrees(-0.0625), (0, -62));
        assert_eq!(degrees(0.0), (0, 0));
        assert_eq!(degrees(-0.0), (0, 0));
        for smallest in [1, 0x007f_ffff, 0x0080_0000] {
            assert_eq!(degrees(f32::from_bits(smallest)), (0, 0));
            assert_eq!(degrees(f32::from_bits(1 << 31 | smallest)), (0, 0));
        }
        assert_eq!(degrees(-3.5), (0, -3_500));
        assert_eq!(degrees(-0.000_5), (0, -1));
        assert_eq!(degrees(0.000_5), (0, 1));
        assert_eq!(degrees(0.000_499), (0, 0));
        assert_eq!(degrees(-0.000_499), (0, 0));
    }

    #[test]
    fn temperatures_at_the_limits_and_a_bit_beyond() {
        let next = |number: f32, more: bool| {
            f32::from_bits(if more { number.to_bits() + 1 } else { number.to_bits() - 1 })
        };
        assert_eq!(degrees(60.0), (0, 60_000));
        assert_eq!(degrees(next(60.0, false)), (0, 60_000));
        assert_eq!(degrees(-80.0), (0, -80_000));
        assert_eq!(degrees(next(-80.0, false)), (0, -80_000));
        // They would round to the limits.
        assert_eq!(degrees(next(60.0, true)), (14, 0));
        assert_eq!(degrees(next(-80.0, true)), (14, 0));
        for number in [80.0, -80.5, 128.0, f32::MAX, f32::MIN] {
            assert_eq!(degrees(number), (14, 0));
        }
        for sign in [0, 1 << 31] {
            for bits in [0x7f80_0000, 0x7f80_0001, 0x7fbf_ffff, 0x7fc0_0000, 0x7fff_ffff] {
                assert_eq!(degrees(f32::from_bits(sign | bits)), (14, 0));
            }
        }
    }

    #[test]
    fn a_lines_temperature() {
        let line =
            |temperature| judge(&Line { rain: Reading::Measured(1.0), pan: 2.0, temperature });
        let forcing = Forcing { rain: 1_000, pan: 2_000, temperature: -62, estimated: false };
        assert_eq!(line(-0.0625), Ok(forcing));
        for temperature in [f32::NAN, f32::INFINITY, f32::NEG_INFINITY, -80.5, 60.5] {
            assert_eq!(line(temperature), Err(14));
        }
    }
}
