//! `forcing_cases`: the depth call, the temperature call and the reading of a step's lines.

use super::draw::{Checksum, Draw};
use super::patterns::{PATTERNS, TEMPERATURES};
use crate::files::bytes;
use crate::forcing::{depth, judge, temperature, Kind, Line, Reading, MOST_LINES};
use crate::program;
use std::io::{self, Write};

pub fn print(out: &mut impl Write) -> io::Result<()> {
    RAIN.depths(1_000_000, out)?;
    PAN.depths(100_000, out)?;
    TEMPERATURE.temperatures(out)?;
    lines_of_patterns(out)?;
    lines_of_temperatures(out)?;
    combinations(out)?;
    faults(out)?;
    pairs(out)?;
    counts(out)?;
    any(out)?;
    lines_of_bytes(out)
}

/// Zeros, the least normals, infinities, a NaN, both limits, powers of 2 and two halves.
#[rustfmt::skip]
const CENTRES: [u32; 20] = [
    0x0000_0000, 0x8000_0000, 0x0080_0000, 0x8080_0000, 0x7f80_0000, 0xff80_0000, 0x7fc0_0000,
    0x447a_0000, 0xc47a_0000, 0x42c8_0000, 0xc2c8_0000, 0x3980_0000, 0x3a00_0000, 0x3d80_0000,
    0x3e40_0000, 0x3f80_0000, 0x4300_0000, 0x4480_0000, 0x4b00_0000, 0x5f00_0000,
];

#[rustfmt::skip]
const HALVES: [u32; 20] = [
    0, 1, 2, 62, 187, 499, 500, 999, 9_999, 65_535, 99_998, 99_999, 100_000, 134_999, 262_143,
    524_287, 999_937, 999_998, 999_999, 1_000_000,
];

/// Zeros, the least normals, infinities, a NaN, both limits with either sign, powers of 2.
#[rustfmt::skip]
const DEGREES: [u32; 20] = [
    0x0000_0000, 0x8000_0000, 0x0080_0000, 0x8080_0000, 0x7f80_0000, 0xff80_0000, 0xffc0_0000,
    0x4270_0000, 0xc270_0000, 0x42a0_0000, 0xc2a0_0000, 0x3a00_0000, 0xba00_0000, 0x3f80_0000,
    0xbf80_0000, 0x4280_0000, 0xc280_0000, 0xc300_0000, 0xcb00_0000, 0xdf00_0000,
];

/// Of temperatures; those of 62, 187, 312, 9,937, 59,937 and 79,937 are numbers themselves.
#[rustfmt::skip]
const HALF_DEGREES: [u32; 14] = [
    0, 1, 62, 187, 312, 999, 9_937, 31_999, 59_937, 59_999, 60_000, 79_937, 79_999, 80_000,
];

/// Calls on numbers that are said to be one thing. A call gives number, place and value.
struct Said {
    name: &'static str,
    call: fn(f32) -> (u64, u64, i64),
}

const RAIN: Said = Said { name: "rain", call: |number| of_depth(number, Kind::Rain) };
const PAN: Said = Said { name: "pan", call: |number| of_depth(number, Kind::Pan) };
const TEMPERATURE: Said = Said {
    name: "temperature",
    call: |number| {
        let given = temperature(number);
        (given.number, given.place, given.temperature)
    },
};

fn of_depth(number: f32, kind: Kind) -> (u64, u64, i64) {
    let given = depth(number, kind);
    (given.number, given.place, given.depth as i64)
}

const ALL: fn(usize) -> bool = |_| true;
const NONE: fn(usize) -> bool = |_| false;
const SOME: fn(usize) -> bool = |i| i % 5_000 == 0;

impl Said {
    /// The limit in µm.
    fn depths(&self, limit: u32, out: &mut impl Write) -> io::Result<()> {
        self.series("patterns", PATTERNS.into_iter(), ALL, out)?;
        self.series("centres", CENTRES.into_iter().flat_map(beside), ALL, out)?;
        self.series("halves", HALVES.into_iter().flat_map(around_half), ALL, out)?;
        self.series("every half", (0..=limit).flat_map(around_half), NONE, out)?;
        self.series("every exponent", every_exponent(), NONE, out)?;
        self.series("any", drawn(anything), SOME, out)?;
        let near = |[x, y]: [u64; 2]| (100 + x % 38) << 23 | y % (1 << 23);
        self.series("near", drawn(near), SOME, out)
    }

    fn temperatures(&self, out: &mut impl Write) -> io::Result<()> {
        self.series("patterns", PATTERNS.into_iter().chain(TEMPERATURES), ALL, out)?;
        self.series("centres", DEGREES.into_iter().flat_map(beside), ALL, out)?;
        self.series("halves", HALF_DEGREES.into_iter().flat_map(around_both_halves), ALL, out)?;
        self.series("every half", (0..=80_000).flat_map(around_both_halves), NONE, out)?;
        let sixteenths = (0..=16 * 81).flat_map(|k| both(f64::from(k) as f32 / 16.0));
        self.series("every sixteenth", sixteenths.flat_map(beside), NONE, out)?;
        // As far as what would round to a limit, and farther.
        let beyond = |limit: f32| (1..=140).map(move |more| limit.to_bits() + more);
        self.series("beyond", [60.0, -80.0].into_iter().flat_map(beyond), NONE, out)?;
        self.series("every exponent", every_exponent(), NONE, out)?;
        self.series("any", drawn(anything), SOME, out)?;
        let near = |[x, y]: [u64; 2]| x / 22 % 2 << 31 | (112 + x % 22) << 23 | y % (1 << 23);
        self.series("near", drawn(near), SOME, out)?;
        self.series("inside", drawn(degrees), SOME, out)
    }

    /// The checksum over a series, after the calls that are shown. A value below zero counts there
    /// as 2^64 more.
    fn series(
        &self,
        series: &str,
        patterns: impl Iterator<Item = u32>,
        shown: fn(usize) -> bool,
        out: &mut impl Write,
    ) -> io::Result<()> {
        let name = self.name;
        let mut h = Checksum::default();
        for (i, pattern) in patterns.enumerate() {
            let (number, place, value) = (self.call)(f32::from_bits(pattern));
            if shown(i) {
                writeln!(out, "{name} {pattern} {number} {place} {value}")?;
            }
            h.fold(&[number, place, value as u64]);
        }
        writeln!(out, "{name} {series} {}", h.0)
    }
}

fn beside(pattern: u32) -> [u32; 3] {
    [pattern.wrapping_sub(1), pattern, pattern.wrapping_add(1)]
}

/// The greatest number at most k + 0.5 µm, and the numbers beside it.
fn around_half(k: u32) -> [u32; 3] {
    let twice = f64::from(2 * k + 1);
    let nearest = (twice / 2_000.0) as f32;
    // A single-precision number times 2,000 is exact here.
    let above = f64::from(nearest) * 2_000.0 > twice;
    beside(nearest.to_bits() - u32::from(above))
}

/// The same of thousandths of a degree, above zero and then below.
fn around_both_halves(k: u32) -> [u32; 6] {
    let [a, b, c] = around_half(k);
    [a, b, c, a | 1 << 31, b | 1 << 31, c | 1 << 31]
}

fn both(number: f32) -> [u32; 2] {
    [number.to_bits(), (-number).to_bits()]
}

/// The sign changes fastest, then the exponent.
fn every_exponent() -> impl Iterator<Item = u32> {
    (0..2_048).map(|i| {
        let fraction = [0, 1, 0x40_0000, 0x7f_ffff][i / 512];
        (i as u32 % 2) << 31 | (i as u32 / 2 % 256) << 23 | fraction
    })
}

fn drawn(pattern: fn([u64; 2]) -> u64) -> impl Iterator<Item = u32> {
    let mut draw = Draw(1);
    (0..100_000).map(move |_| pattern([draw.next(), draw.next()]) as u32)
}

/// Any bits.
fn anything([x, y]: [u64; 2]) -> u64 {
    (x % 65_536) << 16 | y % 65_536
}

/// From 2^-15 of a degree to the limit, above zero or below.
fn degrees([x, y]: [u64; 2]) -> u64 {
    match x % 2 {
        0 => up_to(60.0, y),
        _ => 1 << 31 | up_to(80.0, y),
    }
}

/// From 2^-15 to a limit.
fn up_to(limit: f32, x: u64) -> u64 {
    const LEAST: u64 = 0x3800_0000;
    LEAST + x % (u64::from(limit.to_bits()) - LEAST + 1)
}

/// Number, place and estimated lines, then 32 rain depths, 32 pan depths and 32 temperatures, of which one below zero has 2^64 more.
type Read = [u64; 3 + 3 * MOST_LINES];

/// Lines 1..n, judged; a line past the 32nd is missing.
fn read(lines: &[Line; MOST_LINES], count: u64, n: u64) -> Read {
    let refused = |number, place| {
        let mut numbers = [0; 3 + 3 * MOST_LINES];
        numbers[..2].copy_from_slice(&[number, place]);
        numbers
    };
    if count != n {
        return refused(5, 0);
    }
    let mut numbers = refused(0, 0);
    for place in 1..=n {
        let at = place as usize - 1;
        match lines.get(at).map_or(Err(6), judge) {
            Err(number) => return refused(number, place),
            Ok(line) => {
                numbers[2] += u64::from(line.estimated);
                numbers[3 + at] = line.rain;
                numbers[3 + MOST_LINES + at] = line.pan;
                numbers[3 + 2 * MOST_LINES + at] = line.temperature as u64;
            }
        }
    }
    numbers
}

const ONE: u32 = 0x3f80_0000;
const NAN: u32 = 0x7fc0_0000;
const INFINITE: u32 = 0x7f80_0000;
const MINUS_INFINITE: u32 = 0xff80_0000;
const BELOW_ZERO: u32 = 0x8000_0001;
const FAR_BELOW: u32 = 0xff7f_ffff;
const FAR_ABOVE: u32 = 0x7f7f_ffff;
const MINUS_ZERO: u32 = 0x8000_0000;
const RAIN_LIMIT: u32 = 0x447a_0000;
const PAN_LIMIT: u32 = 0x42c8_0000;
const COLDEST: u32 = 0xc2a0_0000;
const HOTTEST: u32 = 0x4270_0000;

/// Kind, rain, pan and temperature.
type Words = (u32, u32, u32, u32);

/// Bad rain, bad pan, both, a bad temperature by itself and beside the others, and at the end three good lines.
const LINES: [Words; 36] = [
    (0, ONE, ONE, ONE),
    (1, NAN, ONE, ONE),
    (2, NAN, ONE, ONE),
    (1, INFINITE, ONE, ONE),
    (2, MINUS_INFINITE, ONE, ONE),
    (1, BELOW_ZERO, ONE, ONE),
    (2, FAR_BELOW, ONE, ONE),
    (1, RAIN_LIMIT + 1, ONE, ONE),
    (2, FAR_ABOVE, ONE, ONE),
    (1, ONE, NAN, ONE),
    (2, ONE, INFINITE, ONE),
    (1, ONE, MINUS_INFINITE, ONE),
    (2, ONE, BELOW_ZERO, ONE),
    (1, ONE, FAR_BELOW, ONE),
    (2, ONE, PAN_LIMIT + 1, ONE),
    (1, ONE, FAR_ABOVE, ONE),
    (0, ONE, NAN, ONE),
    (0, RAIN_LIMIT + 1, PAN_LIMIT + 1, ONE),
    (1, RAIN_LIMIT + 1, NAN, ONE),
    (2, NAN, PAN_LIMIT + 1, ONE),
    (1, MINUS_INFINITE, MINUS_INFINITE, ONE),
    (2, RAIN_LIMIT + 1, PAN_LIMIT + 1, ONE),
    (1, ONE, ONE, NAN),
    (2, ONE, ONE, INFINITE),
    (1, ONE, ONE, MINUS_INFINITE),
    (2, ONE, ONE, COLDEST + 1),
    (1, ONE, ONE, HOTTEST + 1),
    (2, ONE, ONE, FAR_BELOW),
    (1, ONE, ONE, FAR_ABOVE),
    (0, ONE, ONE, NAN),
    (1, RAIN_LIMIT + 1, ONE, COLDEST + 1),
    (2, ONE, BELOW_ZERO, HOTTEST + 1),
    (1, NAN, PAN_LIMIT + 1, MINUS_INFINITE),
    (2, MINUS_ZERO, MINUS_ZERO, MINUS_ZERO),
    (1, RAIN_LIMIT, PAN_LIMIT, HOTTEST),
    (2, ONE, ONE, COLDEST),
];

fn line((kind, rain, pan, temperature): Words) -> Line {
    let depth = f32::from_bits(rain);
    let rain = match kind {
        1 => Reading::Measured(depth),
        2 => Reading::Estimated(depth),
        _ => Reading::Missing,
    };
    Line { rain, pan: f32::from_bits(pan), temperature: f32::from_bits(temperature) }
}

/// A second line whose rain is each pattern, measured and estimated, or missing: the numbers with each pattern as its pan.
fn lines_of_patterns(out: &mut impl Write) -> io::Result<()> {
    let mut h = Checksum::default();
    let missing = (0, PATTERNS[0]);
    for (kind, rain) in
        [1, 2].into_iter().flat_map(|kind| PATTERNS.map(|rain| (kind, rain))).chain([missing])
    {
        write!(out, "line {kind} {rain}")?;
        for pan in PATTERNS {
            second((kind, rain, pan, ONE), &mut h, out)?;
        }
        writeln!(out)?;
    }
    writeln!(out, "lines {}", h.0)
}

/// A second line with good and bad rain and pan: the numbers with each pattern as its temperature.
fn lines_of_temperatures(out: &mut impl Write) -> io::Result<()> {
    let mut h = Checksum::default();
    for (kind, rain, pan) in [
        (1, ONE, ONE),
        (2, RAIN_LIMIT, PAN_LIMIT),
        (0, ONE, ONE),
        (1, NAN, ONE),
        (2, BELOW_ZERO, ONE),
        (1, ONE, INFINITE),
        (2, ONE, PAN_LIMIT + 1),
        (1, RAIN_LIMIT + 1, BELOW_ZERO),
    ] {
        write!(out, "degrees {kind} {rain} {pan}")?;
        for temperature in PATTERNS.into_iter().chain(TEMPERATURES) {
            second((kind, rain, pan, temperature), &mut h, out)?;
        }
        writeln!(out)?;
    }
    writeln!(out, "degrees {}", h.0)
}

/// The number with a second line of three.
fn second(words: Words, h: &mut Checksum, out: &mut impl Write) -> io::Result<()> {
    let mut lines = good();
    lines[1] = line(words);
    let answer = read(&lines, 3, 3);
    h.fold(&answer);
    write!(out, " {}", answer[0])
}

/// Rain, pan and temperature, each good or bad in every way, at each place: the numbers of the second line, with each temperature.
fn combinations(out: &mut impl Write) -> io::Result<()> {
    const RAINS: [(u32, u32); 7] = [
        (1, ONE),
        (2, ONE),
        (0, ONE),
        (1, NAN),
        (2, INFINITE),
        (1, BELOW_ZERO),
        (2, RAIN_LIMIT + 1),
    ];
    const PANS: [u32; 5] = [ONE, NAN, MINUS_INFINITE, BELOW_ZERO, PAN_LIMIT + 1];
    const DEGREES: [u32; 6] = [ONE, NAN, INFINITE, MINUS_INFINITE, COLDEST + 1, HOTTEST + 1];
    let mut h = Checksum::default();
    for (i, (kind, rain)) in RAINS.into_iter().enumerate() {
        for (j, pan) in PANS.into_iter().enumerate() {
            write!(out, "combination {i} {j}")?;
            for temperature in DEGREES {
                for at in 0..MOST_LINES {
                    let mut lines = good();
                    lines[at] = line((kind, rain, pan, temperature));
                    let answer = read(&lines, 32, 32);
                    h.fold(&answer);
                    if at == 1 {
                        write!(out, " {}", answer[0])?;
                    }
                }
            }
            writeln!(out)?;
        }
    }
    writeln!(out, "combinations {}", h.0)
}

/// Good lines, all different; every other temperature is below zero.
fn good() -> [Line; MOST_LINES] {
    const SIXTEENTH: u32 = 0x3d80_0000;
    std::array::from_fn(|at| {
        let k = at as u32;
        let kind = if k % 3 == 2 { 2 } else { 1 };
        let temperature = (k % 2) << 31 | (SIXTEENTH + k * 2_600_000);
        line((kind, SIXTEENTH + k * 3_400_000, SIXTEENTH + (31 - k) * 2_700_000, temperature))
    })
}

/// Each line of the table at each place: among 32 lines, as the last and past the last.
fn faults(out: &mut impl Write) -> io::Result<()> {
    let mut h = Checksum::default();
    for (row, words) in LINES.into_iter().enumerate() {
        for at in 0..MOST_LINES {
            let mut lines = good();
            lines[at] = line(words);
            let n = at as u64;
            let answers = [32, n + 1, n].map(|n| read(&lines, n, n));
            answers.iter().for_each(|answer| h.fold(answer));
            if at % 10 == 1 {
                write!(out, "fault {row} {at}")?;
                answers.iter().try_for_each(|answer| row_of(&answer[..3], out))?;
                writeln!(out)?;
            }
        }
    }
    writeln!(out, "faults {}", h.0)
}

fn row_of(numbers: &[u64], out: &mut impl Write) -> io::Result<()> {
    numbers.iter().try_for_each(|number| write!(out, " {number}"))
}

/// Two lines of the table, the second seven lines after the first, round the end.
fn pairs(out: &mut impl Write) -> io::Result<()> {
    let mut h = Checksum::default();
    for at in 0..MOST_LINES {
        for second in LINES {
            for first in LINES {
                let mut lines = good();
                lines[at] = line(first);
                lines[(at + 7) % MOST_LINES] = line(second);
                h.fold(&read(&lines, 32, 32));
            }
        }
    }
    writeln!(out, "pairs {}", h.0)
}

/// N with counts, the second line good and then missing.
fn counts(out: &mut impl Write) -> io::Result<()> {
    const COUNTS: [u64; 10] = [0, 1, 2, 16, 31, 32, 33, 34, (1 << 32) + 32, u64::MAX];
    let mut h = Checksum::default();
    let mut lines = good();
    for second in [lines[1], line(LINES[0])] {
        lines[1] = second;
        for count in COUNTS {
            for n in COUNTS {
                let answer = read(&lines, count, n);
                write!(out, "count {n} {count}")?;
                row_of(&answer[..3], out)?;
                writeln!(out)?;
                h.fold(&answer);
            }
        }
    }
    writeln!(out, "counts {}", h.0)
}

/// Drawn lines and N, now and then a drawn count.
fn any(out: &mut impl Write) -> io::Result<()> {
    let mut draw = Draw(1);
    let mut h = Checksum::default();
    for i in 0..20_000 {
        let n = draw.next() % 34;
        let y = draw.next();
        let count = if y % 16 == 0 { y / 16 % 40 } else { n };
        let lines = std::array::from_fn(|_| any_line(&mut draw));
        let answer = read(&lines, count, n);
        if i % 2_500 == 0 {
            write!(out, "read {n} {count}")?;
            write_read(&answer, out)?;
        }
        h.fold(&answer);
    }
    writeln!(out, "any {}", h.0)
}

/// The whole answer.
fn write_read(answer: &Read, out: &mut impl Write) -> io::Result<()> {
    let (depths, temperatures) = answer.split_at(3 + 2 * MOST_LINES);
    row_of(depths, out)?;
    temperatures.iter().try_for_each(|&temperature| write!(out, " {}", temperature as i64))?;
    writeln!(out)
}

/// One of 64 from the table, the others drawn.
fn any_line(draw: &mut Draw) -> Line {
    let draws: [u64; 4] = std::array::from_fn(|_| draw.next());
    line(match draws[0] % 64 {
        0 => LINES[draws[1] as usize % LINES.len()],
        _ => any_words(draws),
    })
}

/// From 2^-15 to the limits.
fn any_words([x, y, z, t]: [u64; 4]) -> Words {
    let [rain, pan, temperature] =
        [up_to(1_000.0, y), up_to(100.0, z), degrees([x / 128, t])].map(|word| word as u32);
    (1 + (x / 64 % 2) as u32, rain, pan, temperature)
}

/// Lines of 512 bytes: drawn words, of one line in 64 one that is any. The first N are taken from their own bytes and from all.
fn lines_of_bytes(out: &mut impl Write) -> io::Result<()> {
    let mut draw = Draw(1);
    let mut h = Checksum::default();
    for i in 0..2_000 {
        let n = draw.next() % 33;
        let words = std::array::from_fn::<_, MOST_LINES, _>(|_| {
            let draws: [u64; 4] = std::array::from_fn(|_| draw.next());
            let (kind, rain, pan, temperature) = any_words(draws);
            let mut words = [kind, rain, pan, temperature];
            if draws[0] % 64 == 0 {
                words[draws[0] as usize / 64 % 4] = anything([draws[1], draws[2]]) as u32;
            }
            words
        });
        let bytes = bytes(words.into_iter().flatten());
        let (sixteens, _) = bytes.as_chunks();
        let lines = std::array::from_fn(|at| program::line(&sixteens[at]));
        let answer = read(&lines, n, n);
        if i % 250 == 0 {
            write!(out, "bytes {n}")?;
            write_read(&answer, out)?;
        }
        (0..2).for_each(|_| h.fold(&answer));
    }
    writeln!(out, "bytes {}", h.0)
}
