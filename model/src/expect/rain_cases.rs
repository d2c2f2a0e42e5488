//! `rain_cases`: of the answers to "which rain would do it?" what every right choice has in common.

use super::draft::numbers;
use super::draw::Draw;
use super::patterns::PATTERNS;
use super::places::{edges, with};
use super::plans::{loaded, ordinary, CHOICES, SHAPES};
use super::weather::{drawn_line, drawn_lines};
use crate::basin::Basin;
use crate::forcing::{depth, Kind};
use crate::rains::{Yields, RAINS};
use crate::record::{Record, CASE_A, GREATEST_SNOW, WAITING, WORDS};
use std::io::{self, Write};

pub fn print(out: &mut impl Write) -> io::Result<()> {
    dips(out)?;
    drawn(out)?;
    refusals(out)?;
    pans(out)?;
    outside(out)?;
    records(out)?;
    snow(out)
}

/// Number, place, whether the answer is none, and whether it has a rain, which then does.
fn told(yields: &Result<Yields, u64>, wanted: u64, out: &mut impl Write) -> io::Result<()> {
    let [number, none, does] = match yields {
        Err(number) => [*number, 0, 0],
        Ok(yields) if yields.iter().any(|&depth| depth >= wanted) => [0, 0, 1],
        Ok(_) => [0, 1, 0],
    };
    write!(out, " {number} 0 {none} {does}")
}

/// 7 mm yield 5 µm, and 8 mm 4.
fn dip() -> Basin {
    let mut basin = Basin { n: 1, ..Basin::default() };
    let a = Record::of_words(&CASE_A);
    basin.subs[0] = Record { um: 0, lm: 200_000, dm: 200_000, bn: 20, ..a };
    basin
}

/// What the first rains yield, and the first depths.
fn dips(out: &mut impl Write) -> io::Result<()> {
    for pan in [0.0, 2.5] {
        let yields = dip().yields(1, pan);
        let pan = depth(pan, Kind::Pan).depth;
        write!(out, "yields {pan}")?;
        for rain in 0..13 {
            write!(out, " {}", yields.expect("a good question")[rain])?;
        }
        writeln!(out)?;
        for wanted in 0..13 {
            write!(out, "dip {pan} {wanted}")?;
            told(&yields, wanted, out)?;
            writeln!(out)?;
        }
    }
    Ok(())
}

/// As loaded and after twelve steps, of every size, shape and choice.
fn drawn(out: &mut impl Write) -> io::Result<()> {
    let mut draw = Draw(1);
    for steps in [0, 12] {
        for (n, m) in [(1, 0), (2, 1), (7, 5), (32, 31)] {
            for (shape_name, shape) in SHAPES {
                for (choice_name, choice) in CHOICES {
                    let basin = loaded(choice, shape, n, m, &mut draw);
                    let basin = after(basin, steps, &mut draw);
                    write!(out, "{shape_name} {choice_name} {n} {m} {steps}")?;
                    depths(&basin, &mut draw, out)?;
                }
            }
        }
    }
    Ok(())
}

/// Steps in the weather of one spell, every second of it.
fn after(basin: Basin, steps: u64, draw: &mut Draw) -> Basin {
    let spell = draw.0 % 5 * 32;
    (0..steps).fold(basin, |basin, k| basin.step(&drawn_lines(spell + 2 * k, draw), basin.n).basin)
}

/// A drawn sub-basin under a drawn pan: the greatest depth that a rain yields, and the answers for 0, 1, that depth and one
/// more, the greatest number, a drawn one, and one more than a drawn rain yields.
fn depths(basin: &Basin, draw: &mut Draw, out: &mut impl Write) -> io::Result<()> {
    let (y, z) = (draw.next(), draw.next());
    let line = drawn_line(128, draw);
    let number = y % basin.n + 1;
    let pan = [0.0, 100.0, line.pan, line.pan][(y / 1_024 % 4) as usize];
    let yields = basin.yields(number, pan);
    let each = yields.expect("a good question");
    let greatest = each.into_iter().max().expect("some rain");
    let one_more = each[(y / 4_096) as usize % RAINS] + 1;
    write!(out, " {number} {} {greatest}", depth(pan, Kind::Pan).depth)?;
    for wanted in [0, 1, greatest, greatest + 1, u64::MAX, z % (greatest + 1_001), one_more] {
        told(&yields, wanted, out)?;
    }
    writeln!(out)
}

/// Three pans that are good, one that is no number, two infinite, one below zero and one above the limit.
const PANS: [f32; 8] =
    [0.0, -0.0, 100.0, f32::NAN, f32::INFINITY, f32::NEG_INFINITY, -0.25, 100.062_5];

/// Numbers and pans, good and bad.
fn refusals(out: &mut impl Write) -> io::Result<()> {
    let mut draw = Draw(1);
    let (_, chain) = SHAPES[0];
    for (n, m) in [(1, 0), (2, 1), (32, 31)] {
        for number in [0, 1, n, n + 1, 33, u64::MAX] {
            for (k, pan) in PANS.into_iter().enumerate() {
                let yields = loaded(ordinary, chain, n, m, &mut draw).yields(number, pan);
                write!(out, "asked {n} {number} {k}")?;
                told(&yields, 0, out)?;
                told(&yields, u64::MAX, out)?;
                writeln!(out)?;
            }
        }
    }
    Ok(())
}

/// Each pattern as the pan of a good question, of one with a bad sub-basin number, and of a basin with a bad area.
fn pans(out: &mut impl Write) -> io::Result<()> {
    let (_, chain) = SHAPES[0];
    let basin = loaded(ordinary, chain, 2, 1, &mut Draw(1));
    let outside = with(numbers(&basin), 2, 0);
    for pattern in PATTERNS {
        let pan = f32::from_bits(pattern);
        write!(out, "pattern {pattern}")?;
        for (basin, number) in [(&basin, 2), (&basin, 3), (&outside, 3)] {
            told(&basin.yields(number, pan), 0, out)?;
        }
        writeln!(out)?;
    }
    Ok(())
}

/// Numbers below their range, at both its ends and above: N and M; AREA, WU, VG, SN, the first amount in waiting and the channel
/// store of the first sub-basin, REACH of the second, AREA of the third, which is unused; next and content of the reach,
/// content of the last, unused. Each with a good question, with a bad sub-basin number, a bad pan, and both.
fn outside(out: &mut impl Write) -> io::Result<()> {
    let questions = [(2, 2), (3, 2), (2, 3), (2, 7), (0, 3), (33, 7)];
    let mut draw = Draw(1);
    let (_, chain) = SHAPES[0];
    for place in [0, 1, 2, 19, 24, 27, 28, 43, 60, 86, 1_348, 1_349, 1_469] {
        for edge in 0..4 {
            let basin = loaded(ordinary, chain, 2, 1, &mut draw);
            let changed = with(numbers(&basin), place, edges(&basin, place)[edge]);
            write!(out, "place {place} {edge}")?;
            for (number, pan) in questions {
                told(&changed.yields(number, PANS[pan]), 5_000, out)?;
            }
            writeln!(out)?;
        }
    }
    Ok(())
}

/// Records by themselves: every number at the edges of its range, then pan depths.
fn records(out: &mut impl Write) -> io::Result<()> {
    let mut draw = Draw(1);
    let (_, chain) = SHAPES[0];
    let fresh = loaded(ordinary, chain, 1, 0, &mut draw);
    let worn = after(fresh, 12, &mut draw);
    for place in 0..WORDS + WAITING + 1 {
        write!(out, "number {place}")?;
        for number in edges(&worn, 2 + place) {
            let changed = with(numbers(&worn), 2 + place, number).subs[0];
            told(&changed.yields(2_000), 5_000, out)?;
        }
        writeln!(out)?;
    }
    for pan in [0, 1, 99_999, 100_000, 100_001, u64::MAX] {
        write!(out, "pan {pan}")?;
        for basin in [fresh, worn, dip()] {
            let yields = basin.subs[0].yields(pan);
            for wanted in [0, 5, u64::MAX] {
                told(&yields, wanted, out)?;
            }
        }
        writeln!(out)?;
    }
    Ok(())
}

/// The snow words of a sub-basin: F, threshold and SN. Whatever they are, the answers are alike.
const SNOWS: [[u64; 3]; 6] = [
    [0, 0, 0],
    [0, 750, 26_000],
    [4_500, 750, 26_000],
    [20_000, 0, GREATEST_SNOW],
    [20_000, 10_000, 3_000_000],
    [20_000, 10_000, GREATEST_SNOW],
];

/// The second sub-basin of a basin and the one where more rain may yield less, each with every choice of snow words.
fn snow(out: &mut impl Write) -> io::Result<()> {
    let (_, chain) = SHAPES[0];
    let mut draw = Draw(1);
    let basin = after(loaded(ordinary, chain, 2, 1, &mut draw), 12, &mut draw);
    for (name, basin, number) in [("ordinary", basin, 2), ("dip", dip(), 1)] {
        for [f, threshold, sn] in SNOWS {
            let mut snowy = basin;
            let s = &mut snowy.subs[number - 1];
            *s = Record { f, threshold, sn, ..*s };
            let yields = snowy.yields(number as u64, 2.5);
            write!(out, "snow {name} {f} {threshold} {sn}")?;
            for rain in [2, 3, 60, 1_000] {
                write!(out, " {}", yields.expect("a good question")[rain])?;
            }
            for wanted in [0, 1, 5, 100_000, 1_000_000] {
                told(&yields, wanted, out)?;
            }
            writeln!(out)?;
        }
    }
    Ok(())
}

#[cfg(test)]
mod tests {
    use super::*;

    #[test]
    fn questions_are_of_every_kind() {
        let mut out = Vec::new();
        print(&mut out).unwrap();
        let printed = String::from_utf8(out).unwrap();
        for number in ["7", "8", "9", "10", "11", "12", "13"] {
            let refused = format!(" {number} 0 0 0");
            let met = printed.lines().filter(|line| line.ends_with(&refused)).count();
            assert!(met >= 2, "{number} met {met} times");
        }
        // Pan and greatest depth of the drawn ones.
        let drawn: Vec<[u64; 2]> = printed
            .lines()
            .map(|line| line.split(' ').collect::<Vec<&str>>())
            .filter(|words| words.len() == 36)
            .map(|words| [6, 7].map(|at| words[at].parse().unwrap()))
            .collect();
        assert_eq!(drawn.len(), 160);
        let met = |kind: fn(u64, u64) -> bool| {
            drawn.iter().filter(|&&[pan, greatest]| kind(pan, greatest)).count()
        };
        assert!(met(|pan, _| pan == 0) >= 20);
        assert!(met(|pan, _| pan == 100_000) >= 20);
        assert!(met(|pan, _| 1_000 < pan && pan < 100_000) >= 20);
        assert!(met(|_, greatest| greatest < 700_000) >= 10);
        assert!(met(|_, greatest| greatest == 1_000_000) >= 10);
    }
}
