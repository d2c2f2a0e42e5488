//! `week_speed`: a week in one call, by single steps, and by single steps with a lent table of roots.

use super::draft::numbers;
use super::draw::{Checksum, Draw};
use super::plans::{loaded, ordinary, SHAPES};
use super::weather::drawn_line;
use crate::forcing::Line;
use crate::week::listed;
use std::io::{self, Write};

/// N, M and the steps of a week; a measurement takes a hundred weeks.
pub const SIZES: [(u64, u64, u64); 2] = [(2, 1, 1_000), (32, 31, 63)];

/// The lines that all weeks repeat: of the last ordinary step, in which it does not freeze.
const DAYS: usize = 64;

pub fn print(out: &mut impl Write) -> io::Result<()> {
    let (_, chain) = SHAPES[0];
    for (n, m, steps) in SIZES {
        let mut draw = Draw(1);
        let basin = loaded(ordinary, chain, n, m, &mut draw);
        let days: Vec<Line> = (0..DAYS).map(|_| drawn_line(31, &mut draw)).collect();
        let lines: Vec<Line> = days.into_iter().cycle().take((n * steps) as usize).collect();
        let week = basin.week(&lines).basin;
        let steps = lines.chunks(n as usize);
        let singly = steps.fold(basin, |basin, lines| basin.step(&listed(lines), n).basin);
        for (way, reached) in [("week", week), ("steps", singly), ("lent", singly)] {
            let mut h = Checksum::default();
            h.fold(&numbers(&reached));
            writeln!(out, "{way} {n} {}", h.0)?;
        }
    }
    Ok(())
}
