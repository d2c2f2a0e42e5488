//! `rain_speed`: all 1,001 rains answered for, and a sub-basin call at 1,000 mm.

use super::draw::{Checksum, Draw};
use super::plans::{loaded, ordinary, SHAPES};
use crate::record::Record;
use crate::subbasin::{step, GREATEST_RAIN};
use std::io::{self, Write};

/// Sub-basins of a round; a measurement takes a hundred rounds.
pub const ROUND: u64 = 32;

pub const STATES: [&str; 5] = ["dry", "any", "wet", "large", "even"];

pub fn print(out: &mut impl Write) -> io::Result<()> {
    for state in STATES {
        writeln!(out, "call {state} {}", round(state, call))?;
        writeln!(out, "none {state} {}", round(state, none))?;
    }
    Ok(())
}

/// The checksum of the answers for every sub-basin, each with a WU that hangs on the ones before.
pub fn round(state: &str, answer: fn(&Record) -> [u64; 4]) -> u64 {
    let (_, chain) = SHAPES[0];
    let basin = loaded(ordinary, chain, ROUND, ROUND - 1, &mut Draw(1));
    let mut h = Checksum(1);
    for sub in basin.subs {
        let record = filled(sub, state, h.0);
        h.fold(&[record.wu]);
        h.fold(&answer(&record));
    }
    h.0
}

/// The record with contents near to none, as drawn but for WU, or near to full; near to none where all rain but a little
/// soaks in, and where all does that falls on the pervious part.
fn filled(s: Record, state: &str, h: u64) -> Record {
    let dry = Record { wu: h % 100, wl: 0, wd: 0, g: 0, ..s };
    let large = Record { um: 100_000, lm: 200_000, dm: 200_000, bn: 31, im: 0, ..dry };
    match state {
        "dry" => dry,
        "wet" => Record { wu: s.um - h % 100, wl: s.lm, wd: s.dm, g: s.sm, ..s },
        "large" => large,
        "even" => Record { bn: 16, im: 32_768, ..large },
        _ => Record { wu: h % (s.um + 1), ..s },
    }
}

/// At 10 °C, where no threshold makes snow of the rain.
fn call(s: &Record) -> [u64; 4] {
    let given = step(*s, GREATEST_RAIN, 0, 10_000);
    [given.number, given.flows.rb, given.flows.r, given.flows.q]
}

/// By 1,001 plain steps.
pub fn none(s: &Record) -> [u64; 4] {
    let yields = s.yields(0).expect("a good record");
    [0, 0, u64::from(yields.iter().all(|&depth| depth < u64::MAX)), 0]
}
