//! `basin_series`: the step call.

use super::draft::{numbers, RECORD};
use super::draw::{Checksum, Draw};
use super::places::{brimming, damaged, edges, reach_place, with};
use super::plans::{loaded, ordinary, CHOICES, SHAPES};
use super::weather::{bad, drawn_lines, frost, lines_in, ordinary as course, CLIMATES, FAULTS};
use crate::basin::{Advanced, Basin};
use crate::forcing::{Line, Reading, MOST_LINES};
use crate::record::{CASE_A, GREATEST_SNOW};
use std::io::{self, Write};

pub fn print(out: &mut impl Write) -> io::Result<()> {
    case_a_lines(out)?;
    limits(out)?;
    snow(out)?;
    let mut draw = Draw(1);
    let mut k = 0;
    for (n, m) in [(32, 31), (7, 5), (1, 0), (2, 1), (32, 0), (1, 31)] {
        for (choice_name, choice) in CHOICES {
            for (shape_name, shape) in SHAPES {
                let mut basin = loaded(choice, shape, n, m, &mut draw);
                let h = series(&mut basin, &mut draw, 320, out)?;
                if k % 24 == 0 {
                    write!(out, "basin")?;
                    numbers(&basin).iter().try_for_each(|number| write!(out, " {number}"))?;
                    writeln!(out)?;
                }
                writeln!(out, "{shape_name} {choice_name} {n} {m} {h}")?;
                k += 1;
            }
        }
    }
    for (name, recession) in [("at once", Some(0)), ("brimming", None)] {
        for (shape_name, shape) in SHAPES {
            let (_, most) = CHOICES[2];
            let mut basin = brimming(loaded(most, shape, 32, 31, &mut draw), recession);
            let h = series(&mut basin, &mut draw, 80, out)?;
            writeln!(out, "{shape_name} {name} {h}")?;
        }
    }
    Ok(())
}

/// A step as the program prints it.
fn print_step(number: u64, given: &Advanced, out: &mut impl Write) -> io::Result<()> {
    if given.number > 0 {
        return writeln!(out, "{number} refused {} {}", given.number, given.place);
    }
    let r = given.report;
    let [rain, et, outlet, content] = [r.rain, r.evapotranspiration, r.outlet, r.content];
    writeln!(out, "{number} ok {rain} {et} {outlet} {content} {}", r.estimated)
}

fn case_a_lines(out: &mut impl Write) -> io::Result<()> {
    let (_, shape) = SHAPES[0];
    let mut basin = loaded(|place, _, _, _| CASE_A[place], shape, 1, 0, &mut Draw(1));
    let steps =
        [(Reading::Measured(135.0), 0.0), (Reading::Missing, 0.0), (Reading::Measured(0.0), 10.0)];
    for (number, (rain, pan)) in (1..).zip(steps) {
        let given = basin.step(&[Line { rain, pan, temperature: 0.0 }; MOST_LINES], 1);
        print_step(number, &given, out)?;
        basin = given.basin;
    }
    Ok(())
}

/// Every number of an answer.
fn fold(h: &mut Checksum, given: &Advanced) {
    fold_report(h, given);
    h.fold(&numbers(&given.basin));
}

/// All but the basin.
fn fold_report(h: &mut Checksum, given: &Advanced) {
    let r = given.report;
    h.fold(&[given.number, given.place]);
    h.fold(&[r.rain, r.evapotranspiration, r.outlet, r.content, r.estimated]);
}

/// Runs a series and gives its checksum. Every 16th step is astray, the series going on from the
/// basin before it, and every 72nd is printed.
fn series(basin: &mut Basin, draw: &mut Draw, count: u64, out: &mut impl Write) -> io::Result<u64> {
    let mut h = Checksum::default();
    for i in 0..count {
        let lines = drawn_lines(i, draw);
        if i % 16 == 7 {
            fold(&mut h, &astray(basin, lines, draw));
            continue;
        }
        let given = basin.step(&lines, basin.n);
        if i % 72 == 0 {
            print_step(i, &given, out)?;
        }
        fold(&mut h, &given);
        *basin = given.basin;
    }
    Ok(h.0)
}

/// A step with a wrong count, bad lines or a number of the basin outside its range.
fn astray(basin: &Basin, lines: [Line; MOST_LINES], draw: &mut Draw) -> Advanced {
    let n = basin.n;
    let fault = draw.0 % 28;
    let (x, y) = (draw.next(), draw.next());
    let wrong = |k: u64| [n + 1, n - 1, 0, 33, u64::MAX][k as usize];
    match fault {
        0..=4 => basin.step(&lines, wrong(fault)),
        5..=17 => basin.step(&with_bad(lines, n, fault - 5, x, y), n),
        18 => damaged(basin, x, y).step(&lines, wrong(y % 5)),
        19 => damaged(basin, x, y).step(&with_bad(lines, n, 0, x, y), n),
        _ => damaged(basin, x, y).step(&lines, n),
    }
}

/// Two bad lines among the first n and the one after them, round the end of the 32.
fn with_bad(
    mut lines: [Line; MOST_LINES],
    n: u64,
    fault: u64,
    x: u64,
    y: u64,
) -> [Line; MOST_LINES] {
    let place = |x: u64| (x % (n + 1)) as usize % MOST_LINES;
    let line = lines[place(x)];
    lines[place(x)] = bad(line, fault);
    lines[place(y)] = bad(line, y / 64 % FAULTS);
    lines
}

/// Winters that melt through the reaches, then decades of frost from the file's snow and from near to the mark.
fn snow(out: &mut impl Write) -> io::Result<()> {
    let mut draw = Draw(1);
    for (at, n, m) in [(0, 3, 2), (2, 7, 5)] {
        let (name, shape) = SHAPES[at];
        let mut basin = loaded(ordinary, shape, n, m, &mut draw);
        let h = year(&mut basin, &mut draw, out)?;
        writeln!(out, "year {name} {n} {m} {h}")?;
    }
    let (_, chain) = SHAPES[0];
    decades("from the file", loaded(ordinary, chain, 3, 2, &mut draw), &mut draw, out)?;
    let mut high = loaded(ordinary, chain, 3, 2, &mut draw);
    high.subs[..3].iter_mut().for_each(|s| s.sn = GREATEST_SNOW - 50_000_000);
    decades("to the mark", high, &mut draw, out)
}

/// The ordinary course from frost to thaw, six days for each of its steps; every twelfth is printed.
fn year(basin: &mut Basin, draw: &mut Draw, out: &mut impl Write) -> io::Result<u64> {
    let mut h = Checksum::default();
    for day in 0..192 {
        let given = basin.step(&lines_in(course, day / 6, draw), basin.n);
        if day % 12 == 0 {
            print_step(day, &given, out)?;
        }
        fold(&mut h, &given);
        *basin = given.basin;
    }
    Ok(h.0)
}

/// 11,000 days of frost, of which every thousandth and the last are printed, and ten hot ones.
fn decades(name: &str, mut basin: Basin, draw: &mut Draw, out: &mut impl Write) -> io::Result<()> {
    let (_, hot) = CLIMATES[1];
    let mut h = Checksum::default();
    for day in 0..11_010 {
        let climate = if day < 11_000 { frost } else { hot };
        let given = basin.step(&lines_in(climate, day, draw), basin.n);
        if day % 1_000 == 0 || day >= 10_999 {
            print_step(day, &given, out)?;
        }
        fold_report(&mut h, &given);
        basin = given.basin;
    }
    h.fold(&numbers(&basin));
    writeln!(out, "decades {name} {}", h.0)
}

/// Every number of a basin at the edges of its range, after 24 steps.
fn limits(out: &mut impl Write) -> io::Result<()> {
    let mut draw = Draw(1);
    let (_, chain) = SHAPES[0];
    let mut basin = loaded(ordinary, chain, 3, 2, &mut draw);
    series(&mut basin, &mut draw, 24, out)?;
    let mut h = Checksum::default();
    let all = numbers(&basin);
    for place in 0..all.len() {
        let mut refusals = Vec::new();
        for (which, number) in (0..).zip(edges(&basin, place)) {
            let lines = drawn_lines(which * 32, &mut draw);
            let given = with(all.clone(), place, number).step(&lines, basin.n);
            fold(&mut h, &given);
            refusals.push(given.number);
        }
        if is_shown(place) {
            write!(out, "place {place}")?;
            refusals.iter().try_for_each(|number| write!(out, " {number}"))?;
            writeln!(out)?;
        }
    }
    writeln!(out, "limits {}", h.0)
}

/// N, M, and of ten records and of ten reaches one.
fn is_shown(place: usize) -> bool {
    match reach_place(place) {
        Some((own, _)) => own % 10 == 2,
        None => place < 2 || (place - 2) / RECORD % 10 == 2,
    }
}
