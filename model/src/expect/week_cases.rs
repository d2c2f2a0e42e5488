//! `week_cases`: the week call, and every week again by single steps.

use super::draft::numbers;
use super::draw::{Checksum, Draw};
use super::places::{brimming, damaged, edges, with};
use super::plans::{loaded, ordinary, CHOICES, SHAPES};
use super::weather::{bad, drawn_line, line_in, ordinary as course, FAULTS};
use crate::basin::Basin;
use crate::forcing::{Line, Reading};
use crate::record::CASE_A;
use crate::week::{listed, Ran, MOST_STEPS};
use std::io::{self, Write};

pub fn print(out: &mut impl Write) -> io::Result<()> {
    case_a(out)?;
    lengths(out)?;
    bad_lines(out)?;
    snow(out)?;
    outside(out)?;
    brimming_basins(out)?;
    mixed(out)
}

/// The lines that the program has room for; a list is the first of them.
const ROOM: usize = 2_048;

/// The first lines drawn, 32 in the weather of each spell; those past them are bad.
fn drawn(count: usize, draw: &mut Draw) -> Vec<Line> {
    let from = draw.0 % 160;
    let mut lines: Vec<Line> = (0..count as u64).map(|k| drawn_line(from + k, draw)).collect();
    lines.resize(ROOM, Line { rain: Reading::Missing, pan: 0.0, temperature: 0.0 });
    lines
}

/// A week's steps one by one. A step that is handed a list of another length than N judges the basin alone.
fn singly(basin: Basin, lines: &[Line]) -> Ran {
    let judged = basin.step(&listed(&[]), basin.n % 33 + 1).number;
    let mut ran = Ran::none(basin);
    if judged == 9 {
        ran.number = 9;
        return ran;
    }
    let steps = lines.chunks(basin.n as usize);
    if steps.len() > MOST_STEPS || steps.clone().any(|step| step.len() as u64 != basin.n) {
        ran.number = judged;
        return ran;
    }
    ran.take(steps);
    ran
}

/// Both checksums: of what weeks hand back, and of what the same steps do singly.
#[derive(Default)]
struct Both {
    weeks: Checksum,
    singly: Checksum,
}

impl Both {
    /// A week, printed to end a line, and by single steps.
    fn week(&mut self, basin: &Basin, lines: &[Line], out: &mut impl Write) -> io::Result<Ran> {
        let ran = basin.week(lines);
        fold(&mut self.weeks, &ran);
        fold(&mut self.singly, &singly(*basin, lines));
        print_ran(&ran, out)?;
        Ok(ran)
    }

    fn print(&self, out: &mut impl Write) -> io::Result<()> {
        let (h, g) = (self.weeks.0, self.singly.0);
        writeln!(out, " {h} {g} {}", if h == g { "same" } else { "not the same" })
    }
}

fn told(ran: &Ran) -> [u64; 8] {
    let r = ran.report;
    let [rain, et, outlet, content] = [r.rain, r.evapotranspiration, r.outlet, r.content];
    [ran.number, ran.place, ran.count, rain, et, outlet, content, r.estimated]
}

fn fold(h: &mut Checksum, ran: &Ran) {
    h.fold(&told(ran));
    h.fold(&numbers(&ran.basin));
}

fn print_ran(ran: &Ran, out: &mut impl Write) -> io::Result<()> {
    let mut h = Checksum::default();
    h.fold(&numbers(&ran.basin));
    told(ran).iter().try_for_each(|number| write!(out, " {number}"))?;
    writeln!(out, " {}", h.0)
}

/// Its three steps as one week, which stops at the second.
fn case_a(out: &mut impl Write) -> io::Result<()> {
    let (_, chain) = SHAPES[0];
    let basin = loaded(|place, _, _, _| CASE_A[place], chain, 1, 0, &mut Draw(1));
    let measured = |rain, pan| Line { rain: Reading::Measured(rain), pan, temperature: 0.0 };
    let missing = Line { rain: Reading::Missing, pan: 0.0, temperature: 0.0 };
    let mut both = Both::default();
    write!(out, "case A")?;
    both.week(&basin, &[measured(135.0, 0.0), missing, measured(0.0, 10.0)], out)?;
    write!(out, "case A")?;
    both.print(out)
}

/// Whole steps, a line more and a line less, and more than 1,000 steps.
fn lengths(out: &mut impl Write) -> io::Result<()> {
    let rows: [(u64, u64, &[usize]); 3] = [
        (1, 0, &[0, 1, 2, 6, 7, 8, 999, 1_000, 1_001, 2_047, 2_048]),
        (2, 1, &[0, 1, 2, 3, 13, 14, 15, 1_999, 2_000, 2_001, 2_002]),
        (32, 31, &[0, 31, 32, 33, 223, 224, 225, 2_015, 2_016, 2_017, 2_048]),
    ];
    let mut both = Both::default();
    let mut draw = Draw(1);
    let (_, chain) = SHAPES[0];
    for (n, m, lengths) in rows {
        for &long in lengths {
            let basin = loaded(ordinary, chain, n, m, &mut draw);
            let lines = drawn(long, &mut draw);
            write!(out, "list {n} {m} {long}")?;
            both.week(&basin, &lines[..long], out)?;
        }
    }
    write!(out, "lists")?;
    both.print(out)
}

/// Each fault in the first, the middle and the last of five steps, in its first and its last line.
fn bad_lines(out: &mut impl Write) -> io::Result<()> {
    let mut both = Both::default();
    let mut draw = Draw(1);
    let (_, chain) = SHAPES[0];
    for fault in 0..FAULTS {
        for step in [1, 3, 5] {
            for line in [1, 3] {
                let basin = loaded(ordinary, chain, 3, 2, &mut draw);
                let mut lines = drawn(15, &mut draw);
                let at = 3 * (step - 1) + line - 1;
                lines[at] = bad(lines[at], fault);
                write!(out, "bad line {fault} {step} {line}")?;
                both.week(&basin, &lines[..15], out)?;
            }
        }
    }
    write!(out, "bad lines")?;
    both.print(out)
}

/// Three weeks from frost to thaw, each on the basin that the one before hands back, and after each the same with a bad
/// temperature in the last line of its fourth step.
fn snow(out: &mut impl Write) -> io::Result<()> {
    let mut both = Both::default();
    let mut draw = Draw(1);
    let (_, chain) = SHAPES[0];
    for (n, m) in [(1, 0), (2, 1), (7, 5), (32, 31)] {
        let mut basin = loaded(ordinary, chain, n, m, &mut draw);
        for week in 0..3 {
            let mut lines = Vec::new();
            for day in 0..7 {
                lines.extend((0..n).map(|_| line_in(course, 4 + 7 * week + day, &mut draw)));
            }
            write!(out, "snow {n} {m} {week}")?;
            let ran = both.week(&basin, &lines, out)?;
            let at = 4 * n as usize - 1;
            lines[at] = bad(lines[at], 9 + week);
            write!(out, "cut short {n} {m} {week}")?;
            both.week(&basin, &lines, out)?;
            basin = ran.basin;
        }
    }
    write!(out, "snow")?;
    both.print(out)
}

/// Numbers below their range, at both its ends and above: N and M; AREA, VG, SN and the channel store of the first sub-basin,
/// REACH of the second, AREA of the third, which is unused; next and content of the reach, content of the last, unused.
fn outside(out: &mut impl Write) -> io::Result<()> {
    let mut both = Both::default();
    let mut draw = Draw(1);
    let (_, chain) = SHAPES[0];
    for place in [0, 1, 2, 24, 27, 43, 60, 86, 1_348, 1_349, 1_469] {
        for edge in 0..4 {
            for long in [0, 14, 15, 2_002] {
                let basin = loaded(ordinary, chain, 2, 1, &mut draw);
                let lines = drawn(long, &mut draw);
                let changed = with(numbers(&basin), place, edges(&basin, place)[edge]);
                write!(out, "place {place} {edge} {long}")?;
                both.week(&changed, &lines[..long], out)?;
            }
        }
    }
    write!(out, "places")?;
    both.print(out)
}

/// Where not all flows at once, the first step leaves stores above their limits, and the next gets 9. Then an empty list
/// for the basin handed back.
fn brimming_basins(out: &mut impl Write) -> io::Result<()> {
    let mut both = Both::default();
    let mut draw = Draw(1);
    let (_, most) = CHOICES[2];
    for (name, recession) in [("at once", Some(0)), ("brimming", None)] {
        for (shape_name, shape) in SHAPES {
            let basin = brimming(loaded(most, shape, 32, 31, &mut draw), recession);
            for long in [0, 32, 33, 64, 224] {
                let lines = drawn(long, &mut draw);
                write!(out, "{shape_name} {name} {long}")?;
                let ran = both.week(&basin, &lines[..long], out)?;
                write!(out, "{shape_name} {name} 0")?;
                both.week(&ran.basin, &[], out)?;
            }
        }
    }
    write!(out, "brimming")?;
    both.print(out)
}

/// Lists that mix weeks with single steps, on basins of every size and shape.
fn mixed(out: &mut impl Write) -> io::Result<()> {
    let sizes = [(32, 31), (7, 5), (1, 0), (2, 1), (32, 0), (1, 31)];
    let mut draw = Draw(1);
    let mut k = 0;
    for (n, m) in sizes {
        for (shape_name, shape) in SHAPES {
            let (choice_name, choice) = CHOICES[k % 5];
            let mut list = Mixed::new(loaded(choice, shape, n, m, &mut draw));
            for i in 0..64 {
                list.entry(i, &mut draw, out)?;
            }
            write!(out, "{shape_name} {choice_name} {n} {m} {}", list.taken)?;
            list.both.print(out)?;
            k += 1;
        }
    }
    Ok(())
}

/// The basin that takes the calls, the one that takes every step singly, and how many steps were accepted.
struct Mixed {
    basin: Basin,
    beside: Basin,
    both: Both,
    taken: u64,
}

impl Mixed {
    fn new(basin: Basin) -> Mixed {
        Mixed { basin, beside: basin, both: Both::default(), taken: 0 }
    }

    /// Of eight entries two are single steps, and one is a week on a basin with one number outside its range, after which the
    /// list goes on from the basin before. Every eighth is printed, but for these.
    fn entry(&mut self, i: usize, draw: &mut Draw, out: &mut impl Write) -> io::Result<()> {
        let n = self.basin.n;
        let (y, z) = (draw.next(), draw.next());
        let long = if y % 8 < 2 { n as usize } else { length(n, y / 8, z) };
        let lines = spoiled(drawn(long, draw), long, y, z);
        let lines = &lines[..long];
        if y % 8 == 2 {
            fold(&mut self.both.weeks, &damaged(&self.basin, y, z).week(lines));
            fold(&mut self.both.singly, &singly(damaged(&self.beside, y, z), lines));
            return Ok(());
        }
        let ran = if y % 8 < 2 { one(self.basin, lines) } else { self.basin.week(lines) };
        let beside = singly(self.beside, lines);
        if i % 8 == 0 {
            write!(out, "{i} {long}")?;
            print_ran(&ran, out)?;
        }
        fold(&mut self.both.weeks, &ran);
        fold(&mut self.both.singly, &beside);
        (self.basin, self.beside) = (ran.basin, beside.basin);
        self.taken += ran.count;
        Ok(())
    }
}

/// A single step.
fn one(basin: Basin, lines: &[Line]) -> Ran {
    let mut ran = Ran::none(basin);
    ran.take(std::iter::once(lines));
    ran
}

/// Of 0 to 8 steps; one in eight has a line more, and one a line less where there is one.
fn length(n: u64, y: u64, z: u64) -> usize {
    let whole = (y % 9 * n) as usize;
    match z % 8 {
        0 => whole + 1,
        1 => whole.saturating_sub(1),
        _ => whole,
    }
}

/// One list in two has two bad lines, among its own and the one past them.
fn spoiled(mut lines: Vec<Line>, long: usize, y: u64, z: u64) -> Vec<Line> {
    let ends = long as u64 + 1;
    if z / 8 % 2 == 0 {
        for (at, fault) in [(y / 128 % ends, z / 32 % FAULTS), (z / 512 % ends, y / 1_024 % FAULTS)]
        {
            lines[at as usize] = bad(lines[at as usize], fault);
        }
    }
    lines
}

#[cfg(test)]
mod tests {
    use super::*;

    fn printed() -> String {
        let mut out = Vec::new();
        print(&mut out).unwrap();
        String::from_utf8(out).unwrap()
    }

    #[test]
    fn weeks_are_as_their_steps() {
        let ends = |end| printed().lines().filter(|line| line.ends_with(end)).count();
        assert_eq!((ends(" same"), ends("not the same")), (6 + 24, 0));
    }

    /// Among the entries of mixed lists that are printed, which begin with their number.
    #[test]
    fn mixed_lists_meet_every_refusal_of_lines() {
        let printed = printed();
        let is_entry = |line: &&str| line.starts_with(|first: char| first.is_ascii_digit());
        let entries: Vec<&str> = printed.lines().filter(is_entry).collect();
        for number in ["0", "5", "6", "7", "8", "12", "13", "14"] {
            let met = entries.iter().filter(|line| line.split(' ').nth(2) == Some(number)).count();
            assert!(met >= 4, "{number} met {met} times");
        }
    }
}
