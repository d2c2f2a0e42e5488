//! The benchmark: the built program against the model, on the same files.

use crate::chance::Chance;
use crate::curve::root_of;
use crate::expect::curve_speed::{self, argument, chain, ROUND};
use crate::expect::rain_speed::{self, STATES};
use crate::expect::week_speed::SIZES;
use crate::expect::window_speed::{self, WAYS};
use crate::files::{line, Files, LineWords, MEASURED};
use crate::record::{range, Most, WORDS};
use std::fs;
use std::hint::black_box;
use std::io::{self, Write};
use std::path::Path;
use std::process::{Command, Stdio};
use std::time::Instant;

/// Runs of each program, of which the best counts.
const RUNS: usize = 15;

/// Daily steps, all accepted, of a basin with a reach fewer than sub-basins.
pub fn files(years: u64, sub_basins: u64) -> Files {
    let mut chance = Chance::new(30);
    let basin = basin(sub_basins, &mut chance);
    let steps = 365 * years + years / 4;
    let lines: Vec<LineWords> =
        (0..steps).flat_map(|day| lines(day, sub_basins, &mut chance)).collect();
    Files::of(basin, &lines)
}

/// The greatest VI, VG and SN of these files, below those that a file may have.
const MOST: Most = Most { waiting: 100_000, snow: 500_000 };

/// Every word from the middle half of its range, so every exponent of the curves is at hand.
fn basin(n: u64, chance: &mut Chance) -> Vec<u32> {
    let m = n - 1;
    let mut words = vec![n, m];
    for _ in 0..n {
        let mut sub = [0; WORDS];
        for place in 0..WORDS {
            let (least, greatest) = range(&sub, place, m, MOST);
            let quarter = (greatest - least) / 4;
            sub[place] = chance.within(least + quarter, greatest - quarter);
        }
        words.extend(sub);
    }
    for own in 1..=m {
        words.extend([20_000, 20_000, if own < m { own + 1 } else { 0 }]);
    }
    words.into_iter().map(|word| word as u32).collect()
}

/// A day in three is wet. From the midwinter that the files begin with the year warms by 25 degrees to midsummer.
fn lines(day: u64, n: u64, chance: &mut Chance) -> Vec<LineWords> {
    let most = if chance.one_in(3) { 400 } else { 0 };
    let mut tenths = |most| chance.within(0, most) as f32 / 10.0;
    let from_midsummer = (day % 365).abs_diff(182) as f32;
    let coldest = 15.0 - 25.0 * from_midsummer / 182.0;
    (0..n).map(|_| line(MEASURED, tenths(most), tenths(60), coldest + tenths(100))).collect()
}

/// Years and sub-basins: the two marks, then how the time grows with steps and with sub-basins.
#[rustfmt::skip]
const ROWS: [(u64, u64); 10] = [
    (30, 32), (30, 5),
    (2, 32), (4, 32), (8, 32), (16, 32),
    (8, 4), (8, 8), (8, 16), (8, 32),
];

pub fn bench(account: &Path, out: &mut impl Write) -> io::Result<()> {
    let account = fs::canonicalize(account)?;
    let model = std::env::current_exe()?;
    let folder = std::env::temp_dir().join(format!("account-bench-{}", std::process::id()));
    writeln!(out, "years sub-basins     account        model   ratio   (best of {RUNS})")?;
    for (years, sub_basins) in ROWS {
        files(years, sub_basins).write(&folder)?;
        let mut ours = Command::new(&account);
        let mut its = Command::new(&model);
        ours.current_dir(&folder);
        its.arg("run").arg(&folder);
        let [ours, its] = best([ours, its])?;
        let ratio = ours / its;
        writeln!(out, "{years:5} {sub_basins:11} {ours:9.1} ms {its:9.1} ms {ratio:7.2}")?;
        out.flush()?;
    }
    fs::remove_dir_all(&folder)
}

/// A root alone, in nanoseconds: by Newton's steps, by the printed table, lent and where it stands, and the model's
/// own; then a search, of many curves, the model's, and at the worst point. What the chain takes without is taken off.
pub fn curve(curve_speed: &Path, out: &mut impl Write) -> io::Result<()> {
    let ways = ["idle", "newton", "lent", "made", "search", "worst"];
    let [idle, newton, lent, made, search, worst] = best(ways.map(|way| {
        let mut chain = Command::new(curve_speed);
        chain.arg(way);
        chain
    }))?;
    let bare = best_chain(argument);
    let own = best_chain(|i, r| root_of(black_box(argument(i, r))));
    let own_search = best_chain(curve_speed::search);
    let each = |all: f64| 1_000_000.0 * all / (100 * ROUND) as f64;
    for (name, time) in [
        ("a root by Newton's steps", newton - idle),
        ("a root by the printed table, lent", lent - idle),
        ("a root by the printed table, where it stands", made - idle),
        ("a root of the model's", own - bare),
        ("a search of many curves", search - idle),
        ("a search of many curves, the model's", own_search - bare),
        ("a search at the worst point", worst - idle),
    ] {
        writeln!(out, "{:6.1} ns   {name}", each(time))?;
    }
    Ok(())
}

/// A step, in microseconds: in a week call, by itself, and by itself with a table of roots that is lent. What the program
/// takes without a step is taken off.
pub fn weeks(week_speed: &Path, out: &mut impl Write) -> io::Result<()> {
    writeln!(
        out,
        "sub-basins  steps      week    single  ratio      lent  ratio   (best of {RUNS})"
    )?;
    for (n, _, steps) in SIZES {
        let [idle, week, single, lent] = best(["idle", "week", "steps", "lent"].map(|way| {
            let mut weeks = Command::new(week_speed);
            weeks.arg(way).arg(n.to_string());
            weeks
        }))?;
        let each = |all: f64| 1_000.0 * (all - idle) / (100 * steps) as f64;
        let [week, single, lent] = [each(week), each(single), each(lent)];
        let [ratio, lent_ratio] = [week / single, week / lent];
        write!(out, "{n:10} {steps:6} {week:6.2} µs {single:6.2} µs {ratio:6.2} ")?;
        writeln!(out, "{lent:6.2} µs {lent_ratio:6.2}")?;
    }
    Ok(())
}

/// An answer for all 1,001 rains, in microseconds, beside a sub-basin call at 1,000 mm; then the model's 1,001 plain steps.
/// What the program takes without either is taken off.
pub fn rains(rain_speed: &Path, out: &mut impl Write) -> io::Result<()> {
    writeln!(out, "contents      call     rains  ratio       model   (best of {RUNS})")?;
    for state in STATES {
        let [idle, call, none] = best(["idle", "call", "none"].map(|way| {
            let mut rains = Command::new(rain_speed);
            rains.arg(way).arg(state);
            rains
        }))?;
        let each = |all: f64| 1_000.0 * all / rain_speed::ROUND as f64;
        let [call, none] = [call, none].map(|all| each(all - idle) / 100.0);
        let own = each(best_time(|| rain_speed::round(state, rain_speed::none)));
        let ratio = none / call;
        writeln!(out, "{state:8} {call:6.2} µs {none:6.1} µs {ratio:6.2} {own:8.1} µs")?;
    }
    Ok(())
}

/// An arrival into a window made for 64, in nanoseconds, and into the model's window of all the last 64. What either takes
/// without one is taken off.
pub fn window(window_speed: &Path, out: &mut impl Write) -> io::Result<()> {
    writeln!(out, "volumes    arrival       model   ratio   (best of {RUNS})")?;
    let bare = best_time(window_speed::idle);
    for (name, way) in WAYS {
        let [idle, arrivals] = best(["idle", name].map(|way| {
            let mut windows = Command::new(window_speed);
            windows.arg(way);
            windows
        }))?;
        let each = |all: f64| 1_000_000.0 * all / window_speed::ROUND as f64;
        let arrival = each(arrivals - idle) / 100.0;
        let own = each(best_time(|| window_speed::round(way)) - bare);
        let ratio = arrival / own;
        writeln!(out, "{name:7} {arrival:7.1} ns {own:8.1} ns {ratio:7.2}")?;
    }
    Ok(())
}

/// The best time of a chain of a hundred rounds, in milliseconds.
fn best_chain(turn: impl Fn(u64, u64) -> u64) -> f64 {
    best_time(|| chain(|i, r| turn(i, black_box(r)), black_box(100 * ROUND)))
}

/// The best time of the model's own work, in milliseconds.
fn best_time(work: impl Fn() -> u64) -> f64 {
    let mut best = f64::INFINITY;
    for _ in 0..RUNS {
        let start = Instant::now();
        black_box(work());
        best = best.min(1_000.0 * start.elapsed().as_secs_f64());
    }
    best
}

/// The best time of each, in milliseconds. They take turns, so that all meet the machine alike.
fn best<const N: usize>(mut programs: [Command; N]) -> io::Result<[f64; N]> {
    let mut best = [f64::INFINITY; N];
    for _ in 0..RUNS {
        for (program, best) in programs.iter_mut().zip(&mut best) {
            let start = Instant::now();
            let status = program.stdin(Stdio::null()).stdout(Stdio::null()).status()?;
            if !status.success() {
                return Err(io::Error::other(format!("a run ended with {status}")));
            }
            *best = best.min(1_000.0 * start.elapsed().as_secs_f64());
        }
    }
    Ok(best)
}

#[cfg(test)]
mod tests {
    use super::*;
    use crate::program::run;

    #[test]
    fn every_step_is_accepted() {
        for sub_basins in [1, 4, 5, 32] {
            let files = files(1, sub_basins);
            let mut out = Vec::new();
            run(&files.basin, &files.forcing[..], &mut out).unwrap();
            let lines = String::from_utf8(out).unwrap();
            assert_eq!(lines.lines().filter(|line| line.contains(" ok ")).count(), 365);
        }
    }
}
