//! Random cases by their seed: ordinary basins and extreme ones, readings of every kind, short
//! tails, damaged and missing files.

mod damage;
mod readings;
mod words;

use crate::chance::Chance;
use crate::files::bytes;
use std::fs;
use std::io;
use std::path::Path;
use words::Counts;

/// What stands under a file's name.
#[derive(Clone, Debug, PartialEq, Eq)]
pub enum Put {
    File(Vec<u8>),
    Folder,
    Nothing,
}

#[derive(Clone, Debug, PartialEq, Eq)]
pub struct Case {
    pub basin: Put,
    pub forcing: Put,
}

pub fn case(seed: u64) -> Case {
    let mut chance = Chance::new(seed);
    let counts = Counts::drawn(&mut chance);
    let words = words::basin(&counts, &mut chance);
    let lines = readings::forcing(counts.n, &mut chance);
    Case {
        basin: damage::basin(words, &counts, &mut chance),
        forcing: damage::forcing(bytes(lines.into_iter().flatten()), &mut chance),
    }
}

/// Makes the folder, which must be missing or empty, and the case in it.
pub fn write(case: &Case, folder: &Path) -> io::Result<()> {
    fs::create_dir_all(folder)?;
    put(&case.basin, &folder.join("basin.bin"))?;
    put(&case.forcing, &folder.join("forcing.bin"))
}

fn put(what: &Put, path: &Path) -> io::Result<()> {
    match what {
        Put::File(bytes) => fs::write(path, bytes),
        Put::Folder => fs::create_dir(path),
        Put::Nothing => Ok(()),
    }
}

#[cfg(test)]
mod tests {
    use super::*;
    use crate::file::load;
    use crate::forcing::{judge, Line, Reading};
    use crate::program::{line, run};

    #[test]
    fn a_seed_gives_one_case() {
        for seed in 0..50 {
            assert_eq!(case(seed), case(seed));
        }
        assert_ne!(case(1), case(2));
    }

    #[test]
    fn undamaged_basins_load() {
        for seed in 0..500 {
            let mut chance = Chance::new(seed);
            let counts = Counts::drawn(&mut chance);
            let words = words::basin(&counts, &mut chance);
            let given = load(&bytes(words));
            assert_eq!((given.number, given.place), (0, 0), "seed {seed}");
        }
    }

    /// What `Basin::advance` counts on, for it doesn't judge 9.
    #[test]
    fn a_loaded_basin_stays_inside() {
        for seed in 0..200 {
            let mut chance = Chance::new(seed);
            let counts = Counts::drawn(&mut chance);
            let mut basin = load(&bytes(words::basin(&counts, &mut chance))).basin;
            let rain = Reading::Measured(chance.of(&[0.0, 20.0, 1_000.0]));
            let line = Line { rain, pan: chance.of(&[0.0, 5.0, 100.0]), temperature: 0.0 };
            for _ in 0..500 {
                let temperature = chance.of(&[-80.0, 0.0, 5.0, 60.0]);
                let line = Line { temperature, ..line };
                basin.advance(std::iter::repeat(line)).unwrap();
                assert!(basin.inside(), "seed {seed}");
            }
        }
    }

    /// The gate's cases before any damage: steps of a sub-basin where snow falls, melts in part and whole, waits above the
    /// greatest P, and lies at its threshold in the rain.
    #[test]
    fn snow_of_every_kind() {
        let mut seen = [0; 5];
        for seed in 1..=300 {
            let mut chance = Chance::new(seed);
            let counts = Counts::drawn(&mut chance);
            let mut basin = load(&bytes(words::basin(&counts, &mut chance))).basin;
            let lines = readings::forcing(counts.n, &mut chance);
            for step in lines.chunks(counts.n as usize) {
                let step =
                    step.iter().map(|&words| line(bytes(words).as_slice().try_into().unwrap()));
                let before = basin;
                if basin.advance(step.clone()).is_err() {
                    continue;
                }
                for ((was, is), line) in before.subs.iter().zip(&basin.subs).zip(step) {
                    let line = judge(&line).unwrap();
                    let degrees = line.temperature - was.threshold as i64;
                    let melted = was.sn.saturating_sub(is.sn);
                    let cut = was.f as i64 * degrees / 1_000 > melted as i64;
                    seen[0] += u32::from(is.sn > was.sn);
                    seen[1] += u32::from(melted > 0 && is.sn > 0 && !cut);
                    seen[2] += u32::from(melted > 0 && is.sn == 0);
                    seen[3] += u32::from(is.sn > 0 && cut);
                    seen[4] += u32::from(degrees == 0 && was.sn > 0 && line.rain > 0);
                }
            }
        }
        assert!(seen.into_iter().all(|times| times >= 100), "{seen:?}");
    }

    /// What 2,000 cases come to print: every refusal that a file can bring about, and each ending.
    #[test]
    fn cases_of_every_kind() {
        let mut seen = [0; 15];
        let [mut accepted, mut short] = [0; 2];
        for seed in 0..2_000 {
            let bytes = |put| if let Put::File(bytes) = put { bytes } else { Vec::new() };
            let case = case(seed);
            let mut out = Vec::new();
            run(&bytes(case.basin), &bytes(case.forcing)[..], &mut out).unwrap();
            for printed in String::from_utf8(out).unwrap().lines() {
                match printed.split(' ').collect::<Vec<_>>()[..] {
                    ["load", number, _] | [_, "refused", number, _] => {
                        seen[number.parse::<usize>().unwrap()] += 1;
                    }
                    ["short", _] => short += 1,
                    _ => accepted += 1,
                }
            }
        }
        for number in [1, 2, 3, 4, 6, 7, 8, 12, 13, 14] {
            assert!(seen[number] >= 20, "{number}: {seen:?}");
        }
        assert!(accepted > 20_000 && short > 100, "accepted {accepted} short {short}");
    }
}
