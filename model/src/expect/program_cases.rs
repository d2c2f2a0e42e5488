//! `program_cases`: the program's work on damaged and missing files, and all that it says of a refused load.

use super::patterns::{PATTERNS, TEMPERATURES};
use crate::bench;
use crate::chance::Chance;
use crate::files::{bytes, case_a, case_b, line, Files, LineWords, ESTIMATED, MEASURED, MISSING};
use crate::program;
use crate::random::{self, Case, Put};
use crate::words;
use std::fs;
use std::io::{self, Write};
use std::path::Path;

/// The cases, in folders that are numbered from 01.
fn cases() -> Vec<Case> {
    let a = case_a();
    let with = |basin: Vec<u8>| case(basin, a.forcing.clone());
    let on_a = |forcing: Vec<u8>| case(a.basin.clone(), forcing);
    let set = |at: usize, word: u32| {
        let mut basin = a.basin.clone();
        basin[4 * at..4 * at + 4].copy_from_slice(&word.to_le_bytes());
        basin
    };
    vec![
        with(a.basin.clone()),
        with(a.basin[..7].to_vec()),
        with(set(0, 0)),
        with(set(1, 32)),
        with([&a.basin[..], &[0]].concat()),
        with([&a.basin[..], &[0; 5_000]].concat()),
        with(set(5, 0)),
        with(shares_above_one()),
        Case { basin: Put::Nothing, forcing: Put::File(a.forcing.clone()) },
        Case { basin: Put::Folder, forcing: Put::File(a.forcing.clone()) },
        Case { basin: Put::File(a.basin.clone()), forcing: Put::Nothing },
        Case { basin: Put::File(a.basin.clone()), forcing: Put::Folder },
        on_a(Vec::new()),
        on_a(vec![1; 15]),
        on_a(estimated(64)),
        on_a([&estimated(65)[..], &[2; 7]].concat()),
        widest(),
        with_both(case_b()),
        on_a(patterns()),
        case(snowy(&a.basin), temperatures()),
        case(case_b().basin, winter()),
        on_a(three_words(&a.forcing)),
        on_a(three_words(&estimated(20))),
        with(a.basin[..4 * (2 + 23)].to_vec()),
        with(set(27, 3_000_001)),
    ]
}

fn with_both(files: Files) -> Case {
    case(files.basin, files.forcing)
}

fn case(basin: Vec<u8>, forcing: Vec<u8>) -> Case {
    Case { basin: Put::File(basin), forcing: Put::File(forcing) }
}

/// Three sub-basins and two reaches, the second with c0 + c1 one above the whole.
fn shares_above_one() -> Vec<u8> {
    let mut basin = bench::files(1, 3).basin;
    let c1 = basin.len() - 8;
    basin[c1..c1 + 4].copy_from_slice(&45_537u32.to_le_bytes());
    basin
}

/// Steps of one sub-basin.
fn estimated(count: u64) -> Vec<u8> {
    bytes((1..=count).flat_map(|step| line(ESTIMATED, step as f32 / 4.0, 1.0, 0.0)))
}

/// Steps of one sub-basin: no rain reading and then each pattern as rain, with each pattern as pan.
fn patterns() -> Vec<u8> {
    let kinds = [MEASURED, ESTIMATED].into_iter().cycle();
    let rains = [(MISSING, 0)].into_iter().chain(kinds.zip(PATTERNS));
    bytes(rains.flat_map(|(kind, rain)| PATTERNS.map(|pan| [kind, rain, pan, 0])).flatten())
}

/// Case A's sub-basin with snow on it: F 4,500, SN 1,000,000, and a threshold of 63, which 0.0625 degrees just reach.
fn snowy(basin: &[u8]) -> Vec<u8> {
    [&basin[..4 * 25], &bytes([4_500, 63, 1_000_000])].concat()
}

/// Steps of one sub-basin: each pattern as temperature, with rain and pan that are good, with no rain reading and with a bad pan.
fn temperatures() -> Vec<u8> {
    let depths = [(MEASURED, 2.0, 1.0), (MISSING, 2.0, 1.0), (ESTIMATED, 2.0, -0.25)];
    let patterns = || PATTERNS.into_iter().chain(TEMPERATURES);
    let lines = depths.into_iter().flat_map(|(kind, rain, pan)| {
        patterns().map(move |degrees| line(kind, rain, pan, f32::from_bits(degrees)))
    });
    bytes(lines.flatten())
}

/// A winter of 200 days on two sub-basins, of which the first is 3 degrees colder: it cools by a degree in five days, to the 90th, and then
/// warms so. Two days are refused.
fn winter() -> Vec<u8> {
    let mut chance = Chance::new(21);
    let mut lines = Vec::new();
    for day in 0..200u64 {
        let most = chance.of(&[0, 0, 200]);
        for warmer in [0.0, 3.0] {
            let kind = if chance.one_in(10) { ESTIMATED } else { MEASURED };
            let mut tenths = |most| chance.within(0, most) as f32 / 10.0;
            let season = day.abs_diff(90) as f32 / 5.0 - 14.0 + warmer;
            lines.push(line(kind, tenths(most), tenths(15), season + tenths(80)));
        }
    }
    lines[2 * 60 + 1][3] = (-99.9f32).to_bits();
    lines[2 * 120][2] = f32::NAN.to_bits();
    lines[2 * 120][3] = f32::NAN.to_bits();
    bytes(lines.into_iter().flatten())
}

/// The lines as they were before they had a temperature.
fn three_words(forcing: &[u8]) -> Vec<u8> {
    forcing.chunks(program::LINE).flat_map(|line| &line[..12]).copied().collect()
}

/// 32 sub-basins and 31 reaches, 130 steps with estimated lines and refused ones, and a part step.
fn widest() -> Case {
    let Files { basin, forcing } = bench::files(1, 32);
    let step = program::LINE * 32;
    let mut forcing = forcing[..130 * step + 511].to_vec();
    let mut put = |at: usize, words: LineWords| {
        forcing[program::LINE * at..program::LINE * (at + 1)].copy_from_slice(&bytes(words));
    };
    for at in (0..130 * 32).step_by(37) {
        put(at, line(ESTIMATED, 12.5, 2.0, 0.0));
    }
    put(40 * 32 + 31, line(MISSING, 0.0, 0.0, 0.0));
    put(63 * 32 + 8, line(MEASURED, f32::NAN, 0.0, 0.0));
    put(64 * 32, line(MEASURED, 1_000.5, 0.0, 0.0));
    put(97 * 32 + 3, line(MEASURED, 0.0, 0.0, 60.062_5));
    put(129 * 32 + 15, line(ESTIMATED, 3.0, 100.5, f32::NAN));
    case(basin, forcing)
}

/// Makes the cases' files. A folder that stands for a file has a file in it, as an empty one is not kept.
pub fn write(folder: &Path) -> io::Result<()> {
    for (number, case) in (1..).zip(cases()) {
        let own = folder.join(format!("{number:02}"));
        random::write(&case, &own)?;
        for (put, name) in [(&case.basin, "basin.bin"), (&case.forcing, "forcing.bin")] {
            if *put == Put::Folder {
                fs::write(own.join(name).join("kept"), [])?;
            }
        }
    }
    Ok(())
}

pub fn print(out: &mut impl Write) -> io::Result<()> {
    let folder = std::env::temp_dir().join(format!("program-cases-{}", std::process::id()));
    write(&folder)?;
    for number in 1..=cases().len() {
        writeln!(out, "case {number}")?;
        let ended = program::run_folder(&folder.join(format!("{number:02}")), out)?;
        writeln!(out, "status {}", ended.status)?;
    }
    fs::remove_dir_all(&folder)?;
    refused_loads(out)?;
    shorts(out)
}

/// Every word of the least file, of a small one and of the longest.
fn refused_loads(out: &mut impl Write) -> io::Result<()> {
    for (n, m) in [(1, 0), (2, 3), (32, 31)] {
        let basin = bytes([n, m]);
        for (number, place) in [(1, 0), (2, 0), (2, 1), (3, 0)] {
            writeln!(out, "{}", words::refused_load(&basin, number, place))?;
        }
        for place in 2..u64::from(2 + 26 * n + 3 * m) {
            writeln!(out, "{}", words::refused_load(&basin, 4, place))?;
        }
    }
    Ok(())
}

fn shorts(out: &mut impl Write) -> io::Result<()> {
    for (count, size, step) in [(1, 16, 1), (79, 80, 1_097), (511, 512, u64::MAX)] {
        writeln!(out, "{}", words::short(count, size, step))?;
    }
    Ok(())
}
