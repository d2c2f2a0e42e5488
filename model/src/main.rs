//! The second model as a program: `model` alone says what it does.

use model::{bench, compare, expect, files, program, random, roots, sample};
use std::io::{self, BufWriter, Write};
use std::process::ExitCode;

const USAGE: &str = "usage:
  model run FOLDER                   what the program must print and say on basin.bin and forcing.bin, and its status
  model case-a FOLDER                makes case A's files
  model case-b FOLDER                makes case B's files, two sub-basins with a reach
  model sample FOLDER                makes the sample's files
  model make SEED FOLDER             makes a random case
  model compare ACCOUNT FIRST LAST   holds a built program to the model, on cases FIRST to LAST
  model roots                        the printed table of roots, as a source file
  model bench ACCOUNT                times a built program and the model
  model bench-curve CURVE_SPEED      times a root alone, by each way, and a search of an ordinate
  model bench-weeks WEEK_SPEED       times a step in a week and by itself
  model bench-rains RAIN_SPEED       times an answer for all 1,001 rains and a sub-basin call
  model bench-window WINDOW_SPEED    times an arrival into a window
  model bench-files FOLDER YEARS SUBBASINS
  model program-cases FOLDER         makes the files of program_cases
  model expected                     names the test programs
  model expect NAME                  what NAME must print";

fn main() -> ExitCode {
    let words: Vec<String> = std::env::args().skip(1).collect();
    let words: Vec<&str> = words.iter().map(String::as_str).collect();
    let mut out = BufWriter::new(io::stdout().lock());
    match obey(&words, &mut out).and_then(|status| out.flush().map(|()| status)) {
        Ok(status) => ExitCode::from(status),
        Err(error) => {
            eprintln!("model: {error}");
            ExitCode::FAILURE
        }
    }
}

fn obey(words: &[&str], out: &mut impl Write) -> io::Result<u8> {
    if let ["run", folder] = *words {
        let ended = program::run_folder(folder.as_ref(), out)?;
        ended.said.into_iter().for_each(|line| eprintln!("{line}"));
        return Ok(ended.status);
    }
    match *words {
        ["case-a", folder] => files::case_a().write(folder.as_ref()),
        ["case-b", folder] => files::case_b().write(folder.as_ref()),
        ["sample", folder] => sample::files().write(folder.as_ref()),
        ["make", seed, folder] => random::write(&random::case(number(seed)?), folder.as_ref()),
        ["compare", account, first, last] => {
            compare::compare(account.as_ref(), number(first)?, number(last)?, out)
        }
        ["roots"] => roots::print(out),
        ["bench", account] => bench::bench(account.as_ref(), out),
        ["bench-curve", curve_speed] => bench::curve(curve_speed.as_ref(), out),
        ["bench-weeks", week_speed] => bench::weeks(week_speed.as_ref(), out),
        ["bench-rains", rain_speed] => bench::rains(rain_speed.as_ref(), out),
        ["bench-window", window_speed] => bench::window(window_speed.as_ref(), out),
        ["bench-files", folder, years, sub_basins] => {
            bench::files(number(years)?, number(sub_basins)?).write(folder.as_ref())
        }
        ["program-cases", folder] => expect::program_cases::write(folder.as_ref()),
        ["expected"] => expect::names(out),
        ["expect", name] => expect::print(name, out),
        _ => Err(io::Error::other(USAGE)),
    }
    .map(|()| 0)
}

fn number(word: &str) -> io::Result<u64> {
    word.parse().map_err(|_| io::Error::other(format!("{word} is not a whole number")))
}
