//! What each program must print on its stored input, one file a test program; `account` runs on case A.

mod basin_series;
mod curve_cases;
pub mod curve_speed;
mod draft;
mod draw;
mod embedding;
mod file_cases;
mod forcing_cases;
mod patterns;
mod places;
mod plans;
pub mod program_cases;
mod rain_cases;
pub mod rain_speed;
mod store_series;
mod subbasin_series;
mod weather;
mod week_cases;
pub mod week_speed;
mod window_cases;
pub mod window_speed;

use crate::{files, program};
use std::io::{self, Write};

#[rustfmt::skip]
const NAMES: [&str; 16] = [
    "curve_cases", "curve_speed", "store_series", "subbasin_series", "forcing_cases", "file_cases", "basin_series",
    "week_cases", "week_speed", "rain_cases", "rain_speed", "window_cases", "window_speed", "program_cases",
    "embedding", "account",
];

pub fn names(out: &mut impl Write) -> io::Result<()> {
    NAMES.iter().try_for_each(|name| writeln!(out, "{name}"))
}

pub fn print(name: &str, out: &mut impl Write) -> io::Result<()> {
    match name {
        "curve_cases" => curve_cases::print(out),
        "curve_speed" => curve_speed::print(out),
        "store_series" => store_series::print(out),
        "subbasin_series" => subbasin_series::print(out),
        "forcing_cases" => forcing_cases::print(out),
        "file_cases" => file_cases::print(out),
        "basin_series" => basin_series::print(out),
        "week_cases" => week_cases::print(out),
        "week_speed" => week_speed::print(out),
        "rain_cases" => rain_cases::print(out),
        "rain_speed" => rain_speed::print(out),
        "window_cases" => window_cases::print(out),
        "window_speed" => window_speed::print(out),
        "program_cases" => program_cases::print(out),
        "embedding" => embedding::print(out),
        "account" => {
            let files = files::case_a();
            program::run(&files.basin, &files.forcing[..], out).map(|_| ())
        }
        _ => Err(io::Error::other(format!("no test program is called {name}"))),
    }
}
