//! `embedding`: three days of case B's basin, the third with a missing reading.

use crate::file::load;
use crate::files::case_b;
use crate::forcing::{Line, Reading};
use std::io::{self, Write};

pub fn print(out: &mut impl Write) -> io::Result<()> {
    let mut basin = load(&case_b().basin).basin;
    for (temperature, first, second) in [
        (-1.5, Reading::Measured(42.5), Reading::Measured(120.5)),
        (6.25, Reading::Estimated(140.0), Reading::Measured(1.5)),
        (4.0, Reading::Missing, Reading::Measured(0.0)),
    ] {
        let mut lines = [Line { rain: Reading::Missing, pan: 0.0, temperature: 0.0 }; 32];
        lines[0] = Line { rain: first, pan: 4.0, temperature };
        lines[1] = Line { rain: second, pan: 3.5, temperature: temperature + 3.0 };
        let given = basin.step(&lines, 2);
        writeln!(out, "{} {}", given.report.outlet, given.report.content)?;
        basin = given.basin;
    }
    Ok(())
}
