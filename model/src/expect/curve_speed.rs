//! `curve_speed`: a chain of roots or of searches, each of an argument that hangs on the answer before.

use crate::curve::{ordinate_of, root_of, WHOLE};
use std::io::{self, Write};

/// Turns in a round; a measurement takes a hundred rounds.
pub const ROUND: u64 = 65_536;

/// The last answer of a chain.
pub fn chain(turn: impl Fn(u64, u64) -> u64, count: u64) -> u64 {
    (0..count).fold(0, |r, i| turn(i, r))
}

/// The argument of a root.
pub fn argument(i: u64, r: u64) -> u64 {
    (i * 40_503 + r % WHOLE) % WHOLE
}

/// The ordinate of one of many curves.
pub fn search(i: u64, r: u64) -> u64 {
    let c = 100_000 + i * 7_919 % 400_001;
    let m = 150_000 + i * 104_729 % 1_850_001;
    ordinate_of(c, m, 16 + i % 33, (i * 40_503 + r % WHOLE) % c)
}

/// The ordinate for which the program needs most trials. As none is above 2,000,000, w is always the same.
fn worst(_: u64, r: u64) -> u64 {
    ordinate_of(65_536, 2_000_000, 43, 65_535 - r / 2_000_001 % 2)
}

pub fn print(out: &mut impl Write) -> io::Result<()> {
    for way in ["newton", "lent", "made"] {
        writeln!(out, "{way} {}", chain(|i, r| root_of(argument(i, r)), ROUND))?;
    }
    writeln!(out, "search {}", chain(search, ROUND))?;
    writeln!(out, "worst {}", chain(worst, ROUND))
}
