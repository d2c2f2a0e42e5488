//! `window_speed`: arrivals into a window made for 64.

use super::draw::{Checksum, Draw};
use crate::window::Window;
use std::io::{self, Write};

/// Arrivals in a round; a measurement takes a hundred rounds.
pub const ROUND: u64 = 65_536;

/// The volume of the i-th arrival, i from 0, by a draw.
type Way = fn(u64, u64) -> u64;

pub const WAYS: [(&str, Way); 3] =
    [("falling", |i, _| 1_000_000_000_000 - i), ("rising", |i, _| i), ("random", |_, x| x)];

pub fn print(out: &mut impl Write) -> io::Result<()> {
    WAYS.into_iter().try_for_each(|(name, way)| writeln!(out, "{name} {}", round(way)))
}

/// The checksum of the answers of a round.
pub fn round(way: Way) -> u64 {
    let mut window = Window::new(64);
    let mut draw = Draw(1);
    let mut h = Checksum(1);
    for i in 0..ROUND {
        h.fold(&[window.arrive(way(i, draw.next())).highest]);
    }
    h.0
}

/// A round without arrivals, of the drawn volumes alone.
pub fn idle() -> u64 {
    let mut draw = Draw(1);
    let mut h = Checksum(1);
    (0..ROUND).for_each(|_| h.fold(&[draw.next()]));
    h.0
}

#[cfg(test)]
mod tests {
    use super::*;

    /// Rising, each is the greatest as it comes; falling, the oldest of 64 is.
    #[test]
    fn what_rises_and_falls() {
        let checksum = |highest: fn(u64) -> u64| {
            let mut h = Checksum(1);
            (0..ROUND).for_each(|i| h.fold(&[highest(i)]));
            h.0
        };
        let [falling, rising, _] = WAYS.map(|(_, way)| round(way));
        assert_eq!(falling, checksum(|i| 1_000_000_000_000 - i.saturating_sub(63)));
        assert_eq!(rising, checksum(|i| i));
    }
}
