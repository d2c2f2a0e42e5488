//! Basins of drawn files: every choice of words on networks of every shape.

use super::draft::{any, File, Spot};
use super::draw::Draw;
use crate::basin::Basin;
use crate::record::WORDS;

/// A word of a sub-basin or, from place 26, of a reach: by its place, its range and two draws.
pub type Choice = fn(usize, (u64, u64), u64, u64) -> u64;

pub const CHOICES: [(&str, Choice); 5] = [
    ("ordinary", ordinary),
    ("least", |_, (least, _), _, _| least),
    ("most", |_, (_, most), _, _| most),
    ("ends", |_, (least, most), x, _| [least, most][(x % 2) as usize]),
    ("any", |_, range, x, y| any(range, x, y)),
];

/// What basins have; starts and c1 up to what limits them.
pub fn ordinary(place: usize, (_, greatest): (u64, u64), x: u64, _: u64) -> u64 {
    let (low, high) = match place {
        0 => (50, 900),
        1 => (52_000, 72_000),
        2 => (10_000, 20_000),
        3 => (60_000, 90_000),
        4 => (15_000, 60_000),
        5 => (6_000, 13_000),
        6 => (18, 22),
        7 => (300, 3_000),
        8 => (10_000, 50_000),
        9 => (20, 28),
        10 | 11 => (15_000, 30_000),
        12 => (33_000, 59_000),
        13 => (60_000, 65_400),
        14 => (6_000, 59_000),
        15 => (0, 6),
        21 => (0, 20_000),
        22 => (0, 200_000),
        23 => (2_000, 6_000),
        24 => (0, 2_000),
        25 => (0, 60_000),
        26 => (2_000, 20_000),
        _ => (0, greatest),
    };
    low + x % (high - low + 1)
}

/// REACH of a sub-basin and next of a reach that is not the last, each by the own number, M and a
/// draw.
pub struct Shape {
    reach: fn(u64, u64, u64) -> u64,
    next: fn(u64, u64, u64) -> u64,
}

pub const SHAPES: [(&str, &Shape); 4] = [
    ("chain", &Shape { reach: in_turn, next: |own, _, _| own + 1 }),
    ("star", &Shape { reach: in_turn, next: |_, m, _| m }),
    ("tree", &Shape { reach: in_turn, next: |own, m, _| m - (m - own - 1) / 2 }),
    ("any", &Shape { reach: |_, m, x| x % (m + 1), next: any_next }),
];

/// The reaches in turn, and the outlet after the last.
fn in_turn(own: u64, m: u64, _: u64) -> u64 {
    own % (m + 1)
}

fn any_next(own: u64, m: u64, x: u64) -> u64 {
    match x % (m - own + 1) {
        0 => 0,
        further => own + further,
    }
}

pub fn loaded(choice: Choice, shape: &Shape, n: u64, m: u64, draw: &mut Draw) -> Basin {
    let chosen = |file: &File, at, x, y| match file.spot(at) {
        Spot::Sub(own, 16) => (shape.reach)(own, m, x),
        // The last reach flows to the outlet.
        Spot::Reach(own, 2) if own == m => 0,
        Spot::Reach(own, 2) => (shape.next)(own, m, x),
        Spot::Reach(_, place) => choice(WORDS + place, file.range(at), x, y),
        Spot::Sub(_, place) => choice(place, file.range(at), x, y),
        Spot::Count => unreachable!("N and M are given"),
    };
    let given = File::drawn(n, m, draw, chosen).load();
    assert_eq!(given.number, 0);
    given.basin
}
