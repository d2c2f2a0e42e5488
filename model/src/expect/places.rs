//! A basin's numbers by place, as `draft::numbers` has them, and their ranges.

use super::draft::{basin_of, numbers, share_range, RECORD};
use crate::basin::{Basin, GREATEST_REACH, MOST_SUB_BASINS};
use crate::record::*;

/// Every amount of a basin at its limit, and the recessions as given.
pub fn brimming(mut basin: Basin, recession: Option<u64>) -> Basin {
    for s in &mut basin.subs {
        (s.vi, s.vg) = (GREATEST_WAITING_DEPTH, GREATEST_WAITING_DEPTH);
        s.sn = GREATEST_SNOW;
        s.waiting = [GREATEST_WAITING_AMOUNT; WAITING];
        s.channel = GREATEST_CHANNEL;
        [s.ci, s.cg, s.cs] = recession.map_or([s.ci, s.cg, s.cs], |share| [share; 3]);
    }
    for reach in &mut basin.reaches {
        reach.content = GREATEST_REACH;
    }
    assert!(basin.inside());
    basin
}

/// One number below or above its range, or the greatest.
pub fn damaged(basin: &Basin, x: u64, y: u64) -> Basin {
    let numbers = numbers(basin);
    let place = x as usize % numbers.len();
    let [below, _, _, above, greatest] = edges(basin, place);
    with(numbers, place, [below, above, greatest][y as usize % 3])
}

pub fn with(mut numbers: Vec<u64>, place: usize, number: u64) -> Basin {
    numbers[place] = number;
    basin_of(&numbers)
}

/// Below the range of a number, its least, its greatest, above, and the greatest u64.
pub fn edges(basin: &Basin, place: usize) -> [u64; 5] {
    let (least, greatest) = range_of(basin, place);
    let below = match reach_place(place) {
        // A reach's own number stands below its next.
        Some((own, 2)) if own <= basin.m => own,
        _ => least.checked_sub(1).unwrap_or(u64::MAX),
    };
    [below, least, greatest, greatest + 1, u64::MAX]
}

/// The reach that a number stands in, from 1, and its place there.
pub fn reach_place(place: usize) -> Option<(u64, usize)> {
    let from = place.checked_sub(2 + RECORD * MOST_SUB_BASINS)?;
    Some((from as u64 / 4 + 1, from % 4))
}

/// The range of a number of a basin that is handed in.
fn range_of(basin: &Basin, place: usize) -> (u64, u64) {
    let Basin { n, m, subs, reaches } = *basin;
    if let Some((own, place)) = reach_place(place) {
        return match place {
            _ if own > m => (0, 0),
            2 => (0, if own < m { m } else { 0 }),
            3 => (0, GREATEST_REACH),
            share => share_range(share, reaches[own as usize - 1].c0),
        };
    }
    match place {
        0 => (1, 32),
        1 => (0, 31),
        _ if ((place - 2) / RECORD) as u64 >= n => (0, 0),
        _ => record_range(&subs[(place - 2) / RECORD], (place - 2) % RECORD, m),
    }
}

fn record_range(record: &Record, place: usize, m: u64) -> (u64, u64) {
    const CHANNEL: usize = WORDS + WAITING;
    match place {
        0..WORDS => range(&record.words(), place, m, HANDED_IN),
        CHANNEL => (0, GREATEST_CHANNEL),
        _ if ((place - WORDS) as u64) < record.l => (0, GREATEST_WAITING_AMOUNT),
        _ => (0, 0),
    }
}
