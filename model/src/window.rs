//! Highest outlet of late: a window that keeps all of the last n volumes, and the record that the library keeps of it.

use std::collections::VecDeque;
use std::ops::RangeInclusive;

/// What n may be.
const STEPS: RangeInclusive<u64> = 1..=64;

/// Places of a record.
pub const PLACES: usize = 64;

/// Number, place and the greatest of the last n volumes.
#[derive(Clone, Copy, Debug, PartialEq, Eq)]
pub struct Answer {
    pub number: u64,
    pub place: u64,
    pub highest: u64,
}

impl Answer {
    const REFUSED: Answer = Answer { number: 15, place: 0, highest: 0 };
}

/// A window with all of the last n volumes, the oldest first.
#[derive(Clone, Debug)]
pub struct Window {
    n: u64,
    volumes: VecDeque<u64>,
}

/// Of the last n volumes those that no later one equals or exceeds, the oldest first; zeros from `count` on.
#[derive(Clone, Copy, Debug, PartialEq, Eq, Hash)]
pub struct Record {
    pub n: u64,
    pub count: u64,
    pub kept: [Kept; PLACES],
}

/// A volume and how many have come after it.
#[derive(Clone, Copy, Debug, Default, PartialEq, Eq, Hash)]
pub struct Kept {
    pub volume: u64,
    pub age: u64,
}

impl Window {
    /// Made for n; `answer` tells whether that is refused.
    pub fn new(n: u64) -> Window {
        Window { n, volumes: VecDeque::new() }
    }

    /// The greatest volume, 0 for none; 15 where n is outside its range.
    pub fn answer(&self) -> Answer {
        if !STEPS.contains(&self.n) {
            return Answer::REFUSED;
        }
        let highest = self.volumes.iter().copied().max().unwrap_or(0);
        Answer { number: 0, place: 0, highest }
    }

    pub fn arrive(&mut self, volume: u64) -> Answer {
        if STEPS.contains(&self.n) {
            self.volumes.push_back(volume);
            if self.volumes.len() as u64 > self.n {
                self.volumes.pop_front();
            }
        }
        self.answer()
    }

    pub fn record(&self) -> Record {
        let mut record = Record { n: self.n, count: 0, kept: [Kept::default(); PLACES] };
        for (at, &volume) in self.volumes.iter().enumerate() {
            let mut later = self.volumes.range(at + 1..);
            let age = later.len() as u64;
            if later.all(|&later| later < volume) {
                record.kept[record.count as usize] = Kept { volume, age };
                record.count += 1;
            }
        }
        record
    }
}

impl Record {
    /// The arrival of a volume, and the record after it. One that no making and arrivals leave gets 15 and comes back.
    pub fn arrive(&self, volume: u64) -> (Answer, Record) {
        let Some(mut window) = self.window() else {
            return (Answer::REFUSED, *self);
        };
        let answer = window.arrive(volume);
        (answer, window.record())
    }

    /// The window into which each kept volume comes at its age, after copies of it since the one kept before. If that
    /// leaves another record than this, nothing leaves this. Made for a bad n, it refuses what arrives.
    fn window(&self) -> Option<Window> {
        let kept = self.kept.get(..self.count as usize)?;
        let ages = match kept.first() {
            None => 0,
            Some(oldest) if oldest.age < *STEPS.end() => oldest.age + 1,
            Some(_) => return None,
        };
        let mut window = Window::new(self.n);
        for age in (0..ages).rev() {
            if let Some(next) = kept.iter().find(|next| next.age <= age) {
                window.arrive(next.volume);
            }
        }
        (window.record() == *self).then_some(window)
    }
}

#[cfg(test)]
mod tests {
    use super::*;
    use crate::chance::Chance;
    use std::collections::HashMap;

    const REFUSED: Answer = Answer { number: 15, place: 0, highest: 0 };

    fn answer(highest: u64) -> Answer {
        Answer { number: 0, place: 0, highest }
    }

    /// A record by its volumes and ages.
    fn record(n: u64, kept: &[(u64, u64)]) -> Record {
        let mut record = Window::new(n).record();
        record.count = kept.len() as u64;
        for (place, &(volume, age)) in record.kept.iter_mut().zip(kept) {
            *place = Kept { volume, age };
        }
        record
    }

    /// Worked out by hand: each volume, the greatest of the last three, and what is kept.
    #[test]
    fn three_steps_by_hand() {
        let rows: [(u64, u64, &[(u64, u64)]); 10] = [
            (5, 5, &[(5, 0)]),
            (3, 5, &[(5, 1), (3, 0)]),
            (4, 5, &[(5, 2), (4, 0)]),
            (2, 4, &[(4, 1), (2, 0)]),
            (2, 4, &[(4, 2), (2, 0)]),
            (1, 2, &[(2, 1), (1, 0)]),
            (0, 2, &[(2, 2), (1, 1), (0, 0)]),
            (0, 1, &[(1, 2), (0, 0)]),
            (0, 0, &[(0, 0)]),
            (6, 6, &[(6, 0)]),
        ];
        let mut window = Window::new(3);
        assert_eq!((window.answer(), window.record()), (answer(0), record(3, &[])));
        for (volume, highest, kept) in rows {
            let before = window.record();
            let after = (answer(highest), record(3, kept));
            assert_eq!((window.arrive(volume), window.record()), after, "{volume}");
            assert_eq!(before.arrive(volume), after, "{volume}");
        }
    }

    /// Draws of few and of many volumes; a window goes on alike by itself and by its records.
    #[test]
    fn the_answer_is_the_greatest_of_the_last() {
        let mut chance = Chance::new(9);
        for n in [1, 2, 63, 64] {
            for most in [2, 200, u64::from(u32::MAX)] {
                let list: Vec<u64> = (0..500).map(|_| chance.within(0, most)).collect();
                let mut window = Window::new(n as u64);
                let mut record = window.record();
                for (at, &volume) in list.iter().enumerate() {
                    let last = &list[(at + 1).saturating_sub(n)..=at];
                    let expected = answer(*last.iter().max().unwrap());
                    assert_eq!(window.arrive(volume), expected, "n {n} at {at}");
                    let after = (expected, window.record());
                    assert_eq!(record.arrive(volume), after, "n {n} at {at}");
                    record = after.1;
                    assert_eq!(record.kept[0].volume, expected.highest, "n {n} at {at}");
                }
            }
        }
    }

    #[test]
    fn a_window_made_for_a_bad_n_stays_empty() {
        for n in [0, 65, 66, 1 << 32, (1 << 32) + 1, u64::MAX] {
            let mut window = Window::new(n);
            let empty = record(n, &[]);
            assert_eq!((window.answer(), window.record()), (REFUSED, empty));
            for volume in [5, 0, u64::MAX] {
                assert_eq!((window.arrive(volume), window.record()), (REFUSED, empty));
                assert_eq!(empty.arrive(volume), (REFUSED, empty));
            }
        }
        for n in [1, 64] {
            assert_eq!(Window::new(n).answer(), answer(0));
        }
    }

    #[test]
    fn damaged_records_come_back() {
        // Of 5, 3, 4 and of nothing.
        let good = record(3, &[(5, 2), (4, 0)]);
        let empty = record(3, &[]);
        // With the count 1 an empty record is that of a single volume 0.
        for record in [good, empty, Record { count: 1, ..empty }, Record { n: 64, ..good }] {
            assert_eq!(record.arrive(6).0, answer(6));
        }
        let full = (0..64).map(|k| (100 - k, 63 - k)).collect::<Vec<(u64, u64)>>();
        assert_eq!(record(64, &full).arrive(0).0, answer(99));
        let mut stray = [good; 3];
        stray[0].kept[2].age = 1;
        stray[1].kept[63].volume = 1;
        stray[2].kept[63].age = u64::MAX;
        let damaged = [
            Record { n: 0, ..good },
            Record { n: 2, ..good },
            Record { n: 65, ..good },
            Record { n: u64::MAX, ..good },
            Record { count: 0, ..good },
            Record { count: 1, ..good },
            Record { count: 3, ..good },
            Record { count: 64, ..good },
            Record { count: 65, ..good },
            Record { count: u64::MAX, ..good },
            Record { count: 2, ..empty },
            Record { n: 63, ..record(64, &full) },
            record(3, &[(4, 2), (4, 0)]),
            record(3, &[(3, 2), (4, 0)]),
            record(3, &[(5, 3), (4, 0)]),
            record(3, &[(5, 0), (4, 0)]),
            record(3, &[(5, 0), (4, 2)]),
            record(3, &[(5, 2), (4, 1)]),
            record(3, &[(5, 2)]),
            record(64, &[(5, 64), (4, 0)]),
            record(64, &[(5, u64::MAX), (4, 0)]),
            record(64, &[(5, 2), (4, u64::MAX)]),
        ];
        for (k, record) in damaged.into_iter().chain(stray).enumerate() {
            assert_eq!(record.arrive(4), (REFUSED, record), "damaged {k}");
        }
    }

    /// What the arrival of 1 makes of each record that a window and up to so many more volumes leave.
    fn collect(window: &Window, more: u64, left: &mut HashMap<Record, (Answer, Record)>) {
        let mut next = window.clone();
        let after = (next.arrive(1), next.record());
        assert_eq!(*left.entry(window.record()).or_insert(after), after);
        if more == 0 {
            return;
        }
        for volume in 0..3 {
            let mut next = window.clone();
            next.arrive(volume);
            collect(&next, more - 1, left);
        }
    }

    /// Every record of a box, with its first four places counted through, against all lists of up to six volumes.
    #[test]
    fn the_judgement_is_that_of_all_lists() {
        let mut left = HashMap::new();
        for n in 1..=4 {
            collect(&Window::new(n), 6, &mut left);
        }
        let mut accepted = 0;
        for (n, count) in (0..25).map(|k| (k / 5, k % 5)) {
            for code in 0..12u64.pow(4) {
                let mut record = Record { count, ..record(n, &[]) };
                for (place, kept) in (0..4).zip(&mut record.kept) {
                    let digit = code / 12u64.pow(place) % 12;
                    *kept = Kept { volume: digit / 4, age: digit % 4 };
                }
                let expected = left.get(&record).copied().unwrap_or((REFUSED, record));
                assert_eq!(record.arrive(1), expected, "{record:?}");
                accepted += usize::from(expected.0.number == 0);
            }
        }
        // By hand: of the windows for 1, 2, 3 and 4, all of them in the box.
        assert_eq!([accepted, left.len()], [4 + 7 + 11 + 16; 2]);
    }
}
