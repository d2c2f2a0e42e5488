//! The basin: its step, network, report and content.

use crate::curve::WHOLE;
use crate::forcing::{judge, Forcing, Line, MOST_LINES};
use crate::record::Record;
use crate::store::Store;
use crate::subbasin;

pub const MOST_SUB_BASINS: usize = 32;
pub const MOST_REACHES: usize = 31;

/// Greatest content of a reach that is handed in, m³.
pub const GREATEST_REACH: u64 = 1 << 56;

/// A reach: its three words and its content.
#[derive(Clone, Copy, Debug, Default, PartialEq, Eq)]
pub struct Reach {
    pub c0: u64,
    pub c1: u64,
    pub next: u64,
    pub content: u64,
}

/// Whether the word at a place of a reach's words is in its range; the reach's own number and M.
pub fn reach_word_inside(words: &[u64; 3], place: usize, own: u64, m: u64) -> bool {
    let [c0, c1, next] = *words;
    match place {
        0 => c0 <= WHOLE,
        1 => (1..=u128::from(WHOLE)).contains(&(u128::from(c0) + u128::from(c1))),
        2 => next == 0 || (own < next && next <= m),
        _ => unreachable!("a reach has 3 words"),
    }
}

/// A basin of n sub-basins and m reaches; the other records are zero.
#[derive(Clone, Copy, Debug, PartialEq, Eq)]
pub struct Basin {
    pub n: u64,
    pub m: u64,
    pub subs: [Record; MOST_SUB_BASINS],
    pub reaches: [Reach; MOST_REACHES],
}

impl Default for Basin {
    /// The empty basin, all zeros.
    fn default() -> Basin {
        Basin {
            n: 0,
            m: 0,
            subs: [Record::default(); MOST_SUB_BASINS],
            reaches: [Reach::default(); MOST_REACHES],
        }
    }
}

/// What a step reports: volumes in m³ and the estimated lines. Refused: zeros.
#[derive(Clone, Copy, Debug, Default, PartialEq, Eq)]
pub struct Report {
    pub rain: u64,
    pub evapotranspiration: u64,
    pub outlet: u64,
    pub content: u64,
    pub estimated: u64,
}

/// A step's answer. Refused: its number and place, the basin as it was and a report of zeros.
#[derive(Clone, Copy, Debug, PartialEq, Eq)]
pub struct Advanced {
    pub number: u64,
    pub place: u64,
    pub basin: Basin,
    pub report: Report,
}

impl Basin {
    /// The basin's water, m³. That of a basin inside its limits is below 2^63.
    pub fn content(&self) -> u64 {
        let sub = |s: &Record| {
            let depth = s.wu + s.wl + s.wd + s.g + s.vi + s.vg + s.sn;
            s.area * depth + s.waiting.iter().sum::<u64>() + s.channel
        };
        let subs: u64 = self.subs[..self.n as usize].iter().map(sub).sum();
        let reaches: u64 = self.reaches[..self.m as usize].iter().map(|reach| reach.content).sum();
        subs + reaches
    }

    /// Whether nothing of the basin is what refusal 9 names.
    pub fn inside(&self) -> bool {
        let (n, m) = (self.n, self.m);
        if !(1..=MOST_SUB_BASINS as u64).contains(&n) || m > MOST_REACHES as u64 {
            return false;
        }
        let (used, unused) = self.subs.split_at(n as usize);
        let (used_reaches, unused_reaches) = self.reaches.split_at(m as usize);
        let reach_inside = |(at, reach): (usize, &Reach)| {
            let words = [reach.c0, reach.c1, reach.next];
            (0..3).all(|place| reach_word_inside(&words, place, at as u64 + 1, m))
                && reach.content <= GREATEST_REACH
        };
        used.iter().all(|record| record.inside() && record.reach <= m)
            && used_reaches.iter().enumerate().all(reach_inside)
            && unused.iter().all(|record| *record == Record::default())
            && unused_reaches.iter().all(|reach| *reach == Reach::default())
    }

    /// The step call.
    pub fn step(mut self, lines: &[Line; MOST_LINES], count: u64) -> Advanced {
        let result = if !self.inside() {
            Err((9, 0))
        } else if count != self.n {
            Err((5, 0))
        } else {
            self.advance(lines.iter().copied())
        };
        match result {
            Err((number, place)) => {
                Advanced { number, place, basin: self, report: Report::default() }
            }
            Ok(report) => Advanced { number: 0, place: 0, basin: self, report },
        }
    }

    /// The step in place, of a basin inside its limits and with a line for every sub-basin: its
    /// report, or the number and place of the first bad line. A loaded basin stays inside, as no
    /// store comes to hold more than 65,536 times its greatest inflow, and snow no more than its mark.
    pub fn advance(&mut self, lines: impl Iterator<Item = Line>) -> Result<Report, (u64, u64)> {
        let mut judged = [Forcing::default(); MOST_LINES];
        let judged = &mut judged[..self.n as usize];
        for (place, (line, judged)) in (1..).zip(lines.zip(judged.iter_mut())) {
            *judged = judge(&line).map_err(|number| (number, place))?;
        }
        Ok(self.step_of(judged))
    }

    /// An accepted step. The rain that it reports is the gauge's, snow or not.
    fn step_of(&mut self, lines: &[Forcing]) -> Report {
        let mut rain = 0;
        let mut evapotranspiration = 0;
        // What is sent to the outlet, 0, and to the reaches, 1..M.
        let mut sent = [0u64; MOST_REACHES + 1];
        for (record, line) in self.subs.iter_mut().zip(lines) {
            let flows = subbasin::advance(record, line.rain, line.pan, line.temperature);
            rain += record.area * line.rain;
            evapotranspiration += record.area * (flows.eu + flows.el + flows.ed);
            sent[record.reach as usize] += flows.q;
        }
        for own in 1..=self.m as usize {
            let reach = &mut self.reaches[own - 1];
            let store = Store { a: reach.c0, g: reach.c0 + reach.c1, content: reach.content };
            let (store, outflow) = store.pass(sent[own]);
            reach.content = store.content;
            sent[reach.next as usize] += outflow;
        }
        Report {
            rain,
            evapotranspiration,
            outlet: sent[0],
            content: self.content(),
            estimated: lines.iter().filter(|line| line.estimated).count() as u64,
        }
    }
}

#[cfg(test)]
mod tests {
    use super::*;
    use crate::chance::Chance;
    use crate::forcing::Reading;
    use crate::record::*;

    const NOTHING: Line = Line { rain: Reading::Missing, pan: 0.0, temperature: 0.0 };

    fn case_a() -> Basin {
        let mut basin = Basin { n: 1, ..Basin::default() };
        basin.subs[0] = Record::of_words(&CASE_A);
        basin
    }

    /// Three sub-basins with lags and channels on a chain of two reaches.
    fn chain() -> Basin {
        let mut basin = Basin { n: 3, m: 2, ..Basin::default() };
        for (at, l, reach) in [(0, 0, 1), (1, 3, 2), (2, 1, 0)] {
            let area = 7 + at as u64;
            basin.subs[at] =
                Record { area, l, reach, cs: 30_000, wu: 9_000, ..Record::of_words(&CASE_A) };
        }
        basin.reaches[0] = Reach { c0: 10_000, c1: 20_000, next: 2, content: 0 };
        basin.reaches[1] = Reach { c0: 5_000, c1: 40_000, next: 0, content: 0 };
        basin
    }

    fn with(rain: Reading, pan: f32) -> [Line; MOST_LINES] {
        [Line { rain, pan, temperature: 0.0 }; MOST_LINES]
    }

    #[test]
    fn water_is_kept() {
        let mut basin = chain();
        for turn in 0..200 {
            let before = basin.content();
            let rain = if turn % 7 < 2 { 31.4 } else { 0.0 };
            let given = basin.step(&with(Reading::Estimated(rain), 4.25), 3);
            let report = given.report;
            assert_eq!((given.number, report.estimated), (0, 3));
            let out = report.evapotranspiration + report.outlet + report.content;
            assert_eq!(before + report.rain, out);
            basin = given.basin;
        }
    }

    /// The same with snow, from none and from near to its mark, through frost and thaw, warm rain and melt that waits.
    #[test]
    fn water_is_kept_with_snow() {
        let mut chance = Chance::new(12);
        let mut kinds = [0; 4];
        for sn in [0, 2_000_000, GREATEST_SNOW - 5_000_000] {
            let mut basin = chain();
            for (at, f, threshold) in [(0, 20_000, 0), (1, 4_500, 750), (2, 0, 10_000)] {
                basin.subs[at] = Record { f, threshold, sn, ..basin.subs[at] };
            }
            for turn in 0..2_000 {
                let mut lines = with(Reading::Missing, 0.0);
                let most = chance.of(&[0, 0, 300, 10_000]);
                for line in &mut lines[..3] {
                    let [rain, pan] = [most, 80].map(|tenths| chance.within(0, tenths));
                    line.rain = Reading::Measured(rain as f32 / 10.0);
                    line.pan = pan as f32 / 10.0;
                    let least = chance.of(&[-20.0, -20.0, 0.0, 48.0]);
                    line.temperature = least + chance.within(0, 120) as f32 / 10.0;
                }
                let before = basin.content();
                let given = basin.step(&lines, 3);
                let report = given.report;
                assert_eq!(given.number, 0, "turn {turn}");
                let out = report.evapotranspiration + report.outlet + report.content;
                assert_eq!(before + report.rain, out);
                let gauges = lines[..3]
                    .iter()
                    .zip(&basin.subs)
                    .map(|(line, sub)| sub.area * judge(line).expect("a good line").rain);
                assert_eq!(report.rain, gauges.sum::<u64>());
                for (before, after) in basin.subs[..3].iter().zip(&given.basin.subs) {
                    kinds[0] += u32::from(after.sn > before.sn);
                    kinds[1] += u32::from(0 < after.sn && after.sn < before.sn);
                    kinds[2] += u32::from(after.sn == 0 && 0 < before.sn);
                    kinds[3] += u32::from(after.sn == GREATEST_SNOW);
                }
                basin = given.basin;
            }
            assert!(basin.inside());
        }
        assert!(kinds.into_iter().all(|met| met > 20), "{kinds:?}");
    }

    /// The slowest stores under the most rain, until they hardly fill any further. It freezes, but the snow is at its mark.
    #[test]
    fn the_fullest_basin_stays_inside() {
        let full = Record { area: 5_000, sm: 100_000, ki: WHOLE, kg: 0, l: 15, ..case_a().subs[0] };
        let full = Record { threshold: 1, sn: GREATEST_SNOW, ..full };
        let mut basin = Basin { n: 1, m: 1, ..Basin::default() };
        basin.subs[0] = Record { ci: 65_535, cg: 65_535, cs: 65_535, reach: 1, ..full };
        basin.reaches[0] = Reach { c0: 0, c1: 1, next: 0, content: 0 };
        for _ in 0..300_000 {
            basin.advance(with(Reading::Measured(1_000.0), 0.0).into_iter()).unwrap();
        }
        assert!(basin.inside());
        assert!(basin.subs[0].vi > GREATEST_WAITING_DEPTH / 4 * 3);
    }

    #[test]
    fn the_greatest_content() {
        let sub = Record {
            area: 5_000,
            um: 100_000,
            lm: 200_000,
            dm: 200_000,
            sm: 100_000,
            l: 15,
            wu: 100_000,
            wl: 200_000,
            wd: 200_000,
            g: 100_000,
            vi: GREATEST_WAITING_DEPTH,
            vg: GREATEST_WAITING_DEPTH,
            sn: GREATEST_SNOW,
            waiting: [GREATEST_WAITING_AMOUNT; WAITING],
            channel: GREATEST_CHANNEL,
            ..case_a().subs[0]
        };
        let reach = Reach { c0: 0, c1: 1, next: 0, content: GREATEST_REACH };
        let basin = Basin { n: 32, m: 31, subs: [sub; 32], reaches: [reach; 31] };
        assert!(basin.inside());
        let depth = 600_000 + 2 * (1u128 << 33) + (1 << 40);
        let content = 32 * (5_000 * depth + 15 * (1 << 50) + (1 << 56)) + 31 * (1 << 56);
        assert_eq!(u128::from(basin.content()), content);
        assert!(content < 1 << 63);
    }

    #[test]
    fn refusals_in_their_order() {
        let fine = with(Reading::Measured(1.0), 1.0);
        let told = |basin: Basin, lines: &[Line; MOST_LINES], count| {
            let given = basin.step(lines, count);
            assert_eq!((given.basin, given.report), (basin, Report::default()));
            (given.number, given.place)
        };
        assert_eq!(told(Basin::default(), &fine, 7), (9, 0));
        assert_eq!(told(case_a(), &fine, 2), (5, 0));
        let mut lines = fine;
        lines[2] = NOTHING;
        assert_eq!(told(chain(), &lines, 3), (6, 3));
        lines[1].pan = 100.5;
        assert_eq!(told(chain(), &lines, 3), (8, 2));
        lines[1].rain = Reading::Estimated(f32::NAN);
        assert_eq!(told(chain(), &lines, 3), (12, 2));
        lines[0] = NOTHING;
        assert_eq!(told(chain(), &lines, 3), (6, 1));
        assert_eq!(told(chain(), &lines, 4), (5, 0));
        let mut lines = fine;
        lines[2].temperature = f32::NAN;
        assert_eq!(told(chain(), &lines, 3), (14, 3));
        assert_eq!(chain().step(&lines, 4).number, 5);
        lines[1].temperature = -80.000_01;
        assert_eq!(told(chain(), &lines, 3), (14, 2));
        lines[1].pan = -1.0;
        assert_eq!(told(chain(), &lines, 3), (7, 2));
        lines[0].temperature = 60.000_004;
        assert_eq!(told(chain(), &lines, 3), (14, 1));
        lines[0].rain = Reading::Missing;
        assert_eq!(told(chain(), &lines, 3), (6, 1));
        // Past the count nothing is looked at.
        let mut lines = fine;
        lines[3].temperature = f32::INFINITY;
        assert_eq!(chain().step(&lines, 3).number, 0);
    }

    #[test]
    fn basins_outside_the_limits() {
        let changes: [fn(&mut Basin); 16] = [
            |basin| basin.n = 33,
            |basin| basin.m = 32,
            |basin| basin.n = 2,
            |basin| basin.m = 1,
            |basin| basin.subs[0].reach = 3,
            |basin| basin.subs[31].vg = 1,
            |basin| basin.reaches[30].content = 1,
            |basin| basin.reaches[0].next = 1,
            |basin| basin.reaches[1].content = GREATEST_REACH + 1,
            |basin| basin.reaches[0] = Reach { next: 2, ..Reach::default() },
            |basin| basin.subs[0].f = 20_001,
            |basin| basin.subs[1].threshold = 10_001,
            |basin| basin.subs[2].sn = GREATEST_SNOW + 1,
            |basin| basin.subs[3].f = 1,
            |basin| basin.subs[3].threshold = 1,
            |basin| basin.subs[31].sn = 1,
        ];
        assert!(chain().inside());
        for (at, change) in changes.iter().enumerate() {
            let mut basin = chain();
            change(&mut basin);
            assert!(!basin.inside(), "change {at}");
        }
    }
}
