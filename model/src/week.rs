//! The week in one call: many steps from one list of lines.

use crate::basin::{Basin, Report};
use crate::forcing::{Line, Reading, MOST_LINES};

/// The most steps that fit in a call.
pub const MOST_STEPS: usize = 1_000;

/// A week's answer: the basin reached, how many steps were accepted, what they report together (sums, and the content of
/// the last), and number and place of the refusal, zeros where there is none.
#[derive(Clone, Copy, Debug, PartialEq, Eq)]
pub struct Ran {
    pub number: u64,
    pub place: u64,
    pub basin: Basin,
    pub count: u64,
    pub report: Report,
}

impl Basin {
    /// The week call: 9 is judged first, then the length, then the steps in order up to the first that is refused.
    pub fn week(self, lines: &[Line]) -> Ran {
        let mut ran = Ran::none(self);
        if !self.inside() {
            ran.number = 9;
            return ran;
        }
        // Inside, so N is 1..32.
        let n = self.n as usize;
        if lines.len() > MOST_STEPS * n || lines.len() % n != 0 {
            ran.number = 5;
            return ran;
        }
        for step in 0..lines.len() / n {
            let mut own = [Line { rain: Reading::Missing, pan: 0.0, temperature: 0.0 }; MOST_LINES];
            for k in 0..n {
                own[k] = lines[step * n + k];
            }
            let given = ran.basin.step(&own, n as u64);
            // A refused step hands back the basin as it was.
            ran.basin = given.basin;
            if given.number != 0 {
                (ran.number, ran.place) = (given.number, given.place);
                return ran;
            }
            ran.count += 1;
            ran.report.rain += given.report.rain;
            ran.report.evapotranspiration += given.report.evapotranspiration;
            ran.report.outlet += given.report.outlet;
            ran.report.content = given.report.content;
            ran.report.estimated += given.report.estimated;
        }
        ran
    }
}

impl Ran {
    /// No step taken, none refused.
    pub fn none(basin: Basin) -> Ran {
        Ran { number: 0, place: 0, basin, count: 0, report: Report::default() }
    }

    /// Steps by their lines, up to the first that is refused: what the expectations run beside a week.
    pub fn take<'a>(&mut self, steps: impl Iterator<Item = &'a [Line]>) {
        for lines in steps {
            let given = self.basin.step(&listed(lines), lines.len() as u64);
            if given.number > 0 {
                (self.number, self.place) = (given.number, given.place);
                return;
            }
            self.basin = given.basin;
            self.count += 1;
            self.report = together(self.report, given.report);
        }
    }
}

/// A step's lines with the places past them, which no step looks at.
pub fn listed(lines: &[Line]) -> [Line; MOST_LINES] {
    let mut all = [Line { rain: Reading::Missing, pan: 0.0, temperature: 0.0 }; MOST_LINES];
    all[..lines.len()].copy_from_slice(lines);
    all
}

fn together(sums: Report, last: Report) -> Report {
    Report {
        rain: sums.rain + last.rain,
        evapotranspiration: sums.evapotranspiration + last.evapotranspiration,
        outlet: sums.outlet + last.outlet,
        content: last.content,
        estimated: sums.estimated + last.estimated,
    }
}

#[cfg(test)]
mod tests {
    use super::*;
    use crate::basin::Reach;
    use crate::record::{Record, CASE_A, GREATEST_CHANNEL, GREATEST_WAITING_AMOUNT};

    const WET: Line = Line { rain: Reading::Measured(31.4), pan: 1.5, temperature: 0.0 };
    const GUESSED: Line = Line { rain: Reading::Estimated(2.0), pan: 4.25, temperature: 0.0 };
    const MISSING: Line = Line { rain: Reading::Missing, pan: 0.0, temperature: 0.0 };
    const BROKEN: Line = Line { rain: Reading::Measured(f32::NAN), pan: 0.0, temperature: 0.0 };
    const TOO_DRY: Line = Line { rain: Reading::Measured(1.0), pan: 100.5, temperature: 0.0 };
    const TOO_HOT: Line = Line { temperature: 60.5, ..WET };

    /// Sub-basins like case A's, all on one reach.
    fn basin(n: usize) -> Basin {
        let mut basin = Basin { n: n as u64, m: 1, ..Basin::default() };
        for sub in &mut basin.subs[..n] {
            *sub = Record { reach: 1, cs: 30_000, ..Record::of_words(&CASE_A) };
        }
        basin.reaches[0] = Reach { c0: 10_000, c1: 20_000, next: 0, content: 0 };
        basin
    }

    /// Nothing taken and nothing summed.
    fn untaken(basin: Basin, number: u64) -> Ran {
        Ran { number, ..Ran::none(basin) }
    }

    #[test]
    fn case_a_stops_at_its_second_step() {
        let mut basin = Basin { n: 1, ..Basin::default() };
        basin.subs[0] = Record::of_words(&CASE_A);
        let measured = |rain, pan| Line { rain: Reading::Measured(rain), pan, temperature: 0.0 };
        let ran = basin.week(&[measured(135.0, 0.0), MISSING, measured(0.0, 10.0)]);
        assert_eq!((ran.number, ran.place, ran.count), (6, 1, 1));
        let r = ran.report;
        assert_eq!((r.rain, r.evapotranspiration, r.outlet), (135_000, 0, 22_678));
        assert_eq!((r.content, r.estimated), (112_322, 0));
        assert_eq!(ran.basin.content(), 112_322);
    }

    #[test]
    fn nine_is_judged_before_the_length_and_for_an_empty_list() {
        let mut outside = basin(2);
        outside.subs[1].area = 0;
        for long in [0, 1, 2, 3, 2_000, 2_001, 2_002] {
            assert_eq!(outside.week(&vec![MISSING; long]), untaken(outside, 9), "{long} lines");
        }
        assert_eq!(Basin::default().week(&[]), untaken(Basin::default(), 9));
    }

    #[test]
    fn lengths_that_do_not_fit() {
        for n in [1, 2, 3, 32] {
            let basin = basin(n);
            for long in [1_000 * n + 1, 1_001 * n, 1_002 * n - 1] {
                assert_eq!(basin.week(&vec![MISSING; long]), untaken(basin, 5), "{long} lines");
            }
            for long in [1, n - 1, n + 1, 7 * n - 1, 7 * n + 1, 1_000 * n - 1] {
                if long % n > 0 {
                    assert_eq!(basin.week(&vec![WET; long]), untaken(basin, 5), "{long} lines");
                }
            }
        }
    }

    #[test]
    fn a_thousand_steps_fit() {
        for n in [1, 2, 32] {
            let ran = basin(n).week(&vec![GUESSED; 1_000 * n]);
            assert_eq!((ran.number, ran.place, ran.count), (0, 0, 1_000));
            assert_eq!(ran.report.estimated, 1_000 * n as u64);
        }
    }

    #[test]
    fn an_empty_list_takes_nothing() {
        assert_eq!(basin(3).week(&[]), untaken(basin(3), 0));
    }

    #[test]
    fn the_steps_are_taken_in_order_and_summed() {
        let mut basin = basin(2);
        let lines = [WET, GUESSED, GUESSED, GUESSED, WET, WET];
        let ran = basin.week(&lines);
        let mut reports = Vec::new();
        for pair in [[WET, GUESSED], [GUESSED, GUESSED], [WET, WET]] {
            let given = basin.step(&listed(&pair), 2);
            assert_eq!(given.number, 0);
            basin = given.basin;
            reports.push(given.report);
        }
        assert_eq!((ran.number, ran.place, ran.count), (0, 0, 3));
        assert_eq!(ran.basin, basin);
        let summed = |number: fn(&Report) -> u64| reports.iter().map(number).sum::<u64>();
        assert_eq!(ran.report.rain, summed(|r| r.rain));
        assert_eq!(ran.report.evapotranspiration, summed(|r| r.evapotranspiration));
        assert_eq!(ran.report.outlet, summed(|r| r.outlet));
        assert_eq!((ran.report.content, ran.report.estimated), (reports[2].content, 3));
        assert!(reports.iter().all(|r| r.rain > 0 && r.evapotranspiration > 0));
    }

    /// It gives its own number and place; what was reached and summed before it stands, and no step after it is taken.
    #[test]
    fn a_refused_step_ends_the_week() {
        let basin = basin(3);
        for refused_at in 0..5 {
            let before = basin.week(&vec![WET; 3 * refused_at]);
            for (place, bad, number) in [
                (1, MISSING, 6),
                (2, BROKEN, 12),
                (3, TOO_DRY, 8),
                (3, MISSING, 6),
                (1, TOO_HOT, 14),
            ] {
                let mut lines = [WET; 15];
                lines[14] = MISSING;
                lines[3 * refused_at + place - 1] = bad;
                let place = place as u64;
                assert_eq!(basin.week(&lines), Ran { number, place, ..before });
                assert_eq!((before.number, before.count), (0, refused_at as u64));
            }
        }
    }

    /// A basin at its limits that a step carries beyond them: the next step gets 9.
    #[test]
    fn nine_inside_a_week() {
        let mut basin = basin(1);
        let s = &mut basin.subs[0];
        (s.l, s.cs, s.channel) = (1, 65_535, GREATEST_CHANNEL);
        s.waiting[0] = GREATEST_WAITING_AMOUNT;
        let one = basin.week(&[WET]);
        assert_eq!((one.number, one.count, one.basin.inside()), (0, 1, false));
        assert_eq!(basin.week(&[WET; 3]), Ran { number: 9, ..one });
        assert_eq!(one.basin.week(&[]), untaken(one.basin, 9));
    }

    /// Snow falls for a week and melts for another: the sums have the gauge's rain, and the water is kept.
    #[test]
    fn a_week_of_snow() {
        let mut basin = basin(2);
        for sub in &mut basin.subs[..2] {
            (sub.f, sub.threshold, sub.sn) = (4_500, 500, 10_000);
        }
        let snowing = Line { temperature: 0.499, ..WET };
        let melting = Line { temperature: 10.5, ..GUESSED };
        let [before, cold] = [basin.content(), 14 * 31_400];
        let frozen = basin.week(&[snowing; 14]);
        assert_eq!((frozen.number, frozen.count, frozen.report.rain), (0, 7, cold));
        let [first, second] = [0, 1].map(|at| frozen.basin.subs[at].sn);
        assert_eq!((first, second), (10_000 + 7 * 31_400, 10_000 + 7 * 31_400));
        let thawed = frozen.basin.week(&[melting; 14]);
        assert_eq!((thawed.number, thawed.count, thawed.report.rain), (0, 7, 14 * 2_000));
        assert_eq!((thawed.basin.subs[0].sn, thawed.basin.subs[1].sn), (0, 0));
        let rain = cold + 14 * 2_000;
        let gone = [frozen, thawed].map(|ran| ran.report.evapotranspiration + ran.report.outlet);
        assert_eq!(before + rain, gone[0] + gone[1] + thawed.basin.content());
    }
}
