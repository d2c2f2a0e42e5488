//! Snow: what falls below the threshold, and what melts at it and above.

use crate::record::{Record, GREATEST_SNOW};

/// Greatest P, µm.
const GREATEST_P: u64 = 1_000_000;

/// P, from the rain and the temperature in thousandths of a degree.
#[inline(always)]
pub fn freeze_or_melt(s: &mut Record, rain: u64, temperature: i64) -> u64 {
    let above = temperature - s.threshold as i64;
    if above < 0 {
        let falls = rain.min(GREATEST_SNOW - s.sn);
        s.sn += falls;
        return rain - falls;
    }
    let melt = s.sn.min(s.f * above as u64 / 1_000);
    let taken = melt.min(GREATEST_P - rain);
    s.sn -= taken;
    rain + taken
}

#[cfg(test)]
mod tests {
    use super::*;
    use crate::basin::Basin;
    use crate::chance::Chance;
    use crate::record::{range, CASE_A, HANDED_IN, WORDS};
    use crate::subbasin::{
        step, Flows, GREATEST_PAN, GREATEST_RAIN, GREATEST_TEMPERATURE, LEAST_TEMPERATURE,
    };

    /// The snow words in the file's order.
    fn record(f: u64, threshold: u64, sn: u64) -> Record {
        Record { f, threshold, sn, ..Record::of_words(&CASE_A) }
    }

    /// P and SN after.
    fn given(mut s: Record, rain: u64, temperature: i64) -> (u64, u64) {
        (freeze_or_melt(&mut s, rain, temperature), s.sn)
    }

    /// The text's words over whole numbers of any size, the other part from the balance.
    fn by_text(s: &Record, rain: u64, temperature: i64) -> (i128, i128) {
        let [rain, sn, f, threshold] = [rain, s.sn, s.f, s.threshold].map(i128::from);
        let degrees = i128::from(temperature) - threshold;
        let all = sn + rain;
        if degrees < 0 {
            let snow = i128::min(all, 1_099_511_627_776);
            return (all - snow, snow);
        }
        let melt = i128::min(sn, (f * degrees).div_euclid(1_000));
        let p = i128::min(rain + melt, 1_000_000);
        (p, all - p)
    }

    fn hold_to_text(s: &Record, rain: u64, temperature: i64) {
        let (p, sn) = given(*s, rain, temperature);
        let what = format!("{} {} {} {rain} {temperature}", s.f, s.threshold, s.sn);
        assert_eq!((i128::from(p), i128::from(sn)), by_text(s, rain, temperature), "{what}");
        assert!(p <= 1_000_000 && sn <= GREATEST_SNOW, "{what}");
        assert_eq!(rain + s.sn, p + sn, "{what}");
    }

    const SNOWS: [u64; 13] = [
        0,
        1,
        2,
        4_499,
        999_999,
        1_000_000,
        1_000_001,
        3_000_000,
        GREATEST_SNOW - 1_000_000,
        GREATEST_SNOW - 999_999,
        GREATEST_SNOW - 2,
        GREATEST_SNOW - 1,
        GREATEST_SNOW,
    ];

    #[test]
    fn corners_are_as_the_text() {
        for sn in SNOWS {
            for f in [0, 1, 999, 1_000, 1_001, 4_500, 19_999, 20_000] {
                for threshold in [0, 1, 750, 9_999, 10_000] {
                    let s = record(f, threshold, sn);
                    let at = threshold as i64;
                    for temperature in
                        [-80_000, -1, 0, at - 1, at, at + 1, at + 999, at + 1_000, 50_000, 60_000]
                    {
                        for rain in [0, 1, 2, 500_000, 999_999, 1_000_000] {
                            hold_to_text(&s, rain, temperature);
                        }
                    }
                }
            }
        }
    }

    /// Snow words, rain and temperature; of a size each.
    fn drawn(chance: &mut Chance) -> (Record, u64, i64) {
        let most = chance.of(&[10, 3_000, 20_000]);
        let f = chance.within(0, most);
        let threshold = chance.within(0, 10_000);
        let near = chance.within(0, 2_000_000);
        let sn = match chance.within(0, 3) {
            0 => near,
            1 => near / 1_000,
            2 => GREATEST_SNOW - near,
            _ => (u64::from(chance.word()) << 9).min(GREATEST_SNOW),
        };
        let most = chance.of(&[0, 10, 60_000, GREATEST_RAIN]);
        let rain = chance.within(0, most);
        let temperature = match chance.within(0, 2) {
            0 => chance.within(0, 140_000) as i64 - 80_000,
            1 => threshold as i64 + chance.within(0, 20) as i64 - 10,
            _ => chance.within(0, 30_000) as i64 - 10_000,
        };
        (record(f, threshold, sn), rain, temperature)
    }

    #[test]
    fn anything_is_as_the_text() {
        let mut chance = Chance::new(13);
        for _ in 0..1_000_000 {
            let (s, rain, temperature) = drawn(&mut chance);
            hold_to_text(&s, rain, temperature);
        }
    }

    #[test]
    fn the_threshold_itself() {
        let s = record(4_500, 750, 26_000);
        assert_eq!(given(s, 1_000, 749), (0, 27_000));
        assert_eq!(given(s, 1_000, 750), (1_000, 26_000));
        assert_eq!(given(s, 1_000, 751), (1_004, 25_996));
        assert_eq!(given(s, 1_000, -3_500), (0, 27_000));
        // At 0 °C and with a threshold of 0 nothing freezes.
        assert_eq!(given(record(20_000, 0, 7), 1_000, 0), (1_000, 7));
        assert_eq!(given(record(20_000, 0, 7), 1_000, -1), (0, 1_007));
    }

    #[test]
    fn melt_rounds_down() {
        let melt = |f, degrees: i64| given(record(f, 0, GREATEST_SNOW), 0, degrees).0;
        assert_eq!([999, 1_000, 1_999, 2_000].map(|degrees| melt(1, degrees)), [0, 1, 1, 2]);
        assert_eq!([1, 2, 3].map(|degrees| melt(500, degrees)), [0, 1, 1]);
        assert_eq!((melt(0, 60_000), melt(20_000, 50_000)), (0, 1_000_000));
        for f in [1, 7, 333, 999, 4_500, 16_384, 16_666] {
            for degrees in 0..=60_000 {
                let exact = i128::from(f) * i128::from(degrees);
                let left = exact - 1_000 * i128::from(melt(f, degrees));
                assert!((0..1_000).contains(&left), "{f} {degrees}");
            }
        }
    }

    #[test]
    fn no_more_melts_than_lies() {
        for sn in [0, 1, 9_999, 10_000] {
            assert_eq!(given(record(10_000, 500, sn), 40, 1_500), (40 + sn, 0));
        }
        assert_eq!(given(record(10_000, 500, 10_001), 40, 1_500), (10_040, 1));
    }

    /// 20,000 µm for each of 60 degrees are 1,200,000.
    #[test]
    fn melt_above_the_greatest_p_waits() {
        let s = record(20_000, 0, 3_000_000);
        assert_eq!(given(s, 0, 60_000), (1_000_000, 2_000_000));
        assert_eq!(given(s, 0, 50_000), (1_000_000, 2_000_000));
        assert_eq!(given(s, 0, 49_999), (999_980, 2_000_020));
        assert_eq!(given(s, 400_000, 60_000), (1_000_000, 2_400_000));
        assert_eq!(given(s, 999_999, 60_000), (1_000_000, 2_999_999));
        assert_eq!(given(s, 1_000_000, 60_000), (1_000_000, 3_000_000));
        assert_eq!(given(record(20_000, 0, 1_000_000), 0, 60_000), (1_000_000, 0));
        assert_eq!(given(record(20_000, 0, 1_000_001), 0, 60_000), (1_000_000, 1));
    }

    #[test]
    fn rain_above_the_mark_is_p() {
        let full = |below| record(4_500, 750, GREATEST_SNOW - below);
        assert_eq!(given(full(0), 1_000_000, 749), (1_000_000, GREATEST_SNOW));
        assert_eq!(given(full(1), 1_000_000, 749), (999_999, GREATEST_SNOW));
        assert_eq!(given(full(1), 1, 749), (0, GREATEST_SNOW));
        assert_eq!(given(full(1), 0, 749), (0, GREATEST_SNOW - 1));
        assert_eq!(given(full(1_000_000), 1_000_000, 749), (0, GREATEST_SNOW));
        assert_eq!(given(full(1_000_001), 1_000_000, 749), (0, GREATEST_SNOW - 1));
        // Rain at the threshold leaves snow at its mark alone.
        assert_eq!(given(full(0), 1_000_000, 750), (1_000_000, GREATEST_SNOW));
    }

    /// A record that may be handed in; of eight words one is the least and one the greatest.
    fn any_record(chance: &mut Chance) -> Record {
        let mut words = [0; WORDS];
        for place in 0..WORDS {
            let (least, greatest) = range(&words, place, 0, HANDED_IN);
            words[place] = match chance.within(1, 8) {
                1 => least,
                2 => greatest,
                _ => chance.within(least, greatest.min(5_000_000)),
            };
        }
        Record::of_words(&words)
    }

    fn forcing(chance: &mut Chance) -> (u64, u64, i64) {
        let most = chance.of(&[0, 10, 60_000, GREATEST_RAIN]);
        let rain = chance.within(0, most);
        let most = chance.of(&[0, 10, 8_000, GREATEST_PAN]);
        let pan = chance.within(0, most);
        let temperature = match chance.within(0, 3) {
            0 => chance.of(&[LEAST_TEMPERATURE, 0, 10_000, GREATEST_TEMPERATURE]),
            1 => chance.within(0, 140_000) as i64 - 80_000,
            _ => chance.within(0, 30_000) as i64 - 10_000,
        };
        (rain, pan, temperature)
    }

    /// A step under P at the threshold, where P is the rain, and with the snow that is left.
    #[test]
    fn p_takes_the_rains_place() {
        let mut chance = Chance::new(14);
        let mut other = 0;
        for _ in 0..50_000 {
            let s = any_record(&mut chance);
            let (rain, pan, temperature) = forcing(&mut chance);
            let (p, sn) = by_text(&s, rain, temperature);
            let bare = step(Record { sn: 0, ..s }, p as u64, pan, s.threshold as i64);
            assert_eq!((bare.number, bare.record.sn), (0, 0));
            let record = Record { sn: sn as u64, ..bare.record };
            let given = step(s, rain, pan, temperature);
            assert_eq!((given.number, given.place), (0, 0));
            assert_eq!((given.record, given.flows), (record, bare.flows), "{s:?}");
            other += u64::from(p != i128::from(rain));
        }
        assert!(other > 20_000, "{other} of 50,000");
    }

    /// In frost the pan takes from the soil alone; melt is taken before it.
    #[test]
    fn evapotranspiration_takes_p() {
        let s = Record { wu: 3_000, ..record(4_500, 750, 26_000) };
        let frozen = step(s, 5_000, 2_000, -3_500);
        assert_eq!(frozen.flows, Flows { eu: 2_000, ..Flows::default() });
        assert_eq!((frozen.record.wu, frozen.record.sn), (1_000, 31_000));
        let thawed = step(s, 0, 2_000, 1_750);
        assert_eq!(thawed.flows.eu, 2_000);
        assert_eq!((thawed.record.wu, thawed.record.sn), (5_500 - thawed.flows.r, 21_500));
        let dry = step(s, 0, 9_000, 1_000);
        assert_eq!((dry.flows.eu, dry.record.wu, dry.record.sn), (1_125 + 3_000, 0, 24_875));
    }

    fn water(s: &Record) -> i128 {
        let mut basin = Basin { n: 1, ..Basin::default() };
        basin.subs[0] = *s;
        i128::from(basin.content())
    }

    #[test]
    fn the_water_is_kept_over_long_series() {
        let mut chance = Chance::new(15);
        let [mut freezing, mut melting, mut brimming] = [0; 3];
        for _ in 0..300 {
            let mut s = Record { vi: 0, vg: 0, ..any_record(&mut chance) };
            let area = i128::from(s.area);
            let start = water(&s);
            let [mut rains, mut losses] = [0; 2];
            for _ in 0..400 {
                let (rain, pan, temperature) = forcing(&mut chance);
                let given = step(s, rain, pan, temperature);
                assert_eq!(given.number, 0);
                let f = given.flows;
                rains += area * i128::from(rain);
                losses += area * i128::from(f.eu + f.el + f.ed) + i128::from(f.q);
                let after = given.record;
                assert_eq!(start + rains, water(&after) + losses, "{s:?}");
                assert!(after.sn <= GREATEST_SNOW);
                assert_eq!((after.f, after.threshold), (s.f, s.threshold));
                freezing += u64::from(after.sn > s.sn);
                melting += u64::from(after.sn < s.sn);
                brimming += u64::from(after.sn == GREATEST_SNOW);
                s = after;
            }
        }
        assert!(freezing > 10_000 && melting > 10_000 && brimming > 100);
    }
}
