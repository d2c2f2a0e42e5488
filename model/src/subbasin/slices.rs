//! Tests of the slices: beside the first delivery, which took PE in one, and beside a walk in the text's words.

use super::*;
use crate::basin::Basin;
use crate::chance::Chance;
use crate::curve::by_text;
use crate::file::IN_FILE;
use crate::forcing::{judge, Line, Reading};
use crate::record::{range, CASE_A, WORDS};

/// The step by the rule of the first delivery: one slice of any size. At its snow threshold, as all
/// steps here, so that P is the rain.
fn in_one_slice(mut record: Record, rain: u64, pan: u64) -> (Record, Flows) {
    let at = record.threshold as i64;
    let flows = advance_by(GREATEST_RAIN, &mut record, rain, pan, at);
    (record, flows)
}

fn in_slices(record: Record, rain: u64, pan: u64) -> (Record, Flows) {
    let given = step(record, rain, pan, record.threshold as i64);
    assert_eq!((given.number, given.place), (0, 0));
    (given.record, given.flows)
}

fn soil_water(s: &Record) -> u64 {
    s.wu + s.wl + s.wd + s.g
}

#[test]
fn case_a_in_one_slice() {
    let (after, f) = in_one_slice(Record::of_words(&CASE_A), 135_000, 0);
    let gain = after.wu + after.wl + after.wd;
    let keep = after.g + f.ri + f.rg;
    let ti = f.ri - after.vi;
    assert_eq!((gain, f.r, keep, f.rs), (105_000, 30_000, 4_444, 25_556));
    assert_eq!((f.ri, ti, f.q), (1_111, 556, 26_668));
}

#[test]
fn case_a_prints_in_one_slice() {
    let mut basin = Basin { n: 1, ..Basin::default() };
    basin.subs[0] = Record::of_words(&CASE_A);
    let steps =
        [(Reading::Measured(135.0), 0.0), (Reading::Missing, 0.0), (Reading::Measured(0.0), 10.0)];
    let mut lines = Vec::new();
    for (number, (rain, pan)) in (1..).zip(steps) {
        lines.push(match judge(&Line { rain, pan, temperature: 0.0 }) {
            Err(refusal) => format!("{number} refused {refusal} 1"),
            Ok(line) => {
                let (after, f) = in_one_slice(basin.subs[0], line.rain, line.pan);
                basin.subs[0] = after;
                let et = f.eu + f.el + f.ed;
                format!("{number} ok {} {et} {} {} 0", line.rain, f.q, basin.content())
            }
        });
    }
    let expected = ["1 ok 135000 0 26668 108332 0", "2 refused 6 1", "3 ok 0 10000 1110 97222 0"];
    assert_eq!(lines, expected);
}

/// A record of the file's ranges; of eight words one is the least and one the greatest.
fn drawn(chance: &mut Chance) -> Record {
    let mut words = [0; WORDS];
    for place in 0..WORDS {
        let (least, greatest) = range(&words, place, 0, IN_FILE);
        words[place] = match chance.within(1, 8) {
            1 => least,
            2 => greatest,
            _ => chance.within(least, greatest),
        };
    }
    Record::of_words(&words)
}

/// Rain and pan with the PE asked for.
fn forcing(pe: u64, record: &Record, chance: &mut Chance) -> (u64, u64) {
    let pan = if pe < 800_000 { chance.within(0, GREATEST_PAN) } else { 0 };
    (record.k * pan / WHOLE + pe, pan)
}

#[test]
fn one_slice_answers_as_before() {
    let mut chance = Chance::new(3);
    for k in 0..100_000 {
        let record = drawn(&mut chance);
        let pe = if k % 16 == 0 { SLICE } else { chance.within(0, SLICE) };
        let (rain, pan) = forcing(pe, &record, &mut chance);
        // PE, and the same pan without rain.
        for rain in [rain, 0] {
            let before = in_one_slice(record, rain, pan);
            assert_eq!(in_slices(record, rain, pan), before, "{record:?} {rain} {pan}");
        }
    }
}

#[test]
fn more_slices_answer_otherwise() {
    let mut chance = Chance::new(4);
    let mut other = 0;
    for _ in 0..10_000 {
        let record = drawn(&mut chance);
        let pe = chance.within(SLICE + 1, 100_000);
        let (rain, pan) = forcing(pe, &record, &mut chance);
        other += u64::from(in_slices(record, rain, pan) != in_one_slice(record, rain, pan));
    }
    assert!(other > 5_000, "{other} of 10,000");
}

/// The text's words one by one: the record and flows before the routing, and R of each slice.
fn walk(s: &Record, pe: u64) -> (Record, Flows, Vec<u64>) {
    let wm = s.um + s.lm + s.dm;
    let mm = wm * s.bn * 65_536 / (16 * (65_536 - s.im));
    let ms = s.sm * s.xn / 16;
    let mut slices = vec![5_000; (pe / 5_000) as usize];
    if pe % 5_000 > 0 {
        slices.push(pe % 5_000);
    }
    let mut after = *s;
    let mut f = Flows::default();
    let mut keep = s.g;
    let mut each_r = Vec::new();
    for slice in slices {
        let rb = s.im * slice / 65_536;
        let x = slice - rb;
        let w = after.wu + after.wl + after.wd;
        let ordinate = by_text::ordinate_by_halving(wm, mm, s.bn, w);
        let held = by_text::held(wm, mm, s.bn, u64::min(ordinate + slice, mm));
        let gain = u64::min(x, held - w);
        let r = x - gain;
        let mut rest = gain;
        for (content, capacity) in
            [(&mut after.wu, s.um), (&mut after.wl, s.lm), (&mut after.wd, s.dm)]
        {
            let part = u64::min(rest, capacity - *content);
            *content += part;
            rest -= part;
        }
        assert_eq!(rest, 0);
        let g = keep;
        let mut rs = 0;
        if r > 0 {
            let s1 = u64::min(s.sm, g * slice / r);
            let ordinate = by_text::ordinate_by_halving(s.sm, ms, s.xn, s1);
            let s2 = by_text::held(s.sm, ms, s.xn, u64::min(ordinate + slice, ms));
            keep = u64::min(g + r, s2 * r / slice);
            rs = g + r - keep;
        }
        f = Flows { rb: f.rb + rb, r: f.r + r, rs: f.rs + rs, ..f };
        each_r.push(r);
    }
    f.ri = s.ki * keep / 65_536;
    f.rg = s.kg * keep / 65_536;
    after.g = keep - f.ri - f.rg;
    (after, f, each_r)
}

/// Holds a step with PE to the walk; gives R of each slice.
fn hold_to_walk(record: &Record, pe: u64, chance: &mut Chance) -> Vec<u64> {
    let (rain, pan) = forcing(pe, record, chance);
    let (after, f) = in_slices(*record, rain, pan);
    let (expected, flows, each_r) = walk(record, pe);
    assert_eq!(f, Flows { eu: rain - pe, q: f.q, ..flows }, "{record:?} PE {pe}");
    let routed = Record {
        vi: after.vi,
        vg: after.vg,
        waiting: after.waiting,
        channel: after.channel,
        ..expected
    };
    assert_eq!(after, routed, "{record:?} PE {pe}");
    each_r
}

/// PE and how many slices it has.
const CUTS: [(u64, usize); 7] =
    [(0, 0), (4_999, 1), (5_000, 1), (5_001, 2), (10_000, 2), (10_001, 3), (1_000_000, 200)];

#[test]
fn slices_end_where_they_should() {
    let mut chance = Chance::new(5);
    let mut records = vec![Record::of_words(&CASE_A)];
    records.extend((0..200).map(|_| drawn(&mut chance)));
    for (pe, count) in CUTS {
        for record in &records {
            assert_eq!(hold_to_walk(record, pe, &mut chance).len(), count);
        }
    }
}

/// Slices without R come before and after such with R.
#[test]
fn any_net_rain_is_as_the_walk() {
    let mut chance = Chance::new(6);
    let [mut starting, mut stopping] = [0; 2];
    for _ in 0..5_000 {
        let record = drawn(&mut chance);
        let most = chance.of(&[10, 6_000, 20_000, 150_000]);
        let pe = chance.within(0, most);
        for pair in hold_to_walk(&record, pe, &mut chance).windows(2) {
            starting += u64::from(pair[0] == 0 && pair[1] > 0);
            stopping += u64::from(pair[0] > 0 && pair[1] == 0);
        }
    }
    assert!(starting > 50 && stopping > 5, "{starting} {stopping}");
}

#[test]
fn every_step_keeps_the_water_and_the_capacities() {
    let mut chance = Chance::new(7);
    for _ in 0..500 {
        let mut record = drawn(&mut chance);
        for _ in 0..40 {
            let most = chance.of(&[10, 5_001, 60_000, GREATEST_RAIN]);
            let rain = chance.within(0, most);
            let most = chance.of(&[0, 10, 8_000, GREATEST_PAN]);
            let pan = chance.within(0, most);
            let (after, f) = in_slices(record, rain, pan);
            let out = f.eu + f.el + f.ed + f.rb + f.rs + f.ri + f.rg;
            let [before, left] = [&record, &after].map(soil_water);
            assert_eq!(rain + before, out + left, "{record:?} {rain} {pan}");
            assert!(after.wu <= after.um && after.wl <= after.lm && after.wd <= after.dm);
            assert!(after.g <= after.sm);
            record = after;
        }
    }
}

/// With BN 16 and IM 0 all is gained until the layers are full.
#[test]
fn a_slice_without_r_leaves_keep_alone() {
    let dry = Record { bn: 16, g: 7_000, ..Record::of_words(&CASE_A) };
    let (after, f) = in_slices(dry, 12_000, 0);
    assert_eq!((f.r, f.rs, f.ri, f.rg, after.g), (0, 0, 1_750, 1_750, 3_500));

    // The first slice fills the layers, the second is all R.
    let full = Record { wu: 20_000, wl: 60_000, wd: 40_000, ..dry };
    let nearly = Record { wd: 35_000, ..full };
    let given = in_slices(nearly, 10_000, 0);
    assert_eq!(given, in_slices(full, 5_000, 0));
    assert_eq!(given.1.r, 5_000);

    // A last slice of 1 µm is gained whole.
    let half = Record { wu: 20_000, wl: 30_000, g: 7_000, ..Record::of_words(&CASE_A) };
    let (two, two_flows) = in_slices(half, 10_000, 0);
    let (three, three_flows) = in_slices(half, 10_001, 0);
    assert_eq!((three, three_flows), (Record { wl: two.wl + 1, ..two }, two_flows));
    assert!(two_flows.r > 0);
}
