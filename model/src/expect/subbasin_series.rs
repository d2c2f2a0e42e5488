//! `subbasin_series`: the sub-basin call in long series.

use super::draft;
use super::draw::{Checksum, Draw};
use super::weather::{frost, spells, Climate, Weather, CLIMATES};
use crate::file::IN_FILE;
use crate::record::*;
use crate::subbasin::{
    step, Stepped, GREATEST_PAN, GREATEST_RAIN, GREATEST_TEMPERATURE, LEAST_TEMPERATURE,
};
use std::io::{self, Write};
use std::ops::Range;

/// The words of a record, its waiting amounts and channel store, then rain, pan and temperature.
const PLACES: usize = TEMPERATURE + 1;
const STARTS: Range<usize> = 17..WORDS;
const CHANNEL: usize = WORDS + WAITING;
const RAIN: usize = CHANNEL + 1;
const PAN: usize = RAIN + 1;
const TEMPERATURE: usize = PAN + 1;

/// A call as one number a place, the temperature last.
#[derive(Clone, Copy)]
struct Call {
    numbers: [u64; TEMPERATURE],
    temperature: i64,
}

impl Call {
    fn of(record: &Record, weather: Weather) -> Call {
        let mut numbers = [0; TEMPERATURE];
        numbers[..WORDS].copy_from_slice(&record.words());
        numbers[WORDS..CHANNEL].copy_from_slice(&record.waiting);
        numbers[CHANNEL] = record.channel;
        numbers[RAIN] = weather.rain;
        numbers[PAN] = weather.pan;
        Call { numbers, temperature: weather.temperature }
    }

    /// A record without weather.
    fn bare(record: &Record) -> Call {
        Call::of(record, Weather { rain: 0, pan: 0, temperature: 0 })
    }

    /// At the record's snow threshold, where P is the rain.
    fn at_threshold(record: &Record, rain: u64, pan: u64) -> Call {
        Call::of(record, Weather { rain, pan, temperature: record.threshold as i64 })
    }

    fn record(&self) -> Record {
        let mut record = Record::of_words(&self.words());
        record.waiting.copy_from_slice(&self.numbers[WORDS..CHANNEL]);
        record.channel = self.numbers[CHANNEL];
        record
    }

    fn words(&self) -> [u64; WORDS] {
        self.numbers[..WORDS].try_into().expect("the words stand first")
    }

    /// A number but the temperature.
    fn with(mut self, place: usize, number: u64) -> Call {
        self.numbers[place] = number;
        self
    }

    fn with_temperature(self, temperature: i64) -> Call {
        Call { temperature, ..self }
    }

    fn answer(&self) -> Stepped {
        step(self.record(), self.numbers[RAIN], self.numbers[PAN], self.temperature)
    }

    /// The least and greatest at a place but the temperature's; REACH may be any word.
    fn range(&self, place: usize, most: Most) -> (u64, u64) {
        let in_use = (WORDS as u64 + self.record().l) as usize;
        match place {
            CHANNEL => (0, GREATEST_CHANNEL),
            RAIN => (0, GREATEST_RAIN),
            PAN => (0, GREATEST_PAN),
            WORDS.. if place < in_use => (0, GREATEST_WAITING_AMOUNT),
            WORDS.. => (0, 0),
            _ => range(&self.words(), place, u64::from(u32::MAX), most),
        }
    }

    fn start_range(&self, place: usize) -> (u64, u64) {
        self.range(place, IN_FILE)
    }

    fn limits(&self, place: usize) -> (u64, u64) {
        self.range(place, HANDED_IN)
    }

    /// With the number at a place one beyond its limits: above, or below where asked for and there is one.
    fn beyond(self, place: usize, below: bool) -> Call {
        if place == TEMPERATURE {
            let beyond = if below { LEAST_TEMPERATURE - 1 } else { GREATEST_TEMPERATURE + 1 };
            return self.with_temperature(beyond);
        }
        match self.limits(place) {
            (least, _) if below && least > 0 => self.with(place, least - 1),
            (_, greatest) => self.with(place, greatest + 1),
        }
    }

    /// With the number at a place below its limits, at both, above, and the greatest of its type.
    fn edges(self, place: usize) -> [Call; 5] {
        let [least, greatest, far] = match place {
            TEMPERATURE => [LEAST_TEMPERATURE, GREATEST_TEMPERATURE, i64::MAX]
                .map(|number| self.with_temperature(number)),
            _ => {
                let (least, greatest) = self.limits(place);
                [least, greatest, u64::MAX].map(|number| self.with(place, number))
            }
        };
        [self.beyond(place, true), least, greatest, self.beyond(place, false), far]
    }

    /// Every place lowered to its greatest, in order.
    fn fitted(self) -> Call {
        (0..CHANNEL).fold(self, |call, place| {
            let (_, greatest) = call.start_range(place);
            call.with(place, call.numbers[place].min(greatest))
        })
    }

    /// The call and its answer in full; gives the record after.
    fn print(&self, out: &mut impl Write) -> io::Result<Record> {
        let answer = self.answer();
        write!(out, "step")?;
        row(&self.numbers, out)?;
        write!(out, " {}", self.temperature)?;
        row(&numbers(&answer), out)?;
        writeln!(out)?;
        Ok(answer.record)
    }
}

fn row(numbers: &[u64], out: &mut impl Write) -> io::Result<()> {
    numbers.iter().try_for_each(|number| write!(out, " {number}"))
}

/// Every number of an answer.
fn numbers(answer: &Stepped) -> Vec<u64> {
    let mut numbers = vec![answer.number, answer.place];
    numbers.extend(&Call::bare(&answer.record).numbers[..RAIN]);
    let f = &answer.flows;
    numbers.extend([f.eu, f.el, f.ed, f.rb, f.r, f.rs, f.ri, f.rg, f.q]);
    numbers
}

pub fn print(out: &mut impl Write) -> io::Result<()> {
    for (start, rain, pan) in [
        (case_a(), 135_000, 10_000),
        (at_c_share(), 0, GREATEST_PAN),
        (brimming(0), GREATEST_RAIN, GREATEST_PAN),
        (brimming(65_535), GREATEST_RAIN, GREATEST_PAN),
    ] {
        rain_then_pan(start, rain, pan, out)?;
    }
    for start in [case_a(), middling(), brimming(0)] {
        for rain in [4_999, 5_000, 5_001, 9_999, 10_000, 10_001, GREATEST_RAIN] {
            rain_then_pan(start, rain, 10_000, out)?;
        }
    }
    // EP is 10,000.
    for pe in [4_999, 5_000, 5_001, 10_000, 10_001] {
        case_a().with(RAIN, pe + 10_000).with(PAN, 10_000).print(out)?;
    }
    for call in [case_a(), middling()] {
        limit_lines(call, out)?;
    }
    for call in [case_a(), middling()] {
        temperatures(call, out)?;
    }
    snow(out)?;
    for (name, start) in [("case_a", case_a()), ("middling", middling())] {
        for (second, climate) in CLIMATES {
            let (h, _) = series(start, climate, &mut Draw(1), 5_000, out)?;
            writeln!(out, "{name} {second} {h}")?;
        }
    }
    for (name, start) in extremes() {
        let (h, _) = series(start, spells, &mut Draw(1), 5_000, out)?;
        writeln!(out, "extreme {name} {h}")?;
    }
    each_word(out)?;
    drawn("corner", corner, spells, out)?;
    let (_, mixed) = CLIMATES[4];
    drawn("any", any, mixed, out)
}

/// Two steps in full: rain alone, then pan alone.
fn rain_then_pan(start: Call, rain: u64, pan: u64, out: &mut impl Write) -> io::Result<()> {
    let after = Call::at_threshold(&start.record(), rain, 0).print(out)?;
    Call::at_threshold(&after, 0, pan).print(out)?;
    Ok(())
}

fn case_a() -> Call {
    Call::bare(&Record::of_words(&CASE_A))
}

/// Every word away from its ends, and five amounts in waiting.
#[rustfmt::skip]
fn middling() -> Call {
    let mut record = Record::of_words(&[
        800, 62_000, 15_000, 70_000, 50_000, 10_000, 21, 1_311, 25_000, 23, 20_000, 25_000, 50_000,
        64_000, 40_000, 5, 2, 5_000, 30_000, 20_000, 3_000, 1_500, 90_000, 4_500, 750, 26_000,
    ]);
    record.waiting[..5].fill(1_000_000);
    record.channel = 5_000_000;
    Call::bare(&record)
}

/// WL is the share C of LM exactly.
fn at_c_share() -> Call {
    let record = Record { lm: 1_000, c: 32_768, wl: 500, ..middling().record() };
    Call::bare(&record)
}

/// A record with other snow words.
fn snowy(call: Call, [f, threshold, sn]: [u64; 3]) -> Record {
    Record { f, threshold, sn, ..call.record() }
}

/// A record at all its limits but for the recessions.
fn brimming(recession: u64) -> Call {
    let full = (0..RAIN).fold(middling(), |call, place| call.with(place, call.limits(place).1));
    let record = Record { ci: recession, cg: recession, cs: recession, ..full.record() };
    Call::bare(&record)
}

fn extremes() -> Vec<(&'static str, Call)> {
    let m = middling().record();
    let call = |record: Record| Call::bare(&record).fitted();
    vec![
        ("words least", at_ends(0..WORDS, false)),
        ("words most", at_ends(0..WORDS, true)),
        ("starts least", at_ends(STARTS, false)),
        ("starts most", at_ends(STARTS, true)),
        ("one layer", call(Record { um: 0, dm: 0, ..m })),
        ("one layer least", call(Record { um: 0, lm: 1, dm: 0, sm: 1, ..m })),
        ("drains whole", call(Record { ki: 32_768, kg: 32_768, ..m })),
        ("recessions least", call(Record { ci: 0, cg: 0, cs: 0, ..m })),
        ("recessions most", call(Record { ci: 65_535, cg: 65_535, cs: 65_535, ..m })),
        ("no melt", call(snowy(middling(), [0, 10_000, 3_000_000]))),
        ("most melt", call(snowy(middling(), [20_000, 0, 3_000_000]))),
        ("brimming", brimming(32_768)),
    ]
}

/// The middling sub-basin with some places at their least or greatest, the others fitted to them.
fn at_ends(places: Range<usize>, greatest: bool) -> Call {
    let at_end = |call: Call, place| {
        let (least, most) = call.start_range(place);
        call.with(place, if greatest { most } else { least })
    };
    places.fold(middling(), at_end).fitted()
}

/// A line a place: the refusal numbers below, at the ends, above and far above, and a checksum.
fn limit_lines(call: Call, out: &mut impl Write) -> io::Result<()> {
    for place in 0..PLACES {
        let mut h = Checksum::default();
        write!(out, "limits {place}")?;
        for call in call.edges(place) {
            let answer = call.answer();
            h.fold(&numbers(&answer));
            write!(out, " {}", answer.number)?;
        }
        writeln!(out, " {}", h.0)?;
    }
    Ok(())
}

/// Temperatures under some rain: the least and the greatest numbers, beside and at both limits, and about zero.
fn temperatures(call: Call, out: &mut impl Write) -> io::Result<()> {
    for temperature in [i64::MIN, -80_001, -80_000, -1, 0, 1, 60_000, 60_001, i64::MAX] {
        let answer = call.with(RAIN, 20_000).with_temperature(temperature).answer();
        let mut h = Checksum::default();
        h.fold(&numbers(&answer));
        writeln!(out, "temperature {temperature} {} {} {}", answer.number, answer.place, h.0)?;
    }
    Ok(())
}

/// F, threshold and SN, rain and temperature of steps that are printed in full: round the threshold; where all melts
/// and where 4 µm stay; melt that waits; rain above the mark of SN; snow that never melts.
#[rustfmt::skip]
const SNOW_STEPS: [([u64; 3], u64, i64); 14] = [
    ([4_500, 750, 26_000], 1_000, 749),
    ([4_500, 750, 26_000], 1_000, 750),
    ([4_500, 750, 26_000], 1_000, 751),
    ([4_500, 750, 26_000], 0, 6_528),
    ([4_500, 750, 26_000], 0, 6_527),
    ([20_000, 0, 3_000_000], GREATEST_RAIN, GREATEST_TEMPERATURE),
    ([20_000, 0, 3_000_000], 400_000, GREATEST_TEMPERATURE),
    ([20_000, 0, 3_000_000], 0, GREATEST_TEMPERATURE),
    ([4_500, 750, GREATEST_SNOW - 300_000], GREATEST_RAIN, LEAST_TEMPERATURE),
    ([4_500, 750, GREATEST_SNOW], GREATEST_RAIN, 749),
    ([4_500, 750, GREATEST_SNOW], GREATEST_RAIN, 750),
    ([0, 750, 26_000], 1_000, 749),
    ([0, 750, 26_000], 1_000, GREATEST_TEMPERATURE),
    ([0, 0, GREATEST_SNOW], 1_000, GREATEST_TEMPERATURE),
];

fn snow(out: &mut impl Write) -> io::Result<()> {
    for (words, rain, temperature) in SNOW_STEPS {
        Call::of(&snowy(case_a(), words), Weather { rain, pan: 2_000, temperature }).print(out)?;
    }
    for sn in [0, 1, GREATEST_SNOW - 1, GREATEST_SNOW, GREATEST_SNOW + 1] {
        for (f, threshold) in [(4_500, 0), (20_000, 10_000)] {
            let at = threshold as i64;
            for temperature in [LEAST_TEMPERATURE, at - 1, at, at + 1, GREATEST_TEMPERATURE] {
                write!(out, "snow {sn} {f} {threshold} {temperature}")?;
                snow_after(&snowy(middling(), [f, threshold, sn]), temperature, out)?;
            }
        }
    }
    decades("from none", &snowy(case_a(), [4_500, 750, 0]), out)?;
    decades("to the mark", &snowy(middling(), [4_500, 750, GREATEST_SNOW - 50_000_000]), out)
}

/// The number, SN after no rain, 1 µm and the most, and a checksum.
fn snow_after(record: &Record, temperature: i64, out: &mut impl Write) -> io::Result<()> {
    let mut h = Checksum::default();
    for rain in [0, 1, GREATEST_RAIN] {
        let answer = Call::of(record, Weather { rain, pan: 2_000, temperature }).answer();
        h.fold(&numbers(&answer));
        if rain == 0 {
            write!(out, " {}", answer.number)?;
        }
        write!(out, " {}", answer.record.sn)?;
    }
    writeln!(out, " {}", h.0)
}

/// 11,000 days of frost, two more in full, and the last again at 10 °C.
fn decades(name: &str, start: &Record, out: &mut impl Write) -> io::Result<()> {
    let mut draw = Draw(1);
    let (h, mut record) = series(Call::bare(start), frost, &mut draw, 11_000, out)?;
    let mut day = || frost(0, [draw.next(), draw.next(), draw.next()]);
    let [first, second] = [day(), day()];
    for weather in [first, second, Weather { temperature: 10_000, ..second }] {
        record = Call::of(&record, weather).print(out)?;
    }
    writeln!(out, "decades {name} {h}")
}

/// A series from a record; gives the checksum and the last record. Every 16th call is beyond a limit, place after
/// place, and every 2,500th is printed.
fn series(
    start: Call,
    climate: Climate,
    draw: &mut Draw,
    count: usize,
    out: &mut impl Write,
) -> io::Result<(u64, Record)> {
    let mut record = start.record();
    let mut h = Checksum::default();
    for i in 0..count {
        let draws = [draw.next(), draw.next(), draw.next()];
        let call = Call::of(&record, climate(i as u64, draws));
        if i % 2_500 == 1_250 {
            call.print(out)?;
        }
        let answer = if i % 16 == 7 {
            let place = i / 16 % PLACES;
            let below = i / 16 / PLACES % 2 == 1;
            let answer = call.beyond(place, below).answer();
            // The number at that place is put right.
            let mut after = Call::bare(&answer.record);
            if place < RAIN {
                after = after.with(place, call.numbers[place]);
            }
            record = after.record();
            answer
        } else {
            let answer = call.answer();
            record = answer.record;
            answer
        };
        h.fold(&numbers(&answer));
    }
    Ok((h.0, record))
}

/// Each word at its least, then at its greatest.
fn each_word(out: &mut impl Write) -> io::Result<()> {
    let mut draw = Draw(1);
    for place in 0..WORDS {
        let mut run =
            |greatest| series(at_ends(place..place + 1, greatest), spells, &mut draw, 1_000, out);
        let ((least, _), (most, _)) = (run(false)?, run(true)?);
        writeln!(out, "ends {place} {least} {most}")?;
    }
    Ok(())
}

/// Series from records whose words and waiting amounts are drawn in order, by their ranges.
fn drawn(
    name: &str,
    choose: fn(u64, u64, u64, u64) -> u64,
    climate: Climate,
    out: &mut impl Write,
) -> io::Result<()> {
    let mut draw = Draw(1);
    for k in 0..100 {
        let mut start = case_a();
        for place in 0..CHANNEL {
            let (least, greatest) = start.start_range(place);
            let (x, y) = (draw.next(), draw.next());
            start = start.with(place, choose(least, greatest, x, y));
        }
        let (h, _) = series(start, climate, &mut draw, 1_000, out)?;
        writeln!(out, "{name} {k} {h}")?;
    }
    Ok(())
}

fn corner(least: u64, greatest: u64, x: u64, _: u64) -> u64 {
    [least, greatest][(x % 2) as usize]
}

fn any(least: u64, greatest: u64, x: u64, y: u64) -> u64 {
    draft::any((least, greatest), x, y)
}

#[cfg(test)]
mod tests {
    use super::*;

    /// SN of the last three steps of both decades, by their place after the call's numbers, number and place.
    #[test]
    fn decades_reach_the_mark_and_melt() {
        let mut out = Vec::new();
        snow(&mut out).unwrap();
        let printed = String::from_utf8(out).unwrap();
        let lines: Vec<&str> = printed.lines().collect();
        let sn = |line: &str| -> u64 {
            line.split(' ').nth(1 + PLACES + 2 + 25).expect("SN after").parse().unwrap()
        };
        let last = |name: &str| {
            let end = lines.iter().position(|line| line.starts_with(name)).expect("a decade");
            [3, 2, 1].map(|before| sn(lines[end - before]))
        };
        let [first, second, melted] = last("decades from none");
        assert!(90_000_000 < first && first <= second && second < 120_000_000);
        assert_eq!(second - melted, 4_500 * 9_250 / 1_000);
        let [first, second, melted] = last("decades to the mark");
        assert_eq!((first, second), (GREATEST_SNOW, GREATEST_SNOW));
        assert_eq!(second - melted, 4_500 * 9_250 / 1_000);
    }
}
