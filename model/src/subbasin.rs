//! One sub-basin, one step. Its parts are inlined, so that the flows of a step stay in registers.

mod snow;

use crate::curve::{held_of, ordinate_of, WHOLE};
use crate::record::{Record, WAITING};
use crate::store::Store;

/// Greatest depths of a sub-basin call, µm.
pub const GREATEST_RAIN: u64 = 1_000_000;
pub const GREATEST_PAN: u64 = 100_000;
/// Its temperatures, thousandths of a degree.
pub const LEAST_TEMPERATURE: i64 = -80_000;
pub const GREATEST_TEMPERATURE: i64 = 60_000;

/// Greatest depth of a slice of PE, µm.
const SLICE: u64 = 5_000;

/// What a step of one sub-basin tells beside its record: depths in µm, Q in m³.
#[derive(Clone, Copy, Debug, Default, PartialEq, Eq)]
pub struct Flows {
    pub eu: u64,
    pub el: u64,
    pub ed: u64,
    pub rb: u64,
    pub r: u64,
    pub rs: u64,
    pub ri: u64,
    pub rg: u64,
    pub q: u64,
}

/// A sub-basin call's answer. Refused: 10, place 0, the record as it was, flows 0.
#[derive(Clone, Copy, Debug, PartialEq, Eq)]
pub struct Stepped {
    pub number: u64,
    pub place: u64,
    pub record: Record,
    pub flows: Flows,
}

/// The sub-basin call, with rain and pan depths in µm and the temperature in thousandths of a degree.
pub fn step(mut record: Record, rain: u64, pan: u64, temperature: i64) -> Stepped {
    if rain > GREATEST_RAIN
        || pan > GREATEST_PAN
        || !(LEAST_TEMPERATURE..=GREATEST_TEMPERATURE).contains(&temperature)
        || !record.inside()
    {
        return Stepped { number: 10, place: 0, record, flows: Flows::default() };
    }
    let flows = advance(&mut record, rain, pan, temperature);
    Stepped { number: 0, place: 0, record, flows }
}

/// The step of a record inside its limits, in place.
#[inline(always)]
pub fn advance(s: &mut Record, rain: u64, pan: u64, temperature: i64) -> Flows {
    advance_by(SLICE, s, rain, pan, temperature)
}

/// The step with slices of at most the given depth, µm. One slice of any size is the first delivery's
/// rule, which tests compare with.
#[inline(always)]
fn advance_by(most: u64, s: &mut Record, rain: u64, pan: u64, temperature: i64) -> Flows {
    let mut f = Flows::default();
    let p = snow::freeze_or_melt(s, rain, temperature);
    let ep = s.k * pan / WHOLE;
    let pe = evaporate(s, &mut f, p, ep);
    if pe > 0 {
        take_slices(most, s, &mut f, pe);
    }
    drain(s, &mut f);
    f.q = route(s, &f);
    f
}

/// Evapotranspiration by layer; gives PE.
#[inline(always)]
fn evaporate(s: &mut Record, f: &mut Flows, p: u64, ep: u64) -> u64 {
    if p >= ep {
        f.eu = ep;
        return p - ep;
    }
    let demand = ep - p;
    let u = s.wu.min(demand);
    f.eu = p + u;
    let d = demand - u;
    if s.wl * WHOLE >= s.c * s.lm {
        f.el = s.wl.min(d * s.wl / s.lm);
    } else {
        let q = s.c * d / WHOLE;
        f.el = s.wl.min(q);
        f.ed = s.wd.min(q - f.el);
    }
    s.wu -= u;
    s.wl -= f.el;
    s.wd -= f.ed;
    0
}

/// PE slice by slice. RB, R and RS are summed, and G becomes the last keep.
#[inline(always)]
fn take_slices(most: u64, s: &mut Record, f: &mut Flows, pe: u64) {
    let wm = s.um + s.lm + s.dm;
    let mm = wm * s.bn * WHOLE / (16 * (WHOLE - s.im));
    let ms = s.sm * s.xn / 16;
    let mut left = pe;
    while left > 0 {
        let slice = left.min(most);
        let r = produce(s, f, wm, mm, slice);
        if r > 0 {
            separate(s, f, ms, slice, r);
        }
        left -= slice;
    }
}

/// A slice's RB and R, and the gain of the tension layers; gives R.
#[inline(always)]
fn produce(s: &mut Record, f: &mut Flows, wm: u64, mm: u64, slice: u64) -> u64 {
    let rb = s.im * slice / WHOLE;
    let x = slice - rb;
    let w = s.wu + s.wl + s.wd;
    let a = (ordinate_of(wm, mm, s.bn, w) + slice).min(mm);
    let gain = x.min(held_of(wm, mm, s.bn, a) - w);
    let r = x - gain;
    let to_upper = gain.min(s.um - s.wu);
    let to_lower = (gain - to_upper).min(s.lm - s.wl);
    s.wu += to_upper;
    s.wl += to_lower;
    s.wd += gain - to_upper - to_lower;
    f.rb += rb;
    f.r += r;
    r
}

/// A slice's RS where it has R; G becomes its keep.
#[inline(always)]
fn separate(s: &mut Record, f: &mut Flows, ms: u64, slice: u64, r: u64) {
    let before = s.sm.min(s.g * slice / r);
    let a = (ordinate_of(s.sm, ms, s.xn, before) + slice).min(ms);
    let after = held_of(s.sm, ms, s.xn, a);
    let keep = (s.g + r).min(after * r / slice);
    f.rs += s.g + r - keep;
    s.g = keep;
}

/// RI and RG, from the last keep.
#[inline(always)]
fn drain(s: &mut Record, f: &mut Flows) {
    f.ri = s.ki * s.g / WHOLE;
    f.rg = s.kg * s.g / WHOLE;
    s.g -= f.ri + f.rg;
}

/// Interflow, ground water, the lag line and the CS store; gives Q in m³.
#[inline(always)]
fn route(s: &mut Record, f: &Flows) -> u64 {
    let ti = recede(&mut s.vi, s.ci, f.ri);
    let tg = recede(&mut s.vg, s.cg, f.rg);
    let t = (f.rs + f.rb + ti + tg) * s.area;
    let leaving = delay(&mut s.waiting, s.l as usize, t);
    recede(&mut s.channel, s.cs, leaving)
}

/// A store whose two shares are what the recession leaves.
#[inline(always)]
fn recede(content: &mut u64, recession: u64, inflow: u64) -> u64 {
    let share = WHOLE - recession;
    let (store, outflow) = Store { a: share, g: share, content: *content }.pass(inflow);
    *content = store.content;
    outflow
}

/// The amount that entered `lag` steps ago.
#[inline(always)]
fn delay(waiting: &mut [u64; WAITING], lag: usize, amount: u64) -> u64 {
    if lag == 0 {
        return amount;
    }
    let leaving = waiting[lag - 1];
    // All 15 are moved, which is quicker than the first L; past the lag stay zeros.
    waiting.copy_within(..WAITING - 1, 1);
    waiting[0] = amount;
    if lag < WAITING {
        waiting[lag] = 0;
    }
    leaving
}

#[cfg(test)]
mod slices;

#[cfg(test)]
mod tests {
    use super::*;
    use crate::record::*;

    /// The model's own figures: the text's are those of one slice.
    #[test]
    fn case_a_first_step() {
        let given = step(Record::of_words(&CASE_A), 135_000, 0, 0);
        let after = given.record;
        assert_eq!((given.number, given.place), (0, 0));
        assert_eq!((after.wu, after.wl, after.wd), (20_000, 60_000, 25_030));
        let expected =
            Flows { r: 29_970, rs: 20_246, ri: 2_431, rg: 2_431, q: 22_678, ..Flows::default() };
        assert_eq!(given.flows, expected);
        assert_eq!((after.g, after.vi, after.vg), (9_724 - 4_862, 1_215, 1_215));
    }

    #[test]
    fn an_amount_leaves_after_its_lag() {
        for lag in 0..=WAITING {
            let mut waiting = [0; WAITING];
            for t in 1..=40u64 {
                let expected = t.saturating_sub(lag as u64);
                assert_eq!(delay(&mut waiting, lag, t), expected, "lag {lag}");
                assert!(waiting[lag..].iter().all(|&amount| amount == 0));
            }
        }
    }

    #[test]
    fn refused_calls() {
        let a = Record::of_words(&CASE_A);
        let mut late = Record { l: 2, ..a };
        late.waiting[1] = GREATEST_WAITING_AMOUNT;
        assert_eq!(step(late, 0, 0, 0).number, 0);
        let mut unused = late;
        unused.waiting[2] = 1;
        let mut above = late;
        above.waiting[1] += 1;
        let refused = [
            Record { area: 0, ..a },
            Record { wu: 20_001, ..a },
            Record { kg: 49_153, ..a },
            Record { vi: GREATEST_WAITING_DEPTH + 1, ..a },
            Record { channel: GREATEST_CHANNEL + 1, ..a },
            Record { f: 20_001, ..a },
            Record { threshold: 10_001, ..a },
            Record { sn: GREATEST_SNOW + 1, ..a },
            unused,
            above,
        ];
        for record in refused {
            let expected = Stepped { number: 10, place: 0, record, flows: Flows::default() };
            assert_eq!(step(record, 0, 0, 0), expected);
        }
        assert_eq!(step(a, 1_000_001, 0, 0).number, 10);
        assert_eq!(step(a, 0, 100_001, 0).number, 10);
        for temperature in [-80_001, 60_001, i64::MIN, i64::MAX] {
            let expected = Stepped { number: 10, place: 0, record: a, flows: Flows::default() };
            assert_eq!(step(a, 0, 0, temperature), expected);
        }
        let most = Record { reach: u64::MAX, vi: GREATEST_WAITING_DEPTH, sn: GREATEST_SNOW, ..a };
        for temperature in [-80_000, 60_000] {
            assert_eq!(step(most, 1_000_000, 100_000, temperature).number, 0);
        }
    }
}
