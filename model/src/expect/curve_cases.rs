//! `curve_cases`: the calls of the curve and the store.

use super::draw::{Checksum, Draw};
use crate::curve;
use crate::file::GREATEST_START;
use crate::store::Store;
use std::io::{self, Write};

/// A call with its arguments.
#[derive(Clone, Copy)]
enum Call {
    Root([u64; 1]),
    RootByTable([u64; 1]),
    Power([u64; 2]),
    PowerByTable([u64; 2]),
    Held([u64; 4]),
    Ordinate([u64; 4]),
    Store([u64; 4]),
}

use Call::{Held, Ordinate, Power, PowerByTable, Root, RootByTable};

impl Call {
    fn name(&self) -> &'static str {
        match self {
            Root(_) => "root",
            RootByTable(_) => "root_by_table",
            Power(_) => "power",
            PowerByTable(_) => "power_by_table",
            Held(_) => "held",
            Ordinate(_) => "ordinate",
            Call::Store(_) => "store",
        }
    }

    fn arguments(&self) -> &[u64] {
        match self {
            Root(arguments) | RootByTable(arguments) => arguments,
            Power(arguments) | PowerByTable(arguments) => arguments,
            Held(arguments) | Ordinate(arguments) | Call::Store(arguments) => arguments,
        }
    }

    /// Every number of the answer.
    fn answer(&self) -> Vec<u64> {
        let answer = match *self {
            Root([t]) | RootByTable([t]) => curve::root(t),
            Power([t, e]) | PowerByTable([t, e]) => curve::power(t, e),
            Held([c, m, e, a]) => curve::held(c, m, e, a),
            Ordinate([c, m, e, w]) => curve::ordinate(c, m, e, w),
            Call::Store([a, g, content, inflow]) => {
                let given = Store { a, g, content }.take(inflow);
                let Store { a, g, content } = given.store;
                return vec![given.number, given.place, a, g, content, given.outflow];
            }
        };
        vec![answer.number, answer.place, answer.value]
    }

    fn print(&self, out: &mut impl Write) -> io::Result<()> {
        write!(out, "{}", self.name())?;
        for number in self.arguments().iter().chain(&self.answer()) {
            write!(out, " {number}")?;
        }
        writeln!(out)
    }
}

pub fn print(out: &mut impl Write) -> io::Result<()> {
    for call in examples() {
        call.print(out)?;
    }
    writeln!(out, "every root 0 {}", every(|t| Root([t])))?;
    writeln!(out, "every root_by_table 0 {}", every(|t| RootByTable([t])))?;
    for e in [15, 16, 17, 24, 31, 32, 33, 40, 47, 48, 49] {
        writeln!(out, "every power {e} {}", every(|t| Power([t, e])))?;
        if e == 31 {
            writeln!(out, "every power_by_table {e} {}", every(|t| PowerByTable([t, e])))?;
        }
    }
    for e in 15..=49 {
        writeln!(out, "spread power {e} {}", spread(|t| Power([t, e])))?;
        writeln!(out, "spread power_by_table {e} {}", spread(|t| PowerByTable([t, e])))?;
    }
    for call in limits().into_iter().chain(far()) {
        call.print(out)?;
    }
    for e in 16..=48 {
        writeln!(out, "small {e} {}", small(e))?;
    }
    for e in 16..=48 {
        curve_line(65_536, 2_000_000, e, out)?;
    }
    for [c, m] in CURVES {
        for e in [16, 31, 48] {
            curve_line(c, m, e, out)?;
        }
    }
    halves(out)?;
    left_alone(out)?;
    for drawn in [drawn_root, drawn_power, drawn_held, drawn_ordinate, drawn_store] {
        series(drawn, out)?;
    }
    for table in ["printed", "off by one", "zeros", "ones", "8191", "4294967295"] {
        writeln!(out, "lent {table} {} {}", every(|t| RootByTable([t])), lent())?;
    }
    Ok(())
}

fn examples() -> Vec<Call> {
    vec![
        Power([32_768, 24]),
        Power([16_384, 24]),
        Power([4_096, 20]),
        Power([1, 16]),
        Power([1, 17]),
        Power([65_536, 48]),
        Held([120_000, 180_000, 24, 135_000]),
        Held([120_000, 180_000, 24, 0]),
        Ordinate([120_000, 180_000, 24, 0]),
        Call::Store([32_768, 32_768, 0, 1_111]),
    ]
}

/// The checksum over every t and one beyond.
fn every(call: impl Fn(u64) -> Call) -> u64 {
    let mut h = Checksum::default();
    for t in 0..=65_537 {
        h.fold(&call(t).answer());
    }
    h.0
}

/// The checksum over t from 65,536 down by 127.
fn spread(call: impl Fn(u64) -> Call) -> u64 {
    let mut h = Checksum::default();
    for t in (0..=65_536).rev().step_by(127) {
        h.fold(&call(t).answer());
    }
    h.0
}

const SHARES: [u64; 4] = [0, 1, 65_536, 65_537];
const EXPONENTS: [u64; 4] = [15, 16, 48, 49];
const MEAN_CAPACITIES: [u64; 4] = [0, 1, 500_000, 500_001];
const POINT_CAPACITIES: [u64; 4] = [0, 1, 2_000_000, 2_000_001];
const CONTENTS: [u64; 4] = [0, 1, 1 << 56, (1 << 56) + 1];
const INFLOWS: [u64; 4] = [0, 1, 1 << 62, (1 << 62) + 1];

/// Both ends of every limit and one beyond, each with each; the first argument changes fastest.
fn limits() -> Vec<Call> {
    let mut calls: Vec<Call> = SHARES.map(|t| Root([t])).into();
    calls.extend(SHARES.map(|t| RootByTable([t])));
    for e in EXPONENTS {
        calls.extend(SHARES.map(|t| Power([t, e])));
    }
    for e in EXPONENTS {
        calls.extend(SHARES.map(|t| PowerByTable([t, e])));
    }
    for k in 0..3 {
        for e in EXPONENTS {
            for m in POINT_CAPACITIES {
                calls.extend(MEAN_CAPACITIES.map(|c| Held([c, m, e, [0, m, m + 1][k]])));
            }
        }
    }
    for k in 0..3 {
        for e in EXPONENTS {
            for m in POINT_CAPACITIES {
                calls.extend(MEAN_CAPACITIES.map(|c| Ordinate([c, m, e, [0, c, c + 1][k]])));
            }
        }
    }
    for inflow in INFLOWS {
        for content in CONTENTS {
            for g in SHARES {
                calls.extend(SHARES.map(|a| Call::Store([a, g, content, inflow])));
            }
        }
    }
    calls
}

/// Each argument in turn at the greatest u64.
fn far() -> Vec<Call> {
    let mut calls = vec![Root([u64::MAX]), RootByTable([u64::MAX])];
    calls.extend([Power([u64::MAX, 16]), Power([1, u64::MAX])]);
    calls.extend([PowerByTable([u64::MAX, 16]), PowerByTable([1, u64::MAX])]);
    let valid = [1, 1, 16, 1];
    calls.extend((0..4).map(|i| Held(with(valid, i))));
    calls.extend((0..4).map(|i| Ordinate(with(valid, i))));
    calls.extend((0..4).map(|i| Call::Store(with([1; 4], i))));
    calls
}

fn with(mut arguments: [u64; 4], i: usize) -> [u64; 4] {
    arguments[i] = u64::MAX;
    arguments
}

/// Shares, each with an amount of which it is a half above a whole number.
const HALVES: [(u64, u64); 6] =
    [(1, 32_768), (16_384, 2), (32_768, 3), (49_152, 2), (65_534, 16_384), (65_535, 32_768)];

/// Contents and inflows beside such an amount, and as far below their limits: of each two shares a checksum,
/// and where they are one share the small ones in full.
fn halves(out: &mut impl Write) -> io::Result<()> {
    for (a, half_of_a) in HALVES {
        for (g, half_of_g) in HALVES {
            let mut h = Checksum::default();
            for (i, content) in around(half_of_g, CONTENTS[2]).into_iter().enumerate() {
                for (j, inflow) in around(half_of_a, INFLOWS[2]).into_iter().enumerate() {
                    let call = Call::Store([a, g, content, inflow]);
                    if a == g && i < 4 && j < 4 {
                        call.print(out)?;
                    }
                    h.fold(&call.answer());
                }
            }
            writeln!(out, "halves {a} {g} {}", h.0)?;
        }
    }
    Ok(())
}

/// As 65,536 divides the limit, what is as far below it as a half is above 0 is a half too.
fn around(half: u64, most: u64) -> [u64; 8] {
    let last = most - half;
    [0, half - 1, half, half + 1, last - 1, last, last + 1, most]
}

/// Ground stores that get nothing until they let out nothing more: in how many steps, and what is left.
/// CG is 0, 0.5, 0.9, 0.95, 0.98, 0.99 and the greatest.
fn left_alone(out: &mut impl Write) -> io::Result<()> {
    for cg in [0, 32_768, 58_982, 62_259, 64_225, 64_880, 65_535] {
        for start in [100, GREATEST_START] {
            let g = 65_536 - cg;
            let mut store = Store { a: g, g, content: start };
            let mut steps = 0;
            loop {
                let given = store.take(0);
                store = given.store;
                if given.outflow == 0 {
                    break;
                }
                steps += 1;
            }
            writeln!(out, "left alone {cg} {start} {steps} {}", store.content)?;
        }
    }
    Ok(())
}

/// The greatest c with the least m, the least c with the greatest m, and c and m beside a share's whole.
const CURVES: [[u64; 2]; 5] =
    [[500_000, 1], [1, 2_000_000], [65_535, 65_537], [65_537, 65_535], [500_000, 65_536]];

/// The checksum of every ordinate where c and m are at most 12.
fn small(e: u64) -> u64 {
    let mut h = Checksum::default();
    for c in 1..=12 {
        for m in 1..=12 {
            fold_curve(&mut h, c, m, e);
        }
    }
    h.0
}

fn curve_line(c: u64, m: u64, e: u64, out: &mut impl Write) -> io::Result<()> {
    let mut h = Checksum::default();
    fold_curve(&mut h, c, m, e);
    writeln!(out, "curve {c} {m} {e} {}", h.0)
}

/// The ordinate of every w, and of one beyond.
fn fold_curve(h: &mut Checksum, c: u64, m: u64, e: u64) {
    for w in 0..=c + 1 {
        h.fold(&Ordinate([c, m, e, w]).answer());
    }
}

/// 100,000 random calls: every 2,500th in full, and at the end the checksum of all.
fn series(drawn: fn(&mut Draw) -> Call, out: &mut impl Write) -> io::Result<()> {
    let mut draw = Draw(1);
    let mut h = Checksum::default();
    let mut name = "";
    for i in 0..100_000 {
        let call = drawn(&mut draw);
        if i % 2_500 == 0 {
            call.print(out)?;
        }
        h.fold(&call.answer());
        name = call.name();
    }
    writeln!(out, "series {name} {}", h.0)
}

/// The checksum of 10,000 random Helds and Ordinates of the same draws, whatever table is lent.
fn lent() -> u64 {
    let mut draw = Draw(1);
    let mut h = Checksum::default();
    for _ in 0..10_000 {
        let [c, m, e] = drawn_curve(&mut draw);
        let last = draw.next();
        let held = Held([c, m, e, last % (m + 2)]);
        let ordinate = Ordinate([c, m, e, last % (c + 2)]);
        h.fold(&[held.answer(), ordinate.answer()].concat());
    }
    h.0
}

fn drawn_root(draw: &mut Draw) -> Call {
    Root([draw.next() % 66_000])
}

fn drawn_power(draw: &mut Draw) -> Call {
    let t = draw.next() % 66_000;
    let e = 15 + draw.next() % 35;
    Power([t, e])
}

fn drawn_held(draw: &mut Draw) -> Call {
    let [c, m, e] = drawn_curve(draw);
    Held([c, m, e, draw.next() % (m + 2)])
}

fn drawn_ordinate(draw: &mut Draw) -> Call {
    let [c, m, e] = drawn_curve(draw);
    Ordinate([c, m, e, draw.next() % (c + 2)])
}

fn drawn_curve(draw: &mut Draw) -> [u64; 3] {
    let c = sized(draw, 500_002);
    let m = sized(draw, 2_000_002);
    let e = 15 + draw.next() % 35;
    [c, m, e]
}

/// A capacity of one of four sizes, the largest below `end`.
fn sized(draw: &mut Draw, end: u64) -> u64 {
    let size = draw.next() % 4;
    draw.next() % [20, 1_000, 66_000, end][size as usize]
}

fn drawn_store(draw: &mut Draw) -> Call {
    let a = draw.next() % 66_000;
    let g = draw.next() % 66_000;
    let content = wide(draw) >> (draw.next() % 60);
    let inflow = (wide(draw) * 2) >> (draw.next() % 60);
    Call::Store([a, g, content, inflow])
}

/// Two draws as one number below 2^62.
fn wide(draw: &mut Draw) -> u64 {
    (draw.next() << 31) + draw.next()
}
