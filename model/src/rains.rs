//! Which rain would do it: what each whole millimetre of rain yields in a sub-basin's next step.

use crate::basin::Basin;
use crate::forcing::{depth, Kind};
use crate::record::Record;
use crate::subbasin::{advance, GREATEST_PAN};

/// The rains that are tried, 0 to 1,000 mm.
pub const RAINS: usize = 1_001;

/// RB + R of the next step for every rain, µm.
pub type Yields = [u64; RAINS];

impl Basin {
    /// The yields of a sub-basin, from 1, under a pan depth in millimetres; or the refusal: 9, 11, then the pan's.
    pub fn yields(&self, number: u64, pan: f32) -> Result<Yields, u64> {
        if !self.inside() {
            return Err(9);
        }
        if !(1..=self.n).contains(&number) {
            return Err(11);
        }
        let pan = depth(pan, Kind::Pan);
        if pan.number > 0 {
            return Err(pan.number);
        }
        Ok(yields(&self.subs[number as usize - 1], pan.depth))
    }
}

impl Record {
    /// The yields of a record by itself, under a pan depth in µm; or 10.
    pub fn yields(&self, pan: u64) -> Result<Yields, u64> {
        if pan > GREATEST_PAN || !self.inside() {
            return Err(10);
        }
        Ok(yields(self, pan))
    }
}

/// At the snow threshold, where no snow falls and none melts.
fn yields(record: &Record, pan: u64) -> Yields {
    std::array::from_fn(|rain| {
        let at = record.threshold as i64;
        let flows = advance(&mut record.clone(), 1_000 * rain as u64, pan, at);
        flows.rb + flows.r
    })
}

#[cfg(test)]
mod tests {
    use super::*;
    use crate::record::CASE_A;

    /// Sub-basins where the curve's rounding lets more rain yield less.
    fn dipping(n: u64) -> Basin {
        let mut basin = Basin { n, ..Basin::default() };
        for sub in &mut basin.subs[..n as usize] {
            let a = Record::of_words(&CASE_A);
            *sub = Record { um: 0, lm: 200_000, dm: 200_000, bn: 20, ..a };
        }
        basin
    }

    #[test]
    fn more_rain_may_yield_less() {
        let yields = dipping(1).yields(1, 0.0).unwrap();
        assert_eq!((yields[0], yields[7], yields[8]), (0, 5, 4));
        assert!(yields[9..].iter().all(|&depth| depth > 5));
        assert_eq!(dipping(1).subs[0].yields(0), Ok(yields));
    }

    #[test]
    fn a_rain_below_the_pan_yields_nothing() {
        let mut basin = dipping(2);
        basin.subs[1].im = 32_768;
        let yields = basin.yields(2, 40.5).unwrap();
        assert!(yields[..=40].iter().all(|&depth| depth == 0));
        assert_eq!(yields[41], 250);
        // Twice the pan is more than the pan's limit, and no rain is above it.
        basin.subs[1].k = 131_072;
        let yields = basin.yields(2, 100.0).unwrap();
        assert_eq!(yields.iter().position(|&depth| depth > 0), Some(201));
    }

    /// At the threshold the snow words make no difference, and the record stays as it was.
    #[test]
    fn snow_is_kept_out() {
        let bare = dipping(1).subs[0];
        for (f, threshold, sn) in
            [(20_000, 0, 1 << 40), (20_000, 10_000, 3_000_000), (1, 1, 1), (0, 750, 0)]
        {
            let mut basin = dipping(1);
            basin.subs[0] = Record { f, threshold, sn, ..bare };
            for pan in [0, 40_500] {
                assert_eq!(basin.subs[0].yields(pan), bare.yields(pan));
            }
            assert_eq!(basin.yields(1, 40.5), dipping(1).yields(1, 40.5));
        }
        let beyond = [(20_001, 0, 0), (0, 10_001, 0), (0, 0, (1 << 40) + 1)];
        for (f, threshold, sn) in beyond {
            assert_eq!(Record { f, threshold, sn, ..bare }.yields(0), Err(10));
        }
    }

    #[test]
    fn numbers_of_sub_basins() {
        for n in [1, 2, 32] {
            let basin = dipping(n);
            for number in [1, n] {
                assert!(basin.yields(number, 0.0).is_ok());
            }
            for number in [0, n + 1, 33, u64::MAX] {
                assert_eq!(basin.yields(number, 0.0), Err(11));
            }
        }
    }

    #[test]
    fn pans() {
        let basin = dipping(1);
        assert_eq!(basin.yields(1, -0.0), basin.yields(1, 0.0));
        assert_eq!(basin.yields(1, 100.0), basin.subs[0].yields(100_000));
        assert_eq!(basin.yields(1, -0.5), Err(7));
        assert_eq!(basin.yields(1, f32::NAN), Err(12));
        for pan in [f32::INFINITY, f32::NEG_INFINITY] {
            assert_eq!(basin.yields(1, pan), Err(13));
        }
        assert_eq!(basin.yields(1, 100.062_5), Err(8));
    }

    #[test]
    fn refusals_in_their_order() {
        let mut outside = dipping(2);
        outside.subs[1].area = 0;
        for number in [0, 1, 2, 3, u64::MAX] {
            for pan in [0.0, f32::NAN, 100.5] {
                assert_eq!(outside.yields(number, pan), Err(9));
            }
        }
        for pan in [0.0, f32::NAN, 100.5] {
            assert_eq!(dipping(2).yields(3, pan), Err(11));
        }
    }

    #[test]
    fn a_record_by_itself() {
        let record = dipping(1).subs[0];
        assert!(record.yields(100_000).is_ok());
        assert_eq!(record.yields(100_001), Err(10));
        assert!(Record { reach: u64::MAX, ..record }.yields(0).is_ok());
        assert_eq!(Record { wl: 200_001, ..record }.yields(0), Err(10));
    }
}
