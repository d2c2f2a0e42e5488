//! How far a store strays from the store law without any rounding, in exact fractions.

use crate::curve::WHOLE;
use crate::store::Store;
use std::cmp::Ordering;

/// What g times the difference of the two contents is at most.
pub const BOUND: u64 = 32_768;

/// A whole number of any size by its digits to the base 65,536, the lowest first and the last not zero.
#[derive(Clone, Debug, PartialEq, Eq)]
struct Number(Vec<u16>);

/// A store's content under the law without any rounding, after k inflows a whole number over 65,536^k.
#[derive(Clone, Debug)]
pub struct Unrounded {
    a: i64,
    g: i64,
    numerator: Number,
    k: usize,
}

/// g times the difference of a content and the unrounded one, over 65,536^k.
#[derive(Clone, Debug)]
pub struct Stray {
    /// `Greater` where the content is above the unrounded one.
    pub side: Ordering,
    numerator: Number,
    k: usize,
}

impl Number {
    /// An amount times 65,536^k.
    fn of(amount: u64, k: usize) -> Number {
        let mut digits = vec![0; k];
        digits.extend((0..4).map(|at| (amount >> (16 * at)) as u16));
        Number(digits).trimmed()
    }

    fn trimmed(mut self) -> Number {
        let zeros = self.0.iter().rev().take_while(|&&digit| digit == 0).count();
        self.0.truncate(self.0.len() - zeros);
        self
    }

    /// A sum of multiples of two numbers: of their digits at each place, and carried over to the next.
    fn with(&self, other: &Number, sum: impl Fn(i64, i64) -> i64) -> Number {
        let digit = |number: &Number, at| number.0.get(at).map_or(0, |&digit| i64::from(digit));
        let mut carry = 0;
        let places = 0..self.0.len().max(other.0.len()) + 2;
        let digits = places.map(|at| {
            carry += sum(digit(self, at), digit(other, at));
            let lowest = carry as u16;
            carry >>= 16;
            lowest
        });
        let number = Number(digits.collect());
        assert_eq!(carry, 0, "a sum below zero");
        number.trimmed()
    }

    fn against(&self, other: &Number) -> Ordering {
        let highest_first = || self.0.iter().rev().cmp(other.0.iter().rev());
        self.0.len().cmp(&other.0.len()).then_with(highest_first)
    }
}

impl Unrounded {
    /// Before any inflow.
    pub fn new(store: Store) -> Unrounded {
        let [a, g] = [store.a, store.g].map(|share| share as i64);
        Unrounded { a, g, numerator: Number::of(store.content, 0), k: 0 }
    }

    /// V becomes V + I − (a × I + g × V) / 65,536. I isn't one that the store call refuses.
    pub fn take(&mut self, inflow: u64) {
        let law = |v, i| WHOLE as i64 * (v + i) - (self.a * i + self.g * v);
        self.numerator = self.numerator.with(&Number::of(inflow, self.k), law);
        self.k += 1;
    }

    pub fn stray(&self, content: u64) -> Stray {
        let content = Number::of(content, self.k);
        let side = content.against(&self.numerator);
        let [more, less] = match side {
            Ordering::Less => [&self.numerator, &content],
            _ => [&content, &self.numerator],
        };
        let numerator = more.with(less, |more, less| self.g * (more - less));
        Stray { side, numerator, k: self.k }
    }
}

impl Stray {
    pub fn against(&self, whole: u64) -> Ordering {
        self.numerator.against(&Number::of(whole, self.k))
    }

    /// As near as an f64 comes.
    pub fn about(&self) -> f64 {
        let highest = self.numerator.0.iter().enumerate().rev().take(6);
        let place = |at| 65_536f64.powi(at as i32 - self.k as i32);
        highest.map(|(at, &digit)| f64::from(digit) * place(at)).sum()
    }
}

#[cfg(test)]
mod tests {
    use super::*;
    use crate::chance::Chance;
    use crate::store::{GREATEST_CONTENT, GREATEST_INFLOW};
    use std::cmp::Ordering::{Equal, Greater, Less};

    fn number(mut amount: u128) -> Number {
        let mut digits = vec![];
        while amount > 0 {
            digits.push(amount as u16);
            amount >>= 16;
        }
        Number(digits)
    }

    /// Of any size below 2^bits.
    fn drawn(chance: &mut Chance, bits: u64) -> u64 {
        let drawn = u64::from(chance.word()) << 32 | u64::from(chance.word());
        drawn >> chance.within(64 - bits, 63)
    }

    #[test]
    fn numbers_go_as_those_of_128_bits() {
        let mut chance = Chance::new(10);
        for _ in 0..20_000 {
            let [x, y] = [0; 2].map(|_| drawn(&mut chance, 64));
            let [low, high] = [u128::from(y), u128::from(x) << 32];
            let sum = low + high;
            assert_eq!([Number::of(y, 0), Number::of(x, 2)], [low, high].map(number));
            assert_eq!(number(low).with(&number(high), |x, y| x + y), number(sum));
            assert_eq!(number(high).with(&number(low), |x, y| x + y), number(sum));
            assert_eq!(number(sum).with(&number(low), |x, y| x - y), number(high));
            assert_eq!(number(sum).with(&number(high), |x, y| x - y), number(low));
            let share = chance.within(0, WHOLE);
            let less = u128::from(WHOLE) * sum - u128::from(share) * low;
            let multiples = |x, y| WHOLE as i64 * x - share as i64 * y;
            assert_eq!(number(sum).with(&number(low), multiples), number(less));
            assert_eq!(number(low).against(&number(high)), low.cmp(&high));
            for (next, order) in [(sum, Equal), (sum + 1, Less)] {
                assert_eq!(number(sum).against(&number(next)), order);
                assert_eq!(number(next).against(&number(sum)), order.reverse());
            }
        }
    }

    /// Where all fits 128 bits, with the law put as V × (1 − g) + I × (1 − a).
    #[test]
    fn few_inflows_go_as_in_128_bits() {
        let mut chance = Chance::new(11);
        for _ in 0..5_000 {
            let [a, g] = [0; 2].map(|_| chance.within(0, WHOLE));
            let content = drawn(&mut chance, 44);
            let mut unrounded = Unrounded::new(Store { a, g, content });
            let mut numerator = u128::from(content);
            for k in 1..=4 {
                let inflow = drawn(&mut chance, 44);
                unrounded.take(inflow);
                let kept = u128::from(WHOLE - a) * u128::from(inflow);
                numerator = u128::from(WHOLE - g) * numerator + (kept << (16 * (k - 1)));
                assert_eq!((&unrounded.numerator, unrounded.k), (&number(numerator), k));

                let near = (numerator >> (16 * k)) as u64 + chance.within(0, 1);
                let content = if chance.one_in(2) { near } else { drawn(&mut chance, 44) };
                let whole = u128::from(content) << (16 * k);
                let times = u128::from(g) * whole.abs_diff(numerator);
                let stray = unrounded.stray(content);
                assert_eq!(stray.side, whole.cmp(&numerator));
                assert_eq!((&stray.numerator, stray.k), (&number(times), k));
                assert_eq!(stray.against(BOUND), times.cmp(&(u128::from(BOUND) << (16 * k))));
                let about = times as f64 / 65_536f64.powi(k as i32);
                assert!((stray.about() - about).abs() <= about * 1e-15);
            }
        }
    }

    /// 2^−1,000 is 256 × 65,536^937 over 65,536^1,000.
    #[test]
    fn halved_a_thousand_times() {
        let mut unrounded = Unrounded::new(Store { a: 0, g: 32_768, content: 1 });
        (0..1_000).for_each(|_| unrounded.take(0));
        assert_eq!((&unrounded.numerator, unrounded.k), (&Number::of(256, 937), 1_000));
        let stray = unrounded.stray(0);
        assert_eq!((stray.side, stray.against(0), stray.against(1)), (Less, Greater, Less));
    }

    /// The content and how far it has strayed, by a rule for the content after an inflow.
    fn strayed(start: Store, inflows: &[u64], rule: fn(Store, u64) -> u64) -> (u64, Stray) {
        let mut store = start;
        let mut unrounded = Unrounded::new(start);
        for &inflow in inflows {
            store.content = rule(store, inflow);
            unrounded.take(inflow);
        }
        (store.content, unrounded.stray(store.content))
    }

    fn nearest(store: Store, inflow: u64) -> u64 {
        let released = store.take(inflow);
        assert_eq!(released.number, 0);
        released.store.content
    }

    fn down(store: Store, inflow: u64) -> u64 {
        store.content + inflow - (store.a * inflow + store.g * store.content) / WHOLE
    }

    /// 1 − 1/2 becomes 0, 32,767 − 32,767 / 65,536 becomes 32,767, and 5 − 5 is 0.
    #[test]
    fn one_inflow_meets_the_bound() {
        for (a, inflow, expected, side, times) in [
            (32_768, 1, 0, Less, BOUND),
            (1, 32_767, 32_767, Greater, BOUND - 1),
            (WHOLE, 5, 0, Equal, 0),
        ] {
            let start = Store { a, g: WHOLE, content: 0 };
            let (content, stray) = strayed(start, &[inflow], nearest);
            assert_eq!((content, stray.side), (expected, side));
            assert_eq!((stray.against(times), stray.about()), (Equal, times as f64));
        }
    }

    /// CG 0.99: each outflow of 20.5 becomes 21, and what is unrounded climbs towards 2,027 + 32,768 / 656.
    #[test]
    fn a_ground_store_stays_behind_for_ever() {
        let start = Store { a: 656, g: 656, content: 2_027 };
        for (steps, least) in [(1, 328.0), (1_000, 49.949 * 656.0), (3_000, 32_767.999_999_99)] {
            let (content, stray) = strayed(start, &vec![21; steps], nearest);
            assert_eq!((content, stray.side, stray.against(BOUND)), (2_027, Less, Less));
            assert!(stray.about() >= least, "{steps}: {}", stray.about());
        }
    }

    /// Filled each time up to a level of which the share is a half above a whole number, a store with both shares g strays by 32,768 / g
    /// × (1 − ((65,536 − g) / 65,536)^k).
    #[test]
    fn a_store_filled_to_a_half_comes_near_the_bound() {
        let mut chance = Chance::new(13);
        let drawn_shares = (0..40).map(|_| chance.within(1, WHOLE - 1));
        for g in drawn_shares.chain([1, 656, 3_277, 32_768, 65_535]).collect::<Vec<_>>() {
            let mut store = Store { a: g, g, content: drawn(&mut chance, 55) };
            let is_half = |&level: &u64| u128::from(g) * u128::from(level) % 65_536 == 32_768;
            let level = (store.content..).find(is_half).unwrap();
            let mut unrounded = Unrounded::new(store);
            let mut rest = Number::of(1, 0);
            for k in 1..=300 {
                let inflow = level - store.content;
                store.content = nearest(store, inflow);
                unrounded.take(inflow);
                rest = rest.with(&Number(vec![]), |rest, _| (WHOLE - g) as i64 * rest);
                let expected =
                    Number::of(1, k).with(&rest, |whole, rest| BOUND as i64 * (whole - rest));
                let stray = unrounded.stray(store.content);
                assert_eq!((stray.side, &stray.numerator), (Less, &expected), "{g} {k}");
            }
        }
    }

    /// By one inflow, and in a ground store with CG 0.99 that is left alone and keeps 99 µm.
    #[test]
    fn rounding_down_would_break_the_bound() {
        let one = Store { a: 1, g: WHOLE, content: 0 };
        let (content, stray) = strayed(one, &[65_535], down);
        assert_eq!((content, stray.side, stray.against(65_535)), (65_535, Greater, Equal));
        let ground = Store { a: 656, g: 656, content: 1_000_000 };
        let (content, stray) = strayed(ground, &[0; 3_000], down);
        assert_eq!((content, stray.side, stray.against(64_943)), (99, Greater, Greater));
        for (start, inflows) in [(one, &[65_535][..]), (ground, &[0; 3_000])] {
            assert!(strayed(start, inflows, nearest).1.against(BOUND).is_le());
        }
    }

    /// Shares, contents and inflows of all sizes, a above g too, and the last inflow the greatest.
    #[test]
    fn no_drawn_list_strays_beyond_the_bound() {
        let mut chance = Chance::new(12);
        let [mut above, mut below] = [0; 2];
        for _ in 0..300 {
            let [bits, less] = [0; 2].map(|_| chance.within(0, 16));
            let g = chance.within(1, 1 << bits);
            let most = if chance.one_in(4) { WHOLE } else { g >> less };
            let a = chance.within(0, most);
            let mut store = Store { a, g, content: drawn(&mut chance, 56) };
            let mut unrounded = Unrounded::new(store);
            for left in (0..chance.within(1, 1_500)).rev() {
                let mut inflow = if left > 0 { drawn(&mut chance, 62) } else { GREATEST_INFLOW };
                // With more the next would be refused.
                while left > 0 && nearest(store, inflow) > GREATEST_CONTENT {
                    inflow /= 2;
                }
                store.content = nearest(store, inflow);
                unrounded.take(inflow);
                let stray = unrounded.stray(store.content);
                let most = if stray.side == Greater { BOUND - 1 } else { BOUND };
                assert!(stray.against(most).is_le(), "{store:?} {inflow} {}", stray.about());
                above += u64::from(stray.side == Greater);
                below += u64::from(stray.side == Less);
            }
        }
        assert!(above > 50_000 && below > 50_000, "{above} {below}");
    }
}
