//! The store law.

use crate::curve::WHOLE;

/// Greatest inflow and content that a store call takes, m³.
pub const GREATEST_INFLOW: u64 = 1 << 62;
pub const GREATEST_CONTENT: u64 = 1 << 56;

/// A store: its shares a of the inflow and g of the content, and its content.
#[derive(Clone, Copy, Debug, PartialEq, Eq)]
pub struct Store {
    pub a: u64,
    pub g: u64,
    pub content: u64,
}

/// What a store call hands back. Refused: 10, place 0, the store as it was, outflow 0.
#[derive(Clone, Copy, Debug, PartialEq, Eq)]
pub struct Released {
    pub number: u64,
    pub place: u64,
    pub store: Store,
    pub outflow: u64,
}

impl Store {
    pub fn take(self, inflow: u64) -> Released {
        if self.a > WHOLE
            || self.g > WHOLE
            || inflow > GREATEST_INFLOW
            || self.content > GREATEST_CONTENT
        {
            return Released { number: 10, place: 0, store: self, outflow: 0 };
        }
        let (store, outflow) = self.pass(inflow);
        Released { number: 0, place: 0, store, outflow }
    }

    /// O = (a × I + g × V + 32,768) / 65,536, and V becomes V + I − O. O is at most I + V.
    #[inline]
    pub fn pass(self, inflow: u64) -> (Store, u64) {
        let part = |share: u64, amount: u64| u128::from(share) * u128::from(amount);
        let sum = part(self.a, inflow) + part(self.g, self.content);
        let outflow = ((sum + 32_768) / u128::from(WHOLE)) as u64;
        (Store { content: self.content + inflow - outflow, ..self }, outflow)
    }
}

#[cfg(test)]
mod tests {
    use super::*;
    use crate::chance::Chance;

    #[test]
    fn case_a_interflow() {
        let released = Store { a: 32_768, g: 32_768, content: 0 }.take(1_111);
        assert_eq!((released.number, released.outflow), (0, 556));
        assert_eq!(released.store.content, 555);
    }

    #[test]
    fn halves_go_up() {
        let outflow = |a, g, content, inflow| Store { a, g, content }.take(inflow).outflow;
        assert_eq!([1, 2, 3].map(|inflow| outflow(16_384, 0, 0, inflow)), [0, 1, 1]);
        assert_eq!([1, 2, 3].map(|content| outflow(0, 16_384, content, 0)), [0, 1, 1]);
        assert_eq!(outflow(65_535, 65_535, 32_767, 0), 32_767);
        assert_eq!(outflow(65_535, 65_535, 32_768, 0), 32_768);
        assert_eq!(outflow(65_535, 65_535, 32_769, 0), 32_768);
    }

    /// Apart they would give 2 and 0.
    #[test]
    fn inflow_and_content_are_rounded_together() {
        let halves = Store { a: 32_768, g: 32_768, content: 1 }.take(1);
        assert_eq!((halves.outflow, halves.store.content), (1, 1));
        let quarters = Store { a: 16_384, g: 16_384, content: 1 }.take(1);
        assert_eq!((quarters.outflow, quarters.store.content), (1, 1));
    }

    #[test]
    fn the_outflow_is_the_nearest() {
        let mut chance = Chance::new(8);
        for _ in 0..100_000 {
            let [a, g] = [0; 2].map(|_| chance.within(0, WHOLE));
            let [content, inflow] = [8, 2].map(|least| {
                let drawn = u64::from(chance.word()) << 32 | u64::from(chance.word());
                drawn >> chance.within(least, 63)
            });
            let released = Store { a, g, content }.take(inflow);
            let exact = a as i128 * inflow as i128 + g as i128 * content as i128;
            let above = released.outflow as i128 * 65_536 - exact;
            assert!(-32_768 < above && above <= 32_768, "{a} {g} {content} {inflow}");
            assert_eq!(released.store.content + released.outflow, content + inflow);
        }
    }

    /// How many steps a store that gets nothing lets out water, by a rule, and what it then holds.
    fn left_alone(g: u64, mut content: u64, outflow: impl Fn(u64, u64) -> u64) -> (u64, u64) {
        for steps in 0.. {
            match outflow(g, content) {
                0 => return (steps, content),
                out => content -= out,
            }
        }
        unreachable!("a content falls")
    }

    /// Rounded down and to the nearest, ground stores with CG 0.5, 0.9, 0.95, 0.98, 0.99 and the greatest.
    #[test]
    fn left_alone_a_store_keeps_less() {
        let down = |g, content| g * content / WHOLE;
        let nearest = |g, content| Store { a: g, g, content }.take(0).outflow;
        let cases = [
            (32_768, 1_000_000, (20, 1), (20, 0)),
            (32_768, 100, (7, 1), (7, 0)),
            (6_554, 1_000_000, (115, 9), (115, 4)),
            (6_554, 100, (27, 9), (28, 4)),
            (3_277, 1_000_000, (223, 19), (223, 9)),
            (3_277, 100, (41, 19), (43, 9)),
            (1_311, 1_000_000, (519, 49), (519, 24)),
            (1_311, 100, (50, 49), (63, 24)),
            (656, 1_000_000, (974, 99), (974, 49)),
            (656, 100, (1, 99), (51, 49)),
            (1, 1_000_000, (214_224, 65_535), (216_409, 32_767)),
            (1, 100, (0, 100), (0, 100)),
        ];
        for (g, content, before, now) in cases {
            assert_eq!(left_alone(g, content, down), before, "{g} {content}");
            assert_eq!(left_alone(g, content, nearest), now, "{g} {content}");
        }
    }

    #[test]
    fn at_and_beyond_the_limits() {
        let full = Store { a: WHOLE, g: WHOLE, content: GREATEST_CONTENT };
        let released = full.take(GREATEST_INFLOW);
        assert_eq!((released.number, released.store.content), (0, 0));
        assert_eq!(released.outflow, GREATEST_INFLOW + GREATEST_CONTENT);
        let beyond = [
            (Store { a: WHOLE + 1, ..full }, 0),
            (Store { g: WHOLE + 1, ..full }, 0),
            (Store { content: GREATEST_CONTENT + 1, ..full }, 0),
            (full, GREATEST_INFLOW + 1),
        ];
        for (store, inflow) in beyond {
            assert_eq!(store.take(inflow), Released { number: 10, place: 0, store, outflow: 0 });
        }
    }
}
