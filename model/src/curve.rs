//! The capacity curve: root, Power, Held and Ordinate.

/// A share's whole: shares are parts of 65,536.
pub const WHOLE: u64 = 65_536;

pub const LEAST_E: u64 = 16;
pub const GREATEST_E: u64 = 48;
/// Greatest mean capacity c and greatest point capacity m, µm.
pub const GREATEST_C: u64 = 500_000;
pub const GREATEST_M: u64 = 2_000_000;

/// A curve call's answer. Accepted: number and place are 0. Refused: 10, place 0, value 0.
#[derive(Clone, Copy, Debug, PartialEq, Eq)]
pub struct Answer {
    pub number: u64,
    pub place: u64,
    pub value: u64,
}

impl Answer {
    const REFUSED: Answer = Answer { number: 10, place: 0, value: 0 };

    fn accepted(value: u64) -> Answer {
        Answer { number: 0, place: 0, value }
    }
}

pub fn root(t: u64) -> Answer {
    if t > WHOLE {
        return Answer::REFUSED;
    }
    Answer::accepted(root_of(t))
}

pub fn power(t: u64, e: u64) -> Answer {
    if t > WHOLE || !exponent(e) {
        return Answer::REFUSED;
    }
    Answer::accepted(power_of(t, e))
}

pub fn held(c: u64, m: u64, e: u64, a: u64) -> Answer {
    if !capacities(c, m) || !exponent(e) || a > m {
        return Answer::REFUSED;
    }
    Answer::accepted(held_of(c, m, e, a))
}

pub fn ordinate(c: u64, m: u64, e: u64, w: u64) -> Answer {
    if !capacities(c, m) || !exponent(e) || w > c {
        return Answer::REFUSED;
    }
    Answer::accepted(ordinate_of(c, m, e, w))
}

fn exponent(e: u64) -> bool {
    (LEAST_E..=GREATEST_E).contains(&e)
}

fn capacities(c: u64, m: u64) -> bool {
    (1..=GREATEST_C).contains(&c) && (1..=GREATEST_M).contains(&m)
}

/// The greatest r with r × r ≤ t × 65,536: the machine's square root, cut to a whole number. The
/// square is at most 2^32, so a root below a whole number is so by more than the machine rounds.
#[inline]
pub fn root_of(t: u64) -> u64 {
    // The machine turns signed numbers into floating point by one command, others by many.
    let square = (t * WHOLE) as i64 as f64;
    u64::from(square.sqrt() as u32)
}

/// Power(t, e). The first factor makes 65,536 to t; the roots are taken only as far as e mod 16
/// still has bits.
#[inline]
pub fn power_of(t: u64, e: u64) -> u64 {
    let mut p = t;
    for _ in 1..e / 16 {
        p = p * t / WHOLE;
    }
    let mut r = t;
    for bit in [8, 4, 2, 1] {
        if e % (2 * bit) == 0 {
            break;
        }
        r = root_of(r);
        if e & bit > 0 {
            p = p * r / WHOLE;
        }
    }
    p
}

/// Held(a), µm.
#[inline]
pub fn held_of(c: u64, m: u64, e: u64, a: u64) -> u64 {
    c - c * power_of((m - a) * WHOLE / m, e) / WHOLE
}

/// Ordinate(w), µm, with the curve turned round. With s = (m − a) × 65,536 / m,
/// Held(a) ≤ w says c × Power(s, e) / 65,536 ≥ c − w, so Power(s, e) ≥ need, so s is at least
/// the least such share; and s ≥ least says (m − a) × 65,536 ≥ least × m.
#[inline(always)]
pub fn ordinate_of(c: u64, m: u64, e: u64, w: u64) -> u64 {
    let need = ((c - w) * WHOLE).div_ceil(c);
    let least = least_share(need, e);
    m - (least * m).div_ceil(WHOLE)
}

/// The least t with Power(t, e) ≥ need, for need 0..65,536. A guess leads; as Power never falls,
/// t is exact where Power(t − 1, e) < need ≤ Power(t, e), and mostly it is so at once.
#[inline(always)]
fn least_share(need: u64, e: u64) -> u64 {
    if need == 0 {
        return 0;
    }
    let mut t = guessed_share(need, e);
    while power_of(t, e) < need {
        t += 1;
    }
    while power_of(t - 1, e) >= need {
        t -= 1;
    }
    t
}

/// A share, 1..65,536, near the least t with Power(t, e) ≥ need: by log2 and exp2 the unrounded one,
/// 65,536 × (need / 65,536)^(16 / e), then what rounding adds, and the next whole number.
#[inline]
fn guessed_share(need: u64, e: u64) -> u64 {
    let (turned, raised) = LEADS[e as usize];
    let unrounded = ((need as i64 as f32).log2() * turned + 16.0 * (1.0 - turned)).exp2();
    u64::from((unrounded + raised + 1.0) as u32).clamp(1, WHOLE)
}

/// What leads to a guess, by exponent: 16 / e, and how far the least share lies above the unrounded
/// one on the mean, since Power rounds down at every factor and root. The second is measured.
const LEADS: [(f32, f32); 49] = {
    let mut leads = [(0.0, 0.0); 49];
    let mut e = 16u32;
    while e <= 48 {
        let turned = 16.0 / e as f32;
        let [factors, roots] = [e / 16, (e % 16).count_ones()];
        leads[e as usize] = (turned, turned * (0.8 * factors as f32 + 1.3 * roots as f32 - 1.8));
        e += 1;
    }
    leads
};

/// The curve as the text has it, in whole numbers alone, which tests compare with.
#[cfg(test)]
pub mod by_text {
    use super::WHOLE;

    /// Power with every root taken.
    pub fn power(t: u64, e: u64) -> u64 {
        let mut roots = [t; 5];
        for i in 1..=4 {
            roots[i] = (roots[i - 1] * WHOLE).isqrt();
        }
        let mut p = WHOLE;
        for _ in 0..e / 16 {
            p = p * t / WHOLE;
        }
        for (i, bit) in [(1, 8), (2, 4), (3, 2), (4, 1)] {
            if (e % 16) & bit != 0 {
                p = p * roots[i] / WHOLE;
            }
        }
        p
    }

    pub fn held(c: u64, m: u64, e: u64, a: u64) -> u64 {
        c - c * power((m - a) * WHOLE / m, e) / WHOLE
    }

    /// The greatest a of all 0..m with Held(a) ≤ w.
    pub fn ordinate(c: u64, m: u64, e: u64, w: u64) -> u64 {
        (0..=m).filter(|&a| held(c, m, e, a) <= w).max().unwrap()
    }

    /// The same by halving, since Held never falls: Held(low) ≤ w, and w < Held(high) or high > m.
    pub fn ordinate_by_halving(c: u64, m: u64, e: u64, w: u64) -> u64 {
        let (mut low, mut high) = (0, m + 1);
        while high - low > 1 {
            let middle = (low + high) / 2;
            if held(c, m, e, middle) <= w {
                low = middle;
            } else {
                high = middle;
            }
        }
        low
    }
}

#[cfg(test)]
mod tests {
    use super::by_text::ordinate_by_halving;
    use super::*;
    use crate::chance::Chance;

    #[test]
    fn power_cases() {
        let cases = [
            (32_768, 24, 23_170),
            (16_384, 24, 8_192),
            (4_096, 20, 2_048),
            (1, 16, 1),
            (1, 17, 0),
            (65_536, 48, 65_536),
        ];
        for (t, e, value) in cases {
            assert_eq!(power(t, e), Answer::accepted(value), "Power({t}, {e})");
        }
    }

    #[test]
    fn held_and_ordinate_cases() {
        assert_eq!(held(120_000, 180_000, 24, 135_000), Answer::accepted(105_000));
        assert_eq!(held(120_000, 180_000, 24, 0), Answer::accepted(0));
        assert_eq!(ordinate(120_000, 180_000, 24, 0), Answer::accepted(0));
    }

    #[test]
    fn a_root_is_the_greatest() {
        for t in 0..=WHOLE {
            let r = root_of(t);
            assert!(r * r <= t * WHOLE && (r + 1) * (r + 1) > t * WHOLE, "root of {t}");
        }
    }

    #[test]
    fn power_is_the_texts_and_grows() {
        for e in LEAST_E..=GREATEST_E {
            let mut last = 0;
            for t in 0..=WHOLE {
                let p = power_of(t, e);
                assert_eq!(p, by_text::power(t, e), "Power({t}, {e})");
                assert!(p >= last, "Power({t}, {e}) falls");
                last = p;
            }
        }
    }

    /// Every need of every exponent; the guess is near it.
    #[test]
    fn a_share_is_the_least() {
        for e in LEAST_E..=GREATEST_E {
            let mut least = 0;
            let mut strayed = 0;
            for need in 0..=WHOLE {
                while by_text::power(least, e) < need {
                    least += 1;
                }
                assert_eq!(least_share(need, e), least, "need {need} e {e}");
                strayed += guessed_share(need.max(1), e).abs_diff(least);
            }
            assert!(strayed < WHOLE, "e {e}: {strayed}");
        }
    }

    /// The ordinates at w of both ends, beside them and between.
    fn hold_ordinates(c: u64, m: u64, e: u64, expected: fn(u64, u64, u64, u64) -> u64) {
        for w in [0, 1, c / 3, c / 2, c - c / 100, c - 1, c] {
            let given = ordinate_of(c, m, e, w);
            assert_eq!(given, expected(c, m, e, w), "c {c} m {m} e {e} w {w}");
        }
    }

    #[test]
    fn an_ordinate_is_the_greatest() {
        for c in [1, 2, 7, 100, 65_535, 65_536, 65_537, 500_000] {
            for m in [1, 2, 7, 100, 1_000, 70_000] {
                for e in [16, 17, 24, 31, 32, 40, 48] {
                    hold_ordinates(c, m, e, by_text::ordinate);
                }
            }
        }
    }

    #[test]
    fn ordinates_at_the_ends_of_the_ranges() {
        for c in [1, 2, 3, 65_535, 65_536, 65_537, 499_999, GREATEST_C] {
            for m in [1, 2, 3, 65_535, 65_536, 65_537, 1_999_999, GREATEST_M] {
                for e in LEAST_E..=GREATEST_E {
                    hold_ordinates(c, m, e, ordinate_by_halving);
                }
            }
        }
    }

    #[test]
    fn ordinates_anywhere() {
        let mut chance = Chance::new(11);
        for _ in 0..100_000 {
            let greatest_c = chance.of(&[20, 5_000, 70_000, GREATEST_C]);
            let greatest_m = chance.of(&[20, 5_000, 70_000, GREATEST_M]);
            let c = chance.within(1, greatest_c);
            let m = chance.within(1, greatest_m);
            let e = chance.within(LEAST_E, GREATEST_E);
            let w = chance.within(0, c);
            let expected = ordinate_by_halving(c, m, e, w);
            assert_eq!(ordinate_of(c, m, e, w), expected, "c {c} m {m} e {e} w {w}");
        }
    }

    #[test]
    fn outside_the_limits() {
        assert_eq!(root(65_537), Answer::REFUSED);
        assert_eq!(power(65_537, 16), Answer::REFUSED);
        assert_eq!(power(0, 15), Answer::REFUSED);
        assert_eq!(power(0, 49), Answer::REFUSED);
        assert_eq!(held(0, 1, 16, 0), Answer::REFUSED);
        assert_eq!(held(500_001, 1, 16, 0), Answer::REFUSED);
        assert_eq!(held(1, 0, 16, 0), Answer::REFUSED);
        assert_eq!(held(1, 2_000_001, 16, 0), Answer::REFUSED);
        assert_eq!(held(1, 1, 16, 2), Answer::REFUSED);
        assert_eq!(ordinate(1, 1, 16, 2), Answer::REFUSED);
    }
}
