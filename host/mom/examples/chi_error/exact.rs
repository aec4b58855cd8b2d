//! What an f64 stands for, and how far a chi is from what the formula says: fractions and products of
//! whole numbers, in which nothing is rounded.

use crate::{
    big::Natural,
    quads::{total, Quad},
};

/// The number that an f64 stands for: `numerator` / 2^`power`, or less than 0 by so much.
#[derive(Debug, PartialEq, Eq)]
pub struct Exact {
    /// The sign bit, which −0 has too.
    pub negative: bool,
    pub numerator: Natural,
    pub power: u32,
}

impl Exact {
    /// Nothing for a NaN or an infinity, which stand for no number.
    pub fn of(x: f64) -> Option<Exact> {
        let bits = x.to_bits();
        let fraction = bits & ((1 << 52) - 1);
        let (significand, exponent) = match (bits >> 52 & 0x7ff) as i32 {
            0x7ff => return None,
            0 => (fraction, -1074),
            biased => (fraction | 1 << 52, biased - 1075),
        };
        Some(Exact {
            negative: bits >> 63 == 1,
            numerator: &Natural::from(significand as u128) << exponent.max(0) as u32,
            power: (-exponent).max(0) as u32,
        })
    }

    /// Whether it is this number, 0 being +0.
    pub fn is(&self, number: u64) -> bool {
        let numerator = &Natural::from(number as u128) << self.power;
        !self.negative && self.numerator == numerator
    }
}

/// The distance of chi × E from S × E − 16 × P, beside S × E: both times the denominator of chi.
#[derive(Debug)]
pub struct Distance {
    distance: Natural,
    bound: Natural,
}

impl Distance {
    /// For counts above 0. E and P are u128s whatever the counts are.
    pub fn of(counts: Quad, chi: &Exact) -> Distance {
        let [a, b, c, d] = counts.map(u128::from);
        let s = Natural::from(total(counts) as u128);
        let e = Natural::from(a * b * c + a * b * d + a * c * d + b * c * d);
        let p = Natural::from(a * b * c * d);
        let s_e = &(&s * &e) << chi.power;
        let p_16 = &p << (4 + chi.power);
        let chi_e = &chi.numerator * &e;
        // What is taken away on one side is added on the other, so that no side is below 0.
        let distance = match chi.negative {
            true => p_16.abs_diff(&(&s_e + &chi_e)),
            false => s_e.abs_diff(&(&chi_e + &p_16)),
        };
        Distance {
            distance,
            bound: s_e,
        }
    }

    /// Whether 2^power times the distance is at most S × E.
    pub fn is_within(&self, power: u32) -> bool {
        (&self.distance << power) <= self.bound
    }

    /// Whether the distance is a larger part of its S × E than the other is of its own.
    pub fn is_worse_than(&self, other: &Distance) -> bool {
        &self.distance * &other.bound > &other.distance * &self.bound
    }

    /// 2^power times the distance, in parts of S × E. For printing.
    pub fn ratio(&self, power: u32) -> f64 {
        (&self.distance << power).times_of(&self.bound)
    }
}

#[cfg(test)]
mod tests {
    use super::*;

    fn exact(x: f64) -> Exact {
        Exact::of(x).unwrap()
    }

    /// The f64 next to one that is above 0, on either side.
    fn next(x: f64) -> [f64; 2] {
        [x.to_bits() - 1, x.to_bits() + 1].map(f64::from_bits)
    }

    /// Whether the magnitude of x is `numerator` / 2^`power`.
    fn is_fraction(x: f64, numerator: &Natural, power: u32) -> bool {
        let exact = exact(x);
        &exact.numerator << power == numerator << exact.power
    }

    #[test]
    fn no_f64_stands_for_another_number() {
        let one = Natural::from(1);
        assert!(is_fraction(3.0, &3.into(), 0));
        assert!(is_fraction(0.1, &3602879701896397.into(), 55));
        assert!(is_fraction(-(2f64.powi(-45)), &one, 45));
        assert!(is_fraction(5e-324, &one, 1074));
        assert!(is_fraction(f64::MIN_POSITIVE, &one, 1022));
        let below = Natural::from((1 << 52) - 1);
        assert!(is_fraction(next(f64::MIN_POSITIVE)[0], &below, 1074));
        let largest = &Natural::from((1 << 53) - 1) << 971;
        assert!(is_fraction(f64::MAX, &largest, 0));
        assert!(!is_fraction(next(f64::MAX)[0], &largest, 0));
        for x in [3.0, 0.1, 5e-324, f64::MAX, 0.0] {
            assert!(!exact(x).negative && exact(-x).negative, "{x}");
            assert_eq!(exact(x).numerator, exact(-x).numerator);
        }
    }

    #[test]
    fn no_nan_and_no_infinity_stands_for_a_number() {
        for x in [f64::NAN, -f64::NAN, f64::INFINITY, f64::NEG_INFINITY] {
            assert_eq!(Exact::of(x), None);
        }
    }

    #[test]
    fn no_other_f64_is_a_total() {
        for total in [1u64, 5, 4294967295] {
            let x = total as f64;
            assert!(exact(x).is(total), "{total}");
            let [below, above] = next(x);
            for other in [below, above, -x, x + 1.0, x / 2.0] {
                assert!(!exact(other).is(total), "{total} {other}");
            }
        }
        assert!(exact(0.0).is(0) && !exact(-0.0).is(0) && !exact(5e-324).is(0));
    }

    /// Of 1, 2, 3, 4: S is 10, E is 50, P is 24, so that S × E is 500 and S × E − 16 × P is 116.
    #[test]
    fn no_distance_is_another() {
        for (chi, distance) in [
            (2.32, 0.0),
            (2.0, 16.0),
            (4.5, 109.0),
            (0.0, 116.0),
            (-0.0, 116.0),
            (-1.0, 166.0),
            (-0.5, 141.0),
            (1024.0, 51084.0),
        ] {
            let ratio = Distance::of([1, 2, 3, 4], &exact(chi)).ratio(0);
            assert!((ratio - distance / 500.0).abs() < 1e-15, "{chi} {ratio}");
        }
        let far = Distance::of([1, 2, 3, 4], &exact(f64::MAX)).ratio(0);
        assert_eq!(far, f64::MAX / 10.0);
    }

    /// Four times 4 have the true chi 0, so that a chi of 16 is S × E away from it.
    #[test]
    fn no_bound_is_another() {
        let chi_of_4 = |chi| Distance::of([4; 4], &exact(chi));
        assert!(chi_of_4(0.0).is_within(53));
        for power in [0, 1, 10, 50, 53, 900] {
            let x = 16.0 / 2f64.powi(power);
            let [below, above] = next(x);
            for (chi, within) in [(x, true), (below, true), (above, false)] {
                let distances = [chi, -chi].map(chi_of_4);
                let found = distances.map(|distance| distance.is_within(power as u32));
                assert_eq!(found, [within; 2], "{chi} {power}");
            }
        }
    }

    /// Also where the denominators differ.
    #[test]
    fn no_order_of_two_distances_is_another() {
        let chis = [0.0, 5e-324, 2f64.powi(-45), 0.1, 1.0, 3.5, 1e9, 1e300];
        for (i, &low) in chis.iter().enumerate() {
            for (j, &high) in chis.iter().enumerate() {
                // Both have the true chi 0, and the right one four times the total.
                let left = Distance::of([4; 4], &exact(low));
                let right = Distance::of([16; 4], &exact(-4.0 * high));
                assert_eq!(left.is_worse_than(&right), i > j, "{low} {high}");
            }
        }
    }
}
