//! Whole numbers of any size, as far as the bound needs them.

use std::{
    cmp::Ordering,
    ops::{Add, Mul, Shl},
};

/// A whole number, 0 or above: 64 bits to a limb, the lowest first. The last limb is not 0, so that
/// equal numbers have equal limbs.
#[derive(Clone, Debug, PartialEq, Eq)]
pub struct Natural(Vec<u64>);

impl Natural {
    fn of_limbs(mut limbs: Vec<u64>) -> Natural {
        while limbs.last() == Some(&0) {
            limbs.pop();
        }
        Natural(limbs)
    }

    /// Past the last limb there are only zeros.
    fn limb(&self, place: usize) -> u64 {
        self.0.get(place).copied().unwrap_or(0)
    }

    /// The larger of the two less the smaller.
    pub fn abs_diff(&self, other: &Natural) -> Natural {
        let (large, small) = match self < other {
            true => (other, self),
            false => (self, other),
        };
        let mut borrow = false;
        let limb = |place| {
            let (limb, below) = large.limb(place).overflowing_sub(small.limb(place));
            let (limb, further) = limb.overflowing_sub(borrow.into());
            borrow = below || further;
            limb
        };
        Natural::of_limbs((0..large.0.len()).map(limb).collect())
    }

    /// About how many times the other it is, which is not 0. Good for printing: no decision goes by it.
    pub fn times_of(&self, other: &Natural) -> f64 {
        let limb = 2f64.powi(64);
        let highest = |number: &Natural| {
            let two = number.0.iter().rev().take(2);
            two.fold(0.0, |sum, &next| sum * limb + next as f64)
        };
        let places = |number: &Natural| number.0.len().max(2) as i32;
        highest(self) / highest(other) * limb.powi(places(self) - places(other))
    }
}

impl From<u128> for Natural {
    fn from(number: u128) -> Natural {
        Natural::of_limbs(vec![number as u64, (number >> 64) as u64])
    }
}

impl Ord for Natural {
    fn cmp(&self, other: &Natural) -> Ordering {
        let by_length = self.0.len().cmp(&other.0.len());
        by_length.then_with(|| self.0.iter().rev().cmp(other.0.iter().rev()))
    }
}

impl PartialOrd for Natural {
    fn partial_cmp(&self, other: &Natural) -> Option<Ordering> {
        Some(self.cmp(other))
    }
}

impl Add for &Natural {
    type Output = Natural;

    fn add(self, other: &Natural) -> Natural {
        let mut carry = false;
        let limb = |place| {
            let (limb, above) = self.limb(place).overflowing_add(other.limb(place));
            let (limb, further) = limb.overflowing_add(carry.into());
            carry = above || further;
            limb
        };
        let places = self.0.len().max(other.0.len()) + 1;
        Natural::of_limbs((0..places).map(limb).collect())
    }
}

impl Mul for &Natural {
    type Output = Natural;

    fn mul(self, other: &Natural) -> Natural {
        let mut limbs = vec![0; self.0.len() + other.0.len()];
        for (i, &left) in self.0.iter().enumerate() {
            let mut carry = 0;
            for (j, &right) in other.0.iter().enumerate() {
                // At most 2^128 − 1, where all four are at their largest.
                let sum = left as u128 * right as u128 + limbs[i + j] as u128 + carry;
                limbs[i + j] = sum as u64;
                carry = sum >> 64;
            }
            limbs[i + other.0.len()] = carry as u64;
        }
        Natural::of_limbs(limbs)
    }
}

impl Shl<u32> for &Natural {
    type Output = Natural;

    /// Times 2^power.
    fn shl(self, power: u32) -> Natural {
        let mut limbs = vec![0; power as usize / 64];
        let mut carry = 0;
        for &limb in &self.0 {
            let moved = (limb as u128) << (power % 64);
            limbs.push(moved as u64 | carry);
            carry = (moved >> 64) as u64;
        }
        limbs.push(carry);
        Natural::of_limbs(limbs)
    }
}

#[cfg(test)]
mod tests {
    use super::*;

    fn natural(number: u128) -> Natural {
        number.into()
    }

    fn power_of_two(power: u32) -> Natural {
        &natural(1) << power
    }

    /// Of few bits and of many, and about the end of a limb.
    const NUMBERS: [u128; 12] = [
        0,
        1,
        2,
        3,
        0xffff_ffff,
        1 << 32,
        (1 << 63) - 1,
        (1 << 64) - 1,
        1 << 64,
        (1 << 64) + 1,
        0x0123_4567_89ab_cdef_fedc_ba98_7654_3210,
        (1 << 127) - 1,
    ];

    #[test]
    fn no_small_number_is_reckoned_otherwise_than_as_a_u128() {
        for a in NUMBERS {
            for b in NUMBERS {
                let (left, right) = (natural(a), natural(b));
                assert_eq!(&left + &right, natural(a + b), "{a} {b}");
                assert_eq!(left.abs_diff(&right), natural(a.abs_diff(b)), "{a} {b}");
                assert_eq!(left.cmp(&right), a.cmp(&b), "{a} {b}");
                if let Some(product) = a.checked_mul(b) {
                    assert_eq!(&left * &right, natural(product), "{a} {b}");
                }
            }
            for power in 0..=a.leading_zeros().min(127) {
                assert_eq!(&natural(a) << power, natural(a << power), "{a} {power}");
            }
        }
    }

    /// The factors of 2^128 + 1, 2^139 − 1 and 2^149 − 1, and (2^n − 1)(2^n + 1) = 2^2n − 1.
    #[test]
    fn no_large_product_is_another() {
        let one = natural(1);
        let product = |a, b| &natural(a) * &natural(b);
        let fermat = product(59649589127497217, 5704689200685129054721);
        assert_eq!(fermat, &power_of_two(128) + &one);
        let mersenne = product(5625767248687, 123876132205208335762278423601);
        assert_eq!(mersenne, power_of_two(139).abs_diff(&one));
        let mersenne = product(86656268566282183151, 8235109336690846723986161);
        assert_eq!(&mersenne + &one, power_of_two(149));
        for power in 1..=300 {
            let two = power_of_two(power);
            let square = &two.abs_diff(&one) * &(&two + &one);
            assert_eq!(&square + &one, power_of_two(2 * power), "{power}");
        }
    }

    #[test]
    fn no_difference_depends_on_the_order() {
        let powers = [0, 1, 63, 64, 65, 128, 300, 1200];
        for (i, &low) in powers.iter().enumerate() {
            for &high in &powers[i..] {
                let (small, large) = (power_of_two(low), power_of_two(high));
                let difference = large.abs_diff(&small);
                assert_eq!(small.abs_diff(&large), difference, "{low} {high}");
                assert_eq!(&difference + &small, large, "{low} {high}");
                assert_eq!(difference == natural(0), low == high);
                assert_eq!(small < large, low < high);
            }
        }
    }

    #[test]
    fn no_printed_quotient_is_far_off() {
        let quotient = |a: &Natural, b: &Natural| a.times_of(b);
        assert_eq!(quotient(&natural(0), &natural(7)), 0.0);
        assert_eq!(quotient(&natural(3), &natural(4)), 0.75);
        for power in [0, 1, 60, 64, 100, 128, 1000] {
            let unit = power_of_two(power);
            let (three, eight) = (&natural(3) * &unit, &unit << 3);
            assert_eq!(quotient(&three, &eight), 0.375, "{power}");
            assert_eq!(quotient(&unit, &natural(1)), 2f64.powi(power as i32));
            let third = quotient(&unit, &three);
            assert!((third - 1.0 / 3.0).abs() < 1e-15, "{power} {third}");
        }
    }
}
