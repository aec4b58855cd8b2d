//! f64s that are told apart by their bits, and random ones.

use std::{cmp::Ordering, fmt};

use crate::random::Random;

/// Equal to another where the bits are. The smaller one is the one nearer to 0, +0 before −0.
#[derive(Clone, Copy)]
pub struct Float(pub f64);

impl Float {
    /// The magnitude, and the sign below it.
    fn key(self) -> u64 {
        self.0.to_bits().rotate_left(1)
    }
}

impl PartialEq for Float {
    fn eq(&self, other: &Self) -> bool {
        self.key() == other.key()
    }
}

impl Eq for Float {}

impl Ord for Float {
    fn cmp(&self, other: &Self) -> Ordering {
        self.key().cmp(&other.key())
    }
}

impl PartialOrd for Float {
    fn partial_cmp(&self, other: &Self) -> Option<Ordering> {
        Some(self.cmp(other))
    }
}

impl fmt::Debug for Float {
    fn fmt(&self, f: &mut fmt::Formatter<'_>) -> fmt::Result {
        write!(f, "{:e} ({:#018x})", self.0, self.0.to_bits())
    }
}

/// From 0 up to 1, without 1.
pub fn unit(random: &mut Random) -> f64 {
    (random.bits() >> 11) as f64 * 2f64.powi(-53)
}

/// Any f64 from 0 up that is finite: each exponent is as likely as any other.
pub fn magnitude(random: &mut Random) -> f64 {
    f64::from_bits(random.below(f64::INFINITY.to_bits()))
}

/// At most four f64s away.
pub fn near(random: &mut Random, x: f64) -> f64 {
    let step = if random.coin() {
        f64::next_up
    } else {
        f64::next_down
    };
    (0..random.below(5)).fold(x, |x, _| step(x))
}
