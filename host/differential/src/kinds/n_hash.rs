//! The number of cells at each of the 30 depths. The original reads it from its table of layers;
//! the rule that fills that table stands in lib.rs, which isn't at hand, so it is our stand-in's: the
//! same shift as ours. `host/mom/tests/limits.rs` has the numbers without a shift.

use mom::Refusal;
use oracle::run;

use crate::{cells::DEPTH_MAX, compare::Kind, random::Random};

pub struct NHash;

impl Kind for NHash {
    const NAME: &'static str = "n_hash";
    type Input = u8;
    type Answer = Result<u64, Refusal>;

    fn small() -> impl Iterator<Item = u8> {
        0..=DEPTH_MAX
    }

    fn random(_: &mut Random) -> Option<u8> {
        None
    }

    fn ours(&depth: &u8) -> Self::Answer {
        mom::n_hash(depth)
    }

    fn original(&depth: &u8) -> Self::Answer {
        Ok(run::n_hash(depth))
    }
}
