//! The density of a count, by its bits, at each of the 30 depths.

use mom::Refusal;
use oracle::run;

use crate::{cells::DEPTH_MAX, compare::Kind, floats::Float, random::Random};

pub struct DensityOfCount;

#[derive(Debug, PartialEq, Eq, PartialOrd, Ord)]
pub struct Input {
    pub depth: u8,
    pub count: u32,
}

impl Kind for DensityOfCount {
    const NAME: &'static str = "density_of_count";
    type Input = Input;
    type Answer = Result<Float, Refusal>;

    fn small() -> impl Iterator<Item = Input> {
        let counts = (0..1_000).chain([u32::MAX - 1, u32::MAX]);
        counts.flat_map(|count| (0..=DEPTH_MAX).map(move |depth| Input { depth, count }))
    }

    /// Counts of each number of bits alike.
    fn random(random: &mut Random) -> Option<Input> {
        let depth = random.below(DEPTH_MAX as u64 + 1) as u8;
        let count = (random.bits() as u32) >> random.below(32);
        Some(Input { depth, count })
    }

    fn ours(&Input { depth, count }: &Input) -> Self::Answer {
        mom::density_of_count(depth, count).map(Float)
    }

    fn original(&Input { depth, count }: &Input) -> Self::Answer {
        Ok(Float(run::density::<u64>(count, depth)))
    }
}
