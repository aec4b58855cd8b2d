//! Lists of add calls with counts.

use mom::Added;
use oracle::run;

use crate::{
    lists::{stretch, Answer, Arguments, Build, Value},
    quads::Quad,
    random::Random,
    widths::{named, Width},
};

impl Value for u32 {
    const ZERO: u32 = 0;
    const LEAST_CHI2: f64 = 0.0;
    type Total = u32;

    fn of_content(content: u64) -> u32 {
        content as u32
    }

    fn is_invalid(self) -> bool {
        false
    }

    fn overflow(held: &[u32], batch: &[u32]) -> Option<usize> {
        let limit = u32::MAX as u64;
        let mut sum: u64 = held.iter().map(|&count| count as u64).sum();
        if sum > limit {
            return Some(0);
        }
        batch.iter().position(|&count| {
            sum += count as u64;
            sum > limit
        })
    }

    fn chi2(values: [u32; 4], parent_depth: u8) -> f64 {
        Quad {
            values,
            parent_depth,
        }
        .chi()
    }

    fn are_blank(values: [u32; 4]) -> bool {
        values == [0; 4]
    }

    fn faulty() -> &'static [u32] {
        &[u32::MAX]
    }

    fn small() -> &'static [u32] {
        &[0, 1]
    }

    /// Most are short of what overflows together.
    fn random(random: &mut Random, _depth: u8, len: usize) -> Vec<u32> {
        let largest = match random.below(8) {
            0 => 1,
            1..=4 => 8,
            5 | 6 => 1000,
            _ => u32::MAX as u64 / (len as u64 + 1) * 2,
        };
        let mut counts = Vec::new();
        while counts.len() < len {
            let value = random.below(largest + 1) as u32;
            let stretch = stretch(random);
            counts.extend((0..stretch).map(|_| value));
        }
        counts.truncate(len);
        if random.below(4) == 0 && len > 0 {
            counts[random.below(len as u64) as usize] = random.below(2 * largest) as u32;
        }
        counts
    }

    fn total<C>(cells: &[(C, u32)]) -> u32 {
        cells.iter().map(|&(_, count)| count).sum()
    }
}

impl<Z: Width> Build<Z> for u32 {
    const NAME: &'static str = named::<Z>("add_counts", "narrow_add_counts");

    fn add(call: Arguments<u32, Z>) -> Answer<u32> {
        let Added { entries, total } = (Z::OURS.add_counts)(
            call.depth,
            call.depth_threshold,
            call.chi2_threshold,
            call.protected,
            call.held,
            call.zuniqs,
            call.values,
            call.hashes,
            call.batch,
        )?;
        Ok((entries, total))
    }

    fn build(depth: u8, m: u8, t: f64, protected: &[Z], cells: &[(Z, u32)]) -> Vec<(Z, u32)> {
        run::build_counts(depth, m, t, run::listed(protected), cells.iter().copied())
    }
}
