//! Two count maps pooled.

use mom::{Added, Map};
use oracle::run;

use crate::{
    cells::Cell,
    lists::Answer,
    pairs::{Call, Combine, Input},
    random::{any_of, Random},
};

impl Combine for u32 {
    const CALL: &'static str = "pool";

    /// A child that is `past` children after h mod 4, going round, gets one of the extra ones if there are
    /// more than that (note 10).
    fn split(parent: Cell, count: u32) -> [u32; 4] {
        [0, 1, 2, 3].map(|child| {
            let past = (child + 4 - parent.hash % 4) % 4;
            count / 4 + u32::from(past < u64::from(count % 4))
        })
    }

    fn rule(_k: f64, left: Option<u32>, right: Option<u32>) -> Option<u32> {
        Some(left.unwrap_or(0) + right.unwrap_or(0))
    }

    fn merged(values: [u32; 4]) -> u32 {
        values.iter().sum()
    }

    fn is_invalid_factor(_k: f64) -> bool {
        false
    }

    fn exceed(left: &[u32], right: &[u32]) -> bool {
        let counts = left.iter().chain(right);
        counts.map(|&count| count as u64).sum::<u64>() > u32::MAX as u64
    }

    /// By the cells' areas, so that those far below the largest one get few or none.
    fn even(random: &mut Random, cells: &[Cell]) -> Vec<u32> {
        let largest = cells.iter().map(|cell| cell.depth).min().unwrap_or(0);
        let bits = any_of(random, &[4, 12, 20, 24]);
        let of_largest = random.below(1 << bits) as u32;
        let noise = any_of(random, &[1, 2, 5]);
        let even = |cell: &Cell| {
            let below = 2 * (cell.depth - largest) as u32;
            of_largest.checked_shr(below).unwrap_or(0)
        };
        let counts = cells.iter().map(even);
        counts
            .map(|count| count + random.below(noise) as u32)
            .collect()
    }

    fn factor(_random: &mut Random, _values: &[u32]) -> f64 {
        1.0
    }

    fn few() -> &'static [u32] {
        &[1, 6]
    }

    /// Every remainder, of few and of as many as there can be.
    fn shared() -> &'static [u32] {
        const MOST: u32 = u32::MAX;
        &[0, 1, 2, 3, 4, 5, 6, 7, MOST - 3, MOST - 2, MOST - 1, MOST]
    }

    fn original(input: &Input<u32>) -> Vec<(u64, u32)> {
        let [left, right] = input.moms();
        let (m, t) = (input.depth_threshold, input.chi2_threshold.0);
        let (_, entries) = run::pool(left, right, m, t, run::listed(&input.protected));
        entries
    }
}

impl Input<u32> {
    /// The two maps as the original takes them.
    pub fn moms(&self) -> [run::MomVecImpl<u64, u32>; 2] {
        [&self.left, &self.right].map(|map| {
            let entries = map.zuniqs.iter().copied().zip(map.values.iter().copied());
            run::mom(map.depth, entries.collect())
        })
    }

    /// The two maps as they are lent to our calls.
    pub fn maps(&self) -> [Map<'_, u32>; 2] {
        [&self.left, &self.right].map(|map| Map {
            depth: map.depth,
            zuniqs: &map.zuniqs,
            values: &map.values,
        })
    }
}

impl Call for u32 {
    fn combine(input: &Input<u32>, zuniqs: &mut [u64], counts: &mut [u32]) -> Answer<u32> {
        let [left, right] = input.maps();
        let (m, t) = (input.depth_threshold, input.chi2_threshold.0);
        let list = &input.protected;
        let Added { entries, total } = mom::pool(left, right, m, t, list, zuniqs, counts)?;
        Ok((entries, total))
    }
}
