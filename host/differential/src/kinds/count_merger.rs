//! The count merger: whether the four are kept, and the merged count, beside the original's merger
//! behind the tests of protected parents and of blank quads, and beside the scope's table of refusals. The
//! chi of those kept is for `count_chi`.

use mom::{CountMerge, Refusal};
use oracle::run;

use crate::{
    compare::Kind,
    quads::{Call, Quad, DEPTHS},
    random::Random,
};

pub struct CountMerger;

impl Kind for CountMerger {
    const NAME: &'static str = "count_merger";
    type Input = Call<u32>;
    /// None where the four are kept.
    type Answer = Result<Option<u32>, Refusal>;

    fn small() -> impl Iterator<Item = Call<u32>> {
        let unlisted = DEPTHS.into_iter().flat_map(|(parent_depth, m)| {
            Quad::<u32>::small(parent_depth).flat_map(move |quad| Call::all(quad, m, quad.chi()))
        });
        let depths = [0, 1, 28].into_iter();
        let listed = depths.flat_map(|parent_depth| {
            let quads = Quad::<u32>::small(parent_depth);
            let few = quads.filter(|quad| quad.values.iter().all(|&count| count < 3));
            few.flat_map(Call::listed)
        });
        unlisted.chain(listed)
    }

    fn random(random: &mut Random) -> Option<Call<u32>> {
        Some(Call::<u32>::random(random))
    }

    fn ours(call: &Call<u32>) -> Self::Answer {
        let (p, m, t) = (
            call.quad.parent_depth,
            call.depth_threshold,
            call.chi2_threshold.0,
        );
        let (hash, protected) = (call.parent_hash, &call.protected);
        let answer = mom::chi2_count_merger(p, hash, m, t, protected, call.quad.values)?;
        Ok(match answer {
            CountMerge::Merged(count) => Some(count),
            CountMerge::Kept(_) => None,
        })
    }

    fn original(call: &Call<u32>) -> Self::Answer {
        if let Some(refusal) = call.refusal() {
            return Err(refusal);
        }
        let parent = (call.quad.parent_depth, call.parent_hash);
        let (m, t) = (call.depth_threshold, call.chi2_threshold.0);
        let protects = run::listed(&call.protected);
        Ok(run::merge_counts(parent, m, t, protects, call.quad.values))
    }
}
