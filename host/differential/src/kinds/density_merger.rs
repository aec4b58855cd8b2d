//! The density merger: whether the four are kept, and the merged density by bits, beside the original's
//! merger behind the test of protected parents, and beside the scope's table of refusals. The chi of those
//! kept is for `density_chi`.

use mom::{DensityMerge, Refusal};
use oracle::run;

use crate::{
    compare::Kind,
    floats::Float,
    quads::{Call, Quad, DEPTHS},
    random::Random,
};

pub struct DensityMerger;

impl Kind for DensityMerger {
    const NAME: &'static str = "density_merger";
    type Input = Call<Float>;
    /// None where the four are kept.
    type Answer = Result<Option<Float>, Refusal>;

    fn small() -> impl Iterator<Item = Call<Float>> {
        let unlisted = DEPTHS.into_iter().flat_map(|(parent_depth, m)| {
            Quad::<Float>::small(parent_depth).flat_map(move |quad| Call::all(quad, m, quad.chi()))
        });
        let depths = [0, 1, 28].into_iter();
        let listed = depths.flat_map(|parent_depth| {
            let quads = Quad::<Float>::small(parent_depth);
            let equal = quads.filter(|quad| quad.values == [quad.values[0]; 4]);
            equal.flat_map(Call::listed)
        });
        unlisted.chain(listed)
    }

    fn random(random: &mut Random) -> Option<Call<Float>> {
        Some(Call::<Float>::random(random))
    }

    fn ours(call: &Call<Float>) -> Self::Answer {
        let (p, m, t) = (
            call.quad.parent_depth,
            call.depth_threshold,
            call.chi2_threshold.0,
        );
        let (hash, protected) = (call.parent_hash, &call.protected);
        let answer = mom::chi2_density_merger(p, hash, m, t, protected, call.quad.densities())?;
        Ok(match answer {
            DensityMerge::Merged(density) => Some(Float(density)),
            DensityMerge::Kept(_) => None,
        })
    }

    fn original(call: &Call<Float>) -> Self::Answer {
        if let Some(refusal) = call.refusal() {
            return Err(refusal);
        }
        let parent = (call.quad.parent_depth, call.parent_hash);
        let (m, t) = (call.depth_threshold, call.chi2_threshold.0);
        let protects = run::listed(&call.protected);
        let merged = run::merge_densities(parent, m, t, protects, call.quad.densities());
        Ok(merged.map(Float))
    }
}
