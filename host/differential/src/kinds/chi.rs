//! The chi-squares of counts and of densities, by bits.
//!
//! Ours answers a chi with the four that it keeps: here by M, which is above the parent's depth, by T,
//! which no chi is below, and by a list that their parent is in, where T would have them merged and where
//! it would not. No T keeps four counts of 0 (note 4), as a list does (note 11): with that T they are kept
//! by M. The original keeps its chi to itself but merges exactly where chi is below T. So our chi is tried
//! on it: kept at T = chi and merged at the next f64 above, it can have no other. Where that isn't so, and
//! for a part of the inputs anyway, the original's chi is found by bisection on T, with no look at ours.
//!
//! What no T tells apart can't be seen in the original: NaN and infinity, both of which are kept at
//! every T, and the two zeros. NaN and infinity are both compared as `None`. A zero of the original is
//! taken for +0: by the definitions no chi is −0, so that one of ours would be a difference.

use mom::{CountMerge, DensityMerge, Refusal};
use oracle::run;

use crate::{
    cells::Cell, compare::Kind, floats::Float, lists::Value, protected, quads::Quad, random::Random,
};

pub struct CountChi;
pub struct DensityChi;

#[derive(Debug, PartialEq, Eq, PartialOrd, Ord)]
pub struct Input<V> {
    quad: Quad<V>,
    parent_hash: u64,
    /// Whether the original's chi is found with no look at ours.
    bisected: bool,
}

/// The chi of the four kept by M, by T, where a T keeps them, by a list at the largest T, and by one at the
/// least.
type Answer = [Result<Option<Float>, Refusal>; 4];

/// What the four are kept by.
#[derive(Clone, Copy)]
struct By {
    m: u8,
    t: f64,
    is_listed: bool,
}

const BY_M: By = By {
    m: 29,
    t: f64::INFINITY,
    is_listed: false,
};
const BY_T: By = By {
    m: 0,
    t: f64::NEG_INFINITY,
    is_listed: false,
};
const BY_LIST: By = By {
    m: 0,
    t: f64::INFINITY,
    is_listed: true,
};
const BY_BOTH: By = By {
    is_listed: true,
    ..BY_T
};

fn comparable(chi: f64) -> Option<Float> {
    (chi < f64::INFINITY).then_some(Float(chi))
}

fn small<V>(quad: Quad<V>) -> Input<V> {
    Input {
        quad,
        parent_hash: 0,
        bisected: true,
    }
}

fn random<V>(quad: Quad<V>, random: &mut Random) -> Input<V> {
    Input {
        parent_hash: Cell::of_depth(quad.parent_depth, random).hash,
        quad,
        bisected: random.below(16) == 0,
    }
}

impl<V: Copy> Input<V> {
    /// The parent, with a cell in it before it.
    fn list(&self, is_listed: bool) -> Vec<u64> {
        let parent = Cell {
            depth: self.quad.parent_depth,
            hash: self.parent_hash,
        };
        match is_listed {
            true => protected::list_of(&[parent.children()[0], parent]),
            false => vec![],
        }
    }
}

fn count_chi(input: &Input<u32>, By { m, t, is_listed }: By) -> Result<f64, Refusal> {
    let Quad {
        values,
        parent_depth,
    } = input.quad;
    let (hash, list) = (input.parent_hash, input.list(is_listed));
    match mom::chi2_count_merger(parent_depth, hash, m, t, &list, values)? {
        CountMerge::Kept(chi) => Ok(chi),
        CountMerge::Merged(_) => panic!("merged at M = {m}, T = {t} and {list:?}"),
    }
}

fn density_chi(input: &Input<Float>, By { m, t, is_listed }: By) -> Result<f64, Refusal> {
    let (parent_depth, densities) = (input.quad.parent_depth, input.quad.densities());
    let (hash, list) = (input.parent_hash, input.list(is_listed));
    match mom::chi2_density_merger(parent_depth, hash, m, t, &list, densities)? {
        DensityMerge::Kept(chi) => Ok(chi),
        DensityMerge::Merged(_) => panic!("merged at M = {m}, T = {t} and {list:?}"),
    }
}

impl Kind for CountChi {
    const NAME: &'static str = "count_chi";
    type Input = Input<u32>;
    type Answer = Answer;

    fn small() -> impl Iterator<Item = Input<u32>> {
        Quad::<u32>::small(0).map(small)
    }

    fn random(source: &mut Random) -> Option<Input<u32>> {
        Some(random(Quad::<u32>::random(source), source))
    }

    fn ours(input: &Input<u32>) -> Answer {
        let by_t = match u32::are_blank(input.quad.values) {
            true => By { m: BY_M.m, ..BY_T },
            false => BY_T,
        };
        [BY_M, by_t, BY_LIST, BY_BOTH].map(|by| count_chi(input, by).map(comparable))
    }

    fn original(input: &Input<u32>) -> Answer {
        let (p, counts) = (input.quad.parent_depth, input.quad.values);
        let chi = match count_chi(input, BY_M) {
            Ok(ours) if !input.bisected => run::chi_of_counts_near(ours, p, counts),
            _ => run::chi_of_counts(p, counts),
        };
        [Ok(chi.map(Float)); 4]
    }
}

impl Kind for DensityChi {
    const NAME: &'static str = "density_chi";
    type Input = Input<Float>;
    type Answer = Answer;

    fn small() -> impl Iterator<Item = Input<Float>> {
        let depths = [0, 1, 14, 28].into_iter();
        depths.flat_map(|parent_depth| Quad::<Float>::small(parent_depth).map(small))
    }

    fn random(source: &mut Random) -> Option<Input<Float>> {
        Some(random(Quad::<Float>::random(source), source))
    }

    fn ours(input: &Input<Float>) -> Answer {
        [BY_M, BY_T, BY_LIST, BY_BOTH].map(|by| density_chi(input, by).map(comparable))
    }

    fn original(input: &Input<Float>) -> Answer {
        let (p, densities) = (input.quad.parent_depth, input.quad.densities());
        let chi = match density_chi(input, BY_M) {
            Ok(ours) if !input.bisected => run::chi_of_densities_near(ours, p, densities),
            _ => run::chi_of_densities(p, densities),
        };
        [Ok(chi.map(Float)); 4]
    }
}
