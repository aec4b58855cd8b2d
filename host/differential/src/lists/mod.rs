//! Lists of add calls, of counts or of densities: rising cells cut into batches, under one list of
//! protected parents, with calls between them that are to be refused. After each call the answer and both
//! buffers whole are compared with what the original builds from all accepted batches joined, and with the
//! scope's table of refusals.

mod draw;
mod replay;
mod table;

use std::{fmt::Debug, marker::PhantomData};

use mom::Refusal;

use crate::{compare::Kind, random::Random, widths::Width};

pub use draw::{blank, stretch, Input, List};
pub use replay::replay;

/// What a map holds for each entry: counts (u32) or densities ([`Float`](crate::floats::Float)).
pub trait Value: Copy + Debug + Ord + Send + 'static {
    /// What stands in every place after the entries.
    const ZERO: Self;
    /// What no chi is far below.
    const LEAST_CHI2: f64;
    /// What a call answers beside the number of entries.
    type Total: Copy + Debug + PartialEq;

    /// What stands in every place before the first call.
    fn of_content(content: u64) -> Self;

    /// Rows 6 and 9.
    fn is_invalid(self) -> bool;

    /// Row 10: the cell of the batch that passes the limit, 0 where the held ones alone do.
    fn overflow(held: &[Self], batch: &[Self]) -> Option<usize>;

    /// The scope's chi. No answer is held to it; it says where to put T.
    fn chi2(values: [Self; 4], parent_depth: u8) -> f64;

    /// Whether four are merged at any T, from M on, under a parent that is not listed: counts of 0, by note 4.
    fn are_blank(values: [Self; 4]) -> bool;

    /// Values for which a call is refused, or may be.
    fn faulty() -> &'static [Self];

    /// What the cells of the small lists have, one for all.
    fn small() -> &'static [Self];

    /// Values of cells of a depth, in stretches that merge.
    fn random(random: &mut Random, depth: u8, len: usize) -> Vec<Self>;

    fn total<C>(cells: &[(C, Self)]) -> Self::Total;
}

/// What is added to maps of a width.
pub trait Build<Z: Width>: Value {
    const NAME: &'static str;

    /// Our call.
    fn add(call: Arguments<Self, Z>) -> Answer<Self>;

    /// What the original builds from cells of a depth under a list of protected parents.
    fn build(depth: u8, m: u8, t: f64, protected: &[Z], cells: &[(Z, Self)]) -> Vec<(Z, Self)>;
}

/// All arguments of one call.
pub struct Arguments<'a, V, Z = u64> {
    pub depth: u8,
    /// M
    pub depth_threshold: u8,
    /// T
    pub chi2_threshold: f64,
    pub protected: &'a [Z],
    pub held: usize,
    pub zuniqs: &'a mut [Z],
    pub values: &'a mut [V],
    pub hashes: &'a [Z],
    pub batch: &'a [V],
}

/// The number of entries with their total, or a refusal.
pub type Answer<V> = Result<(usize, <V as Value>::Total), Refusal>;

/// An answer, and the buffers after it.
pub type Step<V, Z = u64> = (Answer<V>, Vec<Z>, Vec<V>);

/// The comparison of lists of add calls.
pub struct Add<V, Z = u64>(PhantomData<(V, Z)>);

impl<V: Build<Z>, Z: Width> Kind for Add<V, Z> {
    const NAME: &'static str = V::NAME;
    type Input = Input<V, Z>;
    type Answer = Vec<Step<V, Z>>;

    fn small() -> impl Iterator<Item = Input<V, Z>> {
        Input::small()
    }

    fn random(random: &mut Random) -> Option<Input<V, Z>> {
        Some(Input::random(random))
    }

    fn ours(input: &Input<V, Z>) -> Vec<Step<V, Z>> {
        replay(input, |call, _| V::add(call))
    }

    fn original(input: &Input<V, Z>) -> Vec<Step<V, Z>> {
        let mut joined = Vec::new();
        replay(input, |call, refusal| {
            if let Some(refusal) = refusal {
                return Err(refusal);
            }
            joined.extend(call.hashes.iter().copied().zip(call.batch.iter().copied()));
            let (m, t) = (call.depth_threshold, call.chi2_threshold);
            let entries = V::build(call.depth, m, t, call.protected, &joined);
            call.zuniqs.fill(Z::of(0));
            call.values.fill(V::ZERO);
            for (place, &(zuniq, value)) in entries.iter().enumerate() {
                call.zuniqs[place] = zuniq;
                call.values[place] = value;
            }
            Ok((entries.len(), V::total(&joined)))
        })
    }
}
