//! Two maps combined: counts pooled, or densities multiplied. The answer and both output buffers whole,
//! of both orders, are compared with what the original's `merge` makes of the maps and with the
//! scope's table of refusals.

mod asking;
mod draw;
mod overlay;
mod table;

use std::{fmt, marker::PhantomData};

use mom::Refusal;

use crate::{
    cells::Cell,
    compare::Kind,
    floats::Float,
    lists::{Answer, Step, Value},
    random::Random,
    widths::Width,
};

pub use asking::Pooled;
pub use draw::{cells as two_maps, in_a_base_cell, nested, under_lists};
pub use overlay::{overlay, Seen};

/// What two maps hold that are combined.
pub trait Combine: Value {
    const CALL: &'static str;

    /// What the four children of a cell get, by the value that it has.
    fn split(parent: Cell, value: Self) -> [Self; 4];

    /// What becomes of a cell of the overlay, by the values that it has in the left and the right map.
    fn rule(k: f64, left: Option<Self>, right: Option<Self>) -> Option<Self>;

    /// What the parent of four gets.
    fn merged(values: [Self; 4]) -> Self;

    /// Row 3, of k.
    fn is_invalid_factor(k: f64) -> bool;

    /// Row 10, of what the two maps hold together.
    fn exceed(left: &[Self], right: &[Self]) -> bool;

    /// Values of cells that are alike over the sky, so that they merge.
    fn even(random: &mut Random, cells: &[Cell]) -> Vec<Self>;

    /// A k for such values.
    fn factor(random: &mut Random, values: &[Self]) -> f64;

    /// What the entries of the small maps have.
    fn few() -> &'static [Self];

    /// What those have that are split under every hash: none, where a split doesn't look at the hash.
    fn shared() -> &'static [Self];

    /// What the original makes of two maps.
    fn original(input: &Input<Self>) -> Vec<(u64, Self)>;
}

/// Our call, into two buffers.
pub trait Call: Combine {
    fn combine(input: &Input<Self>, zuniqs: &mut [u64], values: &mut [Self]) -> Answer<Self>;
}

/// A map as it is given to a call, valid or not.
#[derive(Clone, PartialEq, Eq, PartialOrd, Ord)]
pub struct Given<V, Z = u64> {
    pub depth: u8,
    pub zuniqs: Vec<Z>,
    pub values: Vec<V>,
}

/// The zuniqs as cells, where they are.
impl<V: fmt::Debug, Z: Width> fmt::Debug for Given<V, Z> {
    fn fmt(&self, f: &mut fmt::Formatter<'_>) -> fmt::Result {
        write!(f, "D = {}, [", self.depth)?;
        for &zuniq in &self.zuniqs {
            match Cell::of_zuniq(zuniq) {
                Some(cell) => write!(f, "({}, {}) ", cell.depth, cell.hash)?,
                None => write!(f, "{zuniq} ")?,
            }
        }
        write!(f, "] {:?}", self.values)
    }
}

/// The smaller one is the one with fewer places.
#[derive(Clone, Debug, PartialEq, Eq, PartialOrd, Ord)]
pub struct Input<V> {
    /// How many places the output's two buffers have.
    pub places: [usize; 2],
    pub left: Given<V>,
    pub right: Given<V>,
    /// M
    pub depth_threshold: u8,
    /// T
    pub chi2_threshold: Float,
    /// k, which pooling has no use for.
    pub factor: Float,
    pub protected: Vec<u64>,
    /// What stands in every place before the call.
    pub content: u64,
}

impl<V: Combine> Input<V> {
    pub fn swapped(&self) -> Self {
        let mut other = self.clone();
        std::mem::swap(&mut other.left, &mut other.right);
        other
    }

    /// Makes a call on buffers of its own.
    pub fn step(&self, call: impl FnOnce(&mut [u64], &mut [V]) -> Answer<V>) -> Step<V> {
        let [of_zuniqs, of_values] = self.places;
        let mut zuniqs = vec![self.content; of_zuniqs];
        let mut values = vec![V::of_content(self.content); of_values];
        let answer = call(&mut zuniqs, &mut values);
        (answer, zuniqs, values)
    }

    /// What the table says or else what the original makes of the maps.
    pub fn judged(&self) -> Step<V> {
        match self.refusal() {
            Some(refusal) => self.left_by(Err(refusal)),
            None => self.left_by(Ok(&V::original(self))),
        }
    }

    /// An answer with what it leaves: both buffers as they were, or the entries with zeros behind them.
    pub fn left_by(&self, answer: Result<&[(u64, V)], Refusal>) -> Step<V> {
        self.step(|zuniqs, values| {
            let entries = answer?;
            zuniqs.fill(0);
            values.fill(V::ZERO);
            for (place, &(zuniq, value)) in entries.iter().enumerate() {
                zuniqs[place] = zuniq;
                values[place] = value;
            }
            Ok((entries.len(), V::total(entries)))
        })
    }
}

/// The comparison of the maps as they are given, and of them swapped.
pub struct Pair<V>(PhantomData<V>);

impl<V: Call> Kind for Pair<V> {
    const NAME: &'static str = V::CALL;
    type Input = Input<V>;
    type Answer = [Step<V>; 2];

    fn small() -> impl Iterator<Item = Input<V>> {
        Input::small()
    }

    fn random(random: &mut Random) -> Option<Input<V>> {
        Some(Input::random(random))
    }

    fn ours(input: &Input<V>) -> [Step<V>; 2] {
        let swapped = input.swapped();
        [input, &swapped]
            .map(|input| input.step(|zuniqs, values| V::combine(input, zuniqs, values)))
    }

    fn original(input: &Input<V>) -> [Step<V>; 2] {
        [input.judged(), input.swapped().judged()]
    }
}
