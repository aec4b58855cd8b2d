//! The overlap test on pairs of valid zuniqs, most of them of cells near each other.

use std::marker::PhantomData;

use mom::Refusal;
use oracle::run;

use crate::{
    cells::{cells_to, Cell},
    compare::Kind,
    random::Random,
    widths::{named, Width},
};

pub struct AreOverlapping<Z>(PhantomData<Z>);

#[derive(Debug, PartialEq, Eq, PartialOrd, Ord)]
pub struct Pair {
    left: Cell,
    right: Cell,
}

impl<Z: Width> Kind for AreOverlapping<Z> {
    const NAME: &'static str = named::<Z>("are_overlapping", "narrow_are_overlapping");
    type Input = Pair;
    type Answer = Result<bool, Refusal>;

    fn small() -> impl Iterator<Item = Pair> {
        cells_to(2).flat_map(|left| cells_to(2).map(move |right| Pair { left, right }))
    }

    fn random(random: &mut Random) -> Option<Pair> {
        let cell = Cell::random::<Z>(random);
        let relative = cell.relative::<Z>(random);
        let (left, right) = if random.coin() {
            (cell, relative)
        } else {
            (relative, cell)
        };
        Some(Pair { left, right })
    }

    fn ours(pair: &Pair) -> Self::Answer {
        (Z::OURS.are_overlapping)(pair.left.zuniq(), pair.right.zuniq())
    }

    fn original(pair: &Pair) -> Self::Answer {
        Ok(run::are_overlapping::<Z>(
            pair.left.zuniq(),
            pair.right.zuniq(),
        ))
    }
}
