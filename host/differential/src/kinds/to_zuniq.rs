//! Encoding of valid cells, against the original's free function, which is of wide zuniqs, and against
//! the zuniq type's.

use std::marker::PhantomData;

use mom::Refusal;
use oracle::run;

use crate::{
    cells::{cells_to, Cell},
    compare::Kind,
    random::Random,
    widths::{named, Width},
};

pub struct ToZuniq<Z>(PhantomData<Z>);

impl<Z: Width> Kind for ToZuniq<Z> {
    const NAME: &'static str = named::<Z>("to_zuniq", "narrow_to_zuniq");
    type Input = Cell;
    type Answer = [Result<Z, Refusal>; 2];

    fn small() -> impl Iterator<Item = Cell> {
        cells_to(4)
    }

    fn random(random: &mut Random) -> Option<Cell> {
        Some(Cell::random::<Z>(random))
    }

    fn ours(&Cell { depth, hash }: &Cell) -> Self::Answer {
        [(Z::OURS.to_zuniq)(depth, Z::of(hash)); 2]
    }

    fn original(&Cell { depth, hash }: &Cell) -> Self::Answer {
        [
            Ok(Z::of_wide(run::to_zuniq(depth, hash))),
            Ok(run::trait_to_zuniq(depth, Z::of(hash))),
        ]
    }
}
