//! Decoding of valid zuniqs, against the original's free function, which takes wide ones, and against
//! the zuniq type's.

use std::marker::PhantomData;

use oracle::run;

use crate::{
    cells::{cells_to, Cell},
    compare::Kind,
    random::Random,
    widths::{named, Width},
};

pub struct FromZuniq<Z>(PhantomData<Z>);

impl<Z: Width> Kind for FromZuniq<Z> {
    const NAME: &'static str = named::<Z>("from_zuniq", "narrow_from_zuniq");
    type Input = Z;
    type Answer = [Option<(u8, u64)>; 2];

    fn small() -> impl Iterator<Item = Z> {
        cells_to(4).map(Cell::zuniq)
    }

    fn random(random: &mut Random) -> Option<Z> {
        Some(Cell::random::<Z>(random).zuniq())
    }

    fn ours(&zuniq: &Z) -> Self::Answer {
        let cell = (Z::OURS.from_zuniq)(zuniq);
        [cell.map(|(depth, hash)| (depth, hash.bits())); 2]
    }

    fn original(&zuniq: &Z) -> Self::Answer {
        let (depth, hash) = run::trait_from_zuniq(zuniq);
        [
            Some(run::from_zuniq(zuniq.widened())),
            Some((depth, hash.bits())),
        ]
    }
}
