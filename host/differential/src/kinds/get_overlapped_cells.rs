//! The entries that overlap a cell, in valid maps. The original panics where no entry stands before
//! the query, and never looks left at entry 0: such inputs are left out.

use std::marker::PhantomData;

use mom::Refusal;
use oracle::run;

use crate::{
    cells::{cells_to, Cell},
    compare::Kind,
    maps::Map,
    random::Random,
    widths::{named, Width},
};

pub struct GetOverlappedCells<Z>(PhantomData<Z>);

#[derive(Debug, PartialEq, Eq, PartialOrd, Ord)]
pub struct Input {
    pub map: Map,
    pub query: Cell,
}

impl Input {
    /// Whether the original neither panics nor passes over entry 0.
    pub fn is_comparable(&self) -> bool {
        let first = self.map.cells().first();
        first.is_some_and(|first| first.is_before(self.query) && !first.overlaps(self.query))
    }
}

impl<Z: Width> Kind for GetOverlappedCells<Z> {
    const NAME: &'static str = named::<Z>("get_overlapped_cells", "narrow_get_overlapped_cells");
    type Input = Input;
    /// The zuniqs and the places of the entries.
    type Answer = Result<Vec<(Z, u32)>, Refusal>;

    fn small() -> impl Iterator<Item = Input> {
        let inputs = Map::small().flat_map(|map| {
            cells_to(2).map(move |query| Input {
                map: map.clone(),
                query,
            })
        });
        inputs.filter(Input::is_comparable)
    }

    fn random(random: &mut Random) -> Option<Input> {
        loop {
            let map = Map::random::<Z>(Z::DEPTH_MAX, random);
            let query = map.query::<Z>(random);
            let input = Input { map, query };
            if input.is_comparable() {
                return Some(input);
            }
        }
    }

    fn ours(Input { map, query }: &Input) -> Self::Answer {
        let zuniqs = map.zuniqs();
        let (first, run) = (Z::OURS.get_overlapped_cells)(&zuniqs, query.zuniq())?;
        Ok(run.iter().copied().zip(first as u32..).collect())
    }

    fn original(Input { map, query }: &Input) -> Self::Answer {
        let mom = run::mom(Z::DEPTH_MAX, map.entries::<Z>());
        Ok(run::get_overlapped_cells(&mom, query.zuniq()))
    }
}
