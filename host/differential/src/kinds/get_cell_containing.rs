//! The entry over a cell of the map's depth, in valid maps, against both of the original's calls.

use std::marker::PhantomData;

use mom::Refusal;
use oracle::run;

use crate::{
    cells::{n_hash, Cell},
    compare::Kind,
    maps::{at_depth, Map},
    random::Random,
    widths::{named, Width},
};

pub struct GetCellContaining<Z>(PhantomData<Z>);

#[derive(Debug, PartialEq, Eq, PartialOrd, Ord)]
pub struct Input {
    pub map: Map,
    /// At the map's depth.
    pub query: Cell,
}

impl<Z: Width> Kind for GetCellContaining<Z> {
    const NAME: &'static str = named::<Z>("get_cell_containing", "narrow_get_cell_containing");
    type Input = Input;
    /// The zuniq of the entry and its place, or none.
    type Answer = [Result<Option<(Z, u32)>, Refusal>; 2];

    fn small() -> impl Iterator<Item = Input> {
        Map::small().flat_map(|map| {
            let deepest = map.cells().iter().map(|cell| cell.depth).max();
            let depth = deepest.unwrap_or(0);
            (depth..=depth.max(1)).flat_map(move |depth| {
                let map = map.clone();
                (0..n_hash(depth)).map(move |hash| Input {
                    map: map.clone(),
                    query: Cell { depth, hash },
                })
            })
        })
    }

    fn random(random: &mut Random) -> Option<Input> {
        let depth = random.below(Z::DEPTH_MAX as u64 + 1) as u8;
        let map = Map::random::<Z>(depth, random);
        let query = at_depth(map.query::<Z>(random), depth, random);
        Some(Input { map, query })
    }

    fn ours(Input { map, query }: &Input) -> Self::Answer {
        let zuniqs = map.zuniqs();
        let place = (Z::OURS.get_cell_containing)(query.depth, &zuniqs, query.zuniq());
        [place.map(|place| place.map(|place| (zuniqs[place], place as u32))); 2]
    }

    fn original(Input { map, query }: &Input) -> Self::Answer {
        let (mom, zuniq) = (run::mom(query.depth, map.entries::<Z>()), query.zuniq());
        [
            Ok(run::get_cell_containing(&mom, zuniq).unwrap()),
            Ok(run::get_copy_of_cell_containing(&mom, zuniq).unwrap()),
        ]
    }
}
